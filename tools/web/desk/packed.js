// What the page holds packed: the program, the example, and the files that were sent along with it.
"use strict";

/**
 * Bytes of Base64 of gzip, by the browser's own code, piece by piece: a Response of the stream, and a library, take several times as long.
 * @param {string} text
 */
async function unpacked(text) {
  const packed = atob(text.trim());
  const bytes = new Uint8Array(packed.length);
  for (let at = 0; at < packed.length; at++) bytes[at] = packed.charCodeAt(at);
  const { writable, readable } = new DecompressionStream("gzip");
  const writer = writable.getWriter();
  writer.write(bytes);
  writer.close();
  const reader = readable.getReader();
  const pieces = [];
  for (let it = await reader.read(); !it.done; it = await reader.read()) pieces.push(it.value);
  return wholeOf(pieces);
}

/** @param {Uint8Array[]} pieces */
function wholeOf(pieces) {
  const all = new Uint8Array(pieces.reduce((sum, it) => sum + it.length, 0));
  let at = 0;
  for (const it of pieces) {
    all.set(it, at);
    at += it.length;
  }
  return all;
}

const exampleFiles = () => Promise.all(Array.from(document.querySelectorAll("script.example"), async (/** @type {any} */ it) => ({ name: it.dataset.name, bytes: await unpacked(it.textContent) })));

/**
 * The document and the journals that `redline-docx desk` puts into the page.
 * @returns {Promise<Given[]>}
 */
async function givenFiles() {
  const text = element("given").textContent.trim();
  if (!text) return [];
  const { document: one, journals } = JSON.parse(text);
  return Promise.all([one, ...journals].map(async ({ name, bytes, tidy }) => ({ name, bytes: await unpacked(bytes), isTidy: tidy })));
}
