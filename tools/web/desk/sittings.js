// Two sittings: going on with the document as written, and one journal of both for the earlier document.
"use strict";

const EARLIER = "earlier document";

/**
 * The earlier document and the names of its journals for calls, or null.
 * @type {{ name: string, keys: string[] } | null}
 */
let earlier = null;

function forgetEarlier() {
  earlier = null;
  element("earlier-told").textContent = "";
}

/**
 * Keeps an earlier document with its journals beside the one that is open, if they give that one.
 * @param {{ name: string, bytes: Uint8Array }} file
 * @param {{ name: string, bytes: Uint8Array }[]} journals
 */
async function keepEarlier(file, journals) {
  const keys = journals.map((_, at) => "earlier journal " + (at + 1));
  await ask("unpack", EARLIER, file.bytes, {});
  for (const [at, { bytes }] of journals.entries()) await ask("keep", keys[at], bytes);
  const end = await ask("call", ["resume", EARLIER, DOCUMENT, ...keys.flatMap((key) => ["--journal", key])]);
  if (end.status > 1) {
    await ask("drop", EARLIER, ...keys);
    const named = end.lines.replace(/earlier journal (\d+)/g, (/** @type {string} */ all, /** @type {string} */ at) => journals[Number(at) - 1]?.name ?? all);
    throw Object.assign(new ActionError("program", named), { file: file.name });
  }
  earlier = { name: file.name, keys };
  element("earlier-told").textContent = "“" + file.name + "” with " + counted(journals.length, "journal") + " gives this document. “Save” can make one journal of both sittings.";
}

/** Opens the document as it would be written, with the one that is open as the earlier one. */
async function goOn() {
  const now = /** @type {Opened} */ (opened);
  const own = ownJournal();
  const journals = [...Array.from(others.values(), ({ name, bytes }) => ({ name, bytes })), ...(own ? [{ name: OWN, bytes: encoded(own) }] : [])];
  if (locks.length) throw new Told("A sitting with locks can't be joined with another one.", "Save the document, and open it anew.");
  await calledOnAll(["write"], { into: WRITTEN });
  const bytes = now.isZip ? (await ask("pack", WRITTEN, {})).bytes : await ask("fetch", WRITTEN);
  const name = stem() + ".decided" + now.name.slice(stem().length);
  const packed = { name: now.name, bytes: await ask("fetch", DOCUMENT) };
  await openDocument({ name, bytes });
  save(name, bytes);
  await keepEarlier(packed, journals).catch(() => {});
  choose("decide");
  const told = earlier ? "What you decide now can be joined with the first sitting, in step 5." : "";
  tell({ what: "This is the document as written, saved as " + fileName(name) + ". Send this file to the others for the next sitting.", todo: told });
}

/** One journal of both sittings, for the earlier document. */
async function saveBoth() {
  if (!earlier) throw new Told("There is no earlier document.");
  const { words, options } = joinedWords();
  const { out, lines } = await called(["resume", EARLIER, DOCUMENT, ...earlier.keys.flatMap((key) => ["--journal", key]), ...words], { ...options, bytes: true });
  const name = earlier.name.replace(/\.(docx|docm|xml)$/i, "") + ".both.journal";
  save(name, out);
  return ["Saved as " + fileName(name) + ". It is for “" + earlier.name + "”, and gives what both sittings decided.", IN_DOWNLOADS, toldOf(lines)].filter(Boolean).join(" ");
}

/**
 * @param {string} name
 * @param {boolean} isZip
 */
function showSitting(name, isZip) {
  element("save-both").hidden = !earlier;
  element("second-told").textContent = earlier
    ? "This is the second sitting: “" + name + "” came out of “" + earlier.name + "”. One journal of both sittings keeps a single record, for the earlier document."
    : "Where something is left to decide, go on with the document as it would be written now: it is saved and opened as a new " + (isZip ? ".docx" : "document") + ", with new numbers. Both sittings can be one journal afterwards.";
}

function prepareSittings() {
  element("go-on").addEventListener("click", async () => {
    if (!(await agreed("Save the document as it would be written now, and open that one for a new sitting? Your decisions so far are done in it; save your journal first if you want to keep it apart.", "Save and open it"))) return;
    await saves("save-second-told", async () => (await goOn(), ""))();
  });
  element("save-both").addEventListener("click", saves("save-second-told", saveBoth));
}
