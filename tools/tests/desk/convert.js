// Many conversions of the desk's flatopc in one process.
//
// Each line of standard input is { command, data, tidy, dropUnusedNotes } as JSON with `unpack` or `pack` as the command and the data
// in Base64. Each line of standard output is { made, said }, with what was made in Base64, or { refused }, or { fault }. Of a line
// { texts } the answer says of each text whether it is XML.
"use strict";
const readline = require("readline");
const { flatopc, NotOfTheForm, xml } = require("./scripts.js");

function isXml(text) {
  try {
    xml.scan(new TextEncoder().encode(text), "it");
    return true;
  } catch (error) {
    if (error instanceof NotOfTheForm) return false;
    throw error;
  }
}

async function answer({ command, data, texts, ...options }) {
  if (texts) return texts.map(isXml);
  const said = [];
  try {
    const bytes = new Uint8Array(Buffer.from(data, "base64"));
    const made = await flatopc[command](bytes, { ...options, say: (line) => said.push(line) });
    return { made: Buffer.from(made).toString("base64"), said };
  } catch (error) {
    return error instanceof NotOfTheForm ? { refused: error.message } : { fault: error.stack };
  }
}

(async () => {
  for await (const line of readline.createInterface({ input: process.stdin })) process.stdout.write(JSON.stringify(await answer(JSON.parse(line))) + "\n");
})();
