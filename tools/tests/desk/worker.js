// The desk's worker in node, asked as the page asks it: node worker.js REDLINE.WASM FOLDER
//
// FOLDER has what desk_worker.py puts there. Prints a line for each case. With the word `stack` behind them, in a process with a small
// stack (node --stack-size), only what that comes to is tried.
"use strict";
const fs = require("fs");
const path = require("path");
const vm = require("vm");
require("./scripts.js");
const { withMostPages } = require("./limits.js");

const [wasm, folder, only] = process.argv.slice(2);
const file = (name) => new Uint8Array(fs.readFileSync(path.join(folder, name)));
const code = fs.readFileSync(wasm);

let take;
const waiting = new Map();
const phases = [];
globalThis.addEventListener = (_, listener) => (take = listener);
globalThis.postMessage = (message) => {
  const { id, phase } = message;
  if (phase) return phases.push(phase);
  waiting.get(id)(message);
};
vm.runInThisContext(fs.readFileSync(path.join(__dirname, "../../web/worker.js"), "utf8"), { filename: "worker.js" });

let last = 0;
/** The worker's answer to an action. */
function ask(action, ...words) {
  const id = ++last;
  return new Promise((resolve) => {
    waiting.set(id, resolve);
    take({ data: { id, action, words } });
  });
}

function tell(name, holds, got) {
  console.log(holds ? "ok " + name : "FAILED " + name + ": " + JSON.stringify(got).slice(0, 300));
}

/** The action is refused as this kind, with a line like this. */
async function refuses(name, kind, line, ...asked) {
  const got = await ask(...asked);
  tell(name, got.kind === kind && line.test(got.refused), got);
}

async function round() {
  const begun = process.cpuUsage();
  const version = await ask("start", code);
  tell("start", /^redline \d/.test(version.answer), version);
  const { user } = process.cpuUsage(begun);
  tell("it starts in less than a second of processor time", user < 1e6, user);
  const opened = await ask("open", file("contract.docx"));
  tell("open a .docx", opened.answer.isZip && opened.answer.line === "sound 49 revisions", opened);
  tell("a call tells how far it is", phases.includes("read") && phases.includes("write"), phases);
  const list = await ask("call", ["list", "document.xml", "--format", "tab"]);
  tell("a call", list.answer.status === 0 && list.answer.out.split("\n").length === 50, list);
  const journal = await ask("call", ["decide", "document.xml", "Ann Gray", "--accept", "all"], { bytes: true });
  await ask("keep", "ann", journal.answer.out);
  const written = await ask("call", ["write", "document.xml", "ann"], { into: "written.xml" });
  tell("a call keeps what it writes", written.answer.status === 0 && written.answer.out === null && written.answer.size > 1000, written);
  const checked = await ask("call", ["check", "written.xml"]);
  tell("for the next one", checked.answer.out === "sound 0 revisions\n", checked);
  const docx = await ask("pack", "written.xml");
  fs.writeFileSync(path.join(folder, "written.docx"), docx.answer.bytes);
  tell("pack", docx.answer.said.length === 0, docx.refused);
  const refused = await ask("call", ["write", "document.xml", "none.journal"]);
  tell("a call that is refused", refused.answer.status === 5 && refused.answer.lines === "redline: cannot read none.journal", refused);
  const wide = await ask("call", ["write", "document.xml", "wide"], { files: { wide: file("wide.journal") } });
  tell("a journal in UTF-16", wide.answer.status === 4 && /^redline: journal wide: malformed/.test(wide.answer.lines), wide);
  await ask("drop", "ann");
  const dropped = await ask("call", ["write", "document.xml", "ann"]);
  tell("a file that was dropped", dropped.answer.status === 5, dropped);
}

async function faults() {
  await refuses("a password", "program", /^redline: package: not readable\n.*password/, "open", file("password.docx"));
  await refuses("a damaged archive", "file", /no ZIP package/, "open", file("cut.docx"));
  await refuses("an archive that unpacks to gigabytes", "file", /more than/, "open", file("bomb.docx"));
  await refuses("no document at all", "program", /^redline: package: not readable/, "open", file("ann.journal"));
  await refuses("a document that breaks a rule", "program", /^redline: package: rule 6/, "open", file("unsound.xml"));
  await refuses("no such file to pack", "fault", /no file/, "pack", "none");
  const still = await ask("call", ["check", "document.xml"]);
  tell("the document before is still there", still.answer?.out === "sound 49 revisions\n", still);
  await ask("start", withMostPages(code, 40));
  await refuses("too little memory", "memory", /^redline: no memory/, "open", file("large.xml"));
  const small = await ask("call", ["check", "document.xml"]);
  tell("a small document still opens then", small.answer?.out === "sound 49 revisions\n", small);
}

/** In a process with little stack. */
async function stack() {
  await ask("start", code);
  await ask("open", file("contract.xml"));
  const deep = { deep: file("deep.xml") };
  await refuses("too little stack", "stack", /stack/, "call", ["write", "deep"], { files: deep });
  const still = await ask("call", ["check", "document.xml"]);
  tell("the document is still there after it", still.answer?.out === "sound 49 revisions\n", still);
}

(async () => {
  if (only === "stack") return stack();
  await round();
  await faults();
})();
