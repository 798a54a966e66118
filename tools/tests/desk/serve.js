// Many calls of the desk's program in one process: node serve.js REDLINE.WASM
//
// Each line of standard input is a call, { folder, words } as JSON with the words in Base64, and each line of standard output says
// what came of it: { status, out, lines, memory, held, ms } with the bytes in Base64, or { fault }. `memory` is the size of the call's
// memory, and `held` how much of it the system had to provide. `pages` in a call is the most that the memory may grow to, in pages
// of 64 KB.
"use strict";
const fs = require("fs");
const readline = require("readline");
const { callProgram, realFiles, Gathered } = require("./scripts.js");
const { withMostPages } = require("./limits.js");

const code = fs.readFileSync(process.argv[2]);
const whole = new WebAssembly.Module(code);
const small = new Map();

/** The program, or the same with a smaller memory. */
function programWith(pages) {
  if (!pages) return whole;
  if (!small.has(pages)) small.set(pages, new WebAssembly.Module(withMostPages(code, pages)));
  return small.get(pages);
}

/** The memory of the last instance. */
let last;
const { Instance } = WebAssembly;
WebAssembly.Instance = function (...given) {
  const made = new Instance(...given);
  last = made.exports.memory;
  return made;
};

/** How much of a memory was ever touched: a page of it that wasn't costs nothing. */
function heldOf(memory) {
  const size = memory.buffer.byteLength;
  const found = fs.readFileSync("/proc/self/smaps", "utf8").split(/\n(?=[0-9a-f]+-[0-9a-f]+ )/);
  const its = found.filter((it) => /^\S+ rw-p /.test(it) && Number(/^Size: +(\d+) kB/m.exec(it)[1]) * 1024 === size);
  return its.length === 1 ? Number(/^Rss: +(\d+) kB/m.exec(its[0])[1]) * 1024 : size;
}

function answer({ folder, words, pages }) {
  process.chdir(folder);
  const [out, lines] = [new Gathered(), new Gathered()];
  // (the memory of the call before goes first, so that this one's is known by its size)
  last = undefined;
  globalThis.gc?.();
  const begin = process.cpuUsage();
  try {
    const given = words.map((it) => new Uint8Array(Buffer.from(it, "base64")));
    const { status, memory } = callProgram(programWith(pages), given, realFiles, (stream, bytes) => (stream === 1 ? out : lines).add(bytes));
    const { user, system } = process.cpuUsage(begin);
    const held = heldOf(last);
    const text = (gathered) => Buffer.from(gathered.bytes()).toString("base64");
    return { status, memory, held, ms: (user + system) / 1000, out: text(out), lines: text(lines) };
  } catch (error) {
    return { fault: error.name + ": " + error.message };
  }
}

readline.createInterface({ input: process.stdin }).on("line", (line) => process.stdout.write(JSON.stringify(answer(JSON.parse(line))) + "\n"));
