// Calls the C files' functions on random places and numbers, and compares with what node makes of them: node parts.js PARTS.wasm
"use strict";
const fs = require("fs");

const parts = new WebAssembly.Instance(new WebAssembly.Module(fs.readFileSync(process.argv[2]))).exports;
const memory = new Uint8Array(parts.memory.buffer);
const BASE = 1 << 20;
const ROOM = 4096;
let state = 88172645463325252n;
function draw(most) {
  state ^= BigInt.asUintN(64, state << 13n);
  state ^= state >> 7n;
  state ^= BigInt.asUintN(64, state << 17n);
  return Number(state % BigInt(most));
}
let count = 0;
let failed = 0;
function same(what, one, other) {
  count++;
  if (one !== other && failed++ < 10) console.log("%s: %s and not %s", what, one, other);
}
const whole = (bytes) => Buffer.from(bytes).toString("latin1");
const someLength = () => draw([9, 70, 300, 1500][draw(4)]);

for (let i = 0; i < 20000; i++) {
  const here = memory.subarray(BASE, BASE + ROOM);
  if (i % 50 === 0) here.forEach((_, at) => (here[at] = draw(256)));
  const [to, from, length] = [draw(2000), draw(2000), someLength()];
  const name = ["memmove", "memset", "memcmp"][draw(3)];
  const wanted = here.slice();
  if (name === "memmove") {
    wanted.copyWithin(to, from, from + length);
    parts.memmove(BigInt(BASE + to), BigInt(BASE + from), BigInt(length));
  } else if (name === "memset") {
    wanted.fill(from % 256, to, to + length);
    parts.memset(BigInt(BASE + to), from, BigInt(length));
  } else {
    if (draw(2)) here.copyWithin(to, from, from + length), wanted.set(here);
    const sign = Math.sign(parts.memcmp(BigInt(BASE + to), BigInt(BASE + from), BigInt(length)));
    same("memcmp", sign, Buffer.compare(here.slice(to, to + length), here.slice(from, from + length)));
  }
  same(name + " " + [to, from, length], whole(here), whole(wanted));
}

/** A number of 128 bits, often near a power of two. */
function wide() {
  const bits = BigInt(draw(129));
  const near = (1n << bits) + BigInt(draw(7)) - 3n;
  return BigInt.asUintN(128, draw(2) ? near : near * BigInt(1 + draw(1e9)) + state);
}
const halves = (value) => [BigInt.asIntN(64, value), BigInt.asIntN(64, value >> 64n)];
const answer = new BigUint64Array(parts.memory.buffer, BASE, 2);
for (let i = 0; i < 20000; i++) {
  const [a, b] = [wide(), wide()];
  parts.__multi3(BigInt(BASE), ...halves(a), ...halves(b));
  same("product of " + [a, b], answer[0] | (answer[1] << 64n), BigInt.asUintN(128, a * b));
  if (!b) continue;
  parts.__udivti3(BigInt(BASE), ...halves(a), ...halves(b));
  same("quotient of " + [a, b], answer[0] | (answer[1] << 64n), a / b);
}
console.log("%d answers, %d wrong", count, failed);
process.exitCode = failed ? 1 : 0;
