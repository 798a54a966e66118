// A call of the program: an instance of its own for each, so nothing of a call is left for the next one.
"use strict";

/**
 * What the program is given to read: `open` answers a number from 3 on or minus an error number, and `read` fills an array and
 * answers how many bytes it had, or minus an error number.
 * @typedef {{ open: (name: string) => number, read: (file: number, into: Uint8Array) => number }} Files
 */

/**
 * Calls the program with these words. `put` takes what it writes to standard output (1) and standard error (2); the bytes are the
 * program's own memory, so who keeps them copies them. Answers the status, and the size of the memory at the end.
 * @param {WebAssembly.Module} program
 * @param {(string | Uint8Array)[]} words
 * @param {Files} files
 * @param {(stream: number, bytes: Uint8Array) => void} put
 */
function callProgram(program, words, files, put) {
  const bytes = (at, length) => new Uint8Array(memory.buffer, Number(at), Number(length));
  const host = {
    open: (name, length) => files.open(new TextDecoder().decode(bytes(name, length))),
    read: (file, to, most) => BigInt(files.read(file, bytes(to, most))),
    write: (stream, from, length) => put(stream, bytes(from, length)),
  };
  const { exports } = new WebAssembly.Instance(program, { host });
  const memory = /** @type {WebAssembly.Memory} */ (exports.memory);
  const given = ["redline", ...words].map((word) => (typeof word === "string" ? new TextEncoder().encode(word) : word));
  const size = given.reduce((sum, word) => sum + word.length + 1, 0);
  let at = Number(/** @type {Function} */ (exports.words)(BigInt(given.length), BigInt(size)));
  for (const word of given) {
    bytes(at, word.length).set(word);
    bytes(at + word.length, 1)[0] = 0;
    at += word.length + 1;
  }
  const status = /** @type {number} */ (/** @type {Function} */ (exports.main)(0, 0n));
  return { status, memory: memory.buffer.byteLength };
}

/**
 * Files in memory, by name. `watch` is told how many bytes of a file were read.
 * @param {Map<string, Uint8Array>} named
 * @returns {Files}
 */
function filesInMemory(named, watch = (/** @type {number} */ bytes) => {}) {
  const NO_SUCH_FILE = -2;
  const opened = [];
  return {
    open(name) {
      const bytes = named.get(name);
      if (!bytes) return NO_SUCH_FILE;
      opened.push({ bytes, at: 0 });
      return opened.length + 2;
    },
    read(number, into) {
      const file = opened[number - 3];
      const piece = file.bytes.subarray(file.at, file.at + into.length);
      into.set(piece);
      file.at += piece.length;
      watch(piece.length);
      return piece.length;
    },
  };
}

/** What the program wrote, copied into pieces of a megabyte. */
class Gathered {
  constructor() {
    /** @type {Uint8Array[]} */
    this.pieces = [];
    this.at = 0;
    this.size = 0;
  }

  /** @param {Uint8Array} bytes */
  add(bytes) {
    this.size += bytes.length;
    while (bytes.length) {
      let last = this.pieces[this.pieces.length - 1];
      if (!last || this.at === last.length) {
        this.pieces.push((last = new Uint8Array(1 << 20)));
        this.at = 0;
      }
      const now = bytes.subarray(0, last.length - this.at);
      last.set(now, this.at);
      this.at += now.length;
      bytes = bytes.subarray(now.length);
    }
  }

  bytes() {
    const all = new Uint8Array(this.size);
    this.pieces.forEach((piece, i) => all.set(i === this.pieces.length - 1 ? piece.subarray(0, this.at) : piece, i << 20));
    return all;
  }

  text() {
    const decoder = new TextDecoder("utf-8", { ignoreBOM: true });
    const last = this.pieces.length - 1;
    return this.pieces.map((piece, i) => decoder.decode(i === last ? piece.subarray(0, this.at) : piece, { stream: true })).join("") + decoder.decode();
  }
}
