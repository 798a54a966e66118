// The worker of the desk: it keeps files, calls the program on them, and turns a .docx into a package and back.
//
// A message { id, action, words } asks for one of `actions`; the answer is { id, answer, took } or { id, refused, kind, took }.
// While it works, messages { id, phase, bytes } say how far it is.
"use strict";

/**
 * Why an action came to nothing: `file`, the file is not what it should be; `program`, the program refused it; `memory` and
 * `stack`, there is too little of it; `browser`, the browser can't do what is needed; `fault`, a mistake of this page.
 * @typedef {"file" | "program" | "memory" | "stack" | "browser" | "fault"} Kind
 */

class Refused extends Error {
  /** @param {Kind} kind @param {string} line */
  constructor(kind, line) {
    super(line);
    this.kind = kind;
  }
}

/** @type {WebAssembly.Module | null} */
let program = null;
/** The files that calls may name. @type {Map<string, Uint8Array>} */
const kept = new Map();
/** The name of the document among them. */
const DOCUMENT = "document.xml";
/** Tells how far the action is. */
let tellPhase = (/** @type {string} */ phase, /** @type {number} */ bytes) => {};

/** What stopped a call that has no status. @param {any} error */
function stopped(error) {
  const text = String(error?.message ?? error);
  if (/call stack|recursion|stack overflow|out of bounds/i.test(text)) return new Refused("stack", "the program's stack is too small for this document");
  if (error instanceof RangeError || /memory/i.test(text)) return new Refused("memory", "there is too little memory for this document");
  return new Refused("fault", "the program stopped: " + text);
}

/**
 * A call of the program on the kept files and some more.
 * @param {string[]} words
 * @param {Map<string, Uint8Array>} more
 */
function call(words, more = new Map()) {
  const [out, err] = [new Gathered(), new Gathered()];
  const files = filesInMemory(new Map([...kept, ...more]), (bytes) => tellPhase("read", bytes));
  const put = (stream, bytes) => {
    (stream === 1 ? out : err).add(bytes);
    if (stream === 1) tellPhase("write", bytes.length);
  };
  try {
    const { status, memory } = callProgram(/** @type {WebAssembly.Module} */ (program), words, files, put);
    return { status, memory, out, lines: err.text().trimEnd() };
  } catch (error) {
    throw stopped(error);
  }
}

/** The same, refused with the program's lines where it ends with a status above 1. @param {string[]} words */
function done(words) {
  const end = call(words);
  if (end.status > 1) throw new Refused(end.status === 8 ? "memory" : "program", end.lines);
  return end;
}

/** What `flatopc` makes, with the sentences that it has to tell. @param {(say: (line: string) => void) => Promise<Uint8Array>} make */
async function made(make) {
  /** @type {string[]} */
  const said = [];
  try {
    return { bytes: await make((line) => said.push(line)), said };
  } catch (error) {
    throw error instanceof NotOfTheForm ? new Refused("file", error.message) : error;
  }
}

const isZip = (/** @type {Uint8Array} */ bytes) => bytes[0] === 0x50 && bytes[1] === 0x4b;

/** The package of a .docx, or the package itself, and what `flatopc` told. @param {Uint8Array} bytes @param {boolean} tidy */
async function packageOf(bytes, tidy) {
  return isZip(bytes) ? made((say) => flatopc.unpack(bytes, { tidy, say })) : { bytes, said: [] };
}

const actions = {
  /** Makes the program of these bytes ready. Answers its version. @param {Uint8Array} module */
  async start(module) {
    if (typeof WebAssembly === "undefined") throw new Refused("browser", "this browser runs no WebAssembly: a setting of it or of its administrator forbids it");
    program = await WebAssembly.compile(module);
    return done(["--version"]).out.text().trim();
  },

  /**
   * Opens a .docx or a package as the document, under the name `document.xml`, and drops all other files. Where it is refused
   * the document before stays. Answers whether it was a .docx, the size of the package, what `check` wrote and its lines, and what
   * `flatopc` told.
   * @param {Uint8Array} bytes
   * @param {{ tidy?: boolean }} options
   */
  async open(bytes, { tidy = false } = {}) {
    const { bytes: packageBytes, said } = await packageOf(bytes, tidy);
    const before = new Map(kept);
    kept.clear();
    kept.set(DOCUMENT, packageBytes);
    try {
      const { out, lines } = done(["check", DOCUMENT]);
      return { isZip: isZip(bytes), size: packageBytes.length, line: out.text().trim(), lines, said };
    } catch (error) {
      kept.clear();
      before.forEach((it, name) => kept.set(name, it));
      throw error;
    }
  },

  /**
   * Keeps the package of a .docx, or a package, under this name beside the document. Answers what `flatopc` told.
   * @param {string} name
   * @param {Uint8Array} bytes
   * @param {{ tidy?: boolean }} options
   */
  async unpack(name, bytes, { tidy = false } = {}) {
    const { bytes: packageBytes, said } = await packageOf(bytes, tidy);
    kept.set(name, packageBytes);
    return { said };
  },

  /** Keeps a file for calls to name. @param {string} name @param {Uint8Array} bytes */
  keep(name, bytes) {
    kept.set(name, bytes);
  },

  /** Forgets kept files. @param {string[]} names */
  drop(...names) {
    names.forEach((name) => kept.delete(name));
  },

  /**
   * Calls the program. `files` are more files for this call alone; with `into` what it writes is kept under that name and not
   * answered, with `bytes` it is answered as bytes and not as text.
   * @param {string[]} words
   * @param {{ files?: Record<string, Uint8Array>, into?: string, bytes?: boolean }} options
   */
  call(words, { files = {}, into = "", bytes = false } = {}) {
    const { status, memory, out, lines } = call(words, new Map(Object.entries(files)));
    if (into && status <= 1) kept.set(into, out.bytes());
    return { status, memory, lines, size: out.size, out: into ? null : bytes ? out.bytes() : out.text() };
  },

  /** The .docx of a kept package, and what `flatopc` told. @param {string} name @param {{ dropUnusedNotes?: boolean }} options */
  pack(name, { dropUnusedNotes = false } = {}) {
    const bytes = kept.get(name);
    if (!bytes) throw new Refused("fault", "there is no file " + name);
    return made((say) => flatopc.pack(bytes, { dropUnusedNotes, say }));
  },

  /** A kept file. @param {string} name */
  fetch(name) {
    return kept.get(name) ?? null;
  },
};

addEventListener("message", async ({ data: { id, action, words } }) => {
  const begin = performance.now();
  const took = () => performance.now() - begin;
  tellPhase = (phase, bytes) => postMessage({ id, phase, bytes });
  try {
    postMessage({ id, answer: await actions[action](...words), took: took() });
  } catch (error) {
    const refused = error instanceof Refused ? error.message : String(error) + "\n" + (error.stack ?? "");
    postMessage({ id, refused, kind: error instanceof Refused ? error.kind : "fault", took: took() });
  }
});
