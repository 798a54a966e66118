// The program as the page sees it: actions of the worker as promises, told how far they are, and a way to stop them.
"use strict";

/** Why an action came to nothing; `kind` is that of worker.js, or `stopped`. */
class ActionError extends Error {
  /** @param {string} kind @param {string} line */
  constructor(kind, line) {
    super(line);
    this.kind = kind;
  }
}

class Program {
  /**
   * `make` makes a new worker, and `module` comes to the bytes of the program. `watch` is told of each action that begins, is on
   * its way (how many bytes were read and written so far) and ends.
   * @param {() => Worker} make
   * @param {Promise<Uint8Array>} module
   * @param {(state: { action: string, words: any[], read: number, written: number, begun: number, isDone: boolean }) => void} watch
   */
  constructor(make, module, watch = () => {}) {
    this.make = make;
    this.module = module;
    this.watch = watch;
    this.waiting = new Map();
    this.last = 0;
    /** What a new worker is told to be as the one before it. @type {[string, ...any[]][]} */
    this.history = [];
    this.worker = this.begin();
  }

  begin() {
    const worker = this.make();
    worker.addEventListener("message", ({ data }) => this.take(data));
    worker.addEventListener("error", (event) => this.fail("browser", "the worker does not start: " + (event.message || "the browser forbids it")));
    return worker;
  }

  /** Makes the program ready; answers its version. @returns {Promise<string>} */
  async start() {
    return this.ask("start", await this.module);
  }

  /** Asks the worker for one of its actions. @param {string} action @param {any[]} words @returns {Promise<any>} */
  async ask(action, ...words) {
    const answer = await this.send(action, words);
    if (action === "open") this.history = [["open", ...words]];
    if (["keep", "drop", "unpack"].includes(action)) this.history.push([action, ...words]);
    return answer;
  }

  send(action, words) {
    const state = { action, words, read: 0, written: 0, begun: performance.now(), isDone: false };
    return new Promise((resolve, reject) => {
      this.waiting.set(++this.last, { resolve, reject, state });
      this.watch(state);
      this.worker.postMessage({ id: this.last, action, words });
    });
  }

  take({ id, answer, refused, kind, phase, bytes }) {
    const { resolve, reject, state } = this.waiting.get(id) ?? {};
    if (!state) return;
    if (phase) {
      state[phase === "read" ? "read" : "written"] += bytes;
      return this.watch(state);
    }
    this.waiting.delete(id);
    this.watch({ ...state, isDone: true });
    if (refused === undefined) resolve(answer);
    else reject(new ActionError(kind, refused));
  }

  fail(kind, line) {
    for (const { reject, state } of this.waiting.values()) {
      this.watch({ ...state, isDone: true });
      reject(new ActionError(kind, line));
    }
    this.waiting.clear();
  }

  /** Stops all that is going on, and makes a new worker with the same document and files. Settles once that one is ready. */
  async stop() {
    this.worker.terminate();
    this.fail("stopped", "stopped");
    this.worker = this.begin();
    await this.send("start", [await this.module]);
    for (const [action, ...words] of this.history) await this.send(action, words);
  }
}
