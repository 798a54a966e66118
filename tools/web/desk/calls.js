// Calls of the program in its worker, one after the other: how far a long one is, and how it is stopped.
"use strict";

const WORKER = URL.createObjectURL(new Blob([element("worker").textContent], { type: "text/javascript" }));
const PAGE_BEGINS = /^<!DOCTYPE html>\s*<html lang="en">\s*<head>\s*<meta charset="utf-8">\s*<meta http-equiv="Content-Security-Policy"/;

/** What may become a worker is this page's own text, and what may become a document is a page of the program. */
const RULES = {
  createScriptURL: (/** @type {string} */ url) => (url === WORKER ? url : ""),
  createHTML: (/** @type {string} */ html) => (PAGE_BEGINS.test(html) ? html : ""),
};
/** @type {any} */
const policy = window["trustedTypes"] ? window["trustedTypes"].createPolicy("desk", RULES) : RULES;

/**
 * What a call is doing, by the action or the command.
 * @type {Record<string, string>}
 */
const DOING = {
  start: "Starting", open: "Opening the document", unpack: "Opening the document", page: "Making the page", check: "Checking the document",
  write: "Writing the document", settle: "Writing the document", pack: "Making the Word document", list: "Listing the changes",
  report: "Counting who decided what", text: "Taking the text out", join: "Joining the journals", resume: "Joining both sittings",
};
const PATIENCE = 500;

/**
 * The actions that are going on.
 * @type {Set<any>}
 */
const going = new Set();

function showProgress() {
  const [state] = Array.from(going).filter((it) => performance.now() - it.begun >= PATIENCE * 0.9);
  element("progress").hidden = !state;
  if (!state) return;
  const name = state.action === "call" ? state.words[0][0] : state.action;
  const size = state.written || state.read;
  const [what, far] = [DOING[name] ?? "Working", size > 1e6 ? " " + Math.round(size / 1e6) + " MB" : ""];
  element("doing").textContent = what + "…" + far;
  say(what, far);
}

/** How many milliseconds a screen reader isn't told again how far the same work is. */
const HEARD_EVERY = 10000;
/** What a screen reader was last told of long work, and when. */
const heard = { what: "", at: 0 };

/**
 * Tells a screen reader what long work is done, and now and then how far it is.
 * @param {string} what
 * @param {string} far
 */
function say(what, far) {
  const now = performance.now();
  if (what === heard.what && now - heard.at < HEARD_EVERY) return;
  Object.assign(heard, { what, at: now });
  element("heard").textContent = what + "…" + far;
}

/** Tells a screen reader that the work is at its end, where it was told of it. */
function sayEnd() {
  if (heard.what) element("heard").textContent = "Ready.";
  heard.what = "";
}

/** @param {any} state what program.js tells of an action */
function watch(state) {
  const former = Array.from(going).find((it) => it.begun === state.begun && it.action === state.action);
  if (former && state.isDone) going.delete(former);
  else if (!former && !state.isDone) going.add(state);
  if (!former) setTimeout(showProgress, PATIENCE);
  if (former) showProgress();
}

/**
 * What keeps the program from starting is the browser's.
 * @param {any} error
 * @returns {never}
 */
function cannotRun(error) {
  throw new ActionError("browser", String(error?.message ?? error));
}

const program = new Program(() => new Worker(policy.createScriptURL(WORKER)), unpacked(element("program").textContent), watch);
/** The program's version, once it is ready. */
const started = program.start().catch(cannotRun);
/**
 * The end of what was asked so far, and of the last making of a new worker.
 * @type {Promise<any>[]}
 */
let [queue, restarted] = [Promise.resolve(), Promise.resolve()];

/**
 * Asks for an action of the worker, after those before it.
 * @param {string} action
 * @param {...any} words
 * @returns {Promise<any>}
 */
function ask(action, ...words) {
  const next = Promise.all([started, queue]).then(() => restarted).then(() => program.ask(action, ...words));
  queue = next.catch(() => {});
  return next;
}

/**
 * A call of the program that has to end with status 0, or with 1, which leaves out refused entries.
 * @param {string[]} words
 * @param {object} options
 * @returns {Promise<any>}
 */
async function called(words, options = {}) {
  const end = await ask("call", words, options);
  if (end.status > 1) throw new ActionError(end.status === 8 ? "memory" : "program", end.lines || "redline: status " + end.status);
  return end;
}

/** Ends what is going on; the document and the journals are as they were. */
function stopAll() {
  going.clear();
  showProgress();
  restarted = program.stop().catch((error) => tell(messageOf(error)));
}
