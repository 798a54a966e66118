// Elements of the page, made from texts alone, and what the page tells.
"use strict";

/**
 * @param {string} id
 * @returns {any}
 */
const element = (id) => document.getElementById(id);

/**
 * A new element with properties or attributes, and with texts or elements inside.
 * @param {string} name
 * @param {Record<string, any>} properties
 * @param {...(string | Node)} inside
 * @returns {any}
 */
function make(name, properties = {}, ...inside) {
  const made = document.createElement(name);
  for (const [key, value] of Object.entries(properties)) {
    if (key in made) made[key] = value;
    else made.setAttribute(key, value);
  }
  made.append(...inside);
  return made;
}

const button = (/** @type {string} */ textContent, /** @type {() => void} */ onclick, properties = {}) =>
  make("button", { type: "button", textContent, onclick, ...properties });

/**
 * @param {number} count
 * @param {string} one
 * @param {string} many
 */
const counted = (count, one, many = one + "s") => count.toLocaleString("en") + " " + (count === 1 ? one : many);

/**
 * What is told: a sentence on what happened, what to do, the lines of the program word for word, and what can be pressed.
 * @typedef {{ what: string, todo?: string, line?: string, isFault?: boolean, acts?: [string, () => void][] }} Message
 */

/**
 * Tells something below the steps.
 * @param {Message | null} message
 */
function tell(message) {
  const { what = "", todo = "", line = "", isFault = false, acts = [] } = message ?? {};
  const parts = [];
  if (what) parts.push(make("p", { className: "what", textContent: what }));
  if (todo) parts.push(make("p", { className: "todo", textContent: todo }));
  if (line) parts.push(...line.split("\n").map((textContent) => make("p", { className: "line", textContent })));
  if (acts.length) parts.push(make("p", { className: "acts" }, ...acts.map(([text, act]) => button(text, act, isFault ? { className: "main" } : {}))));
  element("message").replaceChildren(...parts);
  element("message").classList.toggle("is-fault", isFault);
  element("dismiss").hidden = parts.length === 0;
}

/**
 * Tells what was saved, beside what was pressed.
 * @param {string} id
 * @param {string} text
 * @param {boolean} isFault
 */
function tellBeside(id, text, isFault = false) {
  element(id).textContent = text;
  element(id).classList.toggle("is-fault", isFault);
}

/**
 * Asks a question; answers whether it was agreed to.
 * @param {string} text
 * @param {string} yes
 * @returns {Promise<boolean>}
 */
function agreed(text, yes) {
  element("question-text").textContent = text;
  element("question-yes").textContent = yes;
  const dialog = element("question");
  return new Promise((resolve) => {
    dialog.returnValue = "no";
    element("question-yes").onclick = () => dialog.close("yes");
    element("question-no").onclick = () => dialog.close("no");
    dialog.onclose = () => resolve(dialog.returnValue === "yes");
    dialog.showModal();
  });
}

/** How many pieces of work go on. */
let working = 0;

/**
 * Says that work begins, or that it ends, to whoever tests the page. (What is busy by ARIA keeps a screen reader silent, also on what is
 * told in it.)
 * @param {1 | -1} by
 */
function work(by) {
  working += by;
  document.body.dataset.working = String(working > 0);
  if (!working) sayEnd();
}

/**
 * Tells what went wrong, with a file of this name; null stands for what is told already.
 * @param {any} error
 * @param {string} [name]
 */
const tellFault = (error, name) => error !== null && tell(messageOf(error, name));

/**
 * An event's work, whose faults are told.
 * @template {any[]} Words
 * @param {(...words: Words) => Promise<void>} what
 */
const guarded = (what) => async (/** @type {Words} */ ...words) => {
  work(1);
  try {
    await what(...words);
  } catch (error) {
    tellFault(error);
  } finally {
    work(-1);
  }
};
