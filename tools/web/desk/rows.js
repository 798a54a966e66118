// Tables: plain ones, and those of changes, of which a long one is shown in parts.
"use strict";

const AT_ONCE = 200;

/**
 * A table. A head that begins with # is over numbers; `classes` has the class of each row, where rows have some.
 * @param {string} caption
 * @param {string[]} heads
 * @param {any[][]} rows
 * @param {string[]} classes
 */
function table(caption, heads, rows, classes = []) {
  const body = make("tbody");
  const made = make("table", {},
    ...(caption ? [make("caption", {}, make("span", { textContent: caption }))] : []),
    make("thead", {}, make("tr", {}, ...heads.map((head) => make("th", { scope: "col", className: head.startsWith("#") ? "number" : "", textContent: head.replace(/^#/, "") })))),
    body);
  const whole = make("div", { className: "scrolled", role: "group", "aria-label": caption || "Table" }, made);
  // (a table that is wider than the window is moved by the keyboard too)
  new ResizeObserver(() => (whole.tabIndex = whole.scrollWidth > whole.clientWidth ? 0 : -1)).observe(whole);
  const cell = (/** @type {any} */ it, /** @type {number} */ at) => {
    if (it instanceof HTMLTableCellElement) return it;
    const name = at === 0 ? "th" : "td";
    return make(name, { className: heads[at].startsWith("#") ? "number" : "", ...(at === 0 ? { scope: "row" } : {}) }, typeof it === "number" ? it.toLocaleString("en") : it);
  };
  const show = (/** @type {number} */ from, /** @type {number} */ to) => {
    body.append(...rows.slice(from, to).map((row, at) => make("tr", { className: classes[from + at] ?? "" }, ...row.map(cell))));
    if (to < rows.length) {
      const more = button("Show " + Math.min(AT_ONCE, rows.length - to) + " more of " + counted(rows.length - to, "row"), () => {
        more.remove();
        show(to, to + AT_ONCE);
      });
      whole.append(more);
    }
  };
  show(0, AT_ONCE);
  return whole;
}

/**
 * Shows a change in the page, and goes there.
 * @param {number} number
 */
function goTo(number) {
  choose("decide");
  pageParts().choose(number);
  frame.focus();
}

/** How many characters the listing has of what stands before a change, and after it. */
const REACH = 40;
const isCut = (/** @type {string} */ text) => Array.from(text).length >= REACH;
/** What stands before a change and after it, in whole words. */
const wordsBefore = (/** @type {string} */ text) => (isCut(text) ? "…" + text.replace(/^\S*\s/, "") : text);
const wordsAfter = (/** @type {string} */ text) => (isCut(text) ? text.replace(/\s\S*$/, "") + "…" : text);

const SIGNS = { "mark": "\u00b6", "row": "row", "cell": "cell" };

/**
 * What a change of format changes, a line for each property.
 * @param {any} row
 */
function changedOf({ changed = [], changed_more: more = 0 }) {
  const lines = [...changed.map((/** @type {any} */ it) => it.said), ...(more ? ["and " + counted(more, "property", "properties") + " more"] : [])];
  return lines.length ? [make("ul", { className: "changed" }, ...lines.map((textContent) => make("li", {}, make("bdi", { textContent }))))] : [];
}

/**
 * Where a change is, if it is not in the document.
 * @param {any} row
 */
function placeOf({ place = "document" }) {
  return place === "document" ? [] : [make("p", { className: "place", textContent: place })];
}

/**
 * A change between the words around it.
 * @param {any} row
 */
function wordsOf(row) {
  const { kind, before, words, after } = row;
  const name = /ins$|move-to|mark-to/.test(kind) ? "ins" : /del$|move-from|mark-from/.test(kind) ? "del" : "mark";
  const sign = SIGNS[kind.split("-")[0]] ?? KINDS[kind];
  const context = (/** @type {string} */ text) => make("span", { className: "context", textContent: text });
  return make("td", { className: "words", dir: "auto" }, context(wordsBefore(before)), make(name, { textContent: words.trim() ? words : sign }), context(wordsAfter(after)), ...changedOf(row), ...placeOf(row));
}

/**
 * The names of those who said this word.
 * @param {any} row
 * @param {string} word
 * @param {string} className
 */
function whoSaid({ says }, word, className) {
  const names = says.filter((/** @type {any} */ it) => it.word === word).map((/** @type {any} */ it) => it.reviewer);
  return make("td", { className }, ...names.flatMap((/** @type {string} */ name, /** @type {number} */ at) => [at ? ", " : "", make("bdi", { className: "who", textContent: name })]));
}

/**
 * A table of changes with who said what, and with the clause of each where one of them has a number.
 * @param {string} caption
 * @param {any[]} rows
 */
function changesTable(caption, rows) {
  const hasClauses = rows.some((row) => row.clause);
  const heads = ["#No.", ...(hasClauses ? ["Clause"] : []), "Change", "Kind", "Author", "Accept", "Reject"];
  return table(caption, heads, rows.map((row) => [
    make("th", { className: "number", scope: "row" }, button(String(row.number), () => goTo(row.number), { "aria-label": "Show change " + row.number })),
    ...(hasClauses ? [make("bdi", { textContent: row.clause ?? "" })] : []), wordsOf(row), KINDS[row.kind], make("bdi", { className: "who", textContent: row.author || "no name" }),
    whoSaid(row, "accept", "yes"), whoSaid(row, "reject", "no"),
  ]));
}
