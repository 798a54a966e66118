// The two frames: the program's page of the document, to decide in, and its page of the document as it would be written.
"use strict";

const frame = element("page");
const result = element("result");

/**
 * What the page in the frame offers to the desk.
 * @returns {{ name: () => string, refusal: () => string, journal: (name?: string) => string, state: () => any, restore: (state: any) => void, choose: (number: number) => void }}
 */
const pageParts = () => frame.contentWindow.redline;

/**
 * Shows a page in a frame; it is there when this ends.
 * @param {any} into
 * @param {string} html
 */
async function load(into, html) {
  const isThere = new Promise((resolve) => into.addEventListener("load", resolve, { once: true }));
  into.srcdoc = policy.createHTML(html);
  await isThere;
  acceptDrops(into.contentWindow);
}

/** How many tables in one another are shown: browsers keep 512 elements in one another, and Safari's hangs at tables beyond that. */
const MOST_NESTED = 100;

/**
 * Whether a page has more tables in one another than browsers show.
 * @param {string} html
 */
function isTooDeep(html) {
  let [depth, begin, end] = [0, html.indexOf("<table"), html.indexOf("</table")];
  while (begin >= 0) {
    if (end < 0 || begin < end) {
      if (++depth > MOST_NESTED) return true;
      begin = html.indexOf("<table", begin + 1);
    } else {
      depth--;
      end = html.indexOf("</table", end + 1);
    }
  }
  return false;
}

/**
 * A page that was made, where browsers can show it.
 * @param {{ out: string, lines: string }} made
 */
function shown(made) {
  if (isTooDeep(made.out))
    throw new Told("This document has more tables in one another than this browser can follow.", "No browser shows more than " + MOST_NESTED + ". Take them out of one another in a copy, or use the command line.");
  return made;
}

/** The program's page of the document, as a text, and the lines of the call. */
const makePage = () => called(["page", DOCUMENT, ...signWords(), ...others.keys(), ...lockWords()]);

/**
 * Shows the page of the document anew, with what was decided in it so far.
 * @param {{ out: string, lines: string }} made
 */
async function showPage({ out, lines }) {
  const before = opened?.isShown ? pageParts().state() : null;
  await load(frame, out);
  dress(frame.contentWindow, SMALL);
  if (before) pageParts().restore(before);
  frame.contentDocument.addEventListener("redline-changed", decided);
  frame.contentDocument.addEventListener("redline-save", saveFromPage);
  /** @type {Opened} */ (opened).isShown = true;
  decided();
  isUnsaved = isUnsaved && before !== null;
  return lines;
}

/** Something was decided in the page, or the name there is another one. */
function decided() {
  isUnsaved = true;
  stale.standing = stale.written = true;
}

/**
 * The page's own button: a frame of Firefox saves nothing, so the desk does.
 * @param {any} event
 */
function saveFromPage(event) {
  event.preventDefault();
  save(event.detail.name, event.detail.text);
  isUnsaved = false;
  tell({ what: "Saved as " + fileName(event.detail.name) + ".", todo: IN_DOWNLOADS + " Send it to whoever puts the round together. The document itself is saved in step 5." });
}

/** What has to be made anew before it is seen. */
const stale = { standing: true, written: true };

/**
 * Gives the page in a frame more style than its own.
 * @param {any} inner
 * @param {string} rules
 */
function dress(inner, rules) {
  const sheet = new inner.CSSStyleSheet();
  sheet.replaceSync(rules);
  inner.document.adoptedStyleSheets = [...inner.document.adoptedStyleSheets, sheet];
}

/** In a small window the page's title and the word before its views only take room: the desk has the document's name above it. */
const SMALL = "@media (max-width: 40rem), (max-height: 20rem) { h1, legend { position: absolute; width: 1px; height: 1px; overflow: hidden; clip-path: inset(50%) } }";

/**
 * Takes away what can be decided in the page of the written document, since it is there to be read, and has it say so on paper.
 * @param {any} inner
 * @param {string} left how many changes are tracked in it
 */
function freeze(inner, left) {
  inner.addEventListener("beforeprint", () => (inner.document.getElementById("printed").textContent =
    opened?.name + " as it would be written now: " + left + " Printed on " + new Date().toISOString().slice(0, 10) + "."));
  dress(inner, "body > header, body > aside, dialog { display: none !important } body { grid: 'text' minmax(0, 1fr) / minmax(0, 1fr) !important } main [data-revision] { cursor: auto }");
  for (const kind of ["click", "keydown", "keyup", "beforeunload"])
    inner.addEventListener(kind, (/** @type {Event} */ event) => event.stopImmediatePropagation(), true);
}

/** Shows the page of the document that `write` makes of all decisions so far. */
async function showWritten() {
  if (!stale.written) return;
  element("written-told").replaceChildren();
  const { lines } = await calledOnAll(["write"], { into: WRITTEN });
  const check = await called(["check", WRITTEN]);
  const { out } = await called(["page", WRITTEN]);
  // (a name that no document has, so that nothing which the browser keeps for this one comes in)
  await load(result, out.replace(/ data-document="[0-9a-f]*"/, ' data-document="as written"'));
  const count = countIn(check.out);
  const left = count ? counted(count, "change is", "changes are") + " still tracked in it." : "no change is tracked in it any more.";
  freeze(result.contentWindow, left);
  element("written-told").append(
    make("span", {}, "This is the document that “Save the document” would write now: ", make("b", { textContent: left }), lines ? " " + toldOf(lines) : ""),
    button("Print", () => window.print()), button("Go on to Save", () => choose("save")));
  stale.written = false;
}
