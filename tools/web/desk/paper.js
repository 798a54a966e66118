// Paper: the document that is seen is printed whole, by its own page's rules for paper. A browser prints a frame to the end of its first
// sheet alone, so a copy of what is in it stands in its place while it is printed.
"use strict";

/** The frame of the document that is seen, or null. */
const seenFrame = () => (!opened ? null : isChosen("decide") ? frame : isChosen("written") ? result : null);

/**
 * The rules of a page for a copy of it that is not a page of its own.
 * @param {Document} page
 */
function rulesOf(page) {
  const sheets = [...Array.from(page.styleSheets), ...page.adoptedStyleSheets];
  const text = sheets.flatMap((sheet) => Array.from(sheet.cssRules, (rule) => rule.cssText)).join("\n");
  const rules = new CSSStyleSheet();
  rules.replaceSync(text.replaceAll(":root", ":host"));
  return rules;
}

/** Puts a copy of the document that is seen on the paper, with the line that says which view it is. */
function layPaper() {
  takePaper();
  const seen = seenFrame();
  if (!seen) return;
  // (on this the page brings all of itself up to date, and says what is printed)
  seen.contentWindow.dispatchEvent(new Event("beforeprint"));
  const page = seen.contentDocument;
  const paper = make("div", { id: "paper" });
  const inside = paper.attachShadow({ mode: "open" });
  inside.adoptedStyleSheets = [rulesOf(page)];
  inside.append(...["#printed", "main"].map((it) => document.importNode(page.querySelector(it), true)));
  document.body.append(paper);
}

function takePaper() {
  element("paper")?.remove();
}

function preparePaper() {
  addEventListener("beforeprint", layPaper);
  addEventListener("afterprint", takePaper);
}
