// What the document would still hold that nobody sees on the page: marks, comments, names, hidden text, links and files.
"use strict";

/**
 * What is found, in words, by the name that `left` has for it.
 * @type {Record<string, string>}
 */
const FACTS = {
  "undecided": "mark of a change that Redline doesn't decide", "loose-marker": "marker of a move without its text",
  "comment": "comment", "orphan": "comment that stands at no text any more", "comment-mark": "place of a comment in the text",
  "unused-footnote": "footnote that no text refers to", "unused-endnote": "endnote that no text refers to", "hidden-text": "hidden text",
  "tracking": "Track Changes is switched on", "protection": "protection of the document", "rsid": "mark of an editing session",
  "creator": "author of the file", "last-editor": "who saved it last", "title": "title", "subject": "subject", "manager": "manager",
  "company": "company", "person": "person", "custom-property": "custom property", "variable": "document variable",
  "mail-merge": "source of a mail merge", "external": "link out of the file", "embedded": "embedded file", "macros": "macros",
  "custom-xml": "custom XML data", "name": "name of an author at another place",
};

/** @param {{ fact: string, part: string, count: number, value: string }[]} found */
function remainsTable(found) {
  const heads = ["What", "#How many", "Name or value", "Part of the file"];
  const value = (/** @type {string} */ textContent) => make("bdi", { className: "who", textContent });
  return table("", heads, found.map((it) => [FACTS[it.fact] ?? "change: " + KINDS[it.fact], it.count, value(it.value), it.part]));
}

/** Shows what the document would hold if it were written now, as it is chosen beside. */
async function showRemains() {
  element("remains").replaceChildren();
  await writeAsChosen();
  const { out } = await called(["left", WRITTEN, "--format", "json"]);
  const found = JSON.parse(out);
  if (found.length) element("remains").replaceChildren(remainsTable(found));
  return found.length ? "This is in the document that “Save the document” would write now." : "Nothing of that kind is in the document that “Save the document” would write now.";
}

function prepareRemains() {
  element("show-remains").addEventListener("click", saves("remains-told", showRemains));
}
