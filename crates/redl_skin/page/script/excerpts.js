// Excerpts: what a change is about, in a few words, with the changes around it.

const NO_WORDS = "a, details, sup, .picture, .mark, .row, .cell, .props";

// The texts of a block on one side of a place, or inside it, until there are so many characters: each with the change that
// it stands in, and whether it is hidden.
function piecesFrom(walker, next, isIn, most) {
  const pieces = [];
  for (let node = walker[next](), length = 0; node && isIn(node) && length < most; node = walker[next]()) {
    const other = node.parentElement.closest(NO_WORDS);
    if (other && walker.root.contains(other)) continue;
    pieces.push({ text: node.data.replace(/[\t\n ]+/g, " "), change: changeOf(node, walker.root), isHidden: node.parentElement.closest(".hidden") !== null });
    length += pieces.at(-1).text.length;
  }
  return pieces;
}

// Text in an insertion that is deleted is deleted.
function changeOf(node, block) {
  const change = node.parentElement.closest("del.text") || node.parentElement.closest("ins.text");
  return change && block.contains(change) ? change : null;
}

// The pieces of the block around a place: before it, in it, and behind it.
function piecesAround(place) {
  const block = place.closest("p, .p, td, section");
  const walker = document.createTreeWalker(block, NodeFilter.SHOW_TEXT);
  walker.currentNode = place;
  const before = piecesFrom(walker, "previousNode", () => true, 48).reverse();
  walker.currentNode = place;
  const inside = piecesFrom(walker, "nextNode", (node) => place.contains(node), 160);
  walker.currentNode = lastIn(place);
  return [before, inside, piecesFrom(walker, "nextNode", () => true, 48)];
}

function lastIn(node) {
  let last = node;
  while (last.lastChild) last = last.lastChild;
  return last;
}

// So many characters of pieces, from the start or from the end, cut at a space.
function cutPieces(pieces, most, isFromEnd = false) {
  let left = most;
  const kept = [];
  for (const piece of isFromEnd ? [...pieces].reverse() : pieces) {
    const { text } = piece;
    const cut = text.length <= left ? text : isFromEnd ? "\u2026" + text.slice(-left).replace(/^\S*\s/, "") : text.slice(0, left).replace(/\s\S*$/, "") + "\u2026";
    kept.push({ ...piece, text: cut });
    left -= text.length;
    if (left <= 0) break;
  }
  return isFromEnd ? kept.reverse() : kept;
}

// A piece as it looks in the document: inserted, deleted, or neither, and hidden or not.
function shownPiece({ text, change, isHidden }) {
  const className = isHidden ? "hidden" : "";
  return change ? make(change.localName, { className, "data-author": change.dataset.author }, ...signed(text)) : make("span", { className }, ...signed(text));
}

function textOf(pieces) {
  return pieces.map((it) => it.text).join("");
}

// The row, cell or table that a change is about.
function wholeOf(place) {
  if (place.matches(".row, .edge > .props")) return place.closest("tr");
  if (place.matches(".cell, td > .props")) return place.closest("td");
  return place.matches("caption > .props") ? place.closest("table") : null;
}

// What changes are about: their own words between those around them, or the texts of a row, a cell or a table.
function excerptOf(changes) {
  const found = changes.slice(0, 100).flatMap(placesAt);
  const place = found.find((it) => it.matches(".row")) || found.find((it) => it.matches("del.text, ins.text")) || found.find((it) => it.matches("del, ins")) || found[0];
  const made = make("p", { className: "words" });
  if (!place) return made;
  const whole = wholeOf(place);
  const sign = place.matches(".mark") ? "\u00b6" : place.matches(".props") ? "\u258e" : "\u2026";
  if (whole) {
    const texts = Array.from(whole.querySelectorAll("p, .p")).slice(0, 20).map((it) => textOf(piecesAround(it)[1]));
    const words = signed(cut(texts.join(" | "), 120) || "empty");
    made.append(...(place.matches(".props") ? [make("span", { className: "own" }, sign), ...words] : [make(place.localName, { className: "own" }, ...words)]));
    return made;
  }
  const [before, inside, after] = piecesAround(place);
  const words = textOf(inside).trim() ? cutPieces(inside, 120).map((it) => (it.change === place ? { ...it, change: null } : it)) : [{ text: sign }];
  const own = new Set(changes.map((at) => String(at + 1)));
  const shown = (pieces) => pieces.map((it) => {
    const piece = shownPiece(it);
    if (it.change && own.has(it.change.dataset.revision)) piece.classList.add("own");
    return piece;
  });
  made.append(...shown(cutPieces(before, 32, true)),
    make(place.localName, { className: "own" }, ...words.map(shownPiece)),
    ...shown(cutPieces(after, changes.length > 1 ? 90 : 32)));
  return made;
}

function cut(text, length) {
  return text.length > length ? text.slice(0, length).replace(/\s\S*$/, "") + "\u2026" : text;
}
