// The list of changes. It holds the rows near sight alone, in the place of all that a filter leaves, with room for the rest
// above and below. A row is that of a change, or of an edit.

const HELD = 160;
const room = [make("li", { className: "room", role: "none" }), make("li", { className: "room", role: "none" })];

// The lines of the list for the places that are shown, where each is, whether a place is shown, and which lines are held.
let lines = [];
const lineIndex = new Map();
let isShownAt = new Uint8Array(rows.length);
let held = { first: 0, end: 0 };
let rowHeight = 120;

function numberOf(row) {
  return Number(row.id.slice("revision-".length));
}

// Puts into a row what is read and pressed there, once.
function fill(row) {
  if (row.hasAttribute("tabindex")) return;
  row.tabIndex = -1;
  const at = numberOf(row) - 1;
  const { date, verdict } = row.dataset;
  row.prepend(
    make("p", { className: "head" },
      make("span", {}, make("b", { textContent: at + 1 }), " " + KINDS[kindsOf[at]] + " by ", whoOf(at), date === "-" ? "" : ", " + date.slice(0, 10)),
      make("span", { className: "verdict", textContent: verdict === "open" ? "" : DONE[verdict] || verdict })),
    ...row.querySelectorAll(":scope > :is(.clause, .place)"),
    excerptOf([at]));
  const said = saysOn(at);
  row.querySelectorAll(":scope > p[data-word]").forEach((it, place) => nameApart(it, said[place].who));
  row.append(...remarksInRow([at]), lockedAt[at] ? make("p", { className: "locked", textContent: "Locked: this change can't be decided here." }) :
    make("div", { className: "buttons", role: "group", ariaLabel: "Change " + (at + 1) },
      ...Object.keys(LETTERS).map((value) => make("button", { type: "button", value, textContent: value }))));
  press(row);
}

// The name of who spoke has its own direction, and is spelled out.
function nameApart(said, who) {
  const name = said.querySelector("bdi");
  if (name) return name.replaceWith(isolated(who));
  said.replaceChildren(isolated(who), ": " + DONE[said.dataset.word] + (said.dataset.rank === "0" ? "" : " with rank " + said.dataset.rank));
}

function whoOf(at) {
  return make("span", { className: "who" }, isolated(authorsOf[at]));
}

// Shows in a row, where it is filled, which of its buttons is pressed. A word can be withdrawn only where there is one.
function press(row) {
  if (!row.hasAttribute("tabindex")) return;
  const at = numberOf(row) - 1;
  for (const button of row.querySelectorAll("button")) {
    button.ariaPressed = String(button.value === words[at]);
    if (button.value === "withdraw") button.disabled = words[at] !== "withdraw" && !hasEarlier(at);
  }
}

function pressAll() {
  rows.forEach(press);
  for (const it of editRows.values()) pressEdit(it);
}

// Which rows are shown

function isShown(at) {
  return isShownAt[at] === 1;
}

// Shows the rows at these places, which ascend, and no others. The list stays at the change that is chosen.
function showRows(places) {
  isShownAt = new Uint8Array(rows.length);
  for (const at of places) isShownAt[at] = 1;
  makeLines(places);
  const from = current && lineIndex.has(lineOfRow(current)) ? lineIndex.get(lineOfRow(current)) : 0;
  hold(from);
  list.scrollTop = 0;
  if (from) current.scrollIntoView({ block: "center" });
}

function makeLines(places) {
  lines = Array.from(linesFor(places));
  lineIndex.clear();
  lines.forEach((line, index) => lineIndex.set(line, index));
  for (const it of editRows.values()) it.removeAttribute("tabindex");
  followCurrent();
}

// Shows the same changes, where an edit was opened or closed, or edits have rows now or none.
function showAnew() {
  makeLines(allPlaces().filter(isShown));
  hold(current && lineIndex.has(lineOfRow(current)) ? lineIndex.get(lineOfRow(current)) : held.first + HELD / 2);
}

// Holds the rows around one of the shown, and keeps in place what is seen of them.
function hold(index) {
  const first = Math.max(0, Math.min(index - HELD / 2, lines.length - HELD));
  const end = Math.min(lines.length, first + HELD);
  const wanted = lines.slice(first, end).map(rowOfLine);
  const kept = new Set(wanted);
  const seen = Array.from(list.children).find((it) => kept.has(it) && it.offsetTop + it.offsetHeight > list.scrollTop);
  const before = seen ? seen.getBoundingClientRect().top : 0;
  wanted.forEach((row, place) => fillLine(row, lines[first + place]));
  for (const row of Array.from(list.children)) if (!kept.has(row) && !room.includes(row)) row.remove();
  let next = room[1].parentNode ? room[1] : null;
  for (const row of wanted.reverse()) {
    if (row.parentNode !== list || row.nextSibling !== next) list.insertBefore(row, next);
    next = row;
  }
  held = { first, end };
  measure();
  if (seen) list.scrollTop += seen.getBoundingClientRect().top - before;
}

// Gives the rows that aren't held their room, as high as those that are.
function measure() {
  const count = held.end - held.first;
  if (count === lines.length) return room.forEach((it) => it.remove());
  const [first, last] = [rowOfLine(lines[held.first]), rowOfLine(lines[held.end - 1])];
  rowHeight = Math.max(40, (last.offsetTop + last.offsetHeight - first.offsetTop) / count);
  list.prepend(room[0]);
  list.append(room[1]);
  room[0].style.height = held.first * rowHeight + "px";
  room[1].style.height = (lines.length - held.end) * rowHeight + "px";
  for (let at = held.first; at < held.end; at += 1)
    Object.assign(rowOfLine(lines[at]), { ariaSetSize: lines.length, ariaPosInSet: at + 1 });
}

// Holds other rows where the list was moved to an end of those that it holds.
function follow() {
  if (held.end - held.first === lines.length) return;
  const top = list.scrollTop - room[0].offsetHeight;
  const bottom = room[1].offsetTop - list.scrollTop - list.clientHeight;
  const isOutside = top < -list.clientHeight || bottom < -list.clientHeight;
  if (isOutside) hold(Math.round(list.scrollTop / rowHeight));
  else if (top < list.clientHeight && held.first > 0) hold(held.first + HELD / 4);
  else if (bottom < list.clientHeight && held.end < lines.length) hold(held.end - HELD / 4);
}

// Fills the row of a line. The changes of an edit that is open are set in.
function fillLine(row, line) {
  if (isEditLine(line)) return fillEdit(row);
  fill(row);
  row.classList.toggle("of-edit", editAt[line] !== null && opened.has(editAt[line]) && lineIndex.has(~editAt[line][0]));
}

// Brings a row that is shown into sight.
function reach(row) {
  const line = lineOfRow(row);
  fillLine(row, line);
  if (!lineIndex.has(line)) return;
  if (row.parentNode !== list) hold(lineIndex.get(line));
  row.scrollIntoView({ block: "nearest" });
}

function watchRows() {
  list.replaceChildren();
  list.addEventListener("scroll", follow, { passive: true });
  addEventListener("resize", measure);
}
