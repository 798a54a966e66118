// The change or the edit that is chosen, and the ways to the next one.

let current = null;
let markedCurrent = [];

// Makes a row the current one: it has the keyboard, and it and its places in the document are shown.
function choose(row, isFromDocument) {
  makeCurrent(row);
  reach(row);
  row.focus({ preventScroll: true });
  if (!isFromDocument) showPlace(row);
}

function makeCurrent(row) {
  for (const it of markedCurrent) it.removeAttribute("aria-current");
  current = row;
  markedCurrent = [row, ...placesOf(row)];
  for (const it of markedCurrent) it.setAttribute("aria-current", "true");
}

// Where an edit was opened or closed, or the filter leaves one of its changes alone, what is chosen stays chosen in its new row.
function followCurrent() {
  if (!current) return;
  const line = lineOfRow(current);
  if (lineIndex.has(line)) return makeCurrent(current);
  const at = (isEditLine(line) ? editAt[~line] : [line]).find(isShown);
  if (at !== undefined) makeCurrent(rowOfLine(lineAt(at)));
}

// The index of the line from which the next one is sought in a direction: that of the one chosen, or its place among the others.
function here(by) {
  if (!current) return by < 0 ? lines.length : -1;
  const line = lineOfRow(current);
  if (lineIndex.has(line)) return lineIndex.get(line);
  const at = isEditLine(line) ? ~line : line;
  const next = lines.findIndex((it) => (isEditLine(it) ? ~it : it) > at);
  return (next < 0 ? lines.length : next) - (by > 0 ? 1 : 0);
}

// The next line from an index of which this holds, round the end of the list; null where there is none.
function nextLine(from, by, holds) {
  for (let count = 1; count <= lines.length; count += 1) {
    const line = lines[(from + by * count + lines.length * 2) % lines.length];
    if (lineHolds(line, holds)) return line;
  }
  return null;
}

function step(by) {
  const next = lines[here(by) + by];
  if (next !== undefined) choose(rowOfLine(next));
}

// Goes to the next change of some sort, or says that there is none.
function seek(by, holds, sort) {
  const line = nextLine(here(by), by, holds);
  if (line === null) return tell("No change that is shown is " + sort + ".");
  choose(rowOfLine(line));
  tell(isEditLine(line) ? "Edit " + rangesInWords(placesOfLine(line)) + " has a change that is " + sort + "." : "Change " + (line + 1) + " is " + sort + ".");
}

function isDisputed(at) {
  return verdictsOf[at] === "disputed";
}

function differs(at) {
  return against(at).length > 0;
}
