// Edits: changes that were one act are one row of the list, with one decision. It opens to its single changes, which are decided,
// undone, filtered and counted one by one as ever.

const together = make("input", { type: "checkbox", id: "together", checked: true });
// The places of each edit of several changes, by the place of each of them.
const editAt = rows.map(() => null);
const opened = new Set();
const editRows = new Map();

for (const edit of gatheredBy(rows.map((row) => row.dataset.edit))) if (edit.length > 1) for (const at of edit) editAt[at] = edit;

// Places with one value, together.
function gatheredBy(values) {
  const found = new Map();
  values.forEach((value, at) => {
    if (value === undefined) return;
    if (found.has(value)) found.get(value).push(at);
    else found.set(value, [at]);
  });
  return found.values();
}

// Lines of the list: the place of a change that has its own row, and for the row of an edit the complement of its first place.

function isEditLine(line) {
  return line < 0;
}

// The lines for these places, which ascend: an edit of which several changes are shown is one, and those of an open one follow it.
function linesFor(places) {
  if (!together.checked) return places;
  const lines = [];
  const met = new Set();
  for (const at of places) {
    const edit = editAt[at];
    if (!edit) lines.push(at);
    if (!edit || met.has(edit)) continue;
    met.add(edit);
    const shown = edit.filter(isShown);
    if (shown.length > 1) lines.push(~edit[0]);
    if (shown.length === 1 || opened.has(edit)) for (const it of shown) lines.push(it);
  }
  return lines;
}

// The places of a line: of an edit those that the filter leaves.
function placesOfLine(line) {
  return isEditLine(line) ? editAt[~line].filter(isShown) : [line];
}

function rowOfLine(line) {
  if (!isEditLine(line)) return rows[line];
  if (!editRows.has(~line)) editRows.set(~line, make("li", { id: "edit-" + (~line + 1), className: "edit" }));
  return editRows.get(~line);
}

function lineOfRow(row) {
  return row.matches(".edit") ? ~(Number(row.id.slice("edit-".length)) - 1) : numberOf(row) - 1;
}

// The line in which a change is shown now.
function lineAt(at) {
  const edit = together.checked ? editAt[at] : null;
  return edit && !opened.has(edit) && edit.filter(isShown).length > 1 ? ~edit[0] : at;
}

function isOpenLine(line) {
  return isEditLine(line) && opened.has(editAt[~line]);
}

// Whether a line has a change of which this holds. Those of an open edit have lines of their own.
function lineHolds(line, holds) {
  return isEditLine(line) ? !isOpenLine(line) && placesOfLine(line).some(holds) : holds(line);
}

// The line of the edit that a row is of, or that of its change where that is one by itself.
function editLineOf(row) {
  const line = lineOfRow(row);
  return isEditLine(line) || !editAt[line] || !lineIndex.has(~editAt[line][0]) ? line : ~editAt[line][0];
}

// Opens an edit, or closes it.
function openLine(line) {
  if (!isEditLine(line)) return tell("Change " + (line + 1) + " stands by itself.");
  const edit = editAt[~line];
  if (!opened.delete(edit)) opened.add(edit);
  showAnew();
  if (current) current.focus({ preventScroll: true });
}

// Chooses a change in its own row: an edit that is closed is opened for it.
function chooseChange(at) {
  if (isEditLine(lineAt(at))) openLine(lineAt(at));
  choose(rows[at]);
}

// The row of an edit

function fillEdit(row) {
  if (row.hasAttribute("tabindex")) return;
  row.tabIndex = -1;
  const line = lineOfRow(row);
  const places = placesOfLine(line);
  const [first] = places;
  const { author, date } = rows[first].dataset;
  row.dataset.author = author;
  set(row, "verdict", places.every((at) => verdictsOf[at] === verdictsOf[first]) ? verdictsOf[first] : "");
  row.replaceChildren(
    make("p", { className: "head" },
      make("span", {}, make("b", { textContent: rangesInWords(places) }), " " + editInWords(places) + " by ", whoOf(first), date === "-" ? "" : ", " + date.slice(0, 10)),
      make("span", { className: "verdict", textContent: commonVerdict(places) })),
    ...[["clause", clausesOf], ["place", placeNames], ["changed", changesOf]].flatMap(([className, said]) =>
      distinct(places.map((at) => said[at])).slice(0, className === "changed" ? 3 : 1).map((text) => make("p", { className }, make("bdi", { textContent: text })))),
    excerptOf(places),
    ...saysOnAll(places),
    ...remarksInRow(places),
    make("p", { className: "differing" }),
    make("div", { className: "buttons", role: "group", ariaLabel: "Edit of " + places.length + " changes" },
      ...(places.every((at) => lockedAt[at]) ? [] : Object.keys(LETTERS).map((value) => make("button", { type: "button", value, textContent: value }))),
      make("button", { type: "button", className: "open-edit", ariaExpanded: String(isOpenLine(line)), textContent: many(places.length, "change") })));
  pressEdit(row);
}

function distinct(texts) {
  return Array.from(new Set(texts)).filter((it) => it);
}

// Numbers as ranges, a few at most.
function rangesInWords(places) {
  const ranges = [];
  for (const at of places) {
    const last = ranges.at(-1);
    if (last && last[1] === at) last[1] = at + 1;
    else ranges.push([at + 1, at + 1]);
  }
  return ranges.slice(0, 3).map(([from, to]) => (from === to ? from : from + "\u2013" + to)).join(", ") + (ranges.length > 3 ? " \u2026" : "");
}

// What an edit does, in words: a replacement, or how many there are of each kind.
function editInWords(places) {
  const kinds = counted(places.map((at) => kindsOf[at]));
  if (kinds.length === 2 && kinds.every(([kind, count]) => count === 1 && (kind === "ins" || kind === "del"))) return "replaced";
  return kinds.map(([kind, count]) => (count > 1 ? count + " \u00d7 " : "") + KINDS[kind]).join(", ");
}

function commonVerdict(places) {
  const verdicts = distinct(places.map((at) => verdictsOf[at]));
  return verdicts.length > 1 ? "verdicts differ" : verdicts[0] === "open" ? "" : DONE[verdicts[0]] || verdicts[0];
}

// What reviewers say in the journals of this page, each said once, with how many of the changes it is on.
function saysOnAll(places) {
  const said = places.flatMap((at) => saysOn(at).map((it) => JSON.stringify(it)));
  return counted(said).map(([text, count]) => {
    const { who, word, rank } = JSON.parse(text);
    return make("p", { "data-word": word }, isolated(who), ": " + DONE[word] + (rank ? " with rank " + rank : "") + (count < places.length ? " on " + count + " of " + places.length : ""));
  });
}

// Shows what is decided of an edit: on its buttons where it is one word, and in words where its changes differ.
function pressEdit(row) {
  if (!row.hasAttribute("tabindex")) return;
  const places = placesOfLine(lineOfRow(row)).filter((at) => !lockedAt[at]);
  const found = new Map(counted(places.map((at) => words[at])));
  const all = [...Object.keys(DONE), ""].filter((it) => found.has(it)).map((it) => [it, found.get(it)]);
  for (const button of row.querySelectorAll("button[value]")) {
    const count = places.filter((at) => words[at] === button.value).length;
    button.ariaPressed = count === 0 ? "false" : count === places.length ? "true" : "mixed";
    if (button.value === "withdraw") button.disabled = !places.some((at) => words[at] === "withdraw" || hasEarlier(at));
  }
  set(row, "say", all.length === 1 ? all[0][0] : "");
  const locked = placesOfLine(lineOfRow(row)).length - places.length;
  row.querySelector(".differing").textContent =
    (all.length > 1 ? "Its changes differ: " + all.map(([word, count]) => count + " " + (DONE[word] || "not decided")).join(", ") + "." : "") +
    (locked ? (all.length > 1 ? " " : "") + many(locked, "change") + " locked." : "");
}

// What a button or a key does with an edit: its word on all that isn't decided, or, where all is decided, on all; none where all have
// that word already. Where words that differ would be replaced the reviewer is asked.
async function decideEdit(row, word) {
  const line = lineOfRow(row);
  const name = "Edit " + rangesInWords(placesOfLine(line));
  if (!lineIndex.has(line)) return tell("This edit is hidden by the filter: the key j goes to the next one.");
  const open = placesOfLine(line).filter((at) => !lockedAt[at]);
  if (!open.length) return tell(name + " is locked.");
  const places = word === "withdraw" ? open.filter((at) => words[at] === word || hasEarlier(at)) : open;
  if (!places.length) return tell(nothingToWithdraw(name));
  const isTaken = places.every((at) => words[at] === word);
  const undecided = places.filter((at) => !words[at]);
  const other = places.filter((at) => words[at] && words[at] !== word);
  if (!undecided.length && new Set(places.map((at) => words[at])).size > 1 && (await askToReplace(word, other, [])) !== "all") return tell("Nothing was changed.");
  const next = isTaken ? "" : word;
  const chosen = undecided.length ? undecided : isTaken ? places : other;
  act("edit of " + chosen.length + " " + (DONE[next] || "not decided"), chosen.map((at) => [at, next]));
  tell(name + ": " + many(chosen.length, "change") + " " + (DONE[next] || "not decided") + "." + (undecided.length && undecided.length < places.length ? " The others keep their words." : ""));
  if (next && advance.checked) goOn(line);
}
