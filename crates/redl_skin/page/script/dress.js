// What a part of the document gets once it is nearly seen: signs for what can't be seen, and what a screen reader is told.

const ROLES = { TABLE: "table", TBODY: "rowgroup", TR: "row", TD: "cell" };
const dressed = new WeakSet();

function dress(part) {
  if (dressed.has(part)) return;
  dressed.add(part);
  showUnseen(part);
  for (const it of part.querySelectorAll("table, tbody, tr, td")) it.setAttribute("role", ROLES[it.tagName]);
  for (const it of part.querySelectorAll("[data-revision]")) describe(it);
}

// A change in the text says what it is and whose, and can have the keyboard.
function describe(place) {
  const at = placeOf(place);
  const words = wordsOfChange(at);
  if (!place.matches("a")) place.tabIndex = -1;
  place.title = words;
  if (!place.matches(".props, .mark, .row, .cell")) return;
  place.setAttribute("role", "img");
  place.ariaLabel = words;
}

function wordsOfChange(at) {
  const { date } = rows[at].dataset;
  const kind = KINDS[kindsOf[at]] + (changesOf[at] && " (" + spelled(changesOf[at]) + ")");
  const where = [clausesOf[at], placeNames[at]].filter((it) => it).map((it) => ", " + spelled(it)).join("");
  const said = threadsOn([at]).flatMap(threadOf).length;
  return "Change " + (at + 1) + where + ": " + kind + " by " + spelled(authorsOf[at] || "no name") + (date === "-" ? "" : ", " + date.slice(0, 10)) + (said ? ", " + many(said, "comment") : "");
}
