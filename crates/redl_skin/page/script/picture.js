// How words and verdicts are shown: on the row of a change, on its buttons, and on its elements in the document.

// Places whose words changed since they were drawn.
let undrawn = new Set();

function redraw(at) {
  if (!undrawn.size) queueMicrotask(drawWords);
  undrawn.add(at);
}

function redrawAll() {
  for (const at of rows.keys()) redraw(at);
}

function drawWords() {
  const now = Array.from(undrawn);
  undrawn = new Set();
  const edits = new Set(now.map((at) => editAt[at]).filter((it) => it && editRows.has(it[0])));
  for (const at of now) {
    set(rows[at], "say", words[at]);
    press(rows[at]);
    placesAt(at).forEach(drawWhereNear);
  }
  for (const it of edits) pressEdit(editRows.get(it[0]));
  followSoon();
  if (viewNow() === "marks") return;
  const touched = new Set(now.flatMap((at) => placesAt(at).map(listedElement)));
  seeLists(Array.from(touched).filter((it) => withLists.has(it)));
  captionView();
  numberSoon();
}

// What is far from sight is drawn when its part catches up.
function drawWhereNear(place) {
  const part = partOf(place);
  if (isNear(part)) draw(place);
  else behind.add(part);
}

function drawIn(root) {
  root.querySelectorAll("[data-revision]").forEach(draw);
}

// Shows on an element of a change its word, and in a view without marks its verdict.
function draw(place) {
  const at = placeOf(place);
  set(place, "say", words[at]);
  if (viewNow() === "marks") return;
  const verdict = verdictAt(at);
  set(place, "verdict", verdict === "open" ? "" : verdict);
}

function set(element, key, value) {
  const name = "data-" + key;
  if ((element.getAttribute(name) || "") === value) return;
  if (value) element.setAttribute(name, value);
  else element.removeAttribute(name);
}
