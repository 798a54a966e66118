// Comments: a sign at the place of each, which opens what was said there; the comments on a change in its row; and by themselves those
// that are nowhere in the text.

const remarks = takenItems("ul.remarks").flat().map(({ dataset, textContent }, place) => ({
  place, id: dataset.remark, who: dataset.author, date: dataset.date.slice(0, 10), reply: dataset.reply, isDone: dataset.done === "yes", text: textContent,
}));
const remarkById = new Map();
for (const it of remarks) if (!remarkById.has(it.id)) remarkById.set(it.id, it);
// The places of each comment in the text, by its id: where it begins and ends, and its sign.
const remarkStarts = new Map();
const remarkEnds = new Map();
const remarkSigns = new Map();
const threads = new Map();

// The first comment of the thread of one.
function threadRoot(remark) {
  const met = new Set();
  let root = remark;
  while (root.reply !== undefined && remarkById.has(root.reply) && !met.has(root)) {
    met.add(root);
    root = remarkById.get(root.reply);
  }
  return root;
}

function placeRemarks() {
  for (const it of remarks) {
    const root = threadRoot(it);
    threads.set(root, [...(threads.get(root) || []), it]);
  }
  for (const [selector, found] of [[".remark-start", remarkStarts], [".remark-end", remarkEnds], ["sup.remark", remarkSigns]])
    for (const it of main.querySelectorAll(selector + "[data-remark]"))
      if (remarkById.has(it.dataset.remark) && !found.has(it.dataset.remark)) found.set(it.dataset.remark, it);
  for (const it of remarks) if (remarkById.get(it.id) === it) signRemark(it);
  for (const it of main.querySelectorAll(".remark-own[data-remark]")) if (remarkById.has(it.dataset.remark)) it.append(...headOfRemark(remarkById.get(it.dataset.remark)), ...wayTo(remarkById.get(it.dataset.remark)));
  listOrphans();
}

function isPlaced({ id }) {
  return remarkStarts.has(id) || remarkEnds.has(id) || remarkSigns.has(id);
}

// A comment whose range is there and whose reference isn't gets a sign at its end. An answer has none of its own where what it answers
// has one.
function signRemark(remark) {
  if (!isPlaced(remark)) return;
  const root = threadRoot(remark);
  if (root !== remark && isPlaced(root)) return;
  if (!remarkSigns.has(remark.id)) {
    const made = make("sup", { className: "remark" });
    (remarkEnds.get(remark.id) || remarkStarts.get(remark.id)).after(made);
    remarkSigns.set(remark.id, made);
  }
  const said = threadOf(remark).map(remarkInWords).join("; ");
  const button = make("button", { type: "button", className: "remark-sign", value: remark.place, textContent: "c" + (remark.place + 1), ariaExpanded: "false", ariaLabel: said, title: said });
  if (threadOf(remark).every((it) => it.isDone)) button.classList.add("done");
  remarkSigns.get(remark.id).append(button);
}

// A comment with the answers to it, in their order.
function threadOf(remark) {
  return threads.get(threadRoot(remark)) || [remark];
}

// Words

function remarkInWords(remark) {
  const name = remark.reply === undefined ? "Comment " + (remark.place + 1) : "Answer";
  return name + " by " + (spelled(remark.who) || "no name") + (remark.date ? ", " + remark.date : "") + (remark.isDone ? ", done" : "") + ": " + spelled(remark.text);
}

function headOfRemark(remark) {
  const answered = remarkById.get(remark.reply);
  return ["Comment " + (remark.place + 1) + " by ", make("strong", {}, isolated(remark.who)), (remark.date ? ", " + remark.date : "") + (remark.isDone ? ", done" : "") +
    (answered ? ", an answer to comment " + (answered.place + 1) : "")];
}

function shownRemark(remark) {
  return make("span", { className: "remark-said" + (remark.reply === undefined ? "" : " answer") + (remark.isDone ? " done" : "") },
    ...headOfRemark(remark), ": ", make("span", { className: "remark-text" }, ...signed(remark.text)));
}

// A button that leads to the sign of a comment, where it has one.
function wayTo(remark) {
  const root = isPlaced(threadRoot(remark)) ? threadRoot(remark) : remark;
  if (!isPlaced(root)) return [];
  return [" ", make("button", { type: "button", className: "remark-way", value: root.place, textContent: "show its place", ariaLabel: "Show the place of comment " + (remark.place + 1) })];
}

// What is pressed

function openRemark(button) {
  const isOpen = button.ariaExpanded === "true";
  closeRemarks();
  if (isOpen) return;
  button.ariaExpanded = "true";
  button.after(make("span", { className: "remark-box", role: "group", ariaLabel: "Comment" }, ...threadOf(remarks[button.value]).map(shownRemark)));
}

function closeRemarks() {
  for (const it of main.querySelectorAll(".remark-box")) it.remove();
  for (const it of main.querySelectorAll(".remark-sign[aria-expanded=true]")) it.ariaExpanded = "false";
}

function goToRemark(button) {
  const sign = remarkSigns.get(remarks[button.value].id).querySelector("button");
  goToElement(sign);
  if (sign.ariaExpanded === "false") openRemark(sign);
}

// What a comment is on is tinted while its sign has the keyboard, where the browser can tint a range.
function tintRemark(button) {
  if (!window.Highlight) return;
  const { id } = remarks[button.value] || {};
  const [start, end] = [remarkStarts.get(id), remarkEnds.get(id)];
  CSS.highlights.delete("remark");
  if (!start || !end) return;
  const range = new Range();
  range.setStartAfter(start);
  range.setEndBefore(end);
  if (!range.collapsed) CSS.highlights.set("remark", new Highlight(range));
}

function clearTint() {
  if (window.Highlight) CSS.highlights.delete("remark");
}

// The comments on changes

// The threads that are on the changes at these places, each by its first comment.
function threadsOn(places) {
  const ids = new Set(places.flatMap((at) => (rows[at].dataset.remarks || "").split(" ")));
  return Array.from(new Set(Array.from(ids).filter((it) => remarkById.has(it)).map((it) => threadRoot(remarkById.get(it)))));
}

function remarksInRow(places) {
  const found = threadsOn(places);
  if (!found.length) return [];
  const all = found.flatMap(threadOf);
  return [make("details", { className: "remarks", open: !all.every((it) => it.isDone) }, make("summary", { textContent: many(all.length, "comment") + (all.every((it) => it.isDone) ? ", done" : "") }),
    ...found.map((root) => make("p", {}, ...threadOf(root).map(shownRemark), ...wayTo(root))))];
}

function listOrphans() {
  const orphans = remarks.filter((it) => !threadOf(it).some(isPlaced));
  if (!orphans.length) return;
  main.append(make("section", { className: "orphans" }, make("h2", { textContent: "Comments that are nowhere in the text" }),
    make("ul", {}, ...orphans.map((it) => make("li", {}, shownRemark(it))))));
}

main.addEventListener("focusin", ({ target }) => target.matches(".remark-sign") && tintRemark(target));
main.addEventListener("focusout", clearTint);
