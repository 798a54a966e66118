// The three views of the document, and what becomes of it in those without marks.

const views = make("fieldset", {}, make("legend", { textContent: "View" }), ...["marks", "final", "original"].map((value) =>
  make("label", {}, make("input", { type: "radio", name: "view", value, checked: value === "marks" }), value)));

// The elements with lists in which something may be joined or go, their lists, and the groups that are joined in a list, by
// their first paragraph.
let withLists = new Set();
const listsOf = new Map();
const joinedOf = new Map();

views.addEventListener("change", ({ target }) => seeAs(target.value));

function viewNow() {
  return document.body.dataset.view;
}

function seeAs(view) {
  document.body.dataset.view = view;
  seeParts();
  if (view === "marks") Array.from(joinedOf.keys(), takeApart);
  else {
    withLists = new Set(Array.from(main.querySelectorAll(".mark, .row, .cell"), listedElement));
    seeLists(withLists);
  }
  captionView();
  seeNumbers();
}

// The element whose lists a change may change.
function listedElement(member) {
  const block = member.closest(member.matches(".row, .cell") ? "table" : "p, .p") || member;
  return block.parentElement.closest("td, .box, section");
}

function seeLists(elements) {
  for (const it of elements) {
    if (!listsOf.has(it)) listsOf.set(it, listsIn(it));
    for (const list of listsOf.get(it)) seeList(list, REST[viewNow()]);
  }
}

// Shows what both passes leave of a list.
function seeList(list, rest) {
  const { left, doubts } = leftOf(list, rest);
  const stay = new Set(left.flat());
  for (const node of list) {
    if (isElement(node, "table")) seeTable(node, rest);
    if (!isElement(node, PARAGRAPH)) continue;
    node.classList.toggle("gone", !stay.has(node));
    node.classList.toggle("doubt", doubts.has(node));
  }
  seeJoined(list, left.filter((group) => group.filter((it) => isElement(it, PARAGRAPH)).length > 1));
}

function seeTable(table, rest) {
  const [first, second] = passes(rest);
  const goes = goesBy((member) => cuts(member, first(member) || second(member)));
  table.classList.toggle("gone", goes.table(table));
  for (const row of table.rows) {
    const its = [row, ...row.cells];
    for (const it of its) {
      const members = membersOf(it);
      it.classList.toggle("gone", (it === row ? goes.row : goes.cell)(it));
      it.classList.toggle("undecided", members.some((member) => !first(member)));
    }
  }
}

// Joined paragraphs stand in one element that looks like the last of them.

function seeJoined(list, groups) {
  const former = joinedOf.get(list) || new Map();
  const wanted = new Map(groups.map((group) => [group[0], group]));
  for (const [start, it] of former) if (!isSame(it.group, wanted.get(start))) undoJoin(it), former.delete(start);
  for (const [start, group] of wanted) if (!former.has(start)) former.set(start, join(group));
  joinedOf.set(list, former);
}

function isSame(one, other) {
  return other !== undefined && one.length === other.length && one.at(-1) === other.at(-1);
}

// What is between the paragraphs goes in with them, but for line ends of the page itself. Some come from a part that is behind,
// and some go back to one that isn't, so what they show is drawn anew.
function join(group) {
  const last = group.at(-1);
  const around = make("div", { className: "joined" });
  const froms = new Map();
  group[0].before(around);
  for (const node of group.filter((it) => it.nodeType !== Node.TEXT_NODE)) {
    const parent = node.parentNode;
    froms.set(parent, [...(froms.get(parent) || []), node]);
    around.append(node);
    unhead(node);
  }
  if (last.dataset.style) around.dataset.style = last.dataset.style;
  around.dir = last.dir;
  head(around);
  drawIn(around);
  return { group, around, froms };
}

function undoJoin({ group, around, froms }) {
  drawIn(around);
  const [[, ahead], ...others] = Array.from(froms);
  around.replaceWith(...ahead);
  for (const [parent, nodes] of others) parent.prepend(...nodes);
  group.filter((it) => isElement(it, PARAGRAPH)).forEach(head);
}

function takeApart(list) {
  joinedOf.get(list).forEach(undoJoin);
  joinedOf.delete(list);
}

// What a view shows, in a line above the document.

const viewLine = make("p", { id: "view-line", role: "status" });

const SEEN_AS = { final: ["The text that is written once the rest is accepted", "accepted"], original: ["The text that is written once the rest is rejected", "rejected"] };

function captionView() {
  const [text, rest] = SEEN_AS[viewNow()] || [];
  const verdicts = text ? rows.map((_, at) => verdictAt(at)) : [];
  const [open, disputed] = ["open", "disputed"].map((it) => verdicts.filter((verdict) => verdict === it).length);
  const some = [open ? open + " open" : "", disputed ? disputed + " disputed" : ""].filter(Boolean).join(" and ");
  viewLine.textContent = !text ? "" : text + ". " + (some ? "Tinted: " + some + ", shown as " + rest + "." : "All is decided.") +
    (!text || main.querySelector("[data-story]") ? "" : " Around content controls paragraphs may be joined otherwise.") +
    (main.querySelector(".doubt") ? " Where it isn't known whether an empty paragraph stays, it says so." : "") +
    (!text || isCounting ? "" : " The numbers of clauses are shown with marks alone.");
}
