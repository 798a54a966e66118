// Filters: which rows are shown.

function offer(select, ...groups) {
  select.append(make("option", { value: "", textContent: "all" }));
  for (const [label, options] of groups)
    select.append(make("optgroup", { label }, ...options.map(([value, textContent]) => make("option", { value, textContent }))));
}

// How often each value is there.
function counted(values) {
  const found = new Map();
  for (const it of values) found.set(it, (found.get(it) || 0) + 1);
  return Array.from(found);
}

function offerFilters() {
  offer(authors, ["Author", counted(authorsOf).map(([it, count]) => ["=" + it, (spelled(it) || "no name") + " (" + count + ")"])]);
  offer(kinds, ["Kind", counted(kindsOf).map(([it, count]) => [it, KINDS[it] + " (" + count + ")"])], ...formats(), ...hiddenTexts());
  offer(states,
    ["By you", [["s:", "not decided"], ...Object.keys(DONE).map((it) => ["s:" + it, DONE[it]])]],
    ["By others", [["differ", "differ from you"]]],
    ["In the journals", [["v:open", "open"], ["v:accept", "accepted"], ["v:reject", "rejected"], ["v:disputed", "disputed"]]]);
}

// Changes of format that are of language only, and the others, where there are both.
function formats() {
  const changes = changesOf.filter((it) => it);
  const languages = changes.filter((it) => it === LANGUAGE).length;
  if (!languages || languages === changes.length) return [];
  return [["Format", [["f:other", "not only language (" + (changes.length - languages) + ")"], ["f:language", LANGUAGE + " (" + languages + ")"]]]];
}

// Changes of hidden text, where there are any.
function hiddenTexts() {
  return isHiddenAt.size ? [["Text", [["h:hidden", "hidden text (" + isHiddenAt.size + ")"]]]] : [];
}

function isOfKind(at, kind) {
  if (kind === "h:hidden") return isHiddenAt.has(at);
  if (kind === "f:language") return changesOf[at] === LANGUAGE;
  return kind === "f:other" ? changesOf[at] !== "" && changesOf[at] !== LANGUAGE : kind === kindsOf[at];
}

// Whether the row at a place is one that the filter leaves, by what is chosen and typed now.
function matcher() {
  const [author, kind, state] = [authors.value, kinds.value, states.value];
  const sought = plainText(search.value).trim();
  const hasState = (at) => (state === "differ" ? differs(at) :
    state.startsWith("s:") ? state === "s:" + words[at] : state === "v:" + verdictsOf[at]);
  return (at) => (!author || author === "=" + authorsOf[at]) && (!kind || isOfKind(at, kind)) &&
    (!state || hasState(at)) && (!sought || sought === String(at + 1) || searchText(at).includes(sought));
}

// What was chosen and typed when the rows were filtered.
let filtered = "";

function chosenFilter() {
  return [authors.value, kinds.value, states.value, search.value].join("\n");
}

function filter() {
  filtered = chosenFilter();
  showRows(allPlaces().filter(matcher()));
  recount();
}

function showAll() {
  for (const it of [authors, kinds, states, search]) it.value = "";
  filter();
}

// What the filter leaves as words are now, and how many of these can be decided.
function left() {
  const matches = matcher();
  return rows.reduce((sum, _, at) => sum + (!lockedAt[at] && matches(at) ? 1 : 0), 0);
}

function recount() {
  const count = left();
  acceptAll.textContent = "Accept these " + count;
  rejectAll.textContent = "Reject these " + count;
  acceptAll.disabled = rejectAll.disabled = count === 0;
}

// The text in which a change is searched: its kind, its clause, its place, what it changes, its author, who spoke of it, the comments on
// it, and the paragraph or row that it stands in.

const searchTexts = [];
const blockTexts = new Map();

function plainText(text) {
  return text.normalize("NFKC").toLowerCase().replace(/\s+/g, " ");
}

function searchText(at) {
  if (searchTexts[at] === undefined) {
    const blocks = new Set(placesOf(rows[at]).map(blockOf).filter((it) => it));
    const said = saysOn(at).map((it) => it.who);
    searchTexts[at] = plainText([KINDS[kindsOf[at]], clausesOf[at], placeNames[at], changesOf[at], authorsOf[at], ...said, ...threadsOn([at]).flatMap(threadOf).map(remarkInWords)].join(" ")) + " " + Array.from(blocks, textOfBlock).join(" ");
  }
  return searchTexts[at];
}

// The row or the paragraph of an element of a change; a change of a table's or a page's format has none.
function blockOf(place) {
  return place.closest(".edge") ? place.closest("tr") : place.closest("p, .p, td");
}

// Its text, without the signs of comments.
function textOfBlock(block) {
  if (!blockTexts.has(block)) blockTexts.set(block, plainText(block.querySelector(".remark") ? textWithoutRemarks(block) : block.textContent));
  return blockTexts.get(block);
}

function textWithoutRemarks(block) {
  const walker = document.createTreeWalker(block, NodeFilter.SHOW_TEXT);
  let text = "";
  while (walker.nextNode()) if (!walker.currentNode.parentElement.closest(".remark")) text += walker.currentNode.data;
  return text;
}
