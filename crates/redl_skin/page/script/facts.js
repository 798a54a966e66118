// What is known of each change by its place, read once.

const kindsOf = rows.map((row) => row.dataset.kind);
const authorsOf = rows.map((row) => row.dataset.author);
const verdictsOf = rows.map((row) => row.dataset.verdict);
const lockedAt = rows.map((row) => row.dataset.locked === "yes");
// The clause of each change, its place where that isn't the document, and what a change of properties changes, in words.
const clausesOf = rows.map((row) => saidIn(row, "clause"));
const placeNames = rows.map((row) => saidIn(row, "place"));
const changesOf = rows.map((row) => saidIn(row, "changed"));

// The places of the changes that hold text which is hidden, stand in such text, or make a text hidden or seen.
const isHiddenAt = new Set();
for (const it of main.querySelectorAll(".hidden")) for (const at of changesRound(it)) isHiddenAt.add(at);
changesOf.forEach((said, at) => /(^|; )hidden: /.test(said) && isHiddenAt.add(at));

// The places of the changes that hold an element, or that stand in it.
function changesRound(element) {
  const found = Array.from(element.querySelectorAll("[data-revision]"));
  for (let it = element.parentElement; it && it !== main; it = it.parentElement) {
    if (it.matches("ins.text, del.text")) found.push(it);
    // (a change of the text's format that stands in a paragraph itself is of other text, or of the paragraph's end)
    if (it.matches("p, .p, td")) found.push(...Array.from(it.querySelectorAll(":scope > :is(.props, .cell)")).filter((of) => kindsOf[of.dataset.revision - 1] !== "run-props"));
    if (it.matches("tr")) found.push(...it.querySelectorAll(":scope > .edge > *"));
    if (it.matches("table")) found.push(...it.querySelectorAll(":scope > caption > .props"));
  }
  return found.map((it) => Number(it.dataset.revision) - 1);
}

// What a row says in an element of this class, or nothing.
function saidIn(row, name) {
  for (const it of row.children) if (it.className === name) return it.textContent;
  return "";
}
