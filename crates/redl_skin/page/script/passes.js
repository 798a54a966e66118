// What a view shows of the document: that of the written document after all that is decided in the journals and here, with
// the rest accepted, or rejected.

const REST = { final: "accept", original: "reject" };

// Whether a paragraph that shows nothing has a comment `holds` where it holds an element in no change.
const TELLS_HELD = false;

// A pass decides some changes: the first one those with a verdict, and the second one the rest. It has a word on the
// change of a member, or none.
function passes(rest) {
  const first = (member) => (isDecided(verdictAt(placeOf(member))) ? verdictAt(placeOf(member)) : "");
  return [first, (member) => (first(member) ? "" : rest)];
}

function cuts(member, word) {
  return word !== "" && (member.localName === "del") === (word === "accept");
}

// The marks of a paragraph, which are its last elements.
function marksOf(paragraph) {
  const found = [];
  for (let it = paragraph.lastElementChild; it && it.matches(".mark"); it = it.previousElementSibling) found.push(it);
  return found;
}

// Tables: a cell goes where one of its members is cut, a row also where all its cells go, and a table where all rows go.

function membersOf(it) {
  return Array.from(it.querySelectorAll(it.localName === "tr" ? ":scope > td > .edge > :is(ins, del)" : ":scope > .cell"));
}

function allGo(items, goes) {
  return items.length > 0 && items.every(goes);
}

function goesBy(isCut) {
  const cell = (it) => membersOf(it).some(isCut);
  const row = (it) => membersOf(it).some(isCut) || allGo(Array.from(it.cells), cell);
  const table = (it) => allGo(Array.from(it.rows), row);
  return { cell, row, table };
}

// Whether a joined group holds an element. The page doesn't show every one, so of a paragraph and of content that show
// nothing it isn't known; they are then taken to stay, and are among the doubts.
function holdsBy(isCut, isLeft, doubts) {
  const isContent = (it) => isElement(it, "ins.text, del.text");
  const isSeen = (it) => (it.nodeType === Node.COMMENT_NODE ? !it.data.startsWith("/") : !isElement(it, ".mark, .props, a"));
  const one = (node) => {
    if (!isContent(node)) return isSeen(node) || (isElement(node, "a") && isLeft(node)) ? "yes" : "no";
    if (isCut(node)) return "no";
    const kids = Array.from(node.childNodes);
    return isLeft(node) || kids.some((it) => !isContent(it)) ? "yes" : kids.length ? has(kids) : "maybe";
  };
  const has = (kids) => {
    const found = kids.map(one);
    return found.includes("yes") ? "yes" : found.includes("maybe") ? "maybe" : "no";
  };
  return (group) => {
    const found = has(group.flatMap((node) => (isElement(node, PARAGRAPH) ? Array.from(node.childNodes) : [])));
    const isDoubtful = found === "maybe" || (found === "no" && !TELLS_HELD);
    if (isDoubtful) doubts.add(group.at(-1));
    return isDoubtful || found === "yes";
  };
}

// The groups that both passes leave of a list, and the paragraphs of which it isn't known whether they stay.
function leftOf(list, rest) {
  const doubts = new Set();
  const [first, second] = passes(rest);
  const isCutFirst = (member) => cuts(member, first(member));
  const isCut = (member) => cuts(member, first(member) || second(member));
  const goesFirst = goesBy(isCutFirst).table;
  const groups = passOver(list.map((node) => [node]), {
    isCut: (paragraph) => marksOf(paragraph).some(isCutFirst),
    holds: holdsBy(isCutFirst, (member) => !first(member), doubts),
  });
  const stay = groups.filter(([node]) => !isElement(node, "table") || !goesFirst(node));
  const left = passOver(stay, {
    isCut: (paragraph) => marksOf(paragraph).some((mark) => cuts(mark, second(mark))),
    holds: holdsBy(isCut, () => false, doubts),
  });
  return { left, doubts };
}
