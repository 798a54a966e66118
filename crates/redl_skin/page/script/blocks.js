// Lists of blocks, and what a pass leaves of one: which paragraphs are joined and which go, as in the document that is
// written.
//
// The page is written so that each list can be read off it. The kids of a story, a cell or a text box are blocks; a comment
// `list` begins another list in the one around it, and a comment `other` begins a block whose paragraphs never join.

const PARAGRAPH = "p, .p";

function isElement(node, selector) {
  return node.nodeType === Node.ELEMENT_NODE && node.matches(selector);
}

// The nodes of a story, a cell or a text box, without what the script put around some of them.
function* nodesOf(root) {
  for (const node of root.childNodes) {
    if (isElement(node, ".far, .joined")) yield* nodesOf(node);
    else yield node;
  }
}

// Its lists. A comment stands in a list for the list or the other block that it begins.
function listsIn(root) {
  const lists = [[]];
  const around = [lists[0]];
  const begin = (list) => {
    around.unshift(list);
    if (!list.isOther) lists.push(list);
  };
  for (const node of nodesOf(root)) {
    const word = node.nodeType === Node.COMMENT_NODE ? node.data : "";
    if (word.startsWith("/")) around.shift();
    else around[0].push(node);
    if (word === "list" || word === "other") begin(Object.assign([], { isOther: word === "other" || around[0].isOther }));
  }
  return lists;
}

// A block by itself. What else is in a list stands between two blocks.
function isThick(node) {
  return node.nodeType === Node.COMMENT_NODE || isElement(node, "p, .p, table, details");
}

// What one pass leaves of a list of groups, each of which is a node, or the nodes of several paragraphs that were joined.
// A paragraph whose end is cut is joined with the next block where that is a paragraph. Before any other block it goes
// where it holds nothing.
function passOver(groups, { isCut, holds }) {
  const left = [];
  let joined = [];
  groups.forEach((group, at) => {
    const isJoining = joined.length > 0;
    joined.push(...group);
    const last = group.at(-1);
    const isEnd = isElement(last, PARAGRAPH);
    const next = isEnd && isCut(last) ? nextBlock(groups, at) : null;
    if (isEnd ? next && isElement(next, PARAGRAPH) : isJoining) return;
    if (!next || holds(joined)) left.push(joined);
    joined = [];
  });
  return left;
}

function nextBlock(groups, from) {
  for (let at = from + 1; at < groups.length; at += 1) if (isThick(groups[at].at(-1))) return groups[at].at(-1);
  return null;
}
