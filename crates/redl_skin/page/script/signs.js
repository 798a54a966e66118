// Signs for characters that can't be seen, or that turn the text around them: each stands where its character is, and
// what such a character does to others ends with it.

const UNSEEN = /[\r\u0080-\u009f\u00ad\u034f\u061c\u115f\u1160\u17b4\u17b5\u180b-\u180f\u200b-\u200f\u2028-\u202e\u2060-\u206f\u3164\ufeff\uffa0\ufff9-\ufffb]|[\u{e0000}-\u{e01ef}]/u;
const UNSEEN_NAMES = {
  "\r": ["CR", "carriage return"], "\u00ad": ["SHY", "soft hyphen"], "\u061c": ["ALM", "Arabic letter mark"],
  "\u200b": ["ZWSP", "space without width"], "\u200c": ["ZWNJ", "no joining"], "\u200d": ["ZWJ", "joining"],
  "\u200e": ["LRM", "left-to-right mark"], "\u200f": ["RLM", "right-to-left mark"],
  "\u2028": ["LS", "line separator"], "\u2029": ["PS", "paragraph separator"],
  "\u202a": ["LRE", "left-to-right from here"], "\u202b": ["RLE", "right-to-left from here"], "\u202c": ["PDF", "end of a direction"],
  "\u202d": ["LRO", "all left-to-right from here"], "\u202e": ["RLO", "all right-to-left from here"],
  "\u2060": ["WJ", "no break"], "\u2066": ["LRI", "left-to-right from here, apart"], "\u2067": ["RLI", "right-to-left from here, apart"],
  "\u2068": ["FSI", "a text apart from here"], "\u2069": ["PDI", "end of a text apart"], "\ufeff": ["BOM", "no break, without width"],
};
// So many marks on one letter reach into the lines around it.
const STACKED = /\p{M}{4}/u;

function codeOf(character) {
  return "U+" + character.codePointAt(0).toString(16).toUpperCase().padStart(4, "0");
}

function signOf(character) {
  const [short, words] = UNSEEN_NAMES[character] || [codeOf(character), "a character that can't be seen"];
  return make("span", { className: "unseen", role: "img", title: codeOf(character) + ", " + words, ariaLabel: words, "data-sign": short }, character);
}

// A text with signs, as nodes. (Names are spelled out as `isolated` does it.)
function signed(text) {
  const nodes = [];
  let rest = text;
  for (let found = UNSEEN.exec(rest); found; found = UNSEEN.exec(rest)) {
    nodes.push(rest.slice(0, found.index), signOf(found[0]));
    rest = rest.slice(found.index + found[0].length);
  }
  return [...nodes, rest];
}

// Puts signs into a part of the document.
function showUnseen(part) {
  if (!UNSEEN.test(part.textContent) && !STACKED.test(part.textContent)) return;
  const walker = document.createTreeWalker(part, NodeFilter.SHOW_TEXT);
  const found = [];
  for (let node = walker.nextNode(); node; node = walker.nextNode()) {
    if (STACKED.test(node.data)) node.parentElement.closest("p, .p, td, section").classList.add("stacked");
    if (UNSEEN.test(node.data) && !node.parentElement.matches(".unseen")) found.push(node);
  }
  for (const node of found) node.replaceWith(...signed(node.data));
}
