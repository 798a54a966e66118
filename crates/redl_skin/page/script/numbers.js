// Clause numbers before paragraphs: with marks those with which the page came, and in the other views the same counting over the
// paragraphs that are left.

// The greatest length of a number, in bytes.
const LONGEST_NUMBER = 200;
const LEVELS = 9;
const ROMAN = [["M", 1000], ["CM", 900], ["D", 500], ["CD", 400], ["C", 100], ["XC", 90], ["L", 50], ["XL", 40], ["X", 10], ["IX", 9], ["V", 5], ["IV", 4], ["I", 1]];
const NO_LEVEL = { list: "", start: 0, again: false, restart: null, format: "decimal", width: 0, isLegal: false, hasPicture: false, text: "" };

// The paragraphs with a number: each with its num, its level and its text, and whether a section ends with it.
let numbered = [];
const levels = new Map();
// Whether counting here comes to the numbers with which the page came; else there are none but those.
let isCounting = true;
let numbering = 0;

function readNumbers() {
  for (const { dataset, textContent } of takenItems("ol.levels").flat())
    levels.set(dataset.num + " " + dataset.level, {
      list: dataset.list, start: Number(dataset.start), again: "again" in dataset, restart: "restart" in dataset ? Number(dataset.restart) : null,
      format: dataset.format, width: Number(dataset.width || 0), isLegal: "legal" in dataset, hasPicture: "picture" in dataset, text: textContent,
    });
  const stories = Array.from(main.querySelectorAll(":scope > [data-story]"));
  for (const items of takenItems("ol.numbers")) {
    while (stories.length && stories[0].dataset.part !== items.part) stories.shift();
    const paragraphs = stories.length ? stories.shift().querySelectorAll(PARAGRAPH) : [];
    for (const { dataset, textContent } of items) {
      const paragraph = paragraphs[dataset.paragraph - 1];
      if (paragraph) numbered.push({ paragraph, num: dataset.num, level: Number(dataset.level), isEnd: "section" in dataset, text: textContent });
    }
  }
  isCounting = numbersOf(numbered).every((text, place) => text === numbered[place].text);
  seeNumbers();
}

function levelAt(num, level) {
  return levels.get(num + " " + level) || NO_LEVEL;
}

// The counting

// The numbers of paragraphs, counted in this order. Each text box counts by itself.
function numbersOf(items) {
  const states = new Map();
  return items.map(({ paragraph, num, level }) => {
    const around = paragraph.parentElement.closest(".box, section");
    if (!states.has(around)) states.set(around, { values: new Map(), met: new Set() });
    return numberText(num, level, valuesAfter(states.get(around), num, level));
  });
}

// The values of a list after a paragraph with this num and level.
function valuesAfter({ values, met }, num, level) {
  const { list } = levelAt(num, level);
  if (!values.has(list)) values.set(list, new Array(LEVELS).fill(null));
  const now = values.get(list);
  for (let at = 0; at <= level; at += 1) {
    if (!met.has(num + " " + at) && levelAt(num, at).again) now.fill(null, at);
    met.add(num + " " + at);
  }
  for (let at = 0; at < level; at += 1) if (now[at] === null) now[at] = levelAt(num, at).start;
  now[level] = now[level] === null ? levelAt(num, level).start : now[level] + 1;
  for (let at = level + 1; at < LEVELS; at += 1) if (!stays(levelAt(num, at).restart, at, level)) now[at] = null;
  return now;
}

// Whether a deeper level goes on after a paragraph of this level.
function stays(restart, at, level) {
  return restart === 0 || (restart !== null && restart >= 1 && restart <= at && restart <= level);
}

// The texts of numbers

function numberText(num, level, values) {
  const { format, isLegal, hasPicture, text } = levelAt(num, level);
  if (format === "bullet") return text ? text.replace(/[\ue000-\uf8ff]/g, "\u2022") : hasPicture ? "\u2022" : "";
  const made = text.replace(/%([1-9])/g, (_, digit) => {
    const at = Number(digit) - 1;
    if (at > level) return "";
    const its = levelAt(num, at);
    return numeral(isLegal && its.format !== "none" && its.format !== "decimalZero" ? { format: "decimal" } : its, values[at] || 0);
  });
  return bytesOf(made) > LONGEST_NUMBER ? "" : made;
}

function numeral({ format, width }, value) {
  if (format === "none") return "";
  if (value < 0) return String(value);
  if (format === "decimalZero") return String(value).padStart(2, "0");
  if (format === "padded") return String(value).padStart(width, "0");
  if (format === "ordinal") return value + ordinalEnd(value);
  if (/Roman$/.test(format) && value >= 1 && value <= 3999) return cased(format, roman(value));
  if (/Letter$/.test(format) && value >= 1 && value <= 780) return cased(format, String.fromCharCode(65 + ((value - 1) % 26)).repeat(Math.floor((value - 1) / 26) + 1));
  return String(value);
}

function cased(format, text) {
  return format.startsWith("lower") ? text.toLowerCase() : text;
}

function ordinalEnd(value) {
  return Math.floor((value % 100) / 10) === 1 ? "th" : ["th", "st", "nd", "rd"][value % 10] || "th";
}

function roman(value) {
  let [rest, text] = [value, ""];
  for (const [letters, worth] of ROMAN) {
    text += letters.repeat(Math.floor(rest / worth));
    rest %= worth;
  }
  return text;
}

// What a view shows

function numberSoon() {
  if (!numbered.length) return;
  clearTimeout(numbering);
  numbering = setTimeout(seeNumbers, 30);
}

// Gives each paragraph its number in the view of now.
function seeNumbers() {
  clearTimeout(numbering);
  if (viewNow() === "marks" || viewNow() === undefined) return numbered.forEach((it) => showNumber(it, it.text));
  const left = isCounting ? leftNumbered(REST[viewNow()]) : [];
  const texts = new Map(numbersOf(left).map((text, place) => [left[place], text]));
  for (const it of numbered) showNumber(it, texts.get(it) || "");
}

// Joined paragraphs have the number of the last of them.
function showNumber({ paragraph }, text) {
  const joined = isElement(paragraph.parentElement, ".joined") ? paragraph.parentElement : null;
  if (!joined) set(paragraph, "number", spelled(text));
  else if (joined.lastElementChild === paragraph) set(joined, "number", spelled(text));
}

// The paragraphs with a number that are left once all else is accepted, or rejected.
function leftNumbered(rest) {
  const [first, second] = passes(rest);
  const isCut = (member) => cuts(member, first(member) || second(member));
  return numbered.filter(({ paragraph, isEnd }) => {
    const joined = paragraph.parentElement.closest(".joined");
    if (paragraph.closest(".gone") || isInCut(paragraph, isCut)) return false;
    if (joined && joined === paragraph.parentElement && joined.lastElementChild !== paragraph) return false;
    return !isEnd || showsMore(joined || paragraph, isCut);
  });
}

function isInCut(node, isCut) {
  for (let it = node.parentElement.closest("ins.text, del.text"); it; it = it.parentElement.closest("ins.text, del.text")) if (isCut(it)) return true;
  return false;
}

// Whether a paragraph shows more than its end.
function showsMore(paragraph, isCut) {
  const walker = document.createTreeWalker(paragraph, NodeFilter.SHOW_TEXT | NodeFilter.SHOW_ELEMENT);
  for (let node = walker.nextNode(); node; node = walker.nextNode()) {
    const isSeen = node.nodeType === Node.TEXT_NODE ? node.data !== "" && !node.parentElement.closest(".mark, .props, .remark, a") : isElement(node, "br, .picture");
    if (isSeen && !isInCut(node, isCut)) return true;
  }
  return false;
}
