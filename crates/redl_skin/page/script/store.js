// The browser's own store keeps words by document and name, so that a page that is closed loses none.
//
//     redline DIGEST          the name that was used last
//     redline DIGEST/NAME     {"time": .., "words": [GROUP ..], "saved": {"time": .., "sequence": .., "words": [GROUP ..]}}
//
// A GROUP is {"word": "accept", "sequence": 2, "numbers": "1-3,7"}; the word "" is one that was taken away. Only places whose
// word changed are written, after the store was read again, since another window may have written into it.

// How far the number of a saved journal is above those of the page, at most.
const MOST_SAVED = 1000000;

let reviewer = "";
let saved = { time: 0, sequence: 0, words: new Map() };
const unkept = new Set();
let waiting = 0;
let isKeeping = true;
// Whether it was answered what becomes of the words that were found on opening.
let isAnswered = false;
let isAskingAboutWindow = false;

function storeKey(name) {
  return "redline " + digest + "/" + name;
}

function stored(key) {
  try {
    return localStorage.getItem(key) || "";
  } catch {
    return "";
  }
}

// The names under which this browser keeps words for this document.
function keptNames() {
  try {
    const start = storeKey("");
    return Object.keys(localStorage).filter((it) => it.startsWith(start)).map((it) => it.slice(start.length));
  } catch {
    return [];
  }
}

// What is kept under a name. A number that is out of all reason was written by another file, and doesn't count.
function recordOf(name) {
  const found = record(stored(storeKey(name)));
  const most = greatestOf(name) + MOST_SAVED;
  for (const it of found.words.values()) if (it.sequence > most) it.sequence = greatestOf(name) + 1;
  return found.saved.sequence <= most ? found : { ...found, saved: record("").saved };
}

// What a text of the store says; what can't be read is as if nothing were kept.
function record(text) {
  try {
    const { time, words: groups, saved: last } = text.startsWith("{") ? JSON.parse(text) : { words: lettered(text) };
    const sequence = last && isSequence(last.sequence) ? last.sequence : 0;
    return {
      time: Number(time) || 0,
      words: ungrouped(groups),
      saved: { time: Number(last && last.time) || 0, sequence, words: new Map(Array.from(ungrouped(last && last.words), ([at, it]) => [at, it.word])) },
    };
  } catch {
    return record("");
  }
}

// What pages of former versions kept: a letter for each change.
function lettered(text) {
  return Array.from(text, (letter, at) => ({ word: WORDS.find((it) => LETTERS[it] === letter), sequence: 1, numbers: String(at + 1) }));
}

function isSequence(number) {
  return Number.isInteger(number) && number > 0 && number <= LARGEST;
}

// The words of groups by place. A place is in one group at most, so there is an end to what a strange text can ask for.
function ungrouped(groups) {
  const found = new Map();
  let count = 0;
  for (const { word, sequence, numbers } of groups || []) {
    if (!(word === "" || WORDS.includes(word)) || !isSequence(sequence)) continue;
    for (const number of listed(numbers)) {
      count += 1;
      if (count > rows.length) throw new RangeError("more numbers than changes");
      found.set(number - 1, { word, sequence });
    }
  }
  return found;
}

// The numbers of a list such as 1-3,7, of those that the document has.
function* listed(numbers) {
  for (const range of String(numbers).split(",")) {
    const [first, last = first] = range.split("-").map(Number);
    for (let number = first; number > 0 && number <= Math.min(last, rows.length); number += 1) yield number;
  }
}

function grouped(entries) {
  const groups = new Map();
  for (const [at, { word, sequence }] of Array.from(entries).sort(([one], [other]) => one - other)) {
    const key = word + " " + sequence;
    if (!groups.has(key)) groups.set(key, { word, sequence, ranges: [] });
    const { ranges } = groups.get(key);
    if (ranges.length && ranges.at(-1)[1] === at) ranges.at(-1)[1] = at + 1;
    else ranges.push([at + 1, at + 1]);
  }
  return Array.from(groups.values(), ({ word, sequence, ranges }) =>
    ({ word, sequence, numbers: ranges.map(([first, last]) => (first === last ? String(first) : first + "-" + last)).join(",") }));
}

function recordText({ time, words: entries, saved: last }) {
  const of = Array.from(last.words, ([at, word]) => [at, { word, sequence: last.sequence }]);
  return JSON.stringify({ time, words: grouped(entries), saved: { time: last.time, sequence: last.sequence, words: grouped(of) } });
}

function keepSoon() {
  waiting = waiting || setTimeout(keep, 300);
}

// Writes the words that changed into what is kept now, and those that are there no more.
function keep() {
  clearTimeout(waiting);
  waiting = 0;
  const now = recordOf(reviewer);
  for (const at of decidedPlaces()) if (!now.words.has(at)) unkept.add(at);
  if (!unkept.size && saved.sequence <= now.saved.sequence) return;
  for (const at of unkept) now.words.set(at, { word: words[at], sequence: sequenceAt[at] });
  unkept.clear();
  write(reviewer, { time: Date.now(), words: now.words, saved: saved.sequence > now.saved.sequence ? saved : now.saved });
}

function write(name, now) {
  store(storeKey(name), recordText(now));
  store("redline " + digest, reviewer);
}

function store(key, text) {
  try {
    localStorage.setItem(key, text);
  } catch {
    if (isKeeping) tell("This browser keeps nothing: save your journal before you close the page.", true);
    isKeeping = false;
  }
}

// Another window of this browser wrote words under this name: they come in here, and words of this window that would be
// replaced are asked about.
async function hearStore({ key }) {
  if (!isAnswered || (key !== null && key !== storeKey(reviewer))) return;
  keepSoon();
  saved = laterSaved();
  takeIn(wordsElsewhere().filter(([at]) => !words[at]));
  if (!wordsElsewhere().length || isAskingAboutWindow) return;
  isAskingAboutWindow = true;
  const answer = await askAboutWindow(wordsElsewhere());
  isAskingAboutWindow = false;
  if (answer === "theirs") takeIn(wordsElsewhere());
  else keepMine(wordsElsewhere());
}

// What was saved last under this name: by this window, or by another one.
function laterSaved() {
  const other = foundUnder(reviewer).last;
  return other.sequence > saved.sequence ? other : saved;
}

// What is kept under this name and isn't what this window has.
function wordsElsewhere() {
  return Array.from(recordOf(reviewer).words).filter(([at, it]) =>
    !lockedAt[at] && !unkept.has(at) && it.word !== words[at] && it.sequence > greatestOf(reviewer));
}

function takeIn(entries) {
  if (!entries.length) return;
  const places = entries.map(([at]) => at);
  remember(many(places.length, "word") + " from another window", replace(entries.map(([at, it]) => [at, it.word, it.sequence])));
  for (const at of places) unkept.delete(at);
  tell("Another window of this page decided " + many(places.length, "change") + ": " + numbersInWords(places) + ". They are shown here too.");
}

function keepMine(entries) {
  for (const [at] of entries) say(at, words[at]);
  changed();
}

function askAboutWindow(entries) {
  const places = entries.map(([at]) => at);
  return ask("Another window replaced " + many(entries.length, "word") + " of yours", [
    paragraph("In another window of this page, " + many(entries.length, "change") + " that you decided here got another word: numbers " + numbersInWords(places) + "."),
    make("ul", {}, ...entries.slice(0, 12).map(([at, it]) => make("li", {}, (at + 1) + ": here " + DONE[words[at]] + ", there " + (DONE[it.word] || "not decided")))),
  ], [["mine", "Keep the words of this window"], ["theirs", "Take those of the other window"]]);
}
