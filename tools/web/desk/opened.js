// The document that is open, the journals and locks with it, and the words of calls on them.
"use strict";

const [DOCUMENT, WRITTEN, OWN] = ["document.xml", "written.xml", "your decisions"];

/**
 * A document: its file, whether that was a .docx, how many changes it has, what its check noted, what was told of its archive, and
 * whether the frame shows it.
 * @typedef {{ name: string, bytes: Uint8Array, isZip: boolean, isTidy: boolean, count: number, note: string, said: string[], isShown: boolean }} Opened
 * @type {Opened | null}
 */
let opened = null;

/**
 * The journals of others, by the name that calls have for each.
 * @type {Map<string, Journal>}
 */
const others = new Map();
/**
 * The locks, each as the two words of a call.
 * @type {[string, string][]}
 */
const locks = [];
/** The rank of the decisions of this page. */
let rank = 0;
/** Whether something was decided since a journal or the document was last saved. */
let isUnsaved = false;

const encoded = (/** @type {string} */ text) => new TextEncoder().encode(text);
const lockWords = () => locks.flat();

/** What the page is told of a journal that is saved in it: the document's name, and the rank of its words. */
const signWords = () => ["--title", opened?.name ?? "", ...(rank ? ["--rank", String(rank)] : [])];

/** The journal of what is decided in this page, as calls are given it: empty where nothing is decided. */
function ownJournal() {
  if (!opened?.isShown) return "";
  const parts = pageParts();
  const name = parts.name();
  const why = name && parts.refusal();
  if (why) throw new Told(why, "Your name stands above the list of changes in step 1.");
  const journal = parts.journal(name || standIn());
  return hasEntries(journal) ? journal : "";
}

/**
 * A head has three lines.
 * @param {string} journal
 */
const hasEntries = (journal) => journal.split("\n", 5).length === 5;

/** A name for decisions without one, that no other reviewer has. */
function standIn() {
  const taken = new Set(reviewersOf(others.values()).keys());
  let name = "You";
  for (let more = 2; taken.has(name); more++) name = "You " + more;
  return name;
}

/** The names of all journals and of what is decided here, and the file of the latter. */
function joinedWords(own = ownJournal()) {
  return { words: [...others.keys(), ...(own ? [OWN] : [])], options: own ? { files: { [OWN]: encoded(own) } } : {} };
}

/**
 * A call on the document, all journals, all locks, and what is decided here.
 * @param {string[]} words
 * @param {object} more
 */
function calledOnAll(words, more = {}) {
  const joined = joinedWords();
  return called([words[0], DOCUMENT, ...words.slice(1), ...joined.words, ...lockWords()], { ...joined.options, ...more });
}

/**
 * How many changes a line of `check` counts.
 * @param {string} line
 */
const countIn = (line) => Number(line.match(/^sound (\d+) revision/)?.[1] ?? 0);

/**
 * What the lines of a call tell that was done: how many entries did not count, and each note.
 * @param {string} lines
 */
function toldOf(lines) {
  const all = lines.split("\n");
  const refused = all.filter((it) => it.startsWith("redline: refused "));
  const locked = refused.filter((it) => /: locked (author|kind|span)$/.test(it)).length;
  const unknown = refused.length - locked;
  const gone = all.map((it) => it.match(/^redline: note: locked revision (\d+) went/)?.[1]).filter(Boolean);
  const undecided = Number(lines.match(/^redline: note: (\d+) marks? (?:is|are) left that Redline does not decide/m)?.[1] ?? 0);
  const isClosed = /^redline: note: the result .* will not be read again$/m.test(lines);
  return [
    locked ? counted(locked, "decision") + (locked === 1 ? " is" : " are") + " on locked changes and did not count." : "",
    unknown ? counted(unknown, "decision") + (unknown === 1 ? " is" : " are") + " on a change that this document does not have, and did not count." : "",
    gone.length ? (gone.length === 1 ? "The locked change " : "The locked changes ") + gone.join(", ") + " went, since the text around went." : "",
    undecided ? counted(undecided, "mark is", "marks are") + " left in it that Redline doesn't decide: look at “Before you send it out” in step 5." : "",
    isClosed ? "It is deeper or longer than a document may be, or has a text that XML doesn't allow, so Redline will not open it for another round." : "",
  ].filter(Boolean).join(" ");
}

/**
 * Opens a document in the place of the one before. Where that is refused, the one before stays with all that belongs to it.
 * @param {{ name: string, bytes: Uint8Array }} file
 * @param {boolean} isTidy
 */
async function openDocument({ name, bytes }, isTidy = false) {
  performance.mark("opening");
  const { isZip, line, lines, said } = await ask("open", bytes, { tidy: isTidy });
  const page = await called(["page", DOCUMENT, "--title", name]).then(shown).catch(goBack);
  opened = { name, bytes, isZip, isTidy, count: countIn(line), note: toldOf(lines), said, isShown: false };
  others.clear();
  locks.length = rank = 0;
  element("rank").value = "0";
  forgetEarlier();
  showLocks();
  element("name").textContent = element("name").title = name;
  element("count").textContent = counted(opened.count, "change");
  document.title = name + " - Redline";
  document.body.dataset.state = "open";
  element("form").value = isZip ? "docx" : "xml";
  isUnsaved = false;
  await showPage(page);
  performance.mark("shown");
  await refresh();
}

/**
 * Gives the document and the journals of the screen to the worker again, since the new one can't be shown.
 * @param {any} error
 * @returns {Promise<never>}
 */
async function goBack(error) {
  if (opened) {
    await ask("open", opened.bytes, { tidy: opened.isTidy });
    for (const { key, bytes } of others.values()) await ask("keep", key, bytes);
    forgetEarlier();
  }
  throw error;
}
