// Journals: the text of one, opening one, and saving the reviewer's own.

// The words of a journal that is saved now, by place. A change that has a word in a journal that was saved before and none
// now is withdrawn, so that the new journal counts in the same way whether or not the former one is used as well.
function entriesNow() {
  const isTakenAway = (at) => !words[at] && !lockedAt[at] && saved.words.has(at);
  return rows.map((_, at) => [at, words[at] || (isTakenAway(at) ? "withdraw" : "")]).filter(([, word]) => word);
}

function journal(name = reviewer) {
  const entries = entriesNow();
  const isRanked = ownRank > 0 && entries.length > 0;
  const sequence = name === reviewer ? nextSequence() : greatestOf(name) + 1;
  const lines = entries.map(([at, word]) => [sequence, at + 1, word, ...(isRanked ? [ownRank] : []), name].join("\t"));
  return ["redline-journal " + (isRanked ? 2 : 1), "document " + digest, "revisions " + rows.length, ...lines, ""].join("\n");
}

// The entries of a journal's text, or why it is none of this document, as the program says it.
function entriesOf(text, file) {
  const lines = text.split("\n");
  const [, version] = /^redline-journal ([12])$/.exec(lines[0]) || [];
  const [, document] = /^document ([0-9a-f]{64})$/.exec(lines[1]) || [];
  const [, count] = /^revisions (0|[1-9]\d{0,9})$/.exec(lines[2]) || [];
  const form = version === "2" ? /^([1-9]\d{0,9})\t(0|[1-9]\d{0,9})\t(accept|reject|withdraw)\t\d\t([^\0-\x1f\x7f]+)$/ :
    /^([1-9]\d{0,9})\t(0|[1-9]\d{0,9})\t(accept|reject|withdraw)\t([^\0-\x1f\x7f]+)$/;
  const entries = lines.slice(3, -1).map((it) => form.exec(it)).map((it) => it && { sequence: Number(it[1]), at: Number(it[2]) - 1, word: it[3], who: it[4] });
  const isRight = (it) => it && it.sequence <= LARGEST && it.at < LARGEST && new TextEncoder().encode(it.who).length <= 255;
  const start = "redline: journal " + file + ": ";
  if (!version || !document || !count || Number(count) > LARGEST || lines.at(-1) !== "" || !entries.every(isRight)) return { why: start + "malformed" };
  if (document !== digest) return { why: start + "document " + document + ", expected " + digest };
  if (Number(count) !== rows.length) return { why: start + "revisions " + count + ", expected " + rows.length };
  return { entries };
}

async function openFile(file) {
  if (file.size > LARGEST_JOURNAL) return tell("redline: limit journal bytes " + LARGEST_JOURNAL, true);
  let text;
  try {
    text = new TextDecoder("utf-8", { fatal: true, ignoreBOM: true }).decode(await file.arrayBuffer());
  } catch {
    return tell("redline: journal " + file.name + ": malformed", true);
  }
  return openJournal(text, file.name);
}

// Makes the words of a journal those of the page. The next one that is saved counts above it.
async function openJournal(text, file = "journal") {
  const { entries, why } = entriesOf(text, file);
  if (why) return tell("This file can't be opened here. " + why, true);
  const names = Array.from(new Set(entries.map((it) => it.who)));
  const typed = person.value.trim();
  const name = names.includes(typed) ? typed : names.length === 1 ? names[0] : "";
  if (!name) return tell(names.length ? "This journal has words of " + names.map(spelled).join(", ") + ": type which name is yours, and open it again." : "This journal says nothing.", true);
  const own = entries.filter((it) => it.who === name && rows[it.at]);
  const sequence = own.reduce((greatest, it) => Math.max(greatest, it.sequence), 0);
  const come = lastWords(own);
  if (!(await mayOpen(file, name, come, sequence))) return tell("The journal wasn't opened: nothing was changed.");
  useJournal(file, name, come, sequence);
}

// The words with the greatest sequence number on each change; where two of one number differ there is none.
function lastWords(entries) {
  const found = new Map();
  for (const { at, word, sequence } of entries) {
    const last = found.get(at);
    if (!last || last.sequence < sequence) found.set(at, { word, sequence });
    else if (last.sequence === sequence && last.word !== word) last.word = "";
  }
  return found;
}

async function mayOpen(file, name, come, sequence) {
  const lost = decidedPlaces().filter((at) => name !== reviewer || !come.has(at) || come.get(at).word !== words[at]);
  const isOld = sequence <= greatestOf(name);
  if (!lost.length && !isOld) return true;
  return (await ask("Open " + file + "?", [
    paragraph("It has " + many(come.size, "word") + " of ", make("strong", {}, isolated(name)), ", saved as journal number " + sequence + "."),
    ...(isOld ? [paragraph("This page was made with a later journal of this name, number " + greatestOf(name) + ". What you save would count above that one.")] : []),
    ...(lost.length ? [paragraph("It takes the place of what is decided on this page: " + many(lost.length, "word") + " would be replaced or taken away (numbers " + numbersInWords(lost) + ").")] : []),
  ], [["", "Change nothing"], ["open", "Open it" + (lost.length ? ", and replace " + many(lost.length, "word") : "")]])) === "open";
}

function useJournal(file, name, come, sequence) {
  const last = recordOf(name).saved;
  const said = new Map(Array.from(come, ([at, it]) => [at, it.word]).filter(([, word]) => word));
  beReviewer(name, last.sequence > sequence ? last : { time: Date.now(), sequence, words: said });
  const changes = rows.map((_, at) => [at, said.get(at) || ""]).filter(([at, word]) => word || words[at]);
  act(file + " opened", changes);
  keep();
  const unclear = come.size - said.size;
  const locked = Array.from(said.keys()).filter((at) => lockedAt[at]).length;
  tell(many(said.size - locked, "word") + " of " + spelled(name) + " opened from " + file + "." +
    (locked ? " " + many(locked, "word") + " on locked changes: left out." : "") +
    (unclear ? " " + many(unclear, "change") + " had two words at once: please decide again." : ""));
}

// The name of the file in which a journal is saved: of at most 200 bytes, and one that every system takes.
function fileName(name) {
  const safe = (text) => text.replace(/[<>:"/\\|?*\u0000-\u001f\u007f-\u009f]|\p{Cf}/gu, "_").replace(/^[. ]+|[. ]+$/g, "");
  const document = fitting(safe(title.replace(/\.(docx|docm|doc|xml)$/i, "")), 80);
  const whole = (document ? document + "." : "") + (fitting(safe(name), 190 - bytesOf(document)) || "_");
  return (/^(con|prn|aux|nul|com[0-9\u00b9\u00b2\u00b3]|lpt[0-9\u00b9\u00b2\u00b3])(\.|$)/i.test(whole) ? "_" : "") + whole + ".journal";
}

function bytesOf(text) {
  return new TextEncoder().encode(text).length;
}

// As much of a text as has this many bytes.
function fitting(text, bytes) {
  let fit = "";
  for (const letter of text) {
    if (bytesOf(fit + letter) > bytes) return fit;
    fit += letter;
  }
  return fit;
}

// Gives the journal to the browser, or to a page around this one that takes it, and remembers what was saved.
function saveNow() {
  saved = laterSaved();
  const [text, name, sequence] = [journal(), fileName(reviewer), nextSequence()];
  const entries = entriesNow();
  saved = { time: Date.now(), sequence, words: new Map(entries) };
  keep();
  pressAll();
  const isLeft = document.dispatchEvent(new CustomEvent("redline-save", { cancelable: true, detail: { name, text } }));
  if (isLeft) download(text, name);
  tell((isLeft ? "The browser was given " : "Saved as ") + name + (isLeft ? " for its folder of downloads." : ".") +
    (entries.length ? " Send this file back." : " It is empty: it says nothing of any change."));
}

function download(text, name) {
  const href = URL.createObjectURL(new Blob([text], { type: "application/octet-stream" }));
  make("a", { href, download: name }).click();
  setTimeout(() => URL.revokeObjectURL(href), 60000);
}
