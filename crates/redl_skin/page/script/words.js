// The words: what the reviewer says of each change. They are held by place, which is the number less one; the rows of the
// list and the elements of the document only show them.

const words = rows.map(() => "");
const counts = { accept: 0, reject: 0, withdraw: 0 };
// The sequence number with which the word on a change was saved, or will be.
const sequenceAt = rows.map(() => 0);
let furthest = 0;

// Puts a word on a change, or none.
function say(at, word, sequence = nextSequence()) {
  if (words[at]) counts[words[at]] -= 1;
  if (word) counts[word] += 1;
  words[at] = word;
  sequenceAt[at] = sequence;
  furthest = Math.max(furthest, sequence);
  unkept.add(at);
  redraw(at);
}

// Puts words on changes, each a place, a word and a sequence number or none. What comes puts the former words there.
function replace(changes) {
  const free = changes.filter(([at]) => !lockedAt[at]);
  const former = free.map(([at]) => [at, words[at], sequenceAt[at]]);
  for (const [at, word, sequence] of free) say(at, word, sequence);
  changed();
  return former;
}

// The places of all changes, in their order.
function allPlaces() {
  return Array.from(rows.keys());
}

function decidedPlaces() {
  return allPlaces().filter((at) => words[at]);
}

// What reviewers say of a change in the journals of this page: who, word and rank.
const heard = [];

function saysOn(at) {
  heard[at] = heard[at] || Array.from(rows[at].querySelectorAll(":scope > p[data-word]"), (it) => {
    const { data = "" } = (it.querySelector("bdi") || it).firstChild || {};
    return { who: data, word: it.dataset.word, rank: Number(it.dataset.rank) };
  });
  return heard[at];
}

// The reviewer's own words on a change in the journals of this page.
function ownOn(at) {
  return saysOn(at).filter((it) => it.who === reviewer).map((it) => it.word);
}

// Whether there is a word of the reviewer that can be withdrawn: in a journal of this page, or in one that was saved.
function hasEarlier(at) {
  return ownOn(at).some((it) => it !== "withdraw") || (saved.words.get(at) || "withdraw") !== "withdraw";
}

// What other reviewers say against the reviewer's word on a change.
function against(at) {
  const mine = words[at] ? [words[at]] : ownOn(at);
  const opposite = mine.includes("accept") ? "reject" : mine.includes("reject") ? "accept" : "";
  return saysOn(at).filter((it) => it.who !== reviewer && it.word === opposite);
}

// How many changes have which word, as "2 accepted, 1 rejected".
function countsInWords(all = counts) {
  return Object.keys(DONE).filter((it) => all[it]).map((it) => all[it] + " " + DONE[it]).join(", ");
}

function tallied(said) {
  const all = { accept: 0, reject: 0, withdraw: 0 };
  for (const word of said) all[word] += 1;
  return all;
}

function many(count, one) {
  return count + " " + one + (count === 1 ? "" : "s");
}
