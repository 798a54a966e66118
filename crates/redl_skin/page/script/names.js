// Names of reviewers: which can stand in a journal, which were probably meant, and what goes along with a new name.

function greatestOf(name) {
  return sequences.get(name) || 0;
}

// The number of the reviewer's next journal: above those of the page and of the last one that was saved, and not below that of
// a word that came from a later page.
function nextSequence() {
  return Math.max(greatestOf(reviewer) + 1, saved.sequence + 1, furthest);
}

// Why a journal can't be written under a name, or the empty text.
function refusal(name) {
  const bytes = new TextEncoder().encode(name).length;
  if (bytes === 0) return "A journal needs a name: please type yours first.";
  if (bytes > 255) return "A journal can't hold this name: it has " + bytes + " bytes, and may have 255.";
  if (/[\u0000-\u001f\u007f]/.test(name)) return "A journal can't hold this name: it has a tab or another control character.";
  if (/\p{Surrogate}/u.test(name)) return "A journal can't hold this name: it has half a character.";
  const greatest = Math.max(greatestOf(name), name === reviewer ? saved.sequence : recordOf(name).saved.sequence);
  return greatest === LARGEST ? "No sequence number is left for " + spelled(name) + "." : "";
}

// A name with its unusual spaces and its invisible characters spelled out.
function spelled(name) {
  return name.replace(/[^\S ]|\p{Cf}|\p{Cc}| {2,}|^ | $/gu, (found) =>
    Array.from(found, (it) => "[" + (SPELLED[it] || "U+" + it.codePointAt(0).toString(16).toUpperCase().padStart(4, "0")) + "]").join(""));
}

// What two names have in common that differ only in case, in how letters are composed, in spaces or in what isn't seen.
function likeness(name) {
  return name.normalize("NFKC").replace(/\p{Cf}/gu, "").replace(/[\s\p{Cc}]+/gu, " ").trim().toUpperCase().toLowerCase();
}

function knownNames() {
  return Array.from(new Set([...sequences.keys(), ...keptNames()])).filter((it) => it);
}

function offerNames() {
  known.replaceChildren(...knownNames().map((value) => make("option", { value })));
}

// The name that was meant: where it is nearly that of a known reviewer, the one who types is asked. Null is no answer.
async function meant(name) {
  const names = knownNames();
  const near = names.includes(name) ? [] : names.filter((it) => likeness(it) === likeness(name));
  if (!near.length) return name;
  const answer = await ask("Is this your name?", [
    paragraph("You typed ", make("strong", {}, isolated(name)), ". This document already knows ",
      ...near.flatMap((it, place) => [place ? " and " : "", make("strong", {}, isolated(it))]), ", which is another name for a journal."),
  ], [...near.map((it, place) => [String(place), "I am " + spelled(it)]), ["typed", "I am " + spelled(name)], ["", "Go back"]]);
  return answer === "" ? null : answer === "typed" ? name : near[Number(answer)];
}

// Takes the name that was typed, one at a time. It comes to whether the reviewer now has that name.
let renaming = Promise.resolve(true);

function rename() {
  renaming = renaming.then(renameNow);
  return renaming;
}

async function renameNow() {
  const typed = person.value.replace(/^ +| +$/g, "");
  if (!typed || typed === reviewer) return Boolean(typed);
  const why = refusal(typed);
  if (why) {
    tell(why, true);
    return false;
  }
  const name = await meant(typed);
  if (name === null || (name !== reviewer && !(await take(name)))) {
    person.value = reviewer;
    return false;
  }
  person.value = name;
  return true;
}

// Makes this the reviewer's name. Words of the page go along, and those kept under the name come back, as is answered.
async function take(name) {
  keep();
  const found = foundUnder(name);
  const count = decidedPlaces().length;
  if (isFound(found)) return count ? takeBoth(found) : takeFound(found);
  const answer = count && reviewer ? await askToTakeAlong(name, count) : "along";
  if (answer === "along") goAlong(found, decidedPlaces());
  else if (answer === "anew") useFound(found, { value: "anew" });
  return Boolean(answer);
}

async function takeFound(found) {
  const answer = await askAboutFound("Found under this name", [found]);
  if (answer.value) useFound(found, answer);
  return Boolean(answer.value);
}

async function takeBoth(found) {
  const places = decidedPlaces();
  const kept = new Map(found.usable.map(([at, it]) => [at, it.word]));
  const other = places.filter((at) => kept.has(at) && kept.get(at) !== words[at]);
  const answer = await ask("This name has words of its own", [
    paragraph("Kept for ", ...foundInWords(found)),
    paragraph("On this page, " + many(places.length, "change") + " " + (places.length === 1 ? "is" : "are") + " decided" + (reviewer ? " under the name " : "."), ...(reviewer ? [isolated(reviewer), "."] : []),
      other.length ? " Of these, " + other.length + " differ from what is kept: numbers " + numbersInWords(other) + "." : ""),
  ], [
    ["both", other.length ? "Take both; where they differ, what is on this page" : "Take both"],
    ["kept", "Take only what is kept"],
    ["", "Go back to the former name"],
  ]);
  if (answer === "kept") useFound(found, { value: "use" });
  if (answer === "both") goAlong(found, places);
  return Boolean(answer);
}

function askToTakeAlong(name, count) {
  return ask("Whose words are these?", [
    paragraph(many(count, "change") + " on this page " + (count === 1 ? "was" : "were") + " decided under the name ", make("strong", {}, isolated(reviewer)), ". Do they go on under ", make("strong", {}, isolated(name)), "?"),
  ], [["along", "Yes: the name is mended, the words are the same"], ["anew", "No: begin anew as " + spelled(name)], ["", "Go back to " + spelled(reviewer)]]);
}

// The words at these places go on under the name, on top of those that are kept under it.
function goAlong(found, places) {
  const former = reviewer;
  const mine = places.map((at) => [at, words[at]]);
  const here = new Set(places);
  const kept = found.usable.filter(([at]) => !here.has(at)).map(([at, it]) => [at, it.word, it.sequence]);
  beReviewer(found.name, found.last);
  if (!former) forgetNameless(places);
  remember(many(kept.length, "word") + " brought back", replace(kept), former);
  for (const [at] of kept) unkept.delete(at);
  replace(mine);
  keep();
  tell(!places.length ? "" : former ? "What " + spelled(former) + " decided on this page goes on as " + spelled(reviewer) + "." : kept.length ? many(kept.length, "word") + " brought back." : "");
}

// Words that were decided without a name are kept under the name that they now have.
function forgetNameless(places) {
  const nameless = recordOf("");
  for (const at of places) nameless.words.delete(at);
  write("", nameless);
}

function beReviewer(name, last) {
  keep();
  unkept.clear();
  reviewer = person.value = name;
  saved = last;
  furthest = 0;
  store("redline " + digest, name);
  pressAll();
  redrawAll();
  offerNames();
}
