// What this browser kept: it is told, and used only where the reviewer says so.

// Of what is kept under a name: the words that can be used, those of an earlier round, and those on locked changes.
function foundUnder(name) {
  const { time, words: entries, saved: last } = recordOf(name);
  const said = Array.from(entries).filter(([, it]) => it.word);
  const isLater = ([, it]) => it.sequence > greatestOf(name);
  return {
    name, time,
    // Words that were saved before a later journal of this page count no more.
    last: last.sequence > greatestOf(name) ? last : { ...last, words: new Map() },
    usable: said.filter((it) => isLater(it) && !lockedAt[it[0]]),
    older: said.filter((it) => !isLater(it) && !lockedAt[it[0]]),
    aside: said.filter(([at]) => lockedAt[at]),
  };
}

function isFound({ usable, older, aside, last }) {
  return usable.length + older.length + aside.length + last.words.size > 0;
}

// On opening, nothing that was found is applied before the answer.
async function askOnOpening() {
  const found = keptNames().map(foundUnder).filter(isFound);
  if (!found.length) return;
  const last = stored("redline " + digest);
  found.sort((one, other) => (other.name === last) - (one.name === last) || other.time - one.time);
  const answer = await askAboutFound("Found in this browser", found);
  if (isAnswered) return;
  if (!answer.value) return tell("Nothing that this browser kept was used. Type your name to go on.");
  useFound(answer.found, answer);
}

async function askAboutFound(title, found) {
  const choices = found.map((it, place) => make("input", { type: "radio", name: "found", value: place, checked: place === 0 }));
  const older = make("input", { type: "checkbox", id: "older" });
  const olderCount = found.reduce((sum, it) => sum + it.older.length, 0);
  const value = await ask(title, [
    paragraph("For this document, this browser kept what was decided before:"),
    ...found.map((it, place) => make("label", { className: "found" }, ...(found.length > 1 ? [choices[place]] : []), make("span", {}, ...foundInWords(it)))),
    ...(olderCount ? [make("label", { className: "found" }, older,
      make("span", { textContent: "Bring back the words of an earlier round too. They would count above the later ones in this page." }))] : []),
    paragraph(make("small", { textContent: "Other pages that were opened from this computer's disk can write there too. If this isn't what you decided, begin anew." })),
  ], [["use", "Use what was found"], ["anew", "Begin anew"], ["", "I am someone else"]]);
  return { value, found: found[Math.max(0, choices.findIndex((it) => it.checked))], isOlder: older.checked };
}

function foundInWords({ name, time, last, usable, older, aside }) {
  const counted = countsInWords(tallied(usable.map(([, it]) => it.word)));
  return [
    make("strong", {}, name ? isolated(name) : "without a name"), ": " + many(usable.length, "word") + (usable.length ? " (" + counted + ")" : "") + ", last changed on " + dated(time) + ".",
    last.sequence ? " Saved as journal number " + last.sequence + " on " + dated(last.time) + "." : "",
    older.length ? " " + many(older.length, "word") + " of an earlier round: this page has a later journal of this name." : "",
    aside.length ? " " + many(aside.length, "word") + " on locked changes: kept, but not used on this page." : "",
  ];
}

// Puts what was found under a name in place of the words of the page, or begins anew under that name. Either is undone as
// one act, which brings back the former name, or what was found and not used.
function useFound(found, { value, isOlder }) {
  const isUsed = value === "use";
  const name = reviewer;
  beReviewer(found.name, found.last);
  const come = found.usable.map(([at, it]) => [at, it.word, it.sequence]);
  const there = new Set(come.map(([at]) => at));
  const gone = isUsed ? decidedPlaces().filter((at) => !there.has(at)) : [];
  const former = replace([...gone.map((at) => [at, ""]), ...come]);
  for (const [at] of found.usable) unkept.delete(at);
  const count = many(come.length, "word");
  if (isUsed) remember(count + " brought back", former, name);
  else remember("begun anew", replace(decidedPlaces().map((at) => [at, ""])), come.length ? null : name);
  if (isUsed && isOlder) act(many(found.older.length, "word") + " of an earlier round brought back", found.older.map(([at, it]) => [at, it.word]));
  tell(isUsed ? count + " of " + (spelled(reviewer) || "no name") + " brought back." : "Begun anew: nothing is decided." + (saved.words.size ? " Your next journal withdraws what you saved before." : ""));
}
