// Decisions, of one change or of all that a filter leaves.

// Does what the reviewer asked for, and remembers how it is undone.
function act(text, changes) {
  remember(text, replace(changes));
}

// What a button or a key does: its word, or none where the change has that word already.
function decide(row, word) {
  if (!row) return tell("Choose a change first: the key j goes to the next one.");
  if (row.matches(".edit")) return decideEdit(row, word);
  const at = numberOf(row) - 1;
  const name = "Change " + (at + 1);
  if (!lineIndex.has(at)) return tell(name + " is hidden by the filter: the key j goes to the next one.");
  if (lockedAt[at]) return tell(name + " is locked.");
  const former = words[at];
  if (word === "withdraw" && former !== word && !hasEarlier(at)) return tell(nothingToWithdraw(name));
  const next = former === word ? "" : word;
  act("change " + (at + 1) + " " + (DONE[next] || "not decided"), [[at, next]]);
  tell(name + ": " + (DONE[next] || "not decided") + (former && next ? ". It was " + DONE[former] : "") + ".");
  if (next && advance.checked) goOn(at);
}

function nothingToWithdraw(name) {
  return name + ": there is no earlier word " + (reviewer ? "of " + reviewer : "of yours, as far as this page knows without your name,") + " to withdraw.";
}

// After a decision the next line with a change that isn't decided is chosen.
function goOn(line) {
  const next = nextLine(lineIndex.get(line), 1, isUndecided);
  if (next !== null) return choose(rowOfLine(next));
  const hidden = rows.filter((_, place) => isUndecided(place)).length;
  tell(line.textContent + (hidden ? " All that is shown is decided; " + many(hidden, "change") + " that the filter hides " + (hidden === 1 ? "is" : "are") + " not." : " All changes are decided."));
}

function isUndecided(at) {
  return !words[at] && !lockedAt[at];
}

// Decides all that the filter leaves, as words are now. Where another word would be replaced, the reviewer is asked; where
// another filter was typed and not yet seen, nothing is decided.
async function decideShown(word) {
  const isSeen = filtered === chosenFilter();
  filter();
  if (!isSeen) return tell("The filter is another one now: look at what it leaves, and press again.");
  const left = allPlaces().filter((at) => isShown(at) && !lockedAt[at] && words[at] !== word);
  const other = left.filter((at) => words[at]);
  const rest = left.filter((at) => !words[at]);
  const answer = other.length ? await askToReplace(word, other, rest) : "all";
  if (!answer) return tell("Nothing was changed.");
  const places = answer === "all" ? left : rest;
  if (places.length) act(places.length + " " + DONE[word], places.map((at) => [at, word]));
  tell(places.length ? places.length + " " + DONE[word] + "." : "No change that is shown is without this word.");
}

function askToReplace(word, other, rest) {
  const text = countsInWords(tallied(other.map((at) => words[at])));
  return ask("Replace " + many(other.length, "word") + " of yours?", [
    make("p", {}, "Of the changes that the filter leaves you have decided " + other.length + " otherwise: " + text + "."),
    make("p", {}, "Numbers " + numbersInWords(other) + "."),
  ], [
    ...(rest.length ? [["rest", ORDERS[word] + " the other " + rest.length + " only"]] : []),
    ["", "Change nothing"],
    ["all", "Replace them: " + word + " all " + (other.length + rest.length)],
  ]);
}

// What follows from every change of words: how many there are, what the buttons say, and that they are kept.
function changed() {
  const all = counts.accept + counts.reject + counts.withdraw;
  tally.textContent = all + " of " + rows.length + " decided" + (all ? ": " + countsInWords() : "");
  recount();
  keepSoon();
  document.dispatchEvent(new CustomEvent("redline-changed"));
}
