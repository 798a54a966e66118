// The summary that comes before a journal is saved: what the reviewer signs, in words.

// How many changes a part of the summary lists.
const LISTED = 300;

async function saveJournal() {
  const typed = person.value.replace(/^ +| +$/g, "");
  const why = refusal(typed);
  if (why) {
    tell(why, true);
    return person.focus();
  }
  if (!(await rename())) return;
  const name = fileName(reviewer);
  const isEmpty = entriesNow().length === 0;
  const answer = await ask("Before you save", summary(), [
    ["save", isEmpty ? "Save an empty journal" : "Save " + name],
    ["", "Go on deciding"],
  ], true);
  if (answer === "save") saveNow();
}

function summary() {
  const entries = entriesNow();
  const all = tallied(entries.map(([, word]) => word));
  const undecided = allPlaces().filter(isUndecided).filter((at) => !saved.words.has(at));
  const locked = lockedAt.filter((it) => it).length;
  const opposed = entries.map(([at]) => at).filter((at) => against(at).length);
  return [
    paragraph("Journal number " + nextSequence() + " of ", make("strong", {}, isolated(reviewer)), title ? " for " : "", title ? make("strong", {}, isolated(title)) : "",
      ownRank ? ", with rank " + ownRank : "", "."),
    countTable([...Object.keys(DONE).map((word) => [DONE[word], all[word]]), ["not decided", undecided.length], ...(locked ? [["locked", locked]] : [])]),
    part("Against another reviewer", opposed, (at) => againstInWords(at), true),
    part("Decided before, and changed", changedPlaces(entries), (at) => changeInWords(at), true),
    part("Not decided", undecided, () => ""),
    part("The journal in words", entries.map(([at]) => at), (at) => DONE[words[at] || "withdraw"] + (words[at] ? "" : " (taken away since it was saved)")),
  ];
}

function countTable(counted) {
  return make("dl", { className: "counts" }, ...counted.map(([name, count]) =>
    make("div", {}, make("dt", { textContent: name }), make("dd", { textContent: count }))));
}

// A part of the summary: changes, each with its number, what it is about, and what is said of it.
function part(name, places, told, isOpen = false) {
  if (!places.length) return "";
  const made = make("details", { className: "part", open: isOpen }, make("summary", { textContent: name + ": " + places.length }));
  const fillIn = () => made.children.length === 1 && made.append(...linesOf(places, told));
  made.addEventListener("toggle", fillIn);
  if (isOpen) fillIn();
  return made;
}

function linesOf(places, told) {
  const lines = places.slice(0, LISTED).map((at) => make("li", {}, goTo(at), " ", make("span", { className: "about" }, KINDS[kindsOf[at]] + " by ", isolated(authorsOf[at])),
    told(at) ? ": " : "", make("strong", {}, told(at)), excerptOf([at])));
  return [make("ul", {}, ...lines), places.length > LISTED ? paragraph("And " + (places.length - LISTED) + " more; the file that is saved has all of them.") : ""];
}

// The number of a change, which leads to it.
function goTo(at) {
  const button = make("button", { type: "button", className: "number", textContent: at + 1, ariaLabel: "Go to change " + (at + 1) });
  button.addEventListener("click", () => {
    closeDialog();
    if (!isShown(at)) showAll();
    chooseChange(at);
  });
  return button;
}

function againstInWords(at) {
  const others = against(at).map((it) => spelled(it.who) + " " + DONE[it.word] + (it.rank ? " with rank " + it.rank : ""));
  return "you " + DONE[words[at]] + ", " + others.join(", ");
}

// The words that the reviewer had on a change before: in a journal that was saved, else in those of this page.
function formerWords(at) {
  return saved.words.has(at) ? [saved.words.get(at)] : ownOn(at);
}

function changedPlaces(entries) {
  return entries.filter(([at, word]) => formerWords(at).some((it) => it !== word)).map(([at]) => at);
}

function changeInWords(at) {
  return formerWords(at).map((it) => DONE[it]).join(" and ") + " before, now " + DONE[words[at] || "withdraw"];
}
