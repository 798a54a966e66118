// For a page around this one, in whose frame it stands: what it can ask and be told. A page that stands alone has the same,
// and nobody listens. On every change the document has the event `redline-changed`, and before a journal is saved
// `redline-save`, which is cancelled by whoever saved it.

window.redline = {
  journal: (name = reviewer) => journal(name),
  refusal: (name = reviewer) => refusal(name),
  name: () => reviewer,
  choose: (number) => rows[number - 1] && chooseChange(number - 1),
  openJournal: (text, file) => openJournal(text, file),
  state: () => ({ name: reviewer, typed: person.value, record: recordText(recordNow()), acts: Array.from(acts) }),
  restore,
};

function recordNow() {
  const of = decidedPlaces().map((at) => [at, { word: words[at], sequence: sequenceAt[at] }]);
  return { time: Date.now(), words: new Map(of), saved };
}

// Puts back what `state` gave, into a page of the same document.
function restore(state) {
  closeDialog();
  isAnswered = true;
  const former = record(state.record);
  beReviewer(state.name, former.saved);
  person.value = state.typed;
  const gone = decidedPlaces().filter((at) => !former.words.has(at)).map((at) => [at, ""]);
  replace([...gone, ...Array.from(former.words, ([at, it]) => [at, it.word, it.sequence])]);
  acts.splice(0, acts.length, ...state.acts);
  showUndo();
}
