// Verdicts: what the journals of this page and the reviewer's own words come to on a change.

// The reviewer's own rank, where who sent the page gave one.
const ownRank = Number(document.body.dataset.rank || 0);

// The verdict on the change at a place. A word that is decided here replaces what the journals have of its reviewer. Of
// the words that aren't withdrawn those with the highest rank count, and two of them that differ are a dispute.
function verdictAt(at) {
  if (!words[at]) return verdictsOf[at];
  const others = saysOn(at).filter((it) => it.who !== reviewer);
  if (!others.length) return words[at] === "withdraw" ? "open" : words[at];
  const said = [...others, { word: words[at], rank: ownRank }].filter((it) => it.word !== "withdraw");
  const highest = Math.max(...said.map((it) => it.rank));
  const deciding = new Set(said.filter((it) => it.rank === highest).map((it) => it.word));
  return deciding.size > 1 ? "disputed" : Array.from(deciding)[0] || "open";
}

function isDecided(verdict) {
  return verdict === "accept" || verdict === "reject";
}
