// Where it stands: what is disputed, what is open, what was decided against whom, and who decided how much.
"use strict";

/**
 * The rows of the listing, as they were last made.
 * @type {any[]}
 */
let rows = [];

/** The rows of the listing, with what is decided here. */
async function listing() {
  if (stale.standing) {
    const { out } = await calledOnAll(["list", "--format", "full"]);
    rows = JSON.parse(out);
    stale.standing = false;
    element("standing-badge").textContent = counts(rows).disputed || "";
  }
  return rows;
}

/**
 * How many rows there are of each verdict.
 * @param {any[]} all
 */
function counts(all) {
  const count = { accept: 0, reject: 0, disputed: 0, open: 0 };
  for (const { verdict } of all) count[verdict] += 1;
  return count;
}

/** Brings all that the journals change up to date. */
async function refresh() {
  showJournals();
  if (others.size) warn(await listing());
  else element("warnings").replaceChildren();
  element("standing-badge").textContent = others.size ? counts(rows).disputed || "" : "";
  if (isChosen("standing")) await showStanding();
  if (isChosen("written")) await showWritten();
}

/**
 * Whether somebody's last word on a change is another one than what it came to.
 * @param {any} row
 */
const isAgainstSomebody = ({ verdict, says }) => /accept|reject/.test(verdict) && says.some((/** @type {any} */ it) => it.word !== verdict && it.word !== "withdraw");

/** @param {any[]} report */
function peopleTables(report) {
  const heads = ["Name", "#Accepted", "#Rejected", "#Disputed", "#Open"];
  const line = (/** @type {any} */ it) => [it.role === "kind" ? KINDS[it.kind] : make("bdi", { className: "who", textContent: it.who || "no name" }), it.accept, it.reject, it.disputed, it.open];
  const reviewers = report.filter((it) => it.role === "reviewer");
  const authors = report.filter((it) => it.role !== "reviewer");
  const of = (/** @type {string} */ caption, /** @type {any[]} */ some) => table(caption, heads, some.map(line), some.map((it) => it.role));
  return [
    ...(reviewers.length ? [of("Reviewers: how much each has decided", reviewers)] : []),
    of("Authors of the changes, and what became of them by kind", authors),
  ];
}

async function showStanding() {
  const all = await listing();
  const count = counts(all);
  const { out } = await calledOnAll(["report", "--format", "json", "--by", "kind"]);
  const of = (/** @type {(row: any) => boolean} */ is) => all.filter(is);
  const decided = of((row) => /accept|reject/.test(row.verdict) && !isAgainstSomebody(row));
  const told = [["disputed", count.disputed], ["open", count.open], ["accepted", count.accept], ["rejected", count.reject]];
  element("standing-told").replaceChildren(make("span", { className: "counts" }, ...told.map(([word, it]) => make("span", {}, make("b", { textContent: it.toLocaleString("en") }), " " + word))));
  /** @type {[string, any[]][]} */
  const groups = [
    ["Disputed: they stay tracked until one side changes its mind", of((row) => row.verdict === "disputed")],
    ["Decided against somebody, by rank", of(isAgainstSomebody)],
    ["Open: nobody has decided them, and they stay tracked", of((row) => row.verdict === "open")],
  ];
  const parts = groups.filter(([, some]) => some.length).map(([caption, some]) => changesTable(caption, some));
  if (parts.length) parts.unshift(make("p", { className: "hint", textContent: "Press the number of a change to see it in the document and decide it there." }));
  if (!count.disputed && others.size) parts.unshift(make("p", { textContent: "Nothing is disputed." }));
  parts.push(...peopleTables(JSON.parse(out)));
  if (decided.length) {
    const details = make("details", {}, make("summary", { textContent: counted(decided.length, "change") + " decided by all who spoke" }));
    details.addEventListener("toggle", () => details.children.length === 1 && details.append(changesTable("Decided", decided)));
    parts.push(details);
  }
  element("tables").className = "tables";
  element("tables").replaceChildren(...parts);
}
