// The journals of other reviewers: added, and taken away.
"use strict";

/** @typedef {{ key: string, name: string, bytes: Uint8Array, reviewers: Map<string, number> }} Journal */

const isSame = (/** @type {Uint8Array} */ one, /** @type {Uint8Array} */ other) => one.length === other.length && one.every((it, at) => it === other[at]);

/**
 * How many decisions each reviewer has in a journal that the program has read.
 * @param {Uint8Array} bytes
 */
function countReviewers(bytes) {
  /** @type {Map<string, number>} */
  const counts = new Map();
  for (const line of new TextDecoder().decode(bytes).split("\n").slice(3, -1)) {
    const name = line.slice(line.lastIndexOf("\t") + 1);
    counts.set(name, (counts.get(name) ?? 0) + 1);
  }
  return counts;
}

/**
 * The decisions of each reviewer in these journals.
 * @param {Iterable<Journal>} journals
 */
function reviewersOf(journals) {
  /** @type {Map<string, number>} */
  const all = new Map();
  for (const { reviewers } of journals) reviewers.forEach((count, name) => all.set(name, (all.get(name) ?? 0) + count));
  return all;
}

/**
 * A name for calls that no other file has, and that is no option.
 * @param {string} name
 * @param {Iterable<string>} more
 */
function freeKey(name, more) {
  const taken = new Set([DOCUMENT, WRITTEN, OWN, EARLIER, ...others.keys(), ...more]);
  const first = name.startsWith("-") ? "./" + name : name;
  for (let number = 1; ; number++) {
    const key = number === 1 ? first : first.replace(/(\.[^.]*)?$/, " (" + number + ")$1");
    if (!taken.has(key)) return key;
  }
}

/**
 * Which of these journals a line of the program refuses.
 * @param {string} line
 * @param {Journal[]} journals
 */
function refusedOne(line, journals) {
  const named = journals.filter(({ key }) => line.startsWith("redline: journal " + key + ": "));
  return named.sort((one, other) => other.key.length - one.key.length)[0];
}

/**
 * Adds journals; what the program refuses stays out, with its line. `opening` is what was told of a document that came with them.
 * @param {{ name: string, bytes: Uint8Array }[]} files
 * @param {Message | null} opening
 */
async function addJournals(files, opening = null) {
  /** @type {Message[]} */
  const refused = [];
  /** @type {Journal[]} */
  let added = [];
  for (const { name, bytes } of files) {
    const twin = [...others.values(), ...added].find((it) => isSame(it.bytes, bytes));
    if (twin) {
      refused.push({ what: "“" + name + "” is there already" + (twin.name === name ? "." : ", as “" + twin.name + "”.") });
      continue;
    }
    const key = freeKey(name, added.map((it) => it.key));
    await ask("keep", key, bytes);
    added.push({ key, name, bytes, reviewers: new Map() });
  }
  let lines = "";
  while (added.length) {
    const end = await ask("call", ["report", DOCUMENT, ...others.keys(), ...added.map((it) => it.key), ...lockWords()]);
    lines = end.lines;
    if (end.status <= 1) break;
    const error = new ActionError(end.status === 8 ? "memory" : "program", end.lines);
    const one = refusedOne(end.lines, added);
    refused.push(messageOf(error, one?.name));
    const out = one ? [one] : added;
    await ask("drop", ...out.map((it) => it.key));
    added = added.filter((it) => !out.includes(it));
  }
  for (const it of added) others.set(it.key, { ...it, reviewers: countReviewers(it.bytes) });
  if (added.length) {
    await showPage(await makePage());
    await refresh();
  }
  tellAdded(added, refused, { todo: [added.length ? toldOf(lines) : "", opening?.todo].filter(Boolean).join(" "), line: opening?.line });
}

/**
 * @param {Journal[]} added
 * @param {Message[]} refused
 * @param {{ todo: string, line?: string }} more what else is told
 */
function tellAdded(added, refused, more) {
  const isFault = refused.some((it) => it.isFault);
  const [first] = refused;
  const disputed = Number(element("standing-badge").textContent || 0);
  const what = added.length ? (added.length === 1 ? "“" + added[0].name + "” was added." : counted(added.length, "journal") + " were added.") : "";
  const left = disputed && added.length ? counted(disputed, "change is", "changes are") + " disputed." : "";
  if (refused.length > 1) {
    const lines = refused.slice(0, 20).map((it) => it.what + " " + (it.line ?? "").split("\n")[0]);
    const rest = refused.length > 20 ? ["… and " + (refused.length - 20) + " more"] : [];
    return tell({ what: [what, counted(refused.length, "file was", "files were") + " not added."].join(" ").trim(), todo: first.todo, line: [...lines, ...rest].join("\n"), isFault });
  }
  const show = /** @type {[string, () => void]} */ (["Show what is disputed", () => choose("standing")]);
  tell({
    what: [what, first?.what].filter(Boolean).join(" "), todo: [first?.todo, left, more.todo].filter(Boolean).join(" "), line: [first?.line, more.line].filter(Boolean).join("\n"),
    isFault, acts: left ? [show] : [],
  });
}

/**
 * Takes a journal away.
 * @param {string} key
 */
async function takeAway(key) {
  const name = others.get(key)?.name;
  others.delete(key);
  await ask("drop", key);
  await showPage(await makePage());
  await refresh();
  tell({ what: "“" + name + "” was taken away." });
}

/** The table of the journals. */
function showJournals() {
  const rows = Array.from(others.values(), ({ key, name, reviewers }) => [
    name,
    Array.from(reviewers.keys()).slice(0, 5).join(", ") + (reviewers.size > 5 ? " and " + (reviewers.size - 5) + " more" : ""),
    Array.from(reviewers.values()).reduce((sum, it) => sum + it, 0),
    button("Take away", guarded(() => takeAway(key)), { "aria-label": "Take " + name + " away" }),
  ]);
  element("journals").replaceChildren(...(rows.length ? [table("", ["File", "Reviewer", "#Decisions", ""], rows)] : []));
  element("others-badge").textContent = others.size ? others.size.toLocaleString("en") : "";
}
