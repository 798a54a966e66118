// What is odd about the names of reviewers and about their words: near spellings, and two words of one person on one change.
"use strict";

/**
 * A name without what nobody sees or hears.
 * @param {string} name
 */
const spelled = (name) => name.normalize("NFKC").toLowerCase().replace(/[\s.,_-]+/g, " ").replace(/\.journal$/, "").trim();

const digitsOf = (/** @type {string} */ text) => text.replace(/\D/g, "");

/**
 * Whether two words differ by one letter that is put in, left out, another one, or one place off.
 * @param {string} one
 * @param {string} other
 */
function isNear(one, other) {
  if (digitsOf(one) !== digitsOf(other) || Math.abs(one.length - other.length) > 1 || Math.min(one.length, other.length) < 4) return false;
  let at = 0;
  while (at < one.length && one[at] === other[at]) at++;
  const [restOne, restOther] = [one.slice(at), other.slice(at)];
  const isSwapped = restOne.length > 1 && restOne[0] === restOther[1] && restOne[1] === restOther[0] && restOne.slice(2) === restOther.slice(2);
  return isSwapped || restOne.slice(1) === restOther || restOne === restOther.slice(1) || restOne.slice(1) === restOther.slice(1);
}

/**
 * Pairs of names that are probably one person's.
 * @param {string[]} names
 * @returns {[string, string][]}
 */
function nearPairs(names) {
  /** @type {[string, string][][]} */
  const [same, near] = [[], []];
  const known = names.slice(0, 1000).map((name) => /** @type {[string, string]} */ ([name, spelled(name)]));
  known.forEach(([name, form], at) => {
    for (const [other, otherForm] of known.slice(0, at)) {
      if (form === otherForm) same.push([other, name]);
      else if (isNear(form, otherForm)) near.push([other, name]);
    }
  });
  return [...same, ...near];
}

/**
 * Tells of near spellings, and of two words of one reviewer on one change.
 * @param {{ number: number, says: { reviewer: string, word: string }[] }[]} rows
 */
function warn(rows) {
  const own = opened?.isShown ? pageParts().name() : "";
  const names = Array.from(new Set([...reviewersOf(others.values()).keys(), ...(own ? [own] : [])]));
  const pairs = nearPairs(names).slice(0, 20).map(([one, other]) =>
    "“" + one + "” and “" + other + "” count as two reviewers. If they are one person, ask for a journal under one spelling, or change your name in step 1.");
  const twice = rows.flatMap(({ number, says }) => {
    const seen = new Map();
    for (const { reviewer, word } of says) seen.set(reviewer, (seen.get(reviewer) ?? new Set()).add(word));
    return Array.from(seen).filter(([, words]) => words.size > 1).map(([reviewer, words]) =>
      "“" + reviewer + "” says both " + Array.from(words).join(" and ") + " of change " + number + ", in two sittings that don't know of each other. They settle it by deciding that change once more.");
  }).slice(0, 20);
  element("warnings").replaceChildren(...[...pairs, ...twice].map((textContent) => make("p", { className: "warning", textContent })));
  element("warnings").hidden = pairs.length + twice.length === 0;
}
