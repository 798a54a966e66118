// Locked changes, and the rank of the decisions of this page.
"use strict";

/**
 * What a lock holds, in words.
 * @param {[string, string]} lock
 */
function lockInWords([by, what]) {
  if (by === "--lock") return "all changes by “" + what + "”";
  if (by === "--lock-kind") return "all changes of the kind “" + KINDS[what] + "”";
  return "all changes made from " + what.replace("/", " and before ").replaceAll("T00:00:00Z", "");
}

/**
 * The lock that the form names, or null.
 * @returns {[string, string] | null}
 */
function lockOfForm() {
  const by = element("lock-by").value;
  if (by === "--lock") return [by, element("lock-author").value];
  if (by === "--lock-kind") return element("lock-kind").value ? [by, element("lock-kind").value] : null;
  const [from, to] = [element("lock-from").value, element("lock-to").value];
  return from && to && from < to ? [by, from + "T00:00:00Z/" + to + "T00:00:00Z"] : null;
}

/** Makes all that depends on the locks anew. */
async function locksChanged() {
  showLocks();
  const lines = await showPage(await makePage());
  await refresh();
  tell({ what: locks.length ? counted(locks.length, "lock holds", "locks hold") + "." : "No change is locked any more.", todo: toldOf(lines) });
}

async function addLock() {
  const lock = lockOfForm();
  if (!lock) throw new Told("Choose both dates, the first before the second.");
  if (locks.some((it) => it.join() === lock.join())) throw new Told("That is locked already.");
  locks.push(lock);
  await locksChanged();
}

function showLocks() {
  element("locks-badge").textContent = locks.length || "";
  element("lock-list").replaceChildren(...locks.map((lock, at) => {
    const unlock = guarded(async () => {
      locks.splice(at, 1);
      await locksChanged();
    });
    return make("li", {}, make("span", { textContent: lockInWords(lock) }), button("Unlock", unlock, { "aria-label": "Unlock " + lockInWords(lock) }));
  }));
}

/**
 * Offers the authors and kinds that the document has.
 * @param {{ author: string, kind: string }[]} rows
 */
function offerLocks(rows) {
  const fill = (/** @type {string} */ id, /** @type {string[]} */ values, /** @type {(it: string) => string} */ inWords) =>
    element(id).replaceChildren(...values.sort().map((value) => make("option", { value, textContent: inWords(value) })));
  fill("lock-author", Array.from(new Set(rows.map((it) => it.author))), (it) => it || "no name");
  fill("lock-kind", Array.from(new Set(rows.map((it) => it.kind))), (it) => KINDS[it]);
}

function prepareLocks() {
  element("lock-by").addEventListener("change", () => {
    for (const label of element("lock-form").querySelectorAll("[data-for]")) label.hidden = label.dataset.for !== element("lock-by").value;
  });
  element("lock-form").addEventListener("submit", (/** @type {Event} */ event) => {
    event.preventDefault();
    guarded(addLock)();
  });
  for (let it = 0; it <= 9; it++) element("rank").append(make("option", { value: String(it), textContent: String(it) }));
  element("rank").addEventListener("change", guarded(async () => {
    rank = Number(element("rank").value);
    await showPage(await makePage());
    await refresh();
  }));
}
