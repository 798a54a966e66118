// Saving: the document, journals, texts and listings, each as a file in the browser's folder for downloads.
"use strict";

const IN_DOWNLOADS = "It is in the folder for downloads, unless your browser asked for another.";

/**
 * A name that every system takes for a file.
 * @param {string} name
 */
function fileName(name) {
  const clean = name.replace(/[\u0000-\u001f\u007f<>:"/\\|?*\u200e\u200f\u202a-\u202e\u2066-\u2069]/g, "_").replace(/^\.+|[. ]+$/g, "_");
  const [, stem, ending] = clean.match(/^(.*?)(\.[^.]{1,12})?$/) ?? [];
  const safe = /^(con|prn|aux|nul|com\d|lpt\d)$/i.test(stem.split(".")[0]) ? "_" + stem : stem;
  let fit = Array.from(safe).slice(0, 180);
  while (encoded(fit.join("")).length > 180) fit = fit.slice(0, -1);
  return fit.join("") + (ending ?? "");
}

/**
 * Gives a file to the browser to save.
 * @param {string} name
 * @param {string | Uint8Array} content
 */
function save(name, content) {
  const href = URL.createObjectURL(new Blob([content], { type: "application/octet-stream" }));
  make("a", { href, download: fileName(name) }).click();
  setTimeout(() => URL.revokeObjectURL(href), 60000);
}

const stem = () => /** @type {Opened} */ (opened).name.replace(/\.(docx|docm|xml)$/i, "");

/**
 * What is pressed to save something: it is told beside the button, or why it came to nothing.
 * @param {string} told
 * @param {() => Promise<string>} what
 */
function saves(told, what) {
  return async () => {
    tellBeside(told, "");
    work(1);
    try {
      tellBeside(told, await what());
    } catch (error) {
      const { what: happened, todo = "", line = "" } = messageOf(error, opened?.name);
      tellBeside(told, [happened, todo, line].filter(Boolean).join(" "), true);
    } finally {
      work(-1);
    }
  };
}

/**
 * How many changes are tracked in a package that was written, in words.
 * @param {string} name
 */
async function leftIn(name) {
  const { status, out, lines } = await ask("call", ["check", name]);
  if (status !== 0) return "Redline can't take the saved document in again: " + lines;
  const left = countIn(out);
  return left === 0 ? "No change is tracked in it any more." : counted(left, "change is", "changes are") + " still tracked in it.";
}

/** Writes the document as it is chosen here: as decided, or with all changes accepted or rejected. */
async function writeAsChosen() {
  const how = document.querySelector('input[name="how"]:checked')?.["value"] ?? "";
  const { lines } = how ? await called(["settle", how, DOCUMENT], { into: WRITTEN }) : await calledOnAll(["write"], { into: WRITTEN });
  stale.written = stale.written || how !== "";
  return { how, lines };
}

async function saveDocument() {
  const { how, lines } = await writeAsChosen();
  const left = await leftIn(WRITTEN);
  const form = element("form").value;
  const ending = form === "docx" && /\.docm$/i.test(/** @type {Opened} */ (opened).name) ? "docm" : form;
  const name = stem() + (how === "accept" ? ".accepted." : how === "reject" ? ".rejected." : ".decided.") + ending;
  const { bytes, said } = form === "docx" ? await ask("pack", WRITTEN, { dropUnusedNotes: element("drop-notes").checked }) : { bytes: await ask("fetch", WRITTEN), said: [] };
  save(name, bytes);
  if (!how) isUnsaved = false;
  return ["Saved as " + fileName(name) + ".", left, IN_DOWNLOADS, ...said.map((/** @type {string} */ it) => it + "."), toldOf(lines)].filter(Boolean).join(" ");
}

/** The page asks whoever signs a journal, shows what it says, and remembers that it was saved; so it is the page that saves it. */
function saveJournal() {
  choose("decide");
  frame.focus();
  frame.contentDocument.getElementById("save").click();
}

async function saveJoined() {
  const { words, options } = joinedWords();
  if (!words.length) throw new Told("There is no journal yet: nothing is decided, and none was added.");
  const { out, lines } = await called(["join", ...words], { ...options, bytes: true });
  save(stem() + ".joined.journal", out);
  return ["Saved as " + fileName(stem() + ".joined.journal") + ".", IN_DOWNLOADS, toldOf(lines)].filter(Boolean).join(" ");
}

/**
 * @param {string} name
 * @param {(more: object) => Promise<any>} make
 */
async function saveOutput(name, make) {
  const { out } = await make({ bytes: true });
  save(name, out);
  return "Saved as " + fileName(name) + ". " + IN_DOWNLOADS;
}

/** What stands in the panel before something is pressed. */
async function showSaving() {
  const { isZip, name } = /** @type {Opened} */ (opened);
  const count = counts(await listing());
  const left = count.disputed + count.open;
  element("document-told").textContent = counted(count.accept, "change") + " accepted, " + count.reject.toLocaleString("en") + " rejected. " +
    (left ? counted(left, "change stays", "changes stay") + " tracked: " + ["disputed", "open"].filter((it) => count[it]).map((it) => count[it].toLocaleString("en") + " " + it).join(", ") + "." : "All are decided.");
  element("drop-notes-label").hidden = element("form").value !== "docx";
  const parts = pageParts();
  const isEmpty = !hasEntries(parts.journal(parts.name() || standIn()));
  element("journal-told").textContent = isEmpty ? "You have decided nothing yet." : parts.name() ? "It is saved under the name " + parts.name() + "." : "It needs your name: type it above the list of changes in step 1.";
  for (const id of ["save-document-told", "save-joined-told", "save-more-told", "save-second-told", "remains-told"]) tellBeside(id, "");
  element("remains").replaceChildren();
  showSitting(name, isZip);
}

function prepareSaving() {
  const press = (/** @type {string} */ id, /** @type {string} */ told, /** @type {() => Promise<string>} */ what) => element(id).addEventListener("click", saves(told, what));
  press("save-document", "save-document-told", saveDocument);
  element("save-journal").addEventListener("click", saveJournal);
  press("save-joined", "save-joined-told", saveJoined);
  press("save-text", "save-more-told", () => {
    const view = element("view").value;
    return saveOutput(stem() + "." + view + ".txt", (more) => called(["text", DOCUMENT, "--view", view], more));
  });
  press("save-report", "save-more-told", () => saveOutput(stem() + ".report.txt", (more) => calledOnAll(["report", "--format", "table"], more)));
  press("save-listing", "save-more-told", () => saveOutput(stem() + ".listing.json", (more) => calledOnAll(["list", "--format", "full"], more)));
  element("form").addEventListener("change", () => (element("drop-notes-label").hidden = element("form").value !== "docx"));
}
