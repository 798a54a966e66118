// The start: files that are chosen, dropped or come with the page, the steps, and the keyboard.
"use strict";

/** @typedef {{ name: string, bytes: Uint8Array, isTidy?: boolean }} Given */

const LARGEST_FILE = 2 ** 28;
const HOW_TO_DECIDE = "Choose a change, and press Accept or Reject. When you are done, go to step 5.";

/**
 * The files' names and bytes.
 * @param {Iterable<File>} files
 * @returns {Promise<Given[]>}
 */
async function readAll(files) {
  return Promise.all(Array.from(files, async (file) => {
    if (file.size > LARGEST_FILE) throw new Told("“" + file.name + "” is larger than 256 MB, and so no document that Redline can take.");
    try {
      return { name: file.name, bytes: new Uint8Array(await file.arrayBuffer()) };
    } catch {
      throw new Told("“" + file.name + "” can't be read.", "If it is a folder, choose the files in it. If it was moved or changed meanwhile, choose it again.");
    }
  }));
}

/**
 * Whether a file is meant as a journal: by how it begins, else by its name.
 * @param {Given} file
 */
function isJournal({ name, bytes }) {
  const begin = new TextDecoder("latin1").decode(bytes.subarray(0, 60)).replace(/\u0000/g, "");
  if (/redline-journal/.test(begin)) return true;
  return /\.(journal|txt)$/i.test(name);
}

/**
 * Opens a document; one that only has changes of formatting out of place can be opened tidied. Gives what it told.
 * @param {Given} file
 * @returns {Promise<Message>}
 */
async function openFile(file, isTidy = file.isTidy ?? false) {
  if (opened && isUnsaved && !(await agreed("You have decided changes that are in no saved file yet. Open another document all the same?", "Open it"))) throw null;
  try {
    await openDocument(file, isTidy);
  } catch (error) {
    const message = messageOf(error, file.name);
    if (/package: rule 4\b/.test(String(error?.message)) && !isTidy && file.bytes[0] === 0x50)
      message.acts = [["Put it in its place and open it", guarded(async () => void (await openFile(file, true)))]];
    tell(message);
    throw null;
  }
  const { count, note, said } = /** @type {Opened} */ (opened);
  choose("decide");
  const message = {
    what: count ? "“" + file.name + "” is open: " + counted(count, "change") + " to decide." : "“" + file.name + "” has no tracked changes.",
    todo: count ? [HOW_TO_DECIDE, note].filter(Boolean).join(" ") : note || "If you expected some, Track Changes was off, or they were accepted before. There is nothing to decide here.",
    line: said.join("\n"),
  };
  tell(message);
  return message;
}

/**
 * Takes files that were chosen or dropped: at most one document, and journals.
 * @param {Given[]} files
 */
async function take(files) {
  const journals = files.filter(isJournal);
  const documents = files.filter((it) => !journals.includes(it));
  if (documents.length > 1) throw new Told("Open one document at a time: these are " + documents.length + ".", "Choose the document of this round, and its journals with it.");
  if (!documents.length && !opened) throw new Told("Open the document first, and add the journals then.");
  const told = documents.length ? await openFile(documents[0]) : null;
  if (journals.length) await addJournals(journals, told);
}

const taken = async (/** @type {Given[]} */ files) => {
  try {
    await take(files);
  } catch (error) {
    tellFault(error, files.length === 1 ? files[0].name : "");
  }
};

/**
 * What becomes of files that are chosen.
 * @param {(files: Given[]) => Promise<void>} then
 */
const chosenFor = (then) => guarded(async () => {
  const picker = element("picker");
  const files = await readAll(picker.files);
  picker.value = "";
  picker.onchange = chosenFor(taken);
  await then(files);
});

/**
 * Lets files be chosen.
 * @param {string} accept
 * @param {(files: Given[]) => Promise<void>} then
 */
function pick(accept, then = taken) {
  Object.assign(element("picker"), { accept, onchange: chosenFor(then) }).click();
}

const DOCUMENTS = ".docx,.docm,.xml,.journal";

async function takeEarlier(/** @type {Given[]} */ files) {
  const journals = files.filter(isJournal);
  const documents = files.filter((it) => !journals.includes(it));
  if (documents.length !== 1) throw new Told("Choose the earlier document and its journals, all at once.");
  await keepEarlier(documents[0], journals);
  tell({ what: element("earlier-told").textContent });
}

// The steps

const STEPS = ["decide", "others", "standing", "written", "save"];
const isChosen = (/** @type {string} */ step) => !element(step).hidden;
/**
 * What a step needs before it is seen.
 * @type {Record<string, () => Promise<void>>}
 */
const NEEDS = {
  others: async () => refresh(),
  standing: showStanding,
  written: showWritten,
  save: showSaving,
};

/**
 * Shows a step.
 * @param {string} step
 */
function choose(step) {
  for (const it of STEPS) {
    element(it).hidden = it !== step;
    element("tab-" + it).setAttribute("aria-selected", String(it === step));
    element("tab-" + it).tabIndex = it === step ? 0 : -1;
  }
  if (NEEDS[step]) guarded(NEEDS[step])();
}

function prepareSteps() {
  for (const [at, step] of STEPS.entries()) {
    element("tab-" + step).addEventListener("click", () => {
      // (what is told of one step is read by the time that another one is chosen; a fault stays)
      if (!element("message").classList.contains("is-fault")) tell(null);
      choose(step);
    });
    element("tab-" + step).addEventListener("keydown", (/** @type {KeyboardEvent} */ event) => {
      const to = { ArrowRight: at + 1, ArrowLeft: at - 1, Home: 0, End: STEPS.length - 1 }[event.key];
      if (to === undefined) return;
      event.preventDefault();
      const next = STEPS[(to + STEPS.length) % STEPS.length];
      choose(next);
      element("tab-" + next).focus();
    });
  }
}

// Files that are dropped, also on a page in a frame

/** @param {any} where */
function acceptDrops(where) {
  for (const name of ["dragenter", "dragover", "dragleave", "drop"])
    where.addEventListener(name, (/** @type {DragEvent} */ event) => {
      event.preventDefault();
      document.body.classList.toggle("over", name === "dragenter" || name === "dragover");
      if (name !== "drop") return;
      const then = /** @type {any} */ (event.target)?.closest?.("#earlier") ? takeEarlier : taken;
      guarded(async () => then(await readAll(event.dataTransfer?.files ?? [])))();
    });
}

// The start

function prepareButtons() {
  element("picker").onchange = chosenFor(taken);
  element("choose").addEventListener("click", () => pick(DOCUMENTS));
  element("other").addEventListener("click", () => pick(DOCUMENTS));
  element("add").addEventListener("click", () => pick(".journal,.txt"));
  element("add-earlier").addEventListener("click", () => pick(DOCUMENTS, takeEarlier));
  element("example").addEventListener("click", guarded(async () => taken(await exampleFiles())));
  element("about-open").addEventListener("click", () => element("about").showModal());
  element("dismiss").addEventListener("click", () => tell(null));
  element("stop").addEventListener("click", stopAll);
  element("locks").addEventListener("toggle", guarded(async () => offerLocks(await listing())));
}

addEventListener("beforeunload", (event) => {
  if (opened && isUnsaved && ownDecisions()) event.preventDefault();
});

/** Whether anything is decided in the page. */
function ownDecisions() {
  try {
    return hasEntries(pageParts().journal("x"));
  } catch {
    return false;
  }
}

guarded(async () => {
  acceptDrops(window);
  prepareSteps();
  prepareLocks();
  prepareSaving();
  prepareRemains();
  prepareSittings();
  prepareButtons();
  preparePaper();
  element("version").textContent = (await started).replace("\n", ", ");
  document.body.dataset.state = "ready";
  performance.mark("ready");
  const given = await givenFiles();
  if (given.length) await taken(given);
})();
