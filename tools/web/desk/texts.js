// What the program's lines and the faults of files mean for a reader, and what to do.
"use strict";

const ORIGINAL = "Ask whoever sent it for the original file.";
const SAVE_AGAIN = "Open it in Word, save it again, and open the saved file here. If it is refused still, that document can't be decided here.";

/**
 * For a line of the program or of the .docx reader: what it means, and what to do.
 * @type {[RegExp, string, string][]}
 */
const MEANINGS = [
  [/old Word document|has a password|encrypted/i, "has a password, or is in the old form of Word (.doc).", "Open it in Word, take the password off (File, Info, Protect Document) or save it as a Word document (.docx), and open that one here."],
  [/is a PDF/, "is a PDF and no Word document.", "Open the Word document that the PDF was made of."],
  [/is an empty file/, "is empty.", ORIGINAL],
  [/the package is a journal/, "is a journal and no document.", "Open the document first, and add the journal then."],
  [/is a web page/, "is a web page and no document.", "If it is a page to decide in, open it with a double click; else open the Word document."],
  [/without \[Content_Types\]\.xml/, "is an archive, but no Word document.", "If it comes from another word processor, save it there as a Word document (.docx). If it is an archive with documents in it, take them out first."],
  [/unpacks to more than/, "unpacks to more than a Word document can hold. It may have been made to do harm.", ORIGINAL],
  [/no ZIP package|two of its parts|control character|entries/i, "is damaged.", ORIGINAL],
  [/package: rule 4\b/, "has a change of formatting that isn't in its place. LibreOffice writes such files.", "Let Redline put it in its place, or open the file in Word and save it again. All reviewers have to do the same, since it makes another document of it."],
  [/package: rule/, "has a structure in which not every decision could be carried out.", SAVE_AGAIN],
  [/package: not a package/, "is another kind of XML file.", "In Word choose File, Save As, “Word XML Document (*.xml)”, without a year, or save it as .docx."],
  [/package: not readable/, "can't be read as a Word document.", "Open it in Word, save it as .docx, and open the saved file here."],
  [/package: (part shape|no document)/, "isn't as a word processor writes documents.", ORIGINAL],
  [/limit depth/, "has more tables or boxes in one another than Redline can take.", "Take some of them out of one another in a copy, and decide that one."],
  [/limit package bytes|limit nodes/, "is larger than Redline can take.", "Take large pictures out of a copy, or split it; the changes can be decided without the pictures."],
  [/limit journal bytes/, "The journals are larger together than Redline can take.", "Take some away, or join them into one first."],
  [/journal .*: (document|revisions) /, "was made for another document, or for another version of this one.", "Ask for a journal of exactly this file, or open the file that it was made for. Saving a document in Word makes another version of it."],
  [/is in UTF-16/, "is no journal any more: a program saved it as UTF-16.", "Ask for it again as an attachment, and open it in no other program."],
  [/Windows line ends/, "is no journal any more: a program changed its line ends.", "Ask for it again as an attachment, or in a ZIP archive, and open it in no other program."],
  [/journal .*: malformed/, "is no journal, or was changed on its way.", "Ask for it again as an attachment, or in a ZIP archive, and open it in no other program."],
  [/second package: not what the first one gives/, "The document that is open isn't what the earlier one and these journals give.", "Add all journals of the earlier sitting and no others, and open the document as Redline saved it: Word makes another one of it when it saves it."],
  [/the sittings differ/, "The decisions of this sitting can't be carried over to the earlier document.", "Keep both documents, and their journals beside each."],
  [/no sequence number left/, "No sequence number is left for this name.", "Use another name."],
];

/**
 * What some kinds of faults mean, whatever the line says.
 * @type {Record<string, [string, string]>}
 */
const KINDS_OF_FAULTS = {
  memory: ["There is too little memory for this.", "Close other tabs and programs, and try again; or take large pictures out of a copy of the document."],
  stack: ["This document has more tables in one another than this browser can follow.", "Try another browser (Firefox, Chrome or Edge), or the command line."],
  browser: ["This browser can't run Redline.", "Use a current Firefox, Chrome, Edge or Safari. Where an administrator has forbidden WebAssembly, ask for an exception for this file."],
  stopped: ["Stopped. Nothing was changed.", ""],
  fault: ["Something went wrong in this page. What is on the screen is as it was.", "Save your journal, open this page anew, and try again. If it happens again, please report the line below."],
};

/**
 * Only what comes from a file is about that file.
 * @param {any} error
 * @param {string} name
 * @returns {Message}
 */
function messageOf(error, name = error.file ?? "") {
  const line = String(error?.message ?? error);
  const kind = error instanceof ActionError ? error.kind : error instanceof Told ? "told" : "fault";
  if (kind === "told") return { what: line, todo: error.todo, isFault: true };
  const known = MEANINGS.find(([pattern]) => pattern.test(line));
  if (known && (kind === "file" || kind === "program")) {
    const [, what, todo] = known;
    const isWhole = /^[A-Z]/.test(what);
    return { what: isWhole ? what : "“" + (name || "The file") + "” " + what, todo, line: line.includes("redline: ") ? line : "", isFault: true };
  }
  const [what, todo] = KINDS_OF_FAULTS[kind] ?? [name ? "“" + name + "” was refused." : "Redline refused this.", ""];
  return { what, todo, line: kind === "stopped" ? "" : line, isFault: kind !== "stopped" };
}

/** A fault whose words are for the reader as they are. */
class Told extends Error {
  /**
   * @param {string} what
   * @param {string} todo
   */
  constructor(what, todo = "") {
    super(what);
    this.todo = todo;
  }
}
