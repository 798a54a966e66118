// The scripts of the desk's worker in node: the same texts, in one scope as there.
"use strict";
const fs = require("fs");
const path = require("path");
const vm = require("vm");

const WEB = path.join(__dirname, "../../web");
for (const name of ["pako/pako.min.js", "call.js", "xml.js", "zip.js", "tidy.js", "flatopc.js"]) {
  const file = path.join(WEB, name);
  vm.runInThisContext(fs.readFileSync(file, "utf8"), { filename: file });
}

/** Real files, for callProgram. An error of the system is its number. */
function guarded(what) {
  try {
    return what();
  } catch (error) {
    if (error.errno === undefined) throw error;
    return error.errno;
  }
}
const realFiles = {
  open: (name) => guarded(() => fs.openSync(name, "r")),
  read: (file, into) => guarded(() => fs.readSync(file, into, 0, into.length, null)),
};

module.exports = { realFiles, ...vm.runInThisContext("({ callProgram, filesInMemory, Gathered, NotOfTheForm, xml, zip, flatopc })") };
