// What is clicked and which keys are pressed.

document.addEventListener("click", ({ target, detail }) => {
  if (pressSign(target)) return;
  const row = target.closest("aside > ol > li");
  const place = target.closest("main [data-revision]");
  if (row) choose(row);
  else if (place) choose(rowOfLine(lineAt(Number(place.dataset.revision) - 1)), true);
  // The second click of a double click would take the word away again.
  if (row && target.matches(".buttons button[value]") && detail < 2) pressButton(row, target, detail === 0);
  if (row && target.matches(".open-edit")) pressOpen(row);
});

// What leads to another place of the document, or opens a comment: whether it was one of these.
function pressSign(target) {
  const note = target.closest('sup[role="link"]');
  if (note) goToElement(noteLinks.get(note));
  else if (target.matches(".remark-sign")) openRemark(target);
  else if (target.matches(".remark-way")) goToRemark(target);
  return note || target.matches(".remark-sign, .remark-way, .remark-box, .remark-box *");
}

// The row of an edit is opened or closed, and its button keeps the keyboard.
function pressOpen(row) {
  openLine(lineOfRow(row));
  row.querySelector(".open-edit").focus();
}

// A button that was pressed by key leaves the keyboard on the same button, of the next row where that is chosen.
function pressButton(row, button, isByKey) {
  decide(row, button.value);
  const next = current.querySelector('.buttons [value="' + button.value + '"]:enabled');
  if (current === row) button.focus();
  else if (isByKey && next) next.focus();
}

const PRESSED = {
  j: () => step(1), k: () => step(-1), u: takeBack,
  e: () => (current ? openLine(editLineOf(current)) : tell("Choose a change first: the key j goes to the next one.")),
  Escape: closeRemarks,
  n: () => seek(1, isUndecided, "not decided"), N: () => seek(-1, isUndecided, "not decided"),
  d: () => seek(1, isDisputed, "disputed"), D: () => seek(-1, isDisputed, "disputed"),
  o: () => seek(1, differs, "one where others differ from you"), O: () => seek(-1, differs, "one where others differ from you"),
  "?": showHelp,
  "/": () => {
    search.closest("details").open = true;
    search.focus();
  },
};

// A key that is held down goes on through the list, and decides once.
document.addEventListener("keydown", (event) => {
  if (event.ctrlKey || event.altKey || event.metaKey || event.target.closest("input[type=text], input[type=search], select, dialog")) return;
  if (event.repeat && event.target.closest("button")) event.preventDefault();
  if (event.key === "Enter" && noteLinks.has(event.target)) return goToElement(noteLinks.get(event.target));
  const word = WORDS.find((it) => LETTERS[it] === event.key);
  if (word && !event.repeat) decide(current, word);
  if (!Object.hasOwn(PRESSED, event.key) || (event.repeat && !"jk".includes(event.key))) return;
  event.preventDefault();
  PRESSED[event.key]();
});

search.addEventListener("keydown", ({ key }) => {
  if (key !== "Enter" && key !== "Escape") return;
  if (key === "Escape") search.value = "";
  filter();
  list.focus();
});

let searching = 0;

search.addEventListener("input", () => {
  clearTimeout(searching);
  searching = setTimeout(filter, 200);
});
