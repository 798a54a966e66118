// Undo: a stack of all that was done, each with its words and with what brings the former words back.

const acts = [];

// An act that changed the reviewer's name has the former one.
function remember(text, former, name = null) {
  if (former.length) acts.push({ text, former, name });
  showUndo();
}

function takeBack() {
  const last = acts.pop();
  if (!last) return tell("There is nothing to undo.");
  const isRenamed = last.name !== null && last.name !== reviewer;
  if (isRenamed) beReviewer(last.name, foundUnder(last.name).last);
  replace(last.former.map(([at, word]) => [at, word]));
  showUndo();
  tell("Undone: " + last.text + "." + (isRenamed ? " The name is " + (spelled(reviewer) || "empty") + " again." : ""));
}

function showUndo() {
  const last = acts.at(-1);
  undo.disabled = !last;
  undo.textContent = last ? "Undo: " + last.text : "Undo";
  undo.title = ["Undo (u)", ...acts.slice(-10).reverse().map((it) => it.text)].join("\n");
}
