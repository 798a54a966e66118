// Dialogs: questions with their answers, one at a time.

let asked = Promise.resolve("");

// Asks, and gives the value of the answer that is pressed; the Escape key gives the empty value. An answer is a value and
// its words. The first one has the keyboard, unless there is more to be read: then that has it.
function ask(title, inside, answers, isLong = false) {
  asked = asked.then(() => new Promise((resolve) => openDialog(title, inside, answers, isLong, resolve)));
  return asked;
}

function openDialog(title, inside, answers, isLong, resolve) {
  const buttons = answers.map(([value, textContent], place) =>
    make("button", { type: "button", value, textContent, autofocus: place === 0 && !isLong, className: "answer" }));
  const dialog = make("dialog", { "aria-labelledby": "asked" }, make("h2", { id: "asked", textContent: title }),
    make("div", { className: "asking", tabIndex: isLong ? 0 : -1, autofocus: isLong, role: "group", ariaLabel: title }, ...inside), make("div", { className: "answers" }, ...buttons));
  dialog.addEventListener("click", ({ target }) => target.matches(".answer") && dialog.close(target.value));
  dialog.addEventListener("close", () => {
    dialog.remove();
    resolve(dialog.returnValue);
  });
  document.body.append(dialog);
  dialog.showModal();
}

// Closes the dialog that is open, as the Escape key does.
function closeDialog() {
  const dialog = document.querySelector("dialog[open]");
  if (dialog) dialog.close("");
}

function paragraph(...inside) {
  return make("p", {}, ...inside);
}

// A name, so that its letters turn nothing around it.
function isolated(name) {
  return make("bdi", { textContent: spelled(name) || "no name" });
}

function dated(time) {
  return time ? new Date(time).toLocaleString("en-GB", { dateStyle: "long", timeStyle: "short" }) : "an unknown time";
}

// Numbers of the changes at places, a few at most.
function numbersInWords(places) {
  const few = places.slice(0, 12).map((at) => at + 1).join(", ");
  return few + (places.length > 12 ? " and " + (places.length - 12) + " more" : "");
}
