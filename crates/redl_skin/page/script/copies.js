// A page that a browser saved as it was seen holds what this script had made, so it can't begin anew: it is only read.

const isCopy = document.querySelector("body > header") !== null;

function tellCopy() {
  for (const it of document.querySelectorAll("dialog, .copy")) it.remove();
  for (const it of document.querySelectorAll("body > header, aside")) it.inert = true;
  addEventListener("keydown", (event) => event.stopImmediatePropagation(), true);
  addEventListener("click", (event) => event.stopImmediatePropagation(), true);
  main.prepend(make("p", { className: "copy", role: "alert" },
    make("strong", {}, "This is a copy that a browser saved. "),
    "It shows what was seen then, and nothing can be decided in it. To decide, open the file that you were sent, or ask its sender for it once more. To keep that file, copy it, and don't save it from a browser."));
}
