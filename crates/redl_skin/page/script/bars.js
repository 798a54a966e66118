// The bars around the document and the list: what a reviewer presses and types in, and what they are told.

const tally = make("p", { id: "tally" });
const line = make("p", { id: "line", role: "status" });
const undo = make("button", { type: "button", id: "undo", textContent: "Undo", disabled: true, title: "Undo (u)" });
const known = make("datalist", { id: "known" });
const person = make("input", { id: "person", type: "text", autocomplete: "name", spellcheck: false, "aria-describedby": "line" });
const save = make("button", { type: "button", id: "save", textContent: "Save my journal" });
const openButton = make("button", { type: "button", id: "open", textContent: "Open my journal" });
const file = make("input", { type: "file", id: "file", hidden: true, ariaLabel: "Open my journal" });
const help = make("button", { type: "button", id: "help", textContent: "?", ariaLabel: "Help", title: "Help (?)" });
const search = make("input", { type: "search", id: "search", spellcheck: false, placeholder: "words, author, number" });
const advance = make("input", { type: "checkbox", id: "advance", checked: true });
const [authors, kinds, states] = ["author", "kind", "state"].map((id) => make("select", { id }));
const [acceptAll, rejectAll] = ["accept-all", "reject-all"].map((id) => make("button", { type: "button", id }));

function build() {
  person.setAttribute("list", "known");
  const short = [["j", "next"], ["k", "back"], ["a", "accept"], ["r", "reject"], ["e", "edit"], ["?", "help"]];
  document.body.prepend(make("header", {}, make("h1", {}, ...(title ? [isolated(title), ": changes to decide"] : ["Changes to decide"])), tally, views, openButton, help),
    make("p", { id: "printed" }));
  aside.prepend(make("div", { className: "sign" }, labelled("Your name", person), known, save, file),
    make("div", { className: "told" }, line, undo),
    make("details", { className: "choose", open: innerWidth > 960 }, make("summary", { textContent: "Filter, and decide all that is left" }),
      make("div", { className: "filter" }, labelled("Author", authors), labelled("Kind", kinds), labelled("State", states), labelled("Search", search), labelled("Go on by itself", advance), labelled("Edits as one row", together), acceptAll, rejectAll)),
    make("p", { className: "keys" }, ...short.flatMap(([key, text]) => [make("kbd", { textContent: key }), " " + text + " "])));
  offerFilters();
  main.setAttribute("aria-label", "Document");
  main.tabIndex = list.tabIndex = 0;
  list.setAttribute("role", "list");
  list.setAttribute("aria-label", "List of changes");
  colour(Array.from(new Set(authorsOf)));
}

// A colour for each of the first authors.
function colour(names) {
  const colours = new CSSStyleSheet();
  names.slice(0, 64).forEach((it, place) =>
    colours.insertRule('[data-author="' + CSS.escape(it) + '"] { --author: var(--author-' + ((place % 8) + 1) + "); }"));
  document.adoptedStyleSheets = [colours];
}

function tell(text, isFault = false) {
  line.textContent = text;
  line.classList.toggle("fault", isFault);
}

// Says on paper what view was printed, of whom and when.
function sayPrinted() {
  const view = document.body.dataset.view;
  const who = reviewer ? " as decided on this page by " + spelled(reviewer) : " as decided on this page";
  document.querySelector("#printed").textContent =
    (title ? title + ": " : "") + "view \"" + view + "\"" + who + ", " + tally.textContent + ". Printed on " + dated(Date.now()) + ".";
}
