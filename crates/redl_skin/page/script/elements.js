// What the page does: choosing, deciding and filtering changes, three views, and saving a journal.
//
// The document and the list of changes come with the page. All else is made here, from texts alone: nothing is ever
// read as markup. A row of the list is filled in when it is nearly seen, so that a page with many changes opens at once.
"use strict";

const { document: digest, title = "" } = document.body.dataset;
const main = document.querySelector("main");
const aside = document.querySelector("aside");
const list = aside.querySelector("ol");
const rows = Array.from(list.children);
const sequences = new Map(Array.from(aside.querySelectorAll(":scope > ul:not([class]) > li"), (it) => [it.textContent, Number(it.dataset.sequence)]));
// The greatest sequence number, and the most bytes of a journal.
const LARGEST = 4294967295;
const LARGEST_JOURNAL = 67108864;
const WORDS = ["accept", "reject", "withdraw"];
const LETTERS = { accept: "a", reject: "r", withdraw: "w" };
const DONE = { accept: "accepted", reject: "rejected", withdraw: "withdrawn" };
const ORDERS = { accept: "Accept", reject: "Reject", withdraw: "Withdraw" };
const SPELLED = { " ": "space", "\u00a0": "no-break space", "\u202f": "narrow no-break space", "\u00ad": "soft hyphen", "\u200b": "zero-width space" };

// A new element with properties or attributes, and with texts or elements inside.
function make(name, properties = {}, ...inside) {
  const made = document.createElement(name);
  for (const [key, value] of Object.entries(properties)) {
    if (key in made) made[key] = value;
    else made.setAttribute(key, value);
  }
  made.append(...inside);
  return made;
}

// The items of the lists that came for this script alone, which are taken out of the page: those of each list with its part.
function takenItems(selector) {
  return Array.from(aside.querySelectorAll(":scope > " + selector), (it) => {
    it.remove();
    return Object.assign(Array.from(it.children), { part: it.dataset.part });
  });
}

function labelled(text, field) {
  return make("label", { htmlFor: field.id }, make("span", { textContent: text }), field);
}
