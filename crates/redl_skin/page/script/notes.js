// Notes: the sign of a note leads to its text, and from there back to where the note is named.

const noteLinks = new Map();

function linkNotes() {
  const notes = new Map();
  for (const [story, name] of [["footnotes", "Footnote"], ["endnotes", "Endnote"]])
    for (const it of main.querySelectorAll('[data-story="' + story + '"] > sup:not(.remark)')) {
      const sign = it.textContent;
      // Of several notes with one sign it isn't known which is meant.
      if (sign) notes.set(sign, notes.has(sign) ? null : { note: it, name: name + " " + sign });
    }
  for (const it of main.querySelectorAll('[data-story="document"] sup:not(.remark)')) {
    const { note, name } = notes.get(it.textContent) || {};
    if (!note) continue;
    leadTo(it, note, name);
    if (!noteLinks.has(note)) leadTo(note, it, name + ", back to where it is named");
  }
}

function leadTo(sign, place, ariaLabel) {
  noteLinks.set(sign, place);
  Object.assign(sign, { tabIndex: 0, role: "link", ariaLabel, title: ariaLabel });
}

// Brings an element of the document into sight, and gives it the keyboard.
function goToElement(place) {
  for (let it = place.closest("details"); it; it = it.parentElement.closest("details")) it.open = true;
  comeNear(partOf(place));
  place.scrollIntoView({ block: "center" });
  place.focus({ preventScroll: true });
}
