// The document: its stories, its headings, and where a change is in it.

// What is far from sight costs nothing: of a long story so many blocks are a group, and of a long table so many rows.
const FAR = 100;

// It is taken out of the page for that: a browser looks at all that follows a block that is moved.
function arrange() {
  document.querySelector("header").append(viewLine);
  const { scrollTop, nextSibling } = main;
  main.remove();
  readNumbers();
  linkNotes();
  showImages();
  placeRemarks();
  for (const it of main.querySelectorAll('[data-style^="Heading"], [data-style="Title"]')) head(it);
  nameStories();
  for (const edge of Array.from(main.querySelectorAll("td.edge"))) bringIn(edge);
  for (const story of main.children) group(story, () => make("div", { className: "far" }));
  for (const table of Array.from(main.querySelectorAll("tbody"))) if (table.rows.length > 2 * FAR) groupRows(table);
  nextSibling.before(main);
  main.scrollTop = scrollTop;
  watchParts();
}

// What stands at the edge of a row is no cell: it goes into the first one.
function bringIn(edge) {
  const row = edge.parentNode;
  const made = make("span", { className: "edge" }, ...edge.childNodes);
  for (const it of made.querySelectorAll("ins, del")) row.classList.add(it.localName === "ins" ? "inserted" : "deleted");
  let cell = edge.nextElementSibling;
  while (cell && cell.matches(".edge")) cell = cell.nextElementSibling;
  if (!cell) return;
  const others = cell.querySelectorAll(":scope > .edge");
  if (others.length) others[others.length - 1].after(made);
  else cell.prepend(made);
  edge.remove();
}

function group(parent, makeGroup) {
  const nodes = Array.from(parent.childNodes);
  if (nodes.length <= 2 * FAR) return;
  for (let at = 0; at < nodes.length; at += FAR) {
    const made = makeGroup();
    made.append(...nodes.slice(at, at + FAR));
    parent.append(made);
  }
}

function groupRows(body) {
  body.parentNode.classList.add("long");
  const rest = Array.from(body.childNodes).slice(FAR);
  for (let at = rest.length; at > 0; at -= FAR) {
    const made = make("tbody", { className: "far" });
    made.append(...rest.slice(Math.max(0, at - FAR), at));
    body.after(made);
  }
}

// Of several stories of one sort the heading of each has its number, and the name of its part is at hand.
function nameStories() {
  const stories = Array.from(main.querySelectorAll(":scope > [data-story]"));
  const counts = new Map(counted(stories.map((it) => it.dataset.story)));
  const named = {};
  for (const story of stories) {
    const sort = story.dataset.story;
    named[sort] = (named[sort] || 0) + 1;
    const title = story.querySelector(":scope > h2");
    if (!title) continue;
    title.title = story.dataset.part;
    if (sort !== "document" && counts.get(sort) > 1) title.append(" " + named[sort]);
  }
}

// A paragraph with the style of a heading is one.
function head(paragraph) {
  const style = paragraph.dataset.style || "";
  if (!/^(Heading|Title$)/.test(style)) return;
  paragraph.setAttribute("role", "heading");
  paragraph.setAttribute("aria-level", Math.min(6, 2 + (parseInt(style.slice(7), 10) || 0)));
}

function unhead(paragraph) {
  paragraph.removeAttribute("role");
  paragraph.removeAttribute("aria-level");
}

// The place of the change that an element of the document is of.
function placeOf(member) {
  return Number(member.getAttribute("data-revision")) - 1;
}

let places = null;

// The elements of the change of a row, or of those of an edit.
function placesOf(row) {
  return placesOfLine(lineOfRow(row)).flatMap(placesAt);
}

// The elements of the change at a place.
function placesAt(at) {
  if (!places) {
    places = new Array(rows.length);
    for (const it of main.querySelectorAll("[data-revision]")) {
      const at = placeOf(it);
      if (places[at]) places[at].push(it);
      else places[at] = [it];
    }
  }
  return places[at] || [];
}

// Shows where a change is in the document. Where a view has taken its text away, what is nearest to it is shown.
function showPlace(row) {
  const [place] = placesOf(row);
  if (!place) return;
  for (let it = place.closest("details"); it; it = it.parentElement.closest("details")) it.open = true;
  comeNear(partOf(place));
  let seen = place;
  while (seen !== main && !seen.getClientRects().length) seen = seen.previousElementSibling || seen.parentElement;
  if (seen !== main) seen.scrollIntoView({ block: "center" });
}
