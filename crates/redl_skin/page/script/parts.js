// The parts of the document: the groups of a long story, and the other stories. What is near sight is dressed, and shows words
// and view as they are now. The others follow soon after, some at a time, so that nobody waits for what isn't seen.

const AT_A_TIME = 4;
// So many milliseconds after something was done the others begin to follow: until then it is shown.
const PAUSE = 100;
const nearParts = new Set();
// The parts whose words, verdicts or view aren't those of now.
const behind = new Set();
let following = 0;

function allParts() {
  const groupsOf = (story) => Array.from(story.querySelectorAll(":scope > .far"));
  return Array.from(main.children).flatMap((story) => (groupsOf(story).length ? groupsOf(story) : [story]));
}

// The part that an element of the document stands in.
function partOf(element) {
  return element.closest("section > .far, main > *");
}

function isNear(part) {
  return nearParts.has(part) || !part.matches(".far");
}

function watchParts() {
  const near = new IntersectionObserver((found) => found.forEach(({ target, isIntersecting }) => {
    if (!isIntersecting) return nearParts.delete(target);
    nearParts.add(target);
    comeNear(target);
  }), { root: main, rootMargin: "100%" });
  for (const part of allParts()) {
    if (part.matches(".far")) near.observe(part);
    else dress(part);
  }
}

// What a part needs before it is looked at.
function comeNear(part) {
  dress(part);
  if (behind.has(part)) catchUp(part);
}

function catchUp(part) {
  behind.delete(part);
  if (viewNow() === "marks") delete part.dataset.seen;
  else part.dataset.seen = viewNow();
  drawIn(part);
}

// Gives the view to the parts near sight, and soon to the others.
function seeParts() {
  for (const part of allParts()) {
    if (isNear(part)) catchUp(part);
    else behind.add(part);
  }
  followSoon();
}

function followSoon(after = PAUSE) {
  clearTimeout(following);
  if (behind.size) following = setTimeout(catchUpSome, after);
  if (behind.size || main.ariaBusy) main.ariaBusy = String(behind.size > 0);
}

function catchUpSome() {
  Array.from(behind).slice(0, AT_A_TIME).forEach(catchUp);
  followSoon(0);
}

// What is printed, and what is copied, is all as it is now.
function seeAll() {
  Array.from(behind, catchUp);
  seeNumbers();
  followSoon();
}
