"""The page enlarged, and on small screens: the list and the document keep a height in which one can work."""
import time

from page_seen import REVIEWERS, Seen, page_of, told

SIZES = [("400 %", 1280, 800, 4), ("200 %", 1280, 800, 2), ("a phone held sideways", 740, 360, 1), ("a phone held upright", 360, 740, 1), ("a small window", 640, 480, 1)]
# How high the part of an element is that can be seen at once, once it was brought into sight.
SEEN_HEIGHT = """
const it = document.querySelector(arguments[0]);
it.scrollIntoView({ block: "end" });
let { top, bottom } = it.getBoundingClientRect();
for (let up = it.parentElement; up && up !== document.documentElement; up = up.parentElement) {
  const box = up.getBoundingClientRect();
  if (up !== document.body && getComputedStyle(up).overflowY !== "visible") [top, bottom] = [Math.max(top, box.top), Math.min(bottom, box.bottom)];
}
return Math.round(Math.min(bottom, innerHeight) - Math.max(top, 0));
"""
# A change that is chosen is seen in the list, with its buttons, and what is pressed can be reached.
IN_SIGHT = """
const it = document.querySelector(arguments[0]).getBoundingClientRect();
return it.top >= -1 && it.top < innerHeight && it.left >= 0 && it.right <= innerWidth + 1;
"""


def small_screens(driven):
    seen = Seen(driven, page_of("contract.xml", REVIEWERS))
    seen.stay()
    for place, (name, width, height, zoom) in enumerate(SIZES, 1):
        driven.look(width, height, zoom=zoom)
        time.sleep(0.2)
        least = min(240, 0.6 * height / zoom)
        for part in ["aside > ol", "main"]:
            came = seen.run(SEEN_HEIGHT, part)
            told("%s: the height of %s" % (name, part), came >= least, "%d and not %d" % (came, least))
        driven.keys("jj")
        seen.press(2 * place, "accept")
        told(name + ": a change is decided in sight", 2 * place in seen.words() and seen.run(IN_SIGHT, "#revision-%d .buttons" % (2 * place)))
        wide = seen.run("return [document.documentElement.scrollWidth, innerWidth]")
        told(name + ": nothing sticks out", wide[0] <= wide[1], str(wide))
        for control in ["#person", "#save", "input[value=final]", "#accept-all"]:
            seen.run("document.querySelector(arguments[0]).scrollIntoView({ block: 'nearest' })", control)
            told("%s: %s can be reached" % (name, control), seen.run(IN_SIGHT, control))
    driven.look(1280, 800)


CASES = [small_screens]
