"""Characters that can't be seen or that turn others: each is shown, and reaches no further than its place."""
import os

from page_seen import Seen, in_package, page_of, same, told

WHO = 'w:author="%s" w:date="2026-11-03T14:30:00Z"'
TURNED = "Ann \u202eyarG"
UNSEEN = [
    "\u00ad", "\u061c", "\u200b", "\u200c", "\u200d", "\u200e", "\u200f", "\u202a", "\u202b", "\u202c", "\u202d", "\u202e",
    "\u2060", "\u2061", "\u2062", "\u2063", "\u2064", "\u2066", "\u2067", "\u2068", "\u2069", "\ufeff",
]
STACK = "Z" + "\u0301\u0302\u0303\u0304" * 20

# The names of the signs that are seen in an element.
SIGNS = """
return [...document.querySelectorAll(arguments[0] + " .unseen")].filter((it) => it.getClientRects().length).map((it) =>
  [it.textContent, getComputedStyle(it, "::after").content !== "none", it.title.slice(0, 6), it.getAttribute("aria-label").length > 3]);
"""
# Where letters of a text stand from left to right, by what comes before them in the text.
PLACES = """
const walker = document.createTreeWalker(document.querySelector(arguments[0]), NodeFilter.SHOW_TEXT);
for (let node = walker.nextNode(); node; node = walker.nextNode()) {
  if (!node.data.includes(arguments[1])) continue;
  const range = document.createRange();
  return [...arguments[1]].map((_, at) => {
    range.setStart(node, node.data.indexOf(arguments[1]) + at);
    range.setEnd(node, node.data.indexOf(arguments[1]) + at + 1);
    return Math.round(range.getBoundingClientRect().left);
  });
}
return [];
"""


def kept(driven, body):
    file = os.path.join(driven.folder, "signs.xml")
    with open(file, "w", newline="", encoding="utf-8") as out:
        out.write(in_package(body))
    return file


def run(text):
    return '<w:r><w:t xml:space="preserve">%s</w:t></w:r>' % text


def inserted(text, who="Ann Gray", number=1):
    return '<w:ins w:id="%d" %s>%s</w:ins>' % (number, WHO % who, run(text))


def deleted(text, who="Bob Hay", number=2):
    return '<w:del w:id="%d" %s><w:r><w:delText xml:space="preserve">%s</w:delText></w:r></w:del>' % (number, WHO % who, text)


def every_unseen_character(driven):
    body = "".join("<w:p>%s%s</w:p>" % (run("before"), inserted("x%sy" % it, number=at)) for at, it in enumerate(UNSEEN))
    seen = Seen(driven, page_of(kept(driven, body + "<w:p/>")))
    wanted = [[it, True, "U+%04X" % ord(it), True] for it in UNSEEN]
    same("each has a sign in the document", seen.run(SIGNS, "main"), wanted)
    same("and in the list", seen.run(SIGNS, "aside > ol > li > .words"), wanted)
    same("the text is as it was", seen.run("return [...document.querySelectorAll('main ins')].map((it) => it.textContent)"), ["x%sy" % it for it in UNSEEN])
    seen.run("document.querySelector('#revision-1').click()")
    told("a change with a sign is chosen", seen.run("return document.querySelector('main ins[aria-current] .unseen') !== null"))


def turned_text(driven):
    """An override in an insertion turns nothing, neither in its own text nor around it, and a name turns no line."""
    body = "<w:p>%s%s%s</w:p>" % (run("The price is "), inserted("\u202e", who=TURNED), run("12000 euros"))
    seen = Seen(driven, page_of(kept(driven, body + "<w:p/>")))
    for place in ["main", "aside > ol > li > .words"]:
        places = seen.run(PLACES, place, "12000")
        told("a number behind an override reads as it is written, " + place, len(places) == 5 and places == sorted(places), str(places))
    line = seen.run("const it = document.querySelector('aside > ol > li > .head'); return it.textContent")
    told("the override in the name is spelled out", "U+202E" in line, line)
    places = seen.run(PLACES, "aside > ol > li > .head", ", 2026")
    told("the date behind the name reads as it is written", len(places) == 6 and places == sorted(places), str(places))
    body = "<w:p>%s%s</w:p>" % (run("left "), inserted("\u05d0\u05d1 1") + inserted("2 \u05d2", number=2))
    seen = Seen(driven, page_of(kept(driven, body + "<w:p/>")))
    lefts = seen.run("return [...document.querySelectorAll('main ins')].map((it) => Math.round(it.getBoundingClientRect().left))")
    told("changes in a script from right to left keep their order", lefts == sorted(lefts), str(lefts))


def stacked_marks(driven):
    body = "".join("<w:p>%s</w:p>" % inserted(text, who=who, number=at) for at, (text, who) in enumerate([("plain", "Ann"), (STACK, STACK), ("plain", "Ann")]))
    seen = Seen(driven, page_of(kept(driven, body + "<w:p/>")))
    clips = seen.run("""
const rows = [...document.querySelectorAll("aside > ol > li")], paragraph = document.querySelectorAll("main p")[1];
return [rows.every((it) => getComputedStyle(it).overflowY === "clip"), getComputedStyle(paragraph).clipPath !== "none"];
""")
    same("marks on marks reach into no other row or paragraph", clips, [True, True])


def excerpts_have_marks(driven):
    body = "<w:p>%s%s%s%s</w:p><w:p/>" % (run("due in "), deleted("thirty"), inserted("fourteen"), run(" days"))
    seen = Seen(driven, page_of(kept(driven, body)))
    pieces = lambda number: seen.run(
        "return [...document.querySelectorAll('#revision-%d .words > *')].map((it) => [it.localName, it.className, it.textContent])" % number)
    same("a deleted neighbour looks deleted", pieces(2), [["span", "", "due in "], ["del", "", "thirty"], ["ins", "own", "fourteen"], ["span", "", " days"]])
    same("an inserted neighbour looks inserted", pieces(1), [["span", "", "due in "], ["del", "own", "thirty"], ["ins", "", "fourteen"], ["span", "", " days"]])
    struck = seen.run("return getComputedStyle(document.querySelector('#revision-2 .words > del')).textDecorationLine")
    same("it is struck through", struck, "line-through")


CASES = [every_unseen_character, turned_text, stacked_marks, excerpts_have_marks]
