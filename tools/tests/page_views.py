"""The views without marks: their text is that of the document that is written after the same decisions.

What the texts leave out is left out here too: signs of notes, the word of a picture, equations, hyphens that don't break. A text that is
marked as deleted in no deletion is in the page and not in `text`, so the packages have none.
"""
import itertools
import os
import random
import re
import sys

from page_seen import REDLINE, REVIEWERS, TOP, Seen, call, example, in_package, page, page_of, reading, same, told, wait, written

sys.path.insert(0, os.path.join(TOP, "bench"))

import packages
import texts

# The text that is seen in the first story: a paragraph ends a line, and what isn't shown is left out. A paragraph of which
# the page says that it may be gone ends in U+0000.
VIEWED = """
const out = [];
const walk = (node) => {
  if (node.nodeType === Node.TEXT_NODE) {
    const isBetween = node.parentElement.matches("section, td, .box, .far, .joined, tr, table, tbody");
    if (!isBetween && getComputedStyle(node.parentElement).visibility === "visible") out.push(node.data);
    return;
  }
  if (node.nodeType !== Node.ELEMENT_NODE || node.matches(".mark, .row, .cell, .props, a, sup, .picture, .equation, summary")) return;
  const { display } = getComputedStyle(node);
  if (display === "none") return;
  if (node.localName === "br") out.push("\\n");
  node.childNodes.forEach(walk);
  if (node.matches("p, .p, .joined") && !display.startsWith("inline"))
    out.push(node.matches(".doubt") || node.querySelector(":scope > .doubt") ? "\\0" : "\\n");
};
document.querySelectorAll("main details").forEach((it) => (it.open = true));
document.querySelector("input[value=" + arguments[0] + "]").click();
walk(document.querySelector("main > section"));
return out.join("");
"""
DECIDE = """
for (const [number, word] of arguments[0]) say(number - 1, word);
"""
WORDS = ["accept", "reject", "withdraw"]
NAMES = ["Ann Gray", "Bob Hay", "Eve Stone"]
WHO = 'w:id="1" w:author="Ann Gray" w:date="2026-11-03T14:30:00Z"'


def text_of(file, view):
    if REDLINE:
        return call("text", file, "--view", view).stdout.decode()
    return texts.text(reading.Package(page.read(file)), view)


def is_same(came, wanted):
    """Whether a view, as a terminal is given it, is this text, but for hyphens that don't break and empty paragraphs that may be gone."""
    pieces = [re.escape(reading.masked_lines(piece.replace("\u2011", ""))) for piece in came.split("\0")]
    return re.fullmatch("\n?".join(pieces), wanted.replace("\u2011", "")) is not None


def is_sound(file):
    return call("check", file).returncode == 0 if REDLINE else True


def without_stray(text):
    """The package with `t` in place of a `delText` that is in no deletion."""
    package = reading.Package(text)
    for element in reading.elements(package.nodes):
        if element.is_w("delText") and not any(it.role == "content" and it.trace in ("deleted", "from") for it in element.ancestors()):
            element.name = element.name.replace("delText", "t")
    return reading.text_of(package.nodes)


class Undecided:
    """A choice by which nothing is decided."""

    def choice(self, _):
        return 0

    def random(self):
        return 1


class Round:
    """A package with journals of others and decisions of one's own, all in the folder of the browser."""

    def __init__(self, folder, package, pick):
        self.folder, self.pick = folder, pick
        self.file = self.kept("P.xml", package)
        self.package = reading.Package(package)
        count = len(self.package.revisions)
        chance = pick.choice([0, 0.3, 0.8])
        entry = lambda who, number: reading.Entry(who, pick.randint(1, 2), number, pick.choice(WORDS), 0)
        entries = [entry(who, number) for who in NAMES for number in range(1, count + 1) if pick.random() < chance / 2]
        self.journals = [self.kept("J", reading.journal(self.package, entries))] if entries else []
        self.mine = [(number, pick.choice(WORDS[:2])) for number in range(1, count + 1) if pick.random() < chance]
        mine = [(NAMES[-1], 3, number, word) for number, word in self.mine]
        self.journal = self.kept("K", reading.journal(self.package, mine))

    def kept(self, name, text):
        file = os.path.join(self.folder, name)
        with open(file, "w", newline="", encoding="utf-8") as out:
            out.write(text)
        return file

    def faults(self, driven):
        """The views that differ from the texts."""
        seen = Seen(driven, page_of(self.file, self.journals))
        seen.name(NAMES[-1])
        seen.run(DECIDE, self.mine)
        with open(os.path.join(self.folder, "W.xml"), "wb") as out:
            out.write(written(self.file, self.journals + [self.journal]))
        texts_of = [(view, seen.run(VIEWED, view), text_of(os.path.join(self.folder, "W.xml"), view)) for view in ["original", "final"]]
        return [it for it in texts_of if not is_same(*it[1:])]


EXAMPLES = ["contract.xml", "plain.xml", "letter.xml", "terms.xml", "joins.xml", "properties.xml", "rows.xml", "moves.xml"]


def some_packages():
    """Examples, and then random packages."""
    for seed in itertools.count():
        pick = random.Random(seed)
        if seed < 3 * len(EXAMPLES):
            yield "%s, round %d" % (EXAMPLES[seed % len(EXAMPLES)], seed // len(EXAMPLES)), example(EXAMPLES[seed % len(EXAMPLES)]), pick
        else:
            yield "random package %d" % seed, without_stray(packages.small_package(pick).decode()), pick


def views_are_true(driven):
    count, faults, packages = 0, 0, some_packages()
    while count < 100:
        name, package, pick = next(packages)
        it = Round(driven.folder, package, pick)
        if not is_sound(it.file):
            continue
        count += 1
        for view, came, wanted in it.faults(driven):
            faults += 1
            told("%s as %s" % (name, view), False, "%r and not %r" % (came[:300], wanted[:300]))
    same("views of 100 documents that aren't what is written", faults, 0)


# Where joining ends. Each body is followed by a paragraph.
CUT = "<w:p><w:pPr><w:rPr><w:del %s/></w:rPr></w:pPr>%%s</w:p>" % WHO
GONE = '<w:del %s><w:r><w:delText>gone</w:delText></w:r></w:del>' % WHO
STAYS = "<w:r><w:t>stays</w:t></w:r>"
CELL = "<w:tc><w:p>%s</w:p></w:tc>"
TABLE = "<w:tbl><w:tr>%s</w:tr></w:tbl>" % (CELL % STAYS)
CUT_TABLE = "<w:tbl><w:tr><w:trPr><w:del %s/></w:trPr>%s</w:tr></w:tbl>" % (WHO, CELL % STAYS)
EDGES = {
    "two paragraphs": CUT % STAYS + CUT % GONE,
    "a bookmark between them": CUT % STAYS + '<w:bookmarkStart w:id="9" w:name="n"/>',
    "an empty one before a table": CUT % GONE + TABLE,
    "a bookmark in it": CUT % ('<w:bookmarkStart w:id="9" w:name="n"/>' + GONE) + TABLE,
    "text in it": CUT % (STAYS + GONE) + TABLE,
    "two before a table": CUT % GONE + CUT % GONE + TABLE,
    "before a table that goes": CUT % STAYS + CUT_TABLE,
    "before a content control": CUT % STAYS + "<w:sdt><w:sdtContent><w:p>%s</w:p></w:sdtContent></w:sdt>" % STAYS,
    "the last one in a content control": "<w:sdt><w:sdtContent>%s</w:sdtContent></w:sdt>" % (CUT % STAYS),
    "in custom XML": '<w:customXml w:element="x">%s<w:p>%s</w:p></w:customXml>' % (CUT % STAYS, STAYS),
    "before imported content": CUT % STAYS + '<w:altChunk/>',
    "before a foreign element": CUT % STAYS + "<x:y xmlns:x='x'/>",
    "in a foreign element": "<x:y xmlns:x='x'>%s<w:p>%s</w:p></x:y>" % (CUT % STAYS, STAYS),
    "the last one of a cell": "<w:tbl><w:tr><w:tc>%s</w:tc>%s</w:tr></w:tbl>" % (CUT % STAYS, CELL % STAYS),
    "in a text box": "<w:p><w:r><w:pict><w:txbxContent>%s<w:p>%s</w:p></w:txbxContent></w:pict></w:r></w:p>" % (CUT % STAYS, STAYS),
    "a cell that goes": "<w:tbl><w:tr><w:tc><w:tcPr><w:cellDel %s/></w:tcPr><w:p>%s</w:p></w:tc>%s</w:tr></w:tbl>" % (WHO, STAYS, CELL % STAYS),
}


# Of a paragraph that shows nothing it isn't known whether it holds an element that isn't shown.
DOUBTFUL = ["an empty one before a table", "a bookmark in it", "two before a table"]


def where_joining_ends(driven):
    for name, body in EDGES.items():
        found = Round(driven.folder, in_package(body + "<w:p>%s</w:p>" % STAYS), Undecided()).faults(driven)
        same(name, found, [])
        doubts = driven.run("return [...document.querySelectorAll('.doubt')].map((it) => getComputedStyle(it, '::after').content)")
        told(name + ": whether the page knows", ["may be gone" in it for it in doubts] == [True] * (name in DOUBTFUL), str(doubts))
        line = driven.run("return document.querySelector('#view-line').textContent")
        same(name + ": whether it says so", "isn't known" in line, name in DOUBTFUL)


def undecided_is_tinted(driven):
    seen = Seen(driven, page_of("contract.xml", REVIEWERS))
    ground = lambda number: seen.run("return getComputedStyle(document.querySelector('main [data-revision=\"%d\"].text')).backgroundColor" % number)
    driven.click("input[value=final]")
    told("what is disputed is tinted", ground(33) not in ("rgba(0, 0, 0, 0)", ground(3)), ground(33))
    told("what is decided isn't", ground(3) == "rgba(0, 0, 0, 0)", ground(3))
    sign = "return getComputedStyle(document.querySelector('main [data-revision=\"32\"]'), '::before').content"
    told("a disputed deletion leaves a sign", seen.run(sign) not in ("none", ""), seen.run(sign))
    line = lambda: seen.run("return document.querySelector('#view-line').textContent")
    told("the view says what it shows", "disputed" in line() and "accepted" in line(), line())
    seen.name("Bob Hay")
    seen.press(33, "accept")
    told("a reviewer's new word replaces the one in a journal", ground(33) == "rgba(0, 0, 0, 0)", ground(33))
    driven.click("input[value=marks]")
    same("with marks nothing is joined", seen.run("return document.querySelectorAll('.joined').length"), 0)


# A view comes to the parts of a long document one after the other: the view that each has, after something was done.
SEEN_PARTS = "%s; return [...document.querySelectorAll('main .far')].map((it) => it.dataset.seen || 'marks')"
CLICKED = "document.querySelector('input[value=%s]').click()"


def far_parts_follow(driven):
    change = "<w:p>%s<w:ins %s>%s</w:ins></w:p>" % (GONE, WHO, STAYS)
    file = os.path.join(driven.folder, "long.xml")
    with open(file, "w", encoding="utf-8") as out:
        out.write(in_package(change * 4000))
    seen = Seen(driven, page_of(file))
    now = seen.run(SEEN_PARTS % (CLICKED % "final"))
    told("what is near sight has the view at once, and what is far doesn't", now[0] == "final" and now[-1] == "marks", str(now))
    wait(lambda: seen.run("return document.querySelector('main').ariaBusy") == "false")
    same("the rest follows", set(seen.run(SEEN_PARTS % "")), {"final"})
    last = "return getComputedStyle([...document.querySelectorAll('main del')].at(-1)).visibility"
    same("and looks so", seen.run(last), "hidden")
    chosen = "; (window.wrappedJSObject || window).redline.choose(8000); return document.querySelector('main [data-revision=\"8000\"]').closest('.far').dataset.seen"
    same("what is chosen has the view too", seen.run(CLICKED % "original" + chosen), "original")
    for kind in ["copy", "beforeprint"]:
        now = seen.run(SEEN_PARTS % (CLICKED % "final" + "; dispatchEvent(new Event('%s'))" % kind))
        same("all has it for " + kind, set(now), {"final"})
        now = seen.run(SEEN_PARTS % (CLICKED % "marks" + "; dispatchEvent(new Event('%s'))" % kind))
        same("and with marks for " + kind, set(now), {"marks"})


# What the last elements of a document and the first ones show of the words on them, after something was done.
SHOWN_WORDS = "%s; await null; const it = [...document.querySelectorAll('main :is(ins, del)')].map((it) => it.dataset.say || ''); done([it[0], it.at(-1)])"
IN_TIME = "const done = arguments[arguments.length - 1]; (async () => { %s })()"


def far_words_follow(driven):
    """Words come to what is near sight at once, to what is far soon, and to all of it before it is printed or copied."""
    change = "<w:p>%s<w:ins %s>%s</w:ins></w:p>" % (GONE, WHO, STAYS)
    file = os.path.join(driven.folder, "long.xml")
    with open(file, "w", encoding="utf-8") as out:
        out.write(in_package(change * 4000))
    seen = Seen(driven, page_of(file))
    words = lambda script: driven.run_async(IN_TIME % (SHOWN_WORDS % script))
    same("words are near sight at once", words("document.querySelector('#accept-all').click()"), ["accept", ""])
    wait(lambda: seen.run("return document.querySelector('main').ariaBusy") == "false")
    same("and soon far from it", words(""), ["accept", "accept"])
    same("a far change that is chosen has its word at once", words("document.querySelector('#undo').click(); await null; (window.wrappedJSObject || window).redline.choose(8000)"), ["", ""])
    wait(lambda: seen.run("return document.querySelector('main').ariaBusy") == "false")
    for kind in ["copy", "beforeprint"]:
        same("all have it for " + kind, words("document.querySelector('#accept-all').click(); await null; dispatchEvent(new Event('%s'))" % kind), ["accept", "accept"])
        same("and lose it for " + kind, words("document.querySelector('#undo').click(); await null; dispatchEvent(new Event('%s'))" % kind), ["", ""])
    driven.click("input[value=final]")
    wait(lambda: seen.run("return document.querySelector('main').ariaBusy") == "false")
    words("document.querySelector('#reject-all').click()")
    wait(lambda: seen.run("return document.querySelector('main').ariaBusy") == "false")
    looks = "return [...document.querySelectorAll('main del')].at(-1).checkVisibility({ visibilityProperty: true }) && ![...document.querySelectorAll('main ins')].at(-1).checkVisibility()"
    told("in a view what is far looks as it was decided", seen.run(looks))


CASES = [far_words_follow, views_are_true, where_joining_ends, undecided_is_tinted, far_parts_follow]
