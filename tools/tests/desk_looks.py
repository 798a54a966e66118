"""How the desk looks and is heard: contrast, size, keyboard, screen reader, print; and its picture for README."""
import os
import re
import shutil
import time

import pictures
from desk_round import JOURNALS
from desk_seen import Desk, example
from page_looks import CONTRAST
from page_seen import ENTER, TAB, same, told, wait

SHIFT, END, RIGHT = "\ue008", "\ue010", "\ue014"
STEPS = ["decide", "others", "standing", "written", "save"]
WIDE = "return [document.documentElement.scrollWidth, innerWidth]"
FOCUS = """
const it = document.activeElement, style = getComputedStyle(it);
return [it.id || it.localName, it.localName === "iframe" || (style.outlineStyle !== "none" && parseFloat(style.outlineWidth) >= 2)];
"""


def contract(driven):
    it = Desk(driven)
    it.drop(*[(name, example(name)) for name in ["contract.xml", *JOURNALS]])
    return it


def seen(it, step):
    """Goes to a step, and shows what is shown there when it is asked for."""
    it.step(step)
    if step == "save":
        it.press("#show-remains")


def looks(driven):
    it = Desk(driven)
    grounds = {}
    for scheme in ["light", "dark"]:
        driven.look(1280, 800, scheme)
        time.sleep(0.2)
        same("contrast of the first screen, " + scheme, it.run(CONTRAST), [])
        grounds[scheme] = it.run("return getComputedStyle(document.body).backgroundColor")
    if driven.name != "webkit":
        told("dark and light follow the system", grounds["dark"] != grounds["light"], str(grounds))
    it = contract(driven)
    for scheme in ["light", "dark"]:
        driven.look(1280, 800, scheme)
        for step in STEPS:
            seen(it, step)
            same("contrast of %s, %s" % (step, scheme), it.run(CONTRAST), [])


def sizes(driven):
    it = contract(driven)
    for width, height, zoom in [(1280, 800, 1), (1280, 1024, 4), (480, 900, 1)]:
        if zoom > 1 and driven.name == "webkit":
            continue
        driven.look(width, height, "light", "", zoom)
        time.sleep(0.2)
        for step in STEPS:
            seen(it, step)
            wide = it.run(WIDE)
            told("nothing sticks out of %s, %d wide at %d00 %%" % (step, width, zoom), wide[0] <= wide[1], str(wide))
            high = it.run("return Math.min(...['decide', 'written'].map((it) => document.querySelector('#' + it + ' iframe').clientHeight).filter(Boolean), 9999)")
            told("and %s has room" % step, high >= 200, str(high))
    driven.look(1280, 800)


def enlarged(driven):
    """At 400 % what is above the steps and their names leave most of the first screen to what a step shows."""
    if driven.name == "webkit":
        # (its driver has no zoom)
        return
    it = Desk(driven)
    driven.look(1280, 1024, "light", "", 4)
    time.sleep(0.2)
    below = lambda selector: it.run("return document.querySelector(arguments[0]).getBoundingClientRect().bottom / innerHeight", selector)
    told("at 400 % the first screen has the button that opens a file", below("#choose") <= 1, str(below("#choose")))
    it.drop(("a contract with a long name, as mail programs like to make them (final) (2).xml", example("contract.xml")))
    told("the steps and what is above them fill at most two fifths of the first screen", below("#tabs") <= 0.4, str(below("#tabs")))
    named = [name for _, name in driven.spoken("#tabs button")]
    same("each step has its name", [name.split(" ")[1] for name in named], ["Decide", "Others", "Standing", "Written", "Save"])
    it.press("#dismiss")
    top = it.run("return document.getElementById('page').getBoundingClientRect().top") + it.in_page("return page.document.querySelector('main').getBoundingClientRect().top")
    high = it.run("return innerHeight")
    told("the document begins on the first screen", top <= 0.85 * high, "at %d of %d" % (top, high))
    it.step("standing")
    it.run("document.querySelector('#tables .scrolled').focus()")
    driven.keys(3 * RIGHT)
    told("a wide table is moved by the keyboard", wait(lambda: it.run("return document.querySelector('#tables .scrolled').scrollLeft") > 0))
    driven.look(1280, 800)


def by_keys(driven):
    """The whole way with the keyboard alone: to the steps, and to all that can be pressed."""
    it = contract(driven)
    it.run("document.getElementById('tab-decide').focus()")
    driven.keys(RIGHT)
    it.after()
    same("an arrow goes to the next step", it.run("return [document.activeElement.id, document.getElementById('others').hidden]"), ["tab-others", False])
    driven.keys(END)
    it.after()
    same("End goes to the last step", it.run("return document.activeElement.id"), "tab-save")
    met = []
    for _ in range(30):
        driven.keys(TAB)
        focus = it.run(FOCUS)
        if focus in met or focus[0] == "body":
            break
        met.append(focus)
    names = [name for name, _ in met]
    wanted = {"save-document", "save-journal", "save-joined", "save-text", "save-report", "save-listing", "show-remains", "go-on", "form", "view"}
    told("the Tab key goes to all that can be pressed", wanted <= set(names), str(names))
    told("what has the keyboard is seen", all(is_seen for _, is_seen in met), str([name for name, is_seen in met if not is_seen]))


def tabbed_to(it, wanted, presses):
    """Presses Tab until what has the keyboard is wanted, by the beginning of its id; answers whether it came to that."""
    for _ in range(60):
        presses()
        if it.run("return document.activeElement.id").startswith(wanted):
            return True
    return False


def round_by_keys(driven):
    """A whole round from the first screen to the saved document, with the keyboard alone."""
    it = Desk(driven)
    forth, back = (lambda: driven.keys(TAB)), (lambda: driven.keys_held(SHIFT, TAB))
    told("Tab comes to the example", tabbed_to(it, "example", forth))
    driven.keys(ENTER)
    it.after()
    same("which Enter opens", it.text("#count"), "49 changes")
    told("Tab comes to the page of the document", tabbed_to(it, "page", forth))
    for key in "jar":
        driven.keys(key)
    # 1 is accepted, and then the edit of 2 and 3 is rejected.
    same("whose keys decide", [words.split(" ")[1] for words in it.decisions()], ["accept", "reject", "reject"])
    told("Shift and Tab lead back to the steps", tabbed_to(it, "tab-", back))
    driven.keys(END)
    it.after()
    told("End and Tab come to what saves", tabbed_to(it, "save-document", forth))
    file = os.path.join(driven.folder, "contract.decided.xml")
    driven.keys(ENTER)
    told("and Enter saves the document", wait(lambda: os.path.exists(file) and os.path.getsize(file) > 0), it.text("#save-document-told"))


def for_readers(driven):
    """What a screen reader is told."""
    it = Desk(driven)
    same("the first screen's buttons", [role for role, name in driven.spoken("#start button") if name], ["button", "button"])
    it = contract(driven)
    steps = driven.spoken("#tabs button")
    same("the steps are tabs", [role for role, _ in steps], ["tab"] * 5)
    told("with names", all(name for _, name in steps), str(steps))
    for step in STEPS:
        it.step(step)
        it.run("document.querySelectorAll('main details').forEach((it) => (it.open = true))")
        it.after()
        bare = [role for role, name in driven.spoken("#%s :is(button, select, input, iframe):not([hidden])" % step) if not name and role not in ("none", "generic")]
        same("each control of %s has a name" % step, bare, [])
    same("the page says what it is", it.run("return document.title"), "contract.xml - Redline")


def printed(driven):
    """The document that is seen is printed whole, with its view; so is the written one, and so are the tables, and no bar is."""
    if driven.name == "webkit" or not shutil.which("pdftotext"):
        # (the driver of WebKit has no paper)
        return print("skipped %sprints: there is no driver for it, or no pdftotext" % told.browser)
    it = Desk(driven)
    it.drop(("contract.xml", example("contract.xml")))
    it.decide(20, "reject")
    for view, has, has_not in [("marks", ["3.00 EUR", "2.80 EUR"], []), ("final", ["2.80 EUR"], ["3.00 EUR"]), ("original", ["3.00 EUR"], ["2.80 EUR"])]:
        it.in_page("page.document.querySelector('input[value=' + words[0] + ']').click(); page.focus()", view)
        sheets = driven.printed()
        text = " ".join(" ".join(sheets).split())
        told("what is printed of the page says its view: " + view, 'contract.xml: view "%s" as decided on this page, 1 of 49 decided' % view in text, text[:300])
        told("and is this view", all(words in text for words in has) and not any(words in text for words in has_not), text[:600])
        told("to its end, on more than a sheet", len(sheets) > 1 and "Footnote" in text, "%d sheets, with the end: %s" % (len(sheets), text[-300:]))
        told("without the bars", not any(words in text for words in ["Open another document", "Other reviewers", "Your name", "Save my journal"]), text[:600])
    it.step("written")
    text = " ".join(" ".join(driven.printed()).split())
    told("what is printed of the written document says so", "contract.xml as it would be written now: " in text and "still tracked in it. Printed on 20" in text, text[:300])
    it.step("standing")
    text = " ".join(" ".join(driven.printed()).split())
    told("the tables are printed with the numbers of the changes", re.search(r"No\. Clause Change .* 1 Supply agreement .* 49 ", text), text[:600])
    told("without the bars and the document", not any(words in text for words in ["Other reviewers", "Press the number", "Printed on"]), text[:600])
    same("nothing of the paper is left on the screen", it.run("return document.getElementById('paper')"), None)


# What is laid on the paper: its text, and how it strikes out what is deleted.
PAPER = """
dispatchEvent(new Event("beforeprint"));
const { shadowRoot } = document.getElementById("paper");
const said = [shadowRoot.textContent, getComputedStyle(shadowRoot.querySelector("del.text")).textDecorationLine];
dispatchEvent(new Event("afterprint"));
return [...said, document.getElementById("paper")];
"""


def laid_on_paper(driven):
    """What is printed has the rules of the document's page, also where no driver prints, and is gone afterwards."""
    it = Desk(driven)
    it.drop(("contract.xml", example("contract.xml")))
    text, line, after = it.run(PAPER)
    told("the document is on the paper, with its view", 'contract.xml: view "marks" as decided on this page' in text and "Supply agreement" in text, text[:300])
    same("what is deleted is struck out", line, "line-through")
    same("and all is gone after it", after, None)


def shows_pictures(driven):
    """The desk's policy lets the pictures of the page in its frame be shown."""
    it = contract(driven)
    there = "return page.document.querySelector('main .picture img')?.naturalWidth ?? 0"
    wait(lambda: it.in_page(there) > 0)
    same("a picture is shown", it.in_page(there), 120)


def pictured(driven, file):
    """The picture of the desk for README."""
    it = contract(driven)
    driven.look(1120, 760)
    it.name("Eve Stone")
    it.in_page("page.document.querySelector('#edit-2 button[value=accept]').click()")
    it.run("document.getElementById('dismiss').click()")
    it.in_page("page.document.querySelector('main').scrollTop = 0")
    time.sleep(0.5)
    driven.picture(file)
    driven.look(1280, 800)


def papers_picture(driven):
    """README shows the desk as it is."""
    if driven.name != "chromium":
        return
    made = os.path.join(driven.folder, "desk.png")
    pictured(driven, made)
    pictures.is_of_now(driven, "desk.png", made)


CASES = [looks, sizes, enlarged, by_keys, round_by_keys, for_readers, printed, laid_on_paper, shows_pictures, papers_picture]
