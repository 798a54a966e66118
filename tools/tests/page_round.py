"""A reviewer's round in a page: deciding, keeping, names, filters, and the journal that is saved."""
import os
import time

from page_seen import EXAMPLES, LOCK, REDLINE, REVIEWERS, Seen, call, example, page, page_of, reading, same, told, wait, written



def decides_contract(driven):
    seen = Seen(driven, page_of("contract.xml", REVIEWERS))
    same("every change has its row", seen.run("return document.querySelectorAll('aside > ol > li').length"), 49)
    seen.stay()
    driven.keys("ja")
    seen.press(2, "accept")
    seen.press(3, "reject")
    driven.keys("jjrjr")
    driven.keys("kkka")
    seen.press(43, "reject")
    seen.press(42, "accept")
    time.sleep(0.8)
    seen.press(42, "accept")
    same("decided by button and by key", seen.words(), {1: "accept", 2: "accept", 3: "accept", 5: "reject", 6: "reject", 43: "reject"})
    same("how many are decided", seen.tally(), "6 of 49 decided: 3 accepted, 3 rejected")
    seen.name("Eve Stone")
    journal = seen.saved("Eve Stone")
    package = reading.Package(example("contract.xml"))
    wanted = [("Eve Stone", 1, number, word) for number, word in sorted(seen.words().items())]
    same("the saved journal", journal, reading.journal(package, wanted))
    mine = os.path.join(driven.folder, "Eve Stone.journal")
    if REDLINE:
        words = ["--accept", "numbers:1,2,3", "--reject", "numbers:5-6,43"]
        theirs = os.path.join(driven.folder, "decided.journal")
        with open(theirs, "wb") as file:
            file.write(call("decide", "contract.xml", "Eve Stone", *words).stdout)
        same("the program decides the same journal", page.read(mine), page.read(theirs))
        same("written with it", written("contract.xml", REVIEWERS + [mine]), written("contract.xml", REVIEWERS + [theirs]))
        told("it is written", b"pkg:package" in written("contract.xml", [mine]))
    else:
        entries = sum((page.entries_of(example(it)) for it in REVIEWERS), []) + wanted
        same("written with it", written("contract.xml", REVIEWERS + [mine]), reading.written(package, entries).encode())


def decides_plain(driven):
    """Ann decides again: their new journal has a greater sequence number than the one that the page was made with."""
    seen = Seen(driven, page_of("plain.xml", ["ann.journal", "bob.journal"]))
    says = seen.run("return [...document.querySelectorAll('#revision-5 > p[data-word]')].map((it) => it.dataset.word + it.textContent)")
    same("each reviewer's word", says, ["acceptAnn Gray: accepted", "rejectBob Hay: rejected"])
    seen.name("Ann Gray")
    seen.press(5, "reject")
    seen.press(9, "withdraw")
    package = reading.Package(example("plain.xml"))
    mine = [("Ann Gray", 3, 5, "reject"), ("Ann Gray", 3, 9, "withdraw")]
    same("a greater sequence number", seen.saved("Ann Gray"), reading.journal(package, mine))
    former = page.entries_of(example("ann.journal")) + page.entries_of(example("bob.journal"))
    came = written("plain.xml", ["ann.journal", "bob.journal", os.path.join(driven.folder, "Ann Gray.journal")])
    same("their new words count", came, reading.written(package, former + mine).encode())


def keeps(driven):
    seen = Seen(driven, page_of("plain.xml"))
    seen.name("Jürgen Müller 漢")
    seen.press(1, "reject")
    seen.press(4, "accept")
    time.sleep(0.5)
    driven.open(seen.file)
    seen.answer("use")
    same("a reload keeps the name", seen.run("return document.querySelector('#person').value"), "Jürgen Müller 漢")
    same("a reload keeps what was decided", seen.words(), {1: "reject", 4: "accept"})
    seen.name("Eve")
    seen.answer("anew")
    same("another reviewer begins anew", seen.words(), {})
    seen.press(2, "accept")
    seen.name("Jürgen Müller 漢")
    seen.answer("kept")
    same("each name has its own words", seen.words(), {1: "reject", 4: "accept"})
    seen.name("Eve")
    seen.answer("kept")
    same("and they come back", seen.words(), {2: "accept"})
    seen = Seen(driven, page_of("contract.xml"))
    same("another document has none", [seen.asked(), seen.words()], ["", {}])


def refuses_names(driven):
    seen = Seen(driven, page_of("terms.xml"))
    seen.press(1, "accept")
    folder = os.listdir(driven.folder)
    for case, name, why in [
        ("no name", "", "A journal needs a name"),
        ("a name of 256 bytes", "ü" * 128, "256 bytes"),
        ("a name with a tab", "Ann\tGray", "control character"),
        ("a name with a delete character", "Ann\x7f", "control character"),
    ]:
        seen.run("document.querySelector('#person').value = arguments[0]", name)
        driven.click("#save")
        told(case + " is refused", why in seen.line(), seen.line())
    time.sleep(0.3)
    same("nothing is saved under such a name", os.listdir(driven.folder), folder)
    name = "ü" * 127 + "x"
    seen.run("document.querySelector('#person').value = ''")
    seen.run("document.querySelector('#person').value = arguments[0]; document.querySelector('#person').dispatchEvent(new Event('change'))", name)
    told("a name of 255 bytes", "needs" not in seen.line() and "can't" not in seen.line(), seen.line())


def filters(driven):
    seen = Seen(driven, page_of("contract.xml", REVIEWERS, [LOCK]))
    left = "return [...document.querySelectorAll('aside > ol > li:not([hidden])')].map((it) => Number(it.id.slice(9)))"
    package = reading.Package(example("contract.xml"))
    numbers = lambda is_one: [number for number, it in enumerate(package.revisions, 1) if is_one(it)]
    seen.pick("#author", "=Bob Hay")
    same("filtered by author", seen.run(left), numbers(lambda it: it.author == "Bob Hay"))
    seen.pick("#kind", "mark-del")
    chosen = numbers(lambda it: it.author == "Bob Hay" and it.kind == "mark-del")
    same("and by kind", seen.run(left), chosen)
    driven.click("#reject-all")
    same("what a filter leaves is decided at once", seen.words(), {number: "reject" for number in chosen})
    driven.click("#undo")
    same("and taken back", seen.words(), {})
    seen.pick("#author", ""), seen.pick("#kind", ""), seen.pick("#state", "v:disputed")
    same("filtered by verdict", seen.run(left), [32, 33])
    seen.pick("#state", "")
    driven.click("#accept-all")
    locked = numbers(lambda it: it.author == LOCK)
    same("a locked change isn't decided", sorted(seen.words()), [it for it in range(1, 50) if it not in locked])
    seen.run("document.getElementById(arguments[0]).click()", "revision-%d" % locked[0])
    driven.keys("a")
    told("and says so", "locked" in seen.line(), seen.line())


CASES = [decides_contract, decides_plain, keeps, refuses_names, filters]
