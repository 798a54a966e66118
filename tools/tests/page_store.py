"""What a page keeps in the browser: what is found on opening, two windows, rounds, locks, other files and other names."""
import os
import shutil
import time

from page_seen import EXAMPLES, LOCK, REDLINE, Seen, call, example, page, page_of, reading, same, told, wait

NAME = "return document.querySelector('#person').value"


def until_kept(seen):
    """Waits until the words of the page are written to the browser's store, which the page does soon after each change."""
    time.sleep(0.8)


def numbers_by(name, author):
    return [number for number, it in enumerate(reading.Package(example(name)).revisions, 1) if it.author == author]


def tells_what_it_found(driven):
    """Another file of this computer writes into the store: nothing of that is used before the reviewer says so."""
    whole = page_of("contract.xml")
    seen = Seen(driven, whole)
    digest = seen.run("return document.body.dataset.document")
    seen.run("localStorage.setItem('redline ' + arguments[0], 'Eve Stone'); localStorage.setItem('redline ' + arguments[0] + '/Eve Stone', 'a'.repeat(49))", digest)
    seen = Seen(driven, whole)
    same("nothing is used before the answer", [seen.words(), seen.run(NAME)], [{}, ""])
    told("it says whose words and how many were found", "Eve Stone: 49 words (49 accepted), last changed" in seen.asked(), seen.asked())
    seen.answer("anew")
    same("what was found isn't used", seen.words(), {})
    until_kept(seen)
    seen = Seen(driven, whole)
    same("and isn't found again", seen.asked(), "")
    seen.press(1, "accept")
    seen.name("Eve Stone")
    until_kept(seen)
    seen = Seen(driven, whole)
    told("it says from when", time.strftime("%d %B %Y").lstrip("0") in seen.asked(), seen.asked())
    seen.answer("")
    same("someone else gets nothing", [seen.words(), seen.run(NAME)], [{}, ""])
    seen.run("localStorage.setItem('redline ' + arguments[0] + '/Eve Stone', arguments[1])", digest,
             '{"words":[{"word":"accept","sequence":4294967295,"numbers":"1"}],"saved":{"sequence":4294967294,"words":[]}}')
    Seen(driven, whole).answer("use")
    told("a number out of all reason doesn't count", "\n1\t1\taccept\tEve Stone\n" in seen.saved("Eve Stone"))
    seen.run("localStorage.setItem('redline ' + arguments[0] + '/Eve Stone', arguments[1])", digest, '{"words":[{"word":"accept","sequence":1,"numbers":"' + "1-49," * 9 + '"}]}')
    same("what makes no sense isn't found", [Seen(driven, whole).asked(), seen.words()], ["", {}])


def two_windows(driven):
    whole = page_of("contract.xml")
    seen, first = Seen(driven, whole), driven.tab()
    seen.name("Ann Gray")
    seen.press(1, "accept")
    until_kept(seen)
    second = driven.new_tab()
    Seen(driven, whole).answer("use")
    seen.press(2, "reject")
    until_kept(seen)
    driven.go_to(first)
    told("words of the other window come in", wait(lambda: seen.words() == {1: "accept", 2: "reject"}), str(seen.words()))
    told("and it says so", "Another window" in seen.line(), seen.line())
    seen.press(3, "accept")
    until_kept(seen)
    seen.press(2, "accept")
    until_kept(seen)
    driven.go_to(second)
    wait(seen.asked)
    told("a word that would be replaced is asked about", "replaced 1 word" in seen.asked(), seen.asked())
    same("and stands until then", seen.words(), {1: "accept", 2: "reject", 3: "accept"})
    seen.answer("mine")
    until_kept(seen)
    driven.go_to(first)
    wait(seen.asked)
    seen.answer("theirs")
    same("both windows have the same words", seen.words(), {1: "accept", 2: "reject", 3: "accept"})
    seen.run("document.querySelector('#undo').click()")
    same("what came in is undone", seen.words(), {1: "accept", 2: "accept", 3: "accept"})
    until_kept(seen)
    driven.go_to(second)
    wait(seen.asked)
    seen.answer("theirs")
    Seen(driven, whole).answer("use")
    same("no window lost a word", seen.words(), {1: "accept", 2: "accept", 3: "accept"})


def second_round(driven):
    """An older word doesn't come back above a later one, and saving twice raises the sequence number."""
    package = reading.Package(example("plain.xml"))
    seen = Seen(driven, page_of("plain.xml"))
    seen.name("Ann Gray")
    seen.press(4, "accept")
    seen.press(5, "reject")
    mine = [("Ann Gray", 1, 4, "accept"), ("Ann Gray", 1, 5, "reject")]
    same("the first journal", seen.saved("Ann Gray"), reading.journal(package, mine))
    seen.press(5, "reject")
    mine = [("Ann Gray", 2, 4, "accept"), ("Ann Gray", 2, 5, "withdraw")]
    same("the second one counts above it, and withdraws what was taken away", seen.saved("Ann Gray"), reading.journal(package, mine))
    seen = Seen(driven, page_of("plain.xml", ["ann.journal"]))
    told("words of an earlier round are told", "of an earlier round" in seen.asked(), seen.asked())
    seen.answer("use")
    same("and don't come back", seen.words(), {})
    seen = Seen(driven, page_of("plain.xml", ["ann.journal"]))
    seen.run("document.querySelector('#older').click()")
    seen.answer("use")
    same("unless they are asked for", seen.words(), {4: "accept"})
    driven.click("#undo")
    same("which is undone", [seen.words(), seen.run(NAME)], [{}, "Ann Gray"])
    seen.press(9, "accept")
    same("a third one has the new words alone", seen.saved("Ann Gray"), reading.journal(package, [("Ann Gray", 3, 9, "accept")]))
    seen = Seen(driven, page_of("plain.xml", ["ann.journal"]))
    seen.answer("use")
    same("what is newer than the page comes back", seen.words(), {9: "accept"})
    seen.press(8, "reject")
    until_kept(seen)
    seen = Seen(driven, page_of("plain.xml"))
    seen.answer("use")
    journal = seen.saved("Ann Gray")
    told("saved in the page of the first round, they still count above", "\n4\t8\treject\tAnn Gray\n4\t9\taccept\tAnn Gray\n" in journal, journal)


def locked_page(driven):
    """What a lock bars is kept aside, and is there again on a page without the lock."""
    seen = Seen(driven, page_of("contract.xml"))
    seen.name("Eve Stone")
    driven.click("#accept-all")
    until_kept(seen)
    locked = numbers_by("contract.xml", LOCK)
    seen = Seen(driven, page_of("contract.xml", [], [LOCK]))
    told("it says that some are kept aside", "%d words on locked changes" % len(locked) in seen.asked(), seen.asked())
    seen.answer("use")
    same("a locked change has no word", [it for it in range(1, 50) if it not in seen.words()], locked)
    seen.press(1, "reject")
    until_kept(seen)
    seen = Seen(driven, page_of("contract.xml"))
    seen.answer("use")
    same("without the lock all are there", seen.words(), {1: "reject", **{it: "accept" for it in range(2, 50)}})


def moved_file(driven):
    """A file that was moved: a browser may find nothing, and the journal that was saved brings the words back."""
    package = reading.Package(example("plain.xml"))
    seen = Seen(driven, page_of("plain.xml"))
    seen.name("Ann Gray")
    seen.press(1, "accept")
    seen.press(2, "reject")
    seen.saved("Ann Gray")
    seen.run("localStorage.clear()")
    moved = os.path.join(driven.folder, "moved.html")
    shutil.copy(seen.file, moved)
    driven.open(moved)
    same("nothing is found", [seen.asked(), seen.words()], ["", {}])
    seen.press(2, "accept")
    journal = os.path.join(driven.folder, "Ann Gray.journal")
    driven.choose_file("#file", journal)
    wait(seen.asked)
    told("a word that is replaced is asked about", "1 word would be replaced" in seen.asked(), seen.asked())
    seen.answer("open")
    wait(lambda: len(seen.words()) == 2)
    same("the journal's words are the page's", [seen.words(), seen.run(NAME)], [{1: "accept", 2: "reject"}, "Ann Gray"])
    seen.press(3, "accept")
    mine = [("Ann Gray", 2, 1, "accept"), ("Ann Gray", 2, 2, "reject"), ("Ann Gray", 2, 3, "accept")]
    same("the next journal counts above it", seen.saved("Ann Gray"), reading.journal(package, mine))


def foreign_journals(driven):
    """Only a journal of this document is opened; of another one the page says what the program says."""
    seen = Seen(driven, page_of("plain.xml"))
    seen.name("Ann Gray")
    seen.press(1, "reject")
    digest = seen.run("return document.body.dataset.document")
    mine = example("ann.journal")
    for case, text, why in [
        ("another document", mine.replace(digest, "0" * 64), "document %s, expected %s" % ("0" * 64, digest)),
        ("another count", mine.replace("revisions 9", "revisions 10"), "revisions 10, expected 9"),
        ("no journal", "<html>", "malformed"),
        ("no newline at its end", mine[:-1], "malformed"),
        ("a sequence number of 0", mine.replace("\n1\t1\t", "\n0\t1\t"), "malformed"),
        ("a rank in version 1", mine.replace("accept\t", "accept\t2\t"), "malformed"),
    ]:
        file = os.path.join(driven.folder, "given.journal")
        with open(file, "w", newline="", encoding="utf-8") as out:
            out.write(text)
        driven.choose_file("#file", file)
        told("not opened: " + case, wait(lambda: "redline: journal given.journal: " + why in seen.line(), 3), seen.line())
        if REDLINE:
            line = call("write", os.path.join(EXAMPLES, "plain.xml"), "given.journal", folder=driven.folder).stderr.decode().split("\n")[0]
            told("as the program says: " + case, seen.line().endswith(line), line)
    same("nothing was changed", seen.words(), {1: "reject"})
    file = os.path.join(driven.folder, "both.journal")
    with open(file, "w", newline="", encoding="utf-8") as out:
        out.write(mine.replace("revisions 9\n", "revisions 9\n7\t9\treject\tBob Hay\n") + "3\t70\taccept\tAnn Gray\n")
    driven.choose_file("#file", file)
    seen.answer("open")
    same("of several reviewers, the one who is named", seen.words(), {1: "accept", 2: "accept", 4: "reject", 5: "accept", 9: "reject"})


def mended_name(driven):
    """A name that was typed wrong loses nothing when it is mended."""
    whole = page_of("plain.xml")
    seen = Seen(driven, whole)
    seen.name("Ann Gary")
    seen.press(1, "accept")
    seen.press(2, "accept")
    seen.name("Ann Gray")
    told("it asks whose the words are", "2 changes on this page were decided under the name Ann Gary" in seen.asked(), seen.asked())
    seen.answer("along")
    same("they go along", seen.words(), {1: "accept", 2: "accept"})
    seen.press(3, "reject")
    seen.name("Bob Hay")
    seen.answer("anew")
    same("another reviewer has none of them", seen.words(), {})
    driven.click("#undo")
    same("and undo brings them, with their name", [seen.words(), seen.run(NAME)], [{1: "accept", 2: "accept", 3: "reject"}, "Ann Gray"])
    until_kept(seen)
    seen = Seen(driven, whole)
    seen.answer("")
    seen.press(2, "reject")
    seen.press(4, "accept")
    seen.name("Ann Gray")
    told("words of its own are asked about", "3 words" in seen.asked() and "1 differ from what is kept: numbers 2." in seen.asked(), seen.asked())
    seen.answer("both")
    same("both are there", seen.words(), {1: "accept", 2: "reject", 3: "reject", 4: "accept"})
    until_kept(seen)
    seen = Seen(driven, whole)
    seen.answer("use")
    same("and are kept", seen.words(), {1: "accept", 2: "reject", 3: "reject", 4: "accept"})
    seen = Seen(driven, whole)
    place = seen.run("return [...document.querySelectorAll('dialog .found')].findIndex((it) => it.textContent.startsWith('Ann Gary'))")
    driven.click("dialog .found:nth-of-type(%d) input" % (place + 1))
    seen.answer("use")
    same("what was kept under the other name too", [seen.words(), seen.run(NAME)], [{1: "accept", 2: "accept"}, "Ann Gary"])


def emptied_store(driven):
    """Where the browser's data are cleared while the page is open, it keeps its words again."""
    whole = page_of("plain.xml")
    seen = Seen(driven, whole)
    seen.name("Ann Gray")
    seen.press(1, "accept")
    seen.press(2, "reject")
    until_kept(seen)
    seen.run("localStorage.clear()")
    seen.press(3, "accept")
    until_kept(seen)
    Seen(driven, whole).answer("use")
    same("no word is lost", seen.words(), {1: "accept", 2: "reject", 3: "accept"})


def without_store(driven):
    """Where the browser keeps nothing, the page says so and works."""
    seen = Seen(driven, page_of("plain.xml"))
    seen.run("Storage.prototype.setItem = () => { throw new DOMException('no', 'QuotaExceededError') }")
    seen.press(1, "accept")
    told("it says that nothing is kept", wait(lambda: "keeps nothing" in seen.line(), 3), seen.line())
    seen.name("Ann Gray")
    told("and saves", "accept\tAnn Gray" in seen.saved("Ann Gray"))


CASES = [tells_what_it_found, two_windows, second_round, locked_page, moved_file, foreign_journals, mended_name, emptied_store, without_store]
