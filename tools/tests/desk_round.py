"""A whole round at the desk: opened, decided, joined, disputed, written, saved, and gone on with; each file is what the commands give."""
import json
import os
import subprocess
import time

import desk_faults
from desk_seen import DOCX, FLATOPC, REDLINE, Desk, built, example, for_package, output, read, unpacked
from page_seen import EXAMPLES, in_numbered, in_package, same, told, wait

NAMES = ["ann", "bob", "cara"]
JOURNALS = ["contract.%s.journal" % name for name in NAMES]


def package_round(driven):
    """The example's package and journals, against the example's results, which are not made by the program."""
    it = Desk(driven)
    said = it.drop(*[(name, example(name)) for name in ["contract.xml", *JOURNALS]])
    told("a package and its journals open at once", "3 journals were added" in said, said)
    told("and what to do is told", "press Accept or Reject" in said, said)
    same("what is disputed is told first", it.text("#standing-badge"), "4")
    it.step("save")
    same("the document as decided", it.saves("#save-document", "contract.decided.xml"), example("contract.written.xml"))
    told("how many changes are left is told", "5 changes are still tracked" in it.text("#save-document-told"), it.text("#save-document-told"))
    same("all journals as one", it.saves("#save-joined", "contract.joined.journal"), example("contract.joined.journal"))
    same("the listing", it.saves("#save-listing", "contract.listing.json"), example("contract.list.full"))
    same("the report", it.saves("#save-report", "contract.report.txt"), example("contract.report.table"))
    for view in ["final", "original", "marked"]:
        it.run("document.getElementById('view').value = arguments[0]", view)
        same("the text, " + view, it.saves("#save-text", "contract.%s.txt" % view), example("contract.%s.txt" % view))
    for word, name in [("accept", "accepted"), ("reject", "rejected")]:
        it.run("document.querySelector('input[name=how][value=%s]').click()" % word)
        same("all " + name, it.saves("#save-document", "contract.%s.xml" % name), example("contract.%s.xml" % name))
    same("nothing is asked for", it.requests(), [])
    same("no complaint of the browser", driven.complaints(), [])


def docx_round(driven):
    """A .docx, decided in the page, joined with others, written, and looked at by the command line."""
    docx = os.path.join(driven.folder, "contract.docx")
    subprocess.run([FLATOPC, "pack", "-f", os.path.join(EXAMPLES, "contract.xml"), docx], check=True)
    package = unpacked(docx, driven.folder)
    frozen = os.path.join(driven.folder, "frozen.xml")
    with open(frozen, "wb") as out:
        out.write(package)
    paths = [os.path.join(driven.folder, name) for name in JOURNALS]
    for path, name in zip(paths, JOURNALS):
        with open(path, "wb") as out:
            out.write(for_package(example(name), package))
    it = Desk(driven)
    said = it.give(docx)
    told("a .docx opens", "49 changes" in said, said)
    if REDLINE:
        shown = it.run("return document.getElementById('page').srcdoc")
        same("it is seen as the program's page shows it", shown, output(REDLINE, "page", frozen, "--title", "contract.docx").decode())
    it.name("Dee Wood")
    for number, word in [(3, "accept"), (12, "reject"), (32, "reject")]:
        it.decide(number, word)
    decided = it.decisions()
    same("decided in the page", decided, ["3 accept", "12 reject", "32 reject"])
    said = it.give(*paths)
    told("journals are added", "3 journals were added" in said, said)
    same("decisions stay when journals come", it.decisions(), decided)
    said = it.drop(("old.journal", example("contract.ann.journal")))
    told("a journal of another document is refused, with the program's line", it.is_fault() and "redline: journal old.journal: document" in said, said)
    same("and stays out", it.text("#others-badge"), "3")
    standing(it)
    it.step("save")
    mine = os.path.join(driven.folder, "contract.Dee Wood.journal")
    journal = it.saves_journal("contract.Dee Wood.journal")
    told("the journal is of this package", journal.startswith(b"\n".join(for_package(example(JOURNALS[0]), package).split(b"\n")[:2])), str(journal[:200]))
    it.step("save")
    saved = it.saves("#save-document", "contract.decided.docx")
    told("a .docx is saved", saved[:2] == b"PK", str(saved[:20]))
    with open(mine, "wb") as out:
        out.write(journal)
    if REDLINE:
        same_as_command_line(it, docx, frozen, [*paths, mine])
    same("nothing is asked for", it.requests(), [])


def standing(it):
    """The tables of where it stands, with what this page decided."""
    it.step("standing")
    cells = it.run("return [...document.querySelectorAll('#tables table')].map((it) => [it.caption.textContent, [...it.tBodies[0].rows].map((row) => [...row.cells].map((cell) => cell.textContent))])")
    disputed = next(rows for caption, rows in cells if caption.startswith("Disputed"))
    same("the disputed changes are first, by number", [row[0] for row in disputed], ["12", "32", "33", "42", "43"])
    same("who is against whom", [disputed[1][5], disputed[1][6]], ["Ann Gray", "Bob Hay, Dee Wood"])
    same("what stands around a change is in whole words, after its clause", disputed[1][1:3], ["3.1", "The price is due within thirtyfourteen days of delivery. The Buyer…"])
    people = next(rows for caption, rows in cells if caption.startswith("Reviewers"))
    same("each reviewer has a line", [row[0] for row in people], ["Ann Gray", "Bob Hay", "Cara Lee", "Dee Wood"])
    it.press("#tables td button, #tables th button")
    same("a number leads to its change", it.in_page("return page.document.querySelector('li[aria-current]').id"), "revision-12")


def same_as_command_line(it, docx, frozen, journals):
    folder = it.driven.folder
    saved = os.path.join(folder, "contract.decided.docx")
    wanted = os.path.join(folder, "wanted.docx")
    subprocess.run([DOCX, "write", docx, *journals, "-f", "-o", wanted], check=False, capture_output=True)
    same("the saved .docx has the package that the command line writes", unpacked(saved, folder), unpacked(wanted, folder))
    same("the saved .docx is the command line's", read(saved), read(wanted))
    left = output(DOCX, "check", saved).decode()
    told("the saved .docx is sound", left == "sound 6 revisions\n", left)
    mine = output(REDLINE, "decide", frozen, "Dee Wood", "--accept", "numbers:3", "--reject", "numbers:12,32")
    same("the saved journal is what decide writes", read(journals[-1]), mine)
    it.step("written")
    shown = it.run("return document.getElementById('result').srcdoc")
    package = os.path.join(folder, "as-written.xml")
    with open(package, "wb") as out:
        out.write(output(REDLINE, "write", frozen, *journals))
    page = output(REDLINE, "page", package).decode()
    same("as written: the program's page of what it writes", shown.split("<main", 1)[1], page.split("<main", 1)[1])


def example_at_hand(driven):
    """Who has nothing at hand begins with the example, which comes with the page."""
    it = Desk(driven)
    said = it.press("#example")
    told("the example opens with its journals", "3 journals were added" in said, said)
    same("it is the contract", [it.text("#name"), it.text("#count"), it.text("#others-badge")], ["contract.xml", "49 changes", "3"])
    it.step("save")
    same("with its bytes", it.saves("#save-document", "contract.decided.xml"), example("contract.written.xml"))


MAIN_OF_DOCM = "application/vnd.ms-word.document.macroEnabled.main+xml"


def other_forms(driven):
    """A .docm stays one, and what was opened as an archive can be saved as a package."""
    package, docm = os.path.join(driven.folder, "macros.xml"), os.path.join(driven.folder, "contract.docm")
    with open(package, "wb") as out:
        out.write(example("contract.xml").replace(desk_faults.MAIN.encode(), MAIN_OF_DOCM.encode()))
    subprocess.run([FLATOPC, "pack", "-f", package, docm], check=True)
    it = Desk(driven)
    said = it.give(docm)
    told("a .docm opens", "49 changes" in said, said)
    it.step("save")
    it.run("document.querySelector('input[name=how][value=accept]').click()")
    saved = it.saves("#save-document", "contract.accepted.docm")
    told("and is saved as one", saved[:2] == b"PK" and MAIN_OF_DOCM.encode() in unpacked(os.path.join(driven.folder, "contract.accepted.docm"), driven.folder), str(saved[:60]))
    it.run("const it = document.getElementById('form'); it.value = 'xml'; it.dispatchEvent(new Event('change'))")
    same("unused notes are left out of archives alone", it.run("return document.getElementById('drop-notes-label').hidden"), True)
    saved = it.saves("#save-document", "contract.accepted.xml")
    same("the package of the same", saved, unpacked(os.path.join(driven.folder, "contract.accepted.docm"), driven.folder))


def formats(driven):
    """What a change of format changes is with it, and where a change is that isn't in the document, as the example's listing has it."""
    it = Desk(driven)
    it.drop(("contract.xml", example("contract.xml")))
    it.step("standing")
    rows = it.run("return [...document.querySelectorAll('#tables tbody tr')].map((row) => [Number(row.cells[0].textContent), [...row.querySelectorAll('.changed li')].map((it) => it.textContent)])")
    listed = json.loads(example("contract.list.full"))
    same("what each change of format changes", [row for row in rows if row[1]], [[one["number"], [it["said"] for it in one["changed"]]] for one in listed if one["changed"]])
    places = it.run("return [...document.querySelectorAll('#tables tbody tr')].map((row) => [Number(row.cells[0].textContent), row.querySelector('.place')?.textContent])")
    same("where each change outside the document is", [row for row in places if row[1]], [[one["number"], one["place"]] for one in listed if one["place"] != "document"])


def clauses(driven):
    """In which clause each change is, by the numbers that the document counts."""
    change = '<w:ins w:id="1" w:author="Ann" w:date="2026-11-03T14:30:00Z"><w:r><w:t>new</w:t></w:r></w:ins>'
    properties = ['<w:pPr><w:numPr><w:ilvl w:val="%d"/><w:numId w:val="1"/></w:numPr></w:pPr>' % level for level in (0, 1, 1, 2, 0)]
    body = "".join("<w:p>%s%s</w:p>" % (it, change) for it in ["", *properties])
    whole = in_numbered(body)
    it = Desk(driven)
    it.drop(("numbered.xml", whole.encode()))
    it.step("standing")
    column = "const table = document.querySelector('#tables table'); return [...table.tHead.rows, ...table.tBodies[0].rows].map((row) => row.cells[1].textContent)"
    same("the clause of each change", it.run(column), ["Clause", "", "1.", "1.1", "1.2", "(a)", "2."])
    it.drop(("plain.xml", example("plain.xml")))
    it.step("standing")
    same("and no column where no clause has a number", it.run(column)[0], "Change")


def remains(driven):
    """What else is in the document is shown as it would be saved, before it is; and marks that nobody decides are told at once."""
    it = Desk(driven)
    it.drop(*[(name, example(name)) for name in ["contract.xml", *JOURNALS]])
    it.step("save")
    rows = "return [...document.querySelectorAll('#remains tbody tr')].map((row) => [...row.cells].map((cell) => cell.textContent))"
    same("nothing of what else is in it is shown unasked", it.run(rows), [])
    it.run("document.querySelector('input[name=how][value=accept]').click()")
    it.press("#show-remains")
    place = "/word/document.xml"
    moves = [["marker of a move without its text", "1", "moveToRange" + end, place] for end in ("Start Cara Lee", "End")]
    comments = [["comment", "1", who, "/word/comments.xml"] for who in ("Cara Lee", "Ann Gray", "Dana Fox & Co")]
    comments += [["comment that stands at no text any more", "1", "Ann Gray", "/word/comments.xml"], ["place of a comment in the text", "3", "", place]]
    others = [["hidden text", "1", "", place], ["Track Changes is switched on", "1", "", "/word/settings.xml"]]
    same("what else is in it, with all changes accepted", it.run(rows), [*moves, *comments, *others])
    it.run("document.querySelector('input[name=how]').click()")
    it.press("#show-remains")
    if REDLINE:
        found = json.loads(output(REDLINE, "left", os.path.join(EXAMPLES, "contract.written.xml"), "--format", "json"))
        same("and as decided, what the program lists", [[int(row[1]), row[2], row[3]] for row in it.run(rows)], [[one["count"], one["value"], one["part"]] for one in found])
    who = 'w:id="1" w:author="%s" w:date="2026-11-03T14:30:00Z"'
    body = "<w:p><w:pPr><w:numPr><w:ins %s/></w:numPr></w:pPr><w:ins %s><w:r><w:t>a</w:t></w:r></w:ins></w:p><w:p/>" % (who % "Ann", who % "Bob")
    said = it.drop(("numbered.xml", in_package(body).encode()))
    told("a mark that nobody decides is told when it is opened", "1 mark is left in it that Redline doesn't decide" in said, said)
    it.step("save")
    it.saves("#save-document", "numbered.decided.xml")
    told("and when it is saved", "1 mark is left in it" in it.text("#save-document-told"), it.text("#save-document-told"))
    it.press("#show-remains")
    told("and shown with its author", ["mark of a change that Redline doesn't decide", "1", "ins Ann", "/word/document.xml"] in it.run(rows), str(it.run(rows)))


def locked_and_gone(driven):
    """A locked change whose text went with what was around it is told when the document is saved."""
    who = 'w:id="%d" w:author="%s" w:date="2026-11-03T14:30:00Z"'
    inner = "<w:ins %s><w:del %s><w:r><w:delText>old</w:delText></w:r></w:del><w:r><w:t>new</w:t></w:r></w:ins>" % (who % (1, "Ann"), who % (2, "Bob"))
    it = Desk(driven)
    it.drop(("nested.xml", in_package("<w:p>%s</w:p><w:p/>" % inner).encode()))
    it.step("others")
    it.run("document.getElementById('locks').open = true")
    it.after()
    it.run("document.getElementById('lock-author').value = 'Bob'")
    it.press("#lock-form button")
    it.decide(1, "reject")
    it.step("save")
    it.saves("#save-document", "nested.decided.xml")
    told("a locked change that went is told", "The locked change 2 went" in it.text("#save-document-told"), it.text("#save-document-told"))


def unused_notes(driven):
    """Notes that no text refers to any more are left out, where that is wished."""
    docx = os.path.join(driven.folder, "notes.docx")
    who = 'w:id="1" w:author="Ann" w:date="2026-11-03T14:30:00Z"'
    body = '<w:p><w:r><w:t>a</w:t></w:r><w:del %s><w:r><w:footnoteReference w:id="2"/></w:r></w:del></w:p><w:p/>' % who
    note = '<w:footnote w:id="2"><w:p><w:r><w:t>only a draft</w:t></w:r></w:p></w:footnote>'
    whole = in_package(body, [("/word/footnotes.xml", "footnotes", note)])
    for root, content in [("document", desk_faults.MAIN), ("footnotes", desk_faults.MAIN.replace("document.main", "footnotes"))]:
        whole = whole.replace('contentType="x"><pkg:xmlData><w:' + root, 'contentType="%s"><pkg:xmlData><w:%s' % (content, root))
    package = os.path.join(driven.folder, "notes.xml")
    with open(package, "w", encoding="utf-8") as out:
        out.write(whole)
    subprocess.run([FLATOPC, "pack", "-f", package, docx], check=True)
    it = Desk(driven)
    it.give(docx)
    it.step("save")
    it.run("document.querySelector('input[name=how][value=accept]').click()")
    for is_dropped in (False, True):
        it.run("document.getElementById('drop-notes').checked = arguments[0]", is_dropped)
        it.saves("#save-document", "notes.accepted.docx")
        there = b"only a draft" in unpacked(os.path.join(driven.folder, "notes.accepted.docx"), driven.folder)
        same("a note without a reference is " + ("left out" if is_dropped else "kept"), there, not is_dropped)


QUESTION = "const it = page.document.querySelector('dialog[open]'); return it ? it.innerText : ''"


def kept_at_the_desk(driven):
    """What was decided is kept by the browser, as in a page by itself, and is asked about when the document is opened again."""
    it = Desk(driven)
    it.drop(("contract.xml", example("contract.xml")))
    it.name("Eve Stone")
    it.decide(3, "accept")
    it.decide(5, "reject")
    time.sleep(0.8)
    it = Desk(driven)
    it.drop(("contract.xml", example("contract.xml")))
    told("what is found is asked about", wait(lambda: "Eve Stone: 2 words" in it.in_page(QUESTION)), it.in_page(QUESTION))
    same("and not used before", it.decisions(), [])
    it.in_page("page.document.querySelector('dialog[open] .answer[value=use]').click()")
    told("then it is there again", wait(lambda: it.decisions() == ["3 accept", "5 reject"]), str(it.decisions()))
    it.in_page("page.document.getElementById('undo').click()")
    same("and can be undone as one", it.decisions(), [])
    it.drop(("plain.xml", example("plain.xml")))
    same("another document has none", it.decisions(), [])


def locks_and_ranks(driven):
    it = Desk(driven)
    it.drop(*[(name, example(name)) for name in ["contract.xml", *JOURNALS]])
    it.step("others")
    it.run("document.getElementById('locks').open = true")
    it.after()
    it.run("document.getElementById('lock-author').value = 'Dana Fox & Co'")
    said = it.press("#lock-form button")
    told("a lock is told, and what does not count under it", "1 lock holds" in said and "on locked changes" in said, said)
    it.step("save")
    same("written with a lock", it.saves("#save-document", "contract.decided.xml"), example("contract.locked.xml"))
    it.step("others")
    it.press("#lock-list button")
    it.name("Pat Stone")
    for number in (32, 33):
        it.decide(number, "reject")
    it.run("document.getElementById('ranks').open = true; const it = document.getElementById('rank'); it.value = '2'; it.dispatchEvent(new Event('change'))")
    it.after()
    it.step("save")
    same("a journal with a rank is what decide --rank writes", it.saves_journal("contract.Pat Stone.journal"), example("contract.pat.journal"))
    it.step("standing")
    captions = it.run("return [...document.querySelectorAll('#tables caption')].map((it) => it.textContent.split(':')[0].split(',')[0])")
    told("decided against somebody is shown", "Decided against somebody" in captions, str(captions))
    against = "const it = [...document.querySelectorAll('#tables table')].find((it) => /against/.test(it.caption.textContent));"
    against += "return [...it.tBodies[0].rows].map((row) => [0, 5, 6].map((at) => row.cells[at].textContent))"
    same("with those on either side", it.run(against), [[number, "Ann Gray", "Bob Hay, Pat Stone"] for number in ("32", "33")])


# Each form of a lock, and the fields of the desk's form for it.
LOCKS = [
    ("--lock-span", {"lock-from": "2026-11-04", "lock-to": "2026-11-05"}, "made from 2026-11-04 and before 2026-11-05"),
    ("--lock", {"lock-author": "Dana Fox & Co"}, "by “Dana Fox & Co”"),
    ("--lock-kind", {"lock-kind": "del"}, "of the kind “deleted”"),
]


def each_lock(driven):
    """Locks of each form at once, under a journal with ranks."""
    it = Desk(driven)
    it.drop(*[(name, example(name)) for name in ["contract.xml", "contract.ranked.journal"]])
    it.step("others")
    it.run("document.getElementById('locks').open = true")
    it.after()
    for form, fields, _ in LOCKS:
        it.run("const it = document.getElementById('lock-by'); it.value = arguments[0]; it.dispatchEvent(new Event('change'))", form)
        for name, value in fields.items():
            it.run("document.getElementById(arguments[0]).value = arguments[1]", name, value)
        it.press("#lock-form button")
    same("each lock is in the list, in words", it.run("return [...document.querySelectorAll('#lock-list span')].map((it) => it.textContent)"), ["all changes " + words for _, _, words in LOCKS])
    it.step("standing")
    rows = [row for row in figures_of(it) if row[0] != "kind"]
    report = [line.split(None, 5) for line in example("contract.locks.report").decode().splitlines()]
    same("who has decided how much under them", rows, [[role, name, accept, reject, disputed, left] for role, accept, reject, disputed, left, name in report])
    it.step("save")
    same("written under them", it.saves("#save-document", "contract.decided.xml"), example("contract.locks.xml"))
    told("what went with what was around it is told", "The locked changes 15, 17, 19 went" in it.text("#save-document-told"), it.text("#save-document-told"))


def figures_of(it):
    """The lines of the tables of reviewers and authors: what a line is of, the name, and four figures."""
    lines = "return [...document.querySelectorAll('#tables tr:is(.reviewer, .author, .kind)')].map((row) => [row.className, ...[...row.cells].map((it) => it.textContent)])"
    return it.run(lines)


def figures(driven):
    """The tables have the figures of the example's report, and each change is in the table of its verdict."""
    it = Desk(driven)
    it.drop(*[(name, example(name)) for name in ["contract.xml", *JOURNALS]])
    it.step("standing")
    wanted = [[one["role"], *[str(one[word]) for word in ("accept", "reject", "disputed", "open")]] for one in json.loads(example("contract.kinds.json"))]
    same("the figures of reviewers, authors and kinds", [[role, *numbers] for role, _, *numbers in figures_of(it)], wanted)
    it.run("document.querySelector('#tables details').open = true")
    it.wait("document.querySelector('#tables details table')")
    tables = it.run("return [...document.querySelectorAll('#tables table')].map((it) => [it.caption.textContent.split(':')[0], [...it.tBodies[0].rows].map((row) => row.cells[0].textContent)])")
    listed = json.loads(example("contract.list.full"))
    of = lambda *verdicts: [str(row["number"]) for row in listed if row["verdict"] in verdicts]
    by_caption = dict(tables)
    same("each change is in the table of its verdict", [by_caption.get(caption) for caption in ("Disputed", "Open", "Decided")], [of("disputed"), of("open"), of("accept", "reject")])


def second_sitting(driven):
    """Two sittings become one journal of the first document."""
    it = Desk(driven)
    it.drop(("contract.xml", example("contract.xml")), ("contract.first.journal", example("contract.first.journal")))
    it.step("save")
    it.press("#go-on")
    told("the second document opens", it.wait("document.getElementById('name').textContent === 'contract.decided.xml'"), it.text("#name"))
    it.after()
    saved = os.path.join(driven.folder, "contract.decided.xml")
    told("and is saved", wait(lambda: os.path.exists(saved)) and read(saved) == example("contract.second.xml"), "other bytes")
    it.drop(("contract.second.journal", example("contract.second.journal")))
    it.step("save")
    same("one journal of both", it.saves("#save-both", "contract.both.journal"), example("contract.resumed.journal"))
    it = Desk(driven)
    it.drop(("contract.second.xml", example("contract.second.xml")), ("contract.second.journal", example("contract.second.journal")))
    it.step("others")
    it.run("document.getElementById('earlier').open = true")
    said = it.drop(*[(name, example(name)) for name in ["contract.xml", "contract.first.journal"]], on="#earlier")
    told("the earlier document is added later", "gives this document" in said, said)
    it.step("save")
    same("and both are one journal", it.saves("#save-both", "contract.both.journal"), example("contract.resumed.journal"))


def sent_along(driven):
    """A desk with a document and a journal in it opens ready."""
    file = os.path.join(driven.folder, "sent.html")
    contract, journal = os.path.join(EXAMPLES, "contract.xml"), os.path.join(EXAMPLES, JOURNALS[0])
    made = subprocess.run([DOCX, "desk", contract, journal, "-o", file], env={**os.environ, "REDLINE_DESK": built()}, check=False, capture_output=True)
    told("redline-docx desk", made.returncode == 0, made.stderr.decode())
    it = Desk(driven, file)
    told("it opens with its document and journal", it.wait("document.getElementById('message').textContent.includes('was added')"), it.message())
    same("which are those", [it.text("#name"), it.text("#count"), it.text("#others-badge")], ["contract.xml", "49 changes", "1"])


CASES = [package_round, docx_round, example_at_hand, other_forms, formats, clauses, remains, locked_and_gone, unused_notes, kept_at_the_desk, locks_and_ranks, each_lock, figures, second_sitting] + [sent_along] * bool(REDLINE)
