"""Makes the packages and journals of this folder, and what the program is to write of them.

    python3 make.py            into this folder
    python3 make.py FOLDER     into another one

What the program is to write comes from reading.py, which shares no code with it. The results of the examples that have been
worked out by hand are not made, but compared with that reading.
"""
import os
import sys

import bare
import contract
import left
import page
import reading
import report
import texts
from words import full, listed as words_listed

HERE = os.path.dirname(os.path.abspath(__file__))
# How a word processor finds the document of a package.
FOUND = (
    '<pkg:part pkg:name="/_rels/.rels" pkg:contentType="application/vnd.openxmlformats-package.relationships+xml" pkg:padding="512">'
    '<pkg:xmlData><Relationships xmlns="http://schemas.openxmlformats.org/package/2006/relationships">'
    '<Relationship Id="rId1" Type="http://schemas.openxmlformats.org/officeDocument/2006/relationships/officeDocument" Target="word/document.xml"/>'
    "</Relationships></pkg:xmlData></pkg:part>"
)
FRONT = (
    '<?xml version="1.0" encoding="UTF-8" standalone="yes"?>\n<?mso-application progid="Word.Document"?>\n'
    '<pkg:package xmlns:pkg="http://schemas.microsoft.com/office/2006/xmlPackage">' + FOUND +
    '<pkg:part pkg:name="/word/document.xml" pkg:contentType="application/vnd.openxmlformats-officedocument.wordprocessingml.document.main+xml">'
    "<pkg:xmlData>"
    '<w:document xmlns:w="http://schemas.openxmlformats.org/wordprocessingml/2006/main"><w:body>'
)
BACK = "</w:body></w:document></pkg:xmlData></pkg:part></pkg:package>"

ANN = 'w:author="Ann Gray" w:date="2026-11-02T09:00:00Z"'
BOB = 'w:author="Bob Hay" w:date="2026-11-03T14:30:00Z"'


# A package of several parts, as a word processor saves one: how to find the document, the document, its styles, a picture.
LETTER_FRONT = (
    '<?xml version="1.0" encoding="UTF-8" standalone="yes"?>\n'
    '<?mso-application progid="Word.Document"?>\n'
    '<pkg:package xmlns:pkg="http://schemas.microsoft.com/office/2006/xmlPackage">' + FOUND + "\n"
    '<pkg:part pkg:name="/word/document.xml" pkg:contentType="application/vnd.openxmlformats-officedocument.wordprocessingml.document.main+xml">'
    '<pkg:xmlData><w:document xmlns:w="http://schemas.openxmlformats.org/wordprocessingml/2006/main"'
    " xmlns:r='http://schemas.openxmlformats.org/officeDocument/2006/relationships' >\n<w:body>"
)
LETTER_BACK = (
    "</w:body>\n</w:document></pkg:xmlData></pkg:part>\n"
    '<pkg:part pkg:name="/word/styles.xml" pkg:contentType="application/vnd.openxmlformats-officedocument.wordprocessingml.styles+xml">'
    '<pkg:xmlData><w:styles xmlns:w="http://schemas.openxmlformats.org/wordprocessingml/2006/main">'
    "<!-- a mark in the styles is no revision of the document -->"
    '<w:style w:styleId="Changed"><w:rPr><w:ins w:id="90" w:author="Ann Gray"/></w:rPr></w:style>'
    "</w:styles ></pkg:xmlData></pkg:part>\n"
    '<pkg:part pkg:name="/word/media/image1.png" pkg:contentType="image/png" pkg:compression="store">'
    "<pkg:binaryData>iVBORw0KGgo=\r\n</pkg:binaryData></pkg:part></pkg:package>\n"
)


def text(words):
    return '<w:r><w:t xml:space="preserve">%s</w:t></w:r>' % words


def deleted(words):
    return '<w:r><w:delText xml:space="preserve">%s</w:delText></w:r>' % words


def change(name, number, who, content):
    return '<w:%s w:id="%d" %s>%s</w:%s>' % (name, number, who, content, name)


PARAGRAPHS = [
    text("Terms of sale"),
    # a word replaced: revisions 1 and 2
    text("Payment is due within ")
    + change("del", 1, BOB, deleted("thirty"))
    + change("ins", 2, ANN, text("fourteen"))
    + text(" days of delivery."),
    # inserted, and then a part of it deleted: revisions 3 and 4
    change("ins", 3, ANN, text("The seller delivers ") + change("del", 4, BOB, deleted("promptly ")) + text("to the buyer.")),
    # a deleted tab and an inserted break: revisions 5 and 6
    text("Price:")
    + change("del", 5, BOB, "<w:r><w:tab/></w:r>")
    + change("ins", 6, ANN, "<w:r><w:br/></w:r>")
    + text(" 100 EUR"),
    # a deletion in a deletion: revisions 7 and 8
    text("The buyer ")
    + change("del", 7, ANN, deleted("may ") + change("del", 8, BOB, deleted("at any time ")) + deleted("or "))
    + text("shall inspect the goods."),
    # a whole line inserted: revision 9
    change("ins", 9, BOB, text("Signed in two copies.")),
]

LETTER = [
    text("Smith &amp; Sons &#8212; offer of 3 November"),
    text("Dear Ms Gray, ") + change("ins", 31, BOB.replace('"', "'"), text("we thank you for your letter, and ")),
    text("we offer 40 &lt;m&gt; of cable")
    + change("del", 32, ANN, deleted(" at 3 &#x20AC; each"))
    + change("ins", 33, ANN, text(" at 2.80 &#x20AC; each"))
    + text("."),
]

# reviewer, sequence number, revision, word
ANN_SAYS = [("Ann Gray", *it) for it in [(1, 1, "accept"), (1, 2, "accept"), (1, 5, "accept"), (1, 9, "accept"), (2, 9, "reject"), (2, 4, "reject")]]
BOB_SAYS = [("Bob Hay", *it) for it in [(1, 1, "accept"), (1, 3, "accept"), (1, 5, "reject"), (1, 6, "accept"), (2, 6, "withdraw"), (1, 8, "reject")]]
# the document does not have revision 10
CARA_SAYS = [("Cara Lee", 1, 10, "reject"), ("Cara Lee", 1, 9, "reject")]


def words(who, sequence, word, *numbers):
    return [(who, sequence, number, word) for number in numbers]


# What three reviewers say of the contract. They dispute the time of payment, 32 and 33. Bob comes round to the new price of
# cable, 12, with a later sequence number, and takes back their word on the inserted mark 30.
CONTRACT_SAYS = {
    "ann": words("Ann Gray", 1, "accept", 2, 3, 4, 5, 6, 11, 12, *range(20, 29), 29, 31, 32, 33, 42, 43, 47, 48, 49),
    "bob": words("Bob Hay", 1, "accept", 2, 3, 6, 11, *range(13, 20), 27, 29, 30, 47)
    + words("Bob Hay", 1, "reject", 12, 32, 33, 42, 43, 46)
    + words("Bob Hay", 2, "accept", 12)
    + words("Bob Hay", 2, "withdraw", 30),
    "cara": words("Cara Lee", 1, "accept", 1, 5, *range(7, 11), *range(34, 42), 44, 45),
}
# What Eve Hall decided in a word processor, in the order of the numbers.
EVE_SAYS = sorted(words("Eve Hall", 1, "accept", 1, 5, *range(7, 11), 13, 29, 31, 34, 35, 36, 39, 40, 41) + words("Eve Hall", 1, "reject", 11, 12, 32, 33), key=lambda it: it[2])
LOCKED = "Dana Fox & Co"
BY_HAND = ["terms", "joins", "properties", "rows", "moves"]
VIEWS = ["original", "final", "marked"]


def package(body):
    return FRONT + body + BACK


class Folder:
    """Where the files go."""

    def __init__(self, name):
        self.name = name

    def save(self, name, whole):
        with open(os.path.join(self.name, name), "w", newline="\n", encoding="utf-8") as file:
            file.write(whole)


def settled(folder, name, read):
    folder.save(name + ".accepted.xml", reading.decided(read, lambda number: "accept"))
    folder.save(name + ".rejected.xml", reading.decided(read, lambda number: "reject"))


def make_plain(folder):
    whole = package("".join("<w:p>%s</w:p>" % paragraph for paragraph in PARAGRAPHS))
    read = reading.Package(whole)
    folder.save("plain.xml", whole)
    settled(folder, "plain", read)
    folder.save("plain.written.xml", reading.written(read, ANN_SAYS + BOB_SAYS))
    for name, says in [("ann", ANN_SAYS), ("bob", BOB_SAYS), ("cara", CARA_SAYS)]:
        folder.save(name + ".journal", reading.journal(read, says))


def make_letter(folder):
    whole = LETTER_FRONT + "".join("\n<w:p w:rsidR='00A77B3E'>%s</w:p >" % paragraph for paragraph in LETTER) + LETTER_BACK
    folder.save("letter.xml", whole)
    folder.save("letter.left.text", left.written(reading.Package(whole), "text"))
    folder.save("letter.accepted.xml", reading.decided(reading.Package(whole), lambda number: "accept"))


def make_contract(folder):
    whole = contract.package()
    read = reading.Package(whole)
    folder.save("contract.xml", whole)
    settled(folder, "contract", read)
    for name, says in CONTRACT_SAYS.items():
        folder.save("contract.%s.journal" % name, reading.journal(read, says))
    folder.save("contract.eve.journal", reading.journal(read, EVE_SAYS))
    entries = sum(CONTRACT_SAYS.values(), [])
    folder.save("contract.written.xml", reading.written(read, entries))
    folder.save("contract.locked.xml", reading.written(read, entries, [LOCKED]))
    folder.save("contract.locked.lines", reading.refused_lines(read, entries, [LOCKED]))
    folder.save("contract.joined.journal", reading.journal(read, reading.in_order(entries)))
    for form in ["text", "tab", "json"]:
        folder.save("contract.list." + form, reading.listed(read, entries, form))
    folder.save("contract.list.words", words_listed(read, entries))
    folder.save("contract.list.full", full(read, entries))
    make_shown(folder, read, entries)
    folder.save("contract.page.html", page.page(read, entries))
    for form in report.FORMS:
        folder.save("contract.report." + form, report.report(read, entries, form))
        folder.save("contract.kinds." + form, report.report(read, entries, form, by_kind=True))
    for form in ["text", "json"]:
        folder.save("contract.left." + form, left.written(read, form))
    for view in VIEWS:
        folder.save("contract.%s.txt" % view, texts.text(read, view))
    folder.save("contract.bare.txt", bare.bare_text(read).decode())
    # Ann accepts all of Cara's changes in one go, but for the two in the sentence on prices.
    of_cara = [number for number, it in enumerate(read.revisions, 1) if it.author == "Cara Lee"]
    book, _ = reading.decide(read, "Ann Gray", CONTRACT_SAYS["ann"], [("accept", of_cara), ("withdraw", [5])])
    folder.save("contract.decided.journal", reading.journal(read, book))
    # Cara accepts all formatting and a stretch of numbers, and rejects each row that was inserted or deleted.
    kinds = lambda end: [number for number, it in enumerate(read.revisions, 1) if it.kind.endswith(end)]
    rows = [number for number, it in enumerate(read.revisions, 1) if it.kind in ("row-ins", "row-del")]
    book, _ = reading.decide(read, "Cara Lee", [], [("accept", kinds("-props")), ("accept", [*range(34, 42), 44]), ("reject", rows)])
    folder.save("contract.desk.journal", reading.journal(read, book))
    make_ranks(folder, read, entries)
    make_sittings(folder, read, of_cara)


def make_sittings(folder, read, of_cara):
    """Ann decides Cara's changes, the contract is written, and Bob decides on what was written."""
    first, _ = reading.decide(read, "Ann Gray", [], [("accept", of_cara)])
    folder.save("contract.first.journal", reading.journal(read, first))
    second = reading.Package(reading.written(read, first))
    folder.save("contract.second.xml", second.text)
    chosen = lambda holds: [number for number, it in enumerate(second.revisions, 1) if holds(it)]
    later, _ = reading.decide(second, "Bob Hay", [], [("accept", chosen(lambda it: it.author == LOCKED)), ("reject", chosen(lambda it: it.kind == "del"))])
    folder.save("contract.second.journal", reading.journal(second, later))
    folder.save("contract.resumed.journal", reading.journal(read, reading.resumed(read, first, second, later)))
    folder.save("contract.resumed.xml", reading.written(second, later))


def make_shown(folder, read, entries):
    """Listings of some changes alone: those of Dana's that are disputed, and all rows."""
    book = reading.admitted(read, entries)
    numbered = list(enumerate(read.revisions, 1))
    disputed = [number for number, it in numbered if it.author == LOCKED and reading.verdict(number, book) == "disputed"]
    rows = [number for number, it in numbered if it.kind in ("row-ins", "row-del")]
    folder.save("contract.disputed.words", words_listed(read, entries, disputed))
    folder.save("contract.rows.tab", reading.listed(read, entries, "tab", shown=rows))


def make_ranks(folder, read, entries):
    """A partner decides what Ann and Bob dispute, with a rank; and the contract under locks of three sorts."""
    ranked, _ = reading.decide(read, "Pat Stone", [], [("reject", [32, 33])], rank=2)
    folder.save("contract.pat.journal", reading.journal(read, ranked))
    folder.save("contract.ranked.text", reading.listed(read, entries + ranked, "text"))
    folder.save("contract.ranked.report", report.report(read, entries + ranked, "text"))
    folder.save("contract.ranked.journal", reading.journal(read, reading.in_order(entries + ranked)))
    locks = [("author", LOCKED), ("kind", "del"), ("span", reading.moment("2026-11-04T00:00:00Z"), reading.moment("2026-11-05T00:00:00Z"))]
    folder.save("contract.locks.xml", reading.written(read, entries + ranked, locks))
    folder.save("contract.locks.lines", reading.refused_lines(read, entries + ranked, locks))
    folder.save("contract.locks.report", report.report(read, entries + ranked, "text", locks))


def make_round(folder):
    """A round on the terms by the command line alone: two reviewers decide, their journals are joined, listed and written."""
    with open(os.path.join(HERE, "terms.xml"), newline="", encoding="utf-8") as file:
        read = reading.Package(file.read())
    inserted = [number for number, it in enumerate(read.revisions, 1) if it.kind == "ins"]
    everything = range(1, len(read.revisions) + 1)
    legal, _ = reading.decide(read, "Legal", [], [("accept", inserted)])
    finance, _ = reading.decide(read, "Finance", [], [("accept", everything), ("reject", [3])])
    folder.save("terms.legal.journal", reading.journal(read, legal))
    folder.save("terms.finance.journal", reading.journal(read, finance))
    folder.save("terms.joined.journal", reading.journal(read, reading.in_order(legal + finance)))
    folder.save("terms.joined.json", reading.listed(read, legal + finance, "json"))
    folder.save("terms.clean.xml", reading.written(read, legal + finance))


def sittings_differ():
    """Whether one sitting accepts the mark of a paragraph before a table, and a later one its text, and they differ from one sitting."""
    with open(os.path.join(HERE, "joins.xml"), newline="", encoding="utf-8") as file:
        read = reading.Package(file.read())
    first = [("Ann Gray", 1, 3, "accept")]
    second = reading.Package(reading.written(read, first))
    text_of_it = [number for number, it in enumerate(second.revisions, 1) if it.kind == "del"]
    return reading.resumed(read, first, second, [("Bob Hay", 1, number, "accept") for number in text_of_it]) is None


def check_by_hand():
    """The results that have been worked out by hand, against the reading."""
    failed = 0
    if not sittings_differ():
        print("the reading gives one journal for two sittings of joins.xml")
        failed = 1
    for name in BY_HAND:
        text = lambda end: open(os.path.join(HERE, name + end), newline="", encoding="utf-8").read()
        read = reading.Package(text(".xml"))
        for end, say in [(".accepted.xml", "accept"), (".rejected.xml", "reject")]:
            if text(end) != reading.decided(read, lambda number: say):
                print("the reading gives other bytes than %s%s" % (name, end))
                failed = 1
    for view in VIEWS:
        with open(os.path.join(HERE, "moves.%s.txt" % view), newline="", encoding="utf-8") as file:
            by_hand = file.read()
        with open(os.path.join(HERE, "moves.xml"), newline="", encoding="utf-8") as file:
            if by_hand != texts.text(reading.Package(file.read()), view):
                print("the reading gives another text than moves.%s.txt" % view)
                failed = 1
    return failed


def main():
    folder = Folder(sys.argv[1] if len(sys.argv) > 1 else HERE)
    make_plain(folder)
    make_letter(folder)
    make_contract(folder)
    make_round(folder)
    # a paragraph whose properties don't come first
    folder.save("unsound.xml", package("<w:p>%s<w:pPr/></w:p>" % text("Terms of sale")))
    return check_by_hand()


sys.exit(main())
