#!/usr/bin/env python3
"""Tests redline-docx returned on small documents, row by row: what was sent, what came back, the journal and the lines.

    returned_rows.py REDLINE-DOCX PROGRAM

The rows are the rule by which one of several journals is taken, and each line about what is new in the document that came back.
"""
import os
import subprocess
import sys
import tempfile

PACKAGE = "http://schemas.microsoft.com/office/2006/xmlPackage"
W = 'xmlns:w="http://schemas.openxmlformats.org/wordprocessingml/2006/main"'
EXTENDED = "http://schemas.openxmlformats.org/officeDocument/2006/extended-properties"
PART = '<pkg:part pkg:name="%s" pkg:contentType="x"><pkg:xmlData>%s</pkg:xmlData></pkg:part>'
WORD = PART % ("/docProps/app.xml", '<Properties xmlns="%s"><Application>Microsoft Office Word</Application></Properties>' % EXTENDED)
RELATIONSHIPS = "http://schemas.openxmlformats.org/package/2006/relationships"
OFFICE = "http://schemas.openxmlformats.org/officeDocument/2006/relationships"
RELATION = '<Relationship Id="rId%%d" Type="%s/footer" Target="footer%%d.xml"/>' % OFFICE
SECTION = '<w:sectPr><w:footerReference w:type="default" xmlns:r="%s" r:id="rId%%d"/></w:sectPr>' % OFFICE
COMMENT = '<w:comment w:id="%d" w:author="Eve Hall"><w:p><w:r><w:t>%s</w:t></w:r></w:p></w:comment>'


def text(words):
    return '<w:r><w:t xml:space="preserve">%s</w:t></w:r>' % words


def deleted(words):
    return '<w:r><w:delText xml:space="preserve">%s</w:delText></w:r>' % words


def change(kind, what, author="Ann"):
    return '<w:%s w:id="1" w:author="%s" w:date="2026-03-01T10:00:00Z">%s</w:%s>' % (kind, author, what, kind)


def paragraph(*what):
    return "<w:p>%s</w:p>" % "".join(what)


def formatted(now, before=None):
    """A run with these properties, changed from others."""
    former = "" if before is None else change("rPrChange", "<w:rPr>%s</w:rPr>" % before)
    return "<w:r><w:rPr>%s%s</w:rPr><w:t>x</w:t></w:r>" % (now, former)


COUNTED = '<w:fldSimple w:instr="%%s">%s</w:fldSimple>' % text("1")
LINK = (
    '<w:r><w:fldChar w:fldCharType="begin"/></w:r><w:r><w:delInstrText>HYPERLINK "x"</w:delInstrText></w:r>'
    '<w:r><w:fldChar w:fldCharType="separate"/></w:r>%s<w:r><w:fldChar w:fldCharType="end"/></w:r>'
)
BOLD, ITALIC, CAPS = "<w:b/>", "<w:i/>", "<w:caps/>"
MARKED = paragraph("<w:pPr><w:rPr>%s</w:rPr></w:pPr>" % change("ins", ""), text("a")) + paragraph(text("b"))
# What was sent, what came back, the entries of the journal (a revision and its word), and the lines about what else is new.
ROWS = (
    ("the mark is seen", paragraph(text("a"), change("ins", text("b"))), None, "", ()),
    ("its text alone is seen", paragraph(text("a"), change("ins", text("b"))), paragraph(text("ab")), "1 accept", ()),
    ("nothing of it is seen", paragraph(text("a"), change("ins", text("b"))), paragraph(text("a")), "1 reject", ()),
    ("a deletion that went", paragraph(text("a"), change("del", deleted("b"))), paragraph(text("a")), "1 accept", ()),
    ("a deletion that stays", paragraph(text("a"), change("del", deleted("b"))), paragraph(text("ab")), "1 reject", ()),
    ("both accepted or both rejected give one text", paragraph(change("del", deleted("b")), change("ins", text("b"))), paragraph(text("b")), "1 accept, 2 accept", ()),
    ("an insertion of nothing", paragraph(text("a"), change("ins", "")), paragraph(text("a")), "1 accept", ()),
    ("what went with what was around it", paragraph(text("a"), change("ins", text("b") + change("del", deleted("c"), "Bob"))), paragraph(text("a")), "1 reject", ()),
    ("what is around it was accepted", paragraph(change("ins", text("b") + change("del", deleted("c"), "Bob"))), paragraph(text("b")), "1 accept, 2 accept", ()),
    ("properties as they are", paragraph(formatted(BOLD, ITALIC)), paragraph(formatted(BOLD)), "1 accept", ()),
    ("properties as they were", paragraph(formatted(BOLD, ITALIC)), paragraph(formatted(ITALIC)), "1 reject", ()),
    (
        "other properties", paragraph(formatted(BOLD, ITALIC)), paragraph(formatted(CAPS)), "",
        ("revision 1: the properties are neither the former nor the present ones; it is left open",),
    ),
    ("paragraphs that stay apart", MARKED, paragraph(text("a")) + paragraph(text("b")), "1 accept", ()),
    ("paragraphs that were joined", MARKED, paragraph(text("ab")), "1 reject", ()),
    (
        "an insertion that is new", paragraph(text("a"), change("del", deleted("b"))), paragraph(text("a"), change("ins", text("zebra"), "Eve Hall")), "1 accept",
        ('new in the document, paragraph 1: inserted by Eve Hall, "zebra"',),
    ),
    (
        "a deletion that is new", paragraph(text("a b")), paragraph(text("a "), change("del", deleted("b"), "Eve Hall")), "",
        ('new in the document, paragraph 1: deleted by Eve Hall, "b"',),
    ),
    (
        "a change of format that is new", paragraph(formatted(BOLD)), paragraph(formatted(CAPS, BOLD)), "",
        ("new in the document, paragraph 1: format changed by Ann",),
    ),
    (
        "an object that went", paragraph(text("a"), change("ins", text("b")), "<w:r><w:ptab/></w:r>"), paragraph(text("ab")), "1 accept",
        ("pictures, references or fields differ; the text alone was compared",),
    ),
    (
        "a field's code that was written anew", paragraph(text("a"), change("ins", text("b")), COUNTED % r"PAGE   \* MERGEFORMAT"),
        paragraph(text("ab"), COUNTED % "PAGE"), "1 accept",
        ("pictures, references or fields differ; the text alone was compared",),
    ),
    (
        "a deletion that lost its field", paragraph(text("a"), change("del", LINK % deleted("b"))),
        paragraph(text("a"), change("del", deleted("b"))), "",
        ("pictures, references or fields differ; the text alone was compared",),
    ),
    (
        "names that were left out", paragraph(change("ins", text("a")), text("b"), change("del", deleted("c"))),
        paragraph(text("ab"), '<w:del w:id="1" w:author="Author">%s</w:del>' % deleted("c")), "1 accept",
        ("names or dates were left out; changes were compared by kind",),
    ),
)


def package(body, rest=""):
    document = PART % ("/word/document.xml", "<w:document %s><w:body>%s</w:body></w:document>" % (W, body))
    return '<pkg:package xmlns:pkg="%s">%s</pkg:package>' % (PACKAGE, document + rest + WORD)


class Caller:
    def __init__(self, docx, program):
        self.docx, self.environment = docx, dict(os.environ, REDLINE=program)

    def returned(self, document, back):
        """The status, the entries of the journal, and the lines but for the last, which counts."""
        for name, data in (("IN.xml", document), ("BACK.xml", back)):
            with open(name, "w", encoding="utf-8") as file:
                file.write(data)
        words = [self.docx, "returned", "IN.xml", "BACK.xml", "Eve Hall"]
        done = subprocess.run(words, stdout=subprocess.PIPE, stderr=subprocess.PIPE, env=self.environment, check=False)
        entries = [line.split("\t") for line in done.stdout.decode().splitlines()[3:]]
        lines = [line.partition(": ")[2] for line in done.stderr.decode().splitlines()]
        return done.returncode, ", ".join("%s %s" % (one[1], one[2]) for one in entries), tuple(lines[:-1])


def tell(title, got, wanted):
    print("ok %s" % title if got == wanted else "FAILED %s: %s, and it should be %s" % (title, got, wanted), flush=True)


def comments(caller):
    """Comments that the document that came back alone has are counted."""
    holders = [PART % ("/word/comments.xml", "<w:comments %s>%s</w:comments>" % (W, "".join(COMMENT % one for one in enumerate(words)))) for words in ("a", "abc", "ab")]
    body = paragraph(text("a"), change("ins", text("b")))
    for name, back, lines in (("two new comments", holders[1], ("2 new comments",)), ("one new comment", holders[2], ("1 new comment",))):
        got = caller.returned(package(body, holders[0]), package(body, back))
        tell("returned: " + name, got, (1, "", lines))


def empty_paragraphs(caller):
    """An empty paragraph more or less is told by its sign."""
    one, both = package(paragraph(text("a"))), package(paragraph(text("a")) + paragraph())
    for name, pair, said in (("more", (one, both), '"\u00b6" where the decisions give nothing'), ("less", (both, one), 'nothing where the decisions give "\u00b6"')):
        tell("returned: an empty paragraph " + name, caller.returned(*pair), (13, "", ("the document, paragraph 2: " + said,)))


def footed(body, *footers):
    """A package of two sections, of which the second has the last of these footers, each a number and its text."""
    parts = "".join(PART % ("/word/footer%d.xml" % number, "<w:ftr %s>%s</w:ftr>" % (W, paragraph(text(words)))) for number, words in footers)
    relations = "".join(RELATION % (number, number) for number, _ in footers)
    rels = PART % ("/word/_rels/document.xml.rels", '<Relationships xmlns="%s">%s</Relationships>' % (RELATIONSHIPS, relations))
    return package(body + SECTION % footers[-1][0], rels + parts)


def footers(caller):
    """The footer of a section that went comes last in a bare text, and may be gone with it."""
    properties = "<w:pPr><w:rPr>%s</w:rPr>%s</w:pPr>" % (change("ins", ""), SECTION % 1)
    both, joined = ((1, "one"), (2, "two")), paragraph(text("ab"))
    document = footed(paragraph(properties, text("a")) + paragraph(text("b")), *both)
    for name, back in (("went with its section", footed(joined, both[1])), ("stays without its section", footed(joined, *both))):
        tell("returned: a footer " + name, caller.returned(document, back), (0, "1 reject", ()))
    got = caller.returned(document, footed(paragraph(text("a")) + paragraph(text("b")), both[1]))
    tell("returned: a footer that went alone", got[0], 13)


def main(docx, program):
    caller = Caller(os.path.realpath(docx), os.path.realpath(program))
    with tempfile.TemporaryDirectory() as folder:
        os.chdir(folder)
        for title, document, back, entries, lines in ROWS:
            got = caller.returned(package(document), package(document if back is None else back))
            tell("returned: " + title, got, (1 if lines else 0, entries, lines))
        comments(caller)
        empty_paragraphs(caller)
        footers(caller)


if __name__ == "__main__":
    main(*sys.argv[1:])
