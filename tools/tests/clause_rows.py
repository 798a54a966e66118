#!/usr/bin/env python3
"""Tests the numbers of clauses on rows: a paragraph's style, num, level and text, and the number before it (ECMA-376, 17.9)."""
import os
import sys

sys.dont_write_bytecode = True
sys.path.insert(0, os.path.join(os.path.dirname(os.path.realpath(__file__)), ".."))

from returned import clauses, reader
from returned.streams import PARA

W = 'xmlns:w="http://schemas.openxmlformats.org/wordprocessingml/2006/main"'
PART = '<pkg:part pkg:name="%s" pkg:contentType="x"><pkg:xmlData>%s</pkg:xmlData></pkg:part>'
LEVEL = '<w:lvl w:ilvl="%d"><w:start w:val="1"/><w:numFmt w:val="%s"/><w:lvlText w:val="%s"/></w:lvl>'
NUM = '<w:num w:numId="%d"><w:abstractNumId w:val="%d"/>%s</w:num>'
LISTS = (
    ((0, "decimal", "%1."), (1, "decimal", "%1.%2"), (2, "lowerLetter", "(%3)")),
    ((0, "upperRoman", "Article %1"), (1, "bullet", "-")),
)
LIST = '<w:abstractNum w:abstractNumId="%d">%s</w:abstractNum>'
NUMBERING = "<w:numbering %s>" % W
NUMBERING += "".join(LIST % (at, "".join(LEVEL % level for level in levels)) for at, levels in enumerate(LISTS))
NUMBERING += NUM % (1, 0, "") + NUM % (2, 0, '<w:lvlOverride w:ilvl="0"><w:startOverride w:val="5"/></w:lvlOverride>') + NUM % (3, 1, "")
STYLES = (
    '<w:styles %s><w:style w:styleId="One"><w:pPr><w:numPr><w:numId w:val="1"/></w:numPr></w:pPr></w:style>'
    '<w:style w:styleId="Two"><w:basedOn w:val="One"/><w:pPr><w:numPr><w:ilvl w:val="1"/></w:numPr></w:pPr></w:style></w:styles>'
) % W
ROWS = (
    ("One", None, 0, "", "1"),
    ("Two", None, 0, "", "1.1"),
    ("Two", None, 0, "", "1.2"),
    (None, 1, 2, "", "(a)"),
    (None, 1, 2, "", "(b)"),
    ("One", None, 0, "", "2"),
    ("Two", None, 0, "", "2.1"),
    (None, None, 0, "no number", None),
    (None, 2, 0, "begins again", "5"),
    (None, 2, 1, "", "5.1"),
    (None, 3, 0, "", "Article I"),
    (None, 3, 1, "a bullet", None),
    (None, 3, 0, "", "Article II"),
    ("One", 0, 0, "none", None),
    (None, None, 0, "4.2 Typed", "4.2"),
    (None, None, 0, "2026 was a year", None),
)


def paragraph(style, num, level, text, _):
    props = '<w:pStyle w:val="%s"/>' % style if style else ""
    if num is not None:
        props += '<w:numPr><w:ilvl w:val="%d"/><w:numId w:val="%d"/></w:numPr>' % (level, num)
    return "<w:p><w:pPr>%s</w:pPr><w:r><w:t>%s</w:t></w:r></w:p>" % (props, text)


def main():
    body = "".join(paragraph(*row) for row in ROWS)
    parts = (
        ("/word/document.xml", "<w:document %s><w:body>%s</w:body></w:document>" % (W, body)),
        ("/word/numbering.xml", NUMBERING + "</w:numbering>"),
        ("/word/styles.xml", STYLES),
    )
    package = '<pkg:package xmlns:pkg="http://schemas.microsoft.com/office/2006/xmlPackage">%s</pkg:package>'
    data = (package % "".join(PART % part for part in parts)).encode()
    stream = reader.read(data).streams[0]
    found = dict(clauses.clauses(stream, data))
    ends = [place for place, sign in enumerate(stream.text) if sign == PARA]
    for row, end in zip(ROWS, ends):
        name = "clause of %s" % (row[:4],)
        print("ok " + name if found.get(end) == row[4] else "FAILED %s: %s" % (name, found.get(end)))


main()
