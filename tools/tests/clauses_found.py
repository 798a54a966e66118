"""The numbers of clauses by the second writer, examples/clauses.py, on rows that were worked by hand (ECMA-376 Part 1, 17.9).

    python3 clauses_found.py EXAMPLES [PROGRAM]

Each row has what a list says, the paragraphs, and their numbers. Each case is a line, as common has it. With a program each row is listed by
it too, with a change in each paragraph: its clauses are to be those of the second writer.
"""
import json
import subprocess
import sys
import tempfile

sys.dont_write_bytecode = True
sys.path.insert(0, sys.argv[1])
import clauses
import reading

W = 'xmlns:w="http://schemas.openxmlformats.org/wordprocessingml/2006/main" xmlns:mc="http://schemas.openxmlformats.org/markup-compatibility/2006"'
RELATIONS = '<Relationships xmlns="x"><Relationship Type="http://x/styles" Target="styles.xml"/><Relationship Type="http://x/numbering" Target="/word/numbering.xml"/></Relationships>'
PART = '<pkg:part pkg:name="%s" pkg:contentType="application/xml"><pkg:xmlData>%s</pkg:xmlData></pkg:part>'
PACKAGE = '<pkg:package xmlns:pkg="http://schemas.microsoft.com/office/2006/xmlPackage">%s</pkg:package>'
WHO = 'w:author="Ann" w:date="2026-01-01T00:00:00Z"'


def package(numbering, styles, *stories):
    parts = [("/word/_rels/document.xml.rels", RELATIONS)]
    names = ("document", "header1", "header2")
    for name, story in zip(names, stories):
        root = ("document", "<w:body>%s</w:body>" % story) if name == "document" else ("hdr", story)
        parts.append(("/word/%s.xml" % name, "<w:%s %s>%s</w:%s>" % (root[0], W, root[1], root[0])))
    parts += [("/word/numbering.xml", "<w:numbering %s>%s</w:numbering>" % (W, numbering)), ("/word/styles.xml", "<w:styles %s>%s</w:styles>" % (W, styles))]
    return reading.Package(PACKAGE % "".join(PART % part for part in parts))


def level(k, text, form="decimal", start=1, more=""):
    begin = "" if start is None else '<w:start w:val="%s"/>' % start
    return '<w:lvl w:ilvl="%s">%s<w:numFmt w:val="%s"/>%s<w:lvlText w:val="%s"/></w:lvl>' % (k, begin, form, more, text)


def list_of(*levels, id=0, more=""):
    return '<w:abstractNum w:abstractNumId="%s">%s%s</w:abstractNum>' % (id, more, "".join(levels))


def num(id=1, list=0, more=""):
    return '<w:num w:numId="%s"><w:abstractNumId w:val="%s"/>%s</w:num>' % (id, list, more)


def override(k, inner):
    return '<w:lvlOverride w:ilvl="%s">%s</w:lvlOverride>' % (k, inner)


def from_start(k, start):
    return override(k, '<w:startOverride w:val="%s"/>' % start)


def style(id, inner="", based_on=None, more='w:type="paragraph"'):
    base = "" if based_on is None else '<w:basedOn w:val="%s"/>' % based_on
    return '<w:style %s w:styleId="%s">%s<w:pPr>%s</w:pPr></w:style>' % (more, id, base, inner)


def props(num=None, level=None):
    inner = "" if level is None else '<w:ilvl w:val="%s"/>' % level
    return "<w:numPr>%s%s</w:numPr>" % (inner, "" if num is None else '<w:numId w:val="%s"/>' % num)


def para(inner="", text="t", style=None, mark=""):
    named = "" if style is None else '<w:pStyle w:val="%s"/>' % style
    return "<w:p><w:pPr>%s%s%s</w:pPr>%s</w:p>" % (named, inner, mark, "<w:r><w:t>%s</w:t></w:r>" % text if text else "")


def paras(*levels):
    """Paragraphs by their nums and levels."""
    return "".join(para(props(*one) if isinstance(one, tuple) else props(1, one)) for one in levels)


THREE = list_of(level(0, "%1."), level(1, "%1.%2"), level(2, "(%3)", "lowerLetter"))
BOX = "<w:p><w:pPr>%s</w:pPr><w:r><mc:AlternateContent><mc:Choice><w:drawing><w:txbxContent>%s</w:txbxContent></w:drawing></mc:Choice><mc:Fallback><w:pict><w:txbxContent>%s</w:txbxContent></w:pict></mc:Fallback></mc:AlternateContent></w:r></w:p>"
SECTION = "<w:p><w:pPr>%s<w:sectPr/></w:pPr>%s</w:p>"
HEADS = style("N", more='w:type="paragraph" w:default="1"') + style("H1", props(1), "N") + style("H2", props(None, 1), "H1")
CHOICE = '<mc:AlternateContent><mc:Choice><w:numFmt w:val="custom" w:format="001, 002, 003, ..."/></mc:Choice><mc:Fallback><w:numFmt w:val="decimal"/></mc:Fallback></mc:AlternateContent>'

# name, numbering, styles, body, the numbers of its paragraphs ("" without one)
ROWS = [
    ("three levels", THREE + num(), "", paras(0, 1, 1, 2, 2, 0, 1), "1.|1.1|1.2|(a)|(b)|2.|2.1"),
    ("a level that was passed over is used", THREE + num(), "", paras(1, 0), "1.1|2."),
    ("a level without a start begins at 0", list_of(level(0, "%1.", start=None)) + num(), "", paras(0, 0), "0.|1."),
    ("a start", list_of(level(0, "%1.", start=5)) + num(), "", paras(0, 0), "5.|6."),
    ("a start below zero", list_of(level(0, "%1.", start=-1)) + num(), "", paras(0, 0, 0), "-1.|0.|1."),
    ("a start with a plus sign and nine digits", list_of(level(0, "%1.", start="+999999999")) + num(), "", paras(0, 0), "999999999.|1000000000."),
    ("a start past nine digits is none", list_of(level(0, "%1.", start="2147483648")) + num(), "", paras(0), "0."),
    ("nums of one list count together", THREE + num() + num(2), "", paras(0, (2, 0), 0), "1.|2.|3."),
    ("nums of two lists don't", THREE + list_of(level(0, "%1)"), id=1) + num() + num(2, 1), "", paras(0, (2, 0), 0), "1.|1)|2."),
    ("a num begins again once", THREE + num() + num(2, 0, from_start(0, 7)), "", paras(0, 0, (2, 0), (2, 0), 0), "1.|2.|7.|8.|9."),
    ("and its level from there each time", THREE + num(1, 0, from_start(1, 4)), "", paras(0, 1, 1, 0, 1), "1.|1.4|1.5|2.|2.4"),
    ("a num begins a higher level again", THREE + num() + num(2, 0, from_start(0, 5)), "", paras(0, 1, (2, 1), (2, 1)), "1.|1.1|5.1|5.2"),
    ("a num's own level", THREE + num() + num(2, 0, override(0, level(0, "§%1", "upperLetter", 3))), "", paras(0, (2, 0)), "1.|§B"),
    ("restart 0 never begins again", list_of(level(0, "%1."), level(1, "%1.%2", more='<w:lvlRestart w:val="0"/>')) + num(), "", paras(0, 1, 1, 0, 1), "1.|1.1|1.2|2.|2.3"),
    ("restart 1 begins again after the first level alone", list_of(level(0, "%1."), level(1, "%1.%2"), level(2, "(%3)", more='<w:lvlRestart w:val="1"/>')) + num(), "", paras(0, 1, 2, 1, 2, 0, 1, 2), "1.|1.1|(1)|1.2|(2)|2.|2.1|(1)"),
    ("restart past its level counts as none", list_of(level(0, "%1."), level(1, "%1.%2"), level(2, "(%3)", more='<w:lvlRestart w:val="3"/>')) + num(), "", paras(0, 1, 2, 1, 2), "1.|1.1|(1)|1.2|(1)"),
    ("legal numbers", list_of(level(0, "Article %1", "upperRoman"), level(1, "Section %1.%2", "decimalZero", more="<w:isLgl/>")) + num(), "", paras(0, 1), "Article I|Section 1.01"),
    ("legal off", list_of(level(0, "%1", "upperRoman"), level(1, "%1.%2", more='<w:isLgl w:val="0"/>')) + num(), "", paras(0, 1), "I|I.1"),
    ("a deeper level is nothing", list_of(level(0, "%1.%2"), level(1, "%2")) + num(), "", paras(0, 1, 0), "1.|1|2."),
    ("signs round nothing stay", list_of(level(0, "(%1)", "none")) + num(), "", paras(0), "()"),
    ("per cent signs", list_of(level(0, "%%1%0%")) + num(), "", paras(0), "%1%0%"),
    ("bullets", list_of(level(0, "\uf0b7", "bullet"), level(1, "-", "bullet"), level(2, "", "bullet", more='<w:lvlPicBulletId w:val="0"/>')) + num(), "", paras(0, 1, 2), "\u2022|-|\u2022"),
    ("no text", list_of(level(0, "x").replace('"x"', '"x" w:null="1"'), level(1, "%2").replace("lvlText", "lvl")) + num(), "", paras(0, 1), "|"),
    ("the form of the first choice", list_of('<w:lvl w:ilvl="0"><w:start w:val="9"/>%s<w:lvlText w:val="%%1"/></w:lvl>' % CHOICE) + num(), "", paras(0, 0), "009|010"),
    ("a link to the list of a style", list_of(id=0, more='<w:numStyleLink w:val="S"/>') + list_of(level(0, "%1."), id=1, more='<w:styleLink w:val="S"/>') + num() + num(2, 1), "", paras(0, (2, 0)), "1.|2."),
    ("a link to itself", list_of(level(0, "%1."), more='<w:styleLink w:val="S"/><w:numStyleLink w:val="S"/>') + num(), "", paras(0), "1."),
    ("a link to nothing", list_of(level(0, "%1."), more='<w:numStyleLink w:val="S"/>') + num(), "", paras(0), ""),
    ("a num of no list", num(1, 9, override(0, level(0, "%1."))), "", paras(0), ""),
    ("no such num, and num 0", THREE + num() + num(0), "", paras((3, 0), (0, 0), 0), "||1."),
    ("the first of an id", THREE + list_of(level(0, "other")) + num() + num(1, 7), "", paras(0), "1."),
    ("ids are numbers", THREE + num("01"), "", paras(("+1", 0), ("1", "00")), "1.|2."),
    ("levels past 8, or that the list has not", THREE + num(), "", paras(9, 12, -1, 3, 0), "||||1."),
    ("no level is the first one", THREE + num(), "", para(props(1)), "1."),
    ("styles", THREE + num(), HEADS, para(style="H1") + para(style="H2") + para() + para(style="H2"), "1.|1.1||1.2"),
    ("a default style", THREE + num(), style("N", props(1), more='w:type="paragraph" w:default="on"'), para() + para(style="none"), "1.|"),
    ("a default style without an id", THREE + num(), '<w:style w:type="paragraph" w:default="1"><w:pPr>%s</w:pPr></w:style>' % props(1), para(), "1."),
    ("own properties before those of a style", THREE + num() + num(2), HEADS, para(props(0), style="H1") + para(props(2), style="H2") + para(props(None, 2), style="H1"), "|1.1|(a)"),
    ("a style says none", THREE + num(), HEADS + style("No", props(0), "H1"), para(style="No"), ""),
    ("the level that names a style", list_of(level(0, "%1."), level(1, "%1.%2", more='<w:pStyle w:val="A"/>')) + num(), style("A", props(1, 0)) + style("B", "", "A"), para(style="A") + para(style="B") + para(props(None, 0), style="A"), "1.1|1.2|2."),
    ("styles in a ring", THREE + num(), style("A", props(None, 1), "B") + style("B", props(1), "A"), para(style="A") + para(style="B"), "1.1|1.2"),
    ("a ring without a num", THREE + num(), style("A", "", "B") + style("B", "", "A"), para(style="A"), ""),
    ("a text of 201 bytes", list_of(level(0, "%1" + "x" * 199)) + num(), "", paras(0), ""),
    ("a number of 200 bytes", list_of(level(0, "%1" * 66 + "xy", start=100)) + num(), "", paras(0), "100" * 66 + "xy"),
    ("a number of 201 bytes", list_of(level(0, "%1" * 66 + "xyz", start=100)) + num(), "", paras(0), ""),
    ("examples of 50 and of 51 bytes", list_of(level(0, "%1", 'custom" w:format="' + "0" * 49 + "1"), level(1, "%2", 'custom" w:format="' + "0" * 50 + "1")) + num(), "", paras(0, 1), "0" * 49 + "1|1"),
    ("text boxes count by themselves", THREE + num(), "", paras(0) + BOX % (props(1, 0), paras(0, 1), paras(0, 1)) + paras(0), "1.|2.|1.|1.1|1.|1.1|3."),
    ("the end of a section", THREE + num(), "", paras(0) + para(props(1, 0) + "<w:sectPr/>", "") + para(props(1, 0) + "<w:sectPr/>") + paras(0), "1.||2.|3."),
    ("the end of a section with a break", THREE + num(), "", SECTION % (props(1, 0), "<w:r><w:br/></w:r>") + paras(0), "1.|2."),
    ("the end of a section with a sign", THREE + num(), "", SECTION % (props(1, 0), "<w:r><w:softHyphen/></w:r>") + paras(0), "1.|2."),
    ("paragraphs without text", THREE + num(), "", para(props(1, 0), "") + paras(0), "1.|2."),
    ("deleted and inserted paragraphs", THREE + num(), "", para(props(1, 0), mark="<w:rPr><w:del %s/></w:rPr>" % WHO) + para(props(1, 0), mark="<w:rPr><w:ins %s/></w:rPr>" % WHO) + paras(0), "1.|2.|3."),
    ("cells and content controls", THREE + num(), "", "<w:tbl><w:tr><w:tc>%s</w:tc><w:tc>%s</w:tc></w:tr></w:tbl><w:sdt><w:sdtContent>%s</w:sdtContent></w:sdt>" % (paras(0), paras(0), paras(0)), "1.|2.|3."),
]
# form, examples, count, text (17.18.59)
FORMS = [
    ("decimal", None, -3, "-3"), ("decimalZero", None, 0, "00"), ("decimalZero", None, 9, "09"), ("decimalZero", None, 10, "10"), ("decimalZero", None, -1, "-1"),
    ("custom", "001, 002, 003, ...", 7, "007"), ("custom", "001, 002, 003, ...", 1234, "1234"), ("custom", "0001", 12, "0012"), ("custom", "002, 003", 7, "7"), ("custom", "1, 2", 7, "7"), ("custom", None, 7, "7"),
    ("upperRoman", None, 1994, "MCMXCIV"), ("lowerRoman", None, 3999, "mmmcmxcix"), ("lowerRoman", None, 48, "xlviii"), ("upperRoman", None, 0, "0"), ("upperRoman", None, 4000, "4000"), ("upperRoman", None, -4, "-4"),
    ("upperLetter", None, 1, "A"), ("lowerLetter", None, 26, "z"), ("lowerLetter", None, 27, "aa"), ("lowerLetter", None, 53, "aaa"), ("lowerLetter", None, 780, 30 * "z"), ("lowerLetter", None, 781, "781"), ("upperLetter", None, 0, "0"),
    ("ordinal", None, 1, "1st"), ("ordinal", None, 2, "2nd"), ("ordinal", None, 3, "3rd"), ("ordinal", None, 4, "4th"), ("ordinal", None, 11, "11th"), ("ordinal", None, 12, "12th"), ("ordinal", None, 13, "13th"), ("ordinal", None, 21, "21st"), ("ordinal", None, 112, "112th"), ("ordinal", None, 0, "0th"), ("ordinal", None, -1, "-1"),
    ("none", None, 5, ""), ("none", None, -5, ""), ("chineseCounting", None, 5, "5"), ("cardinalText", None, 5, "5"),
]
INS = "<w:ins %s><w:r><w:t>x</w:t></w:r></w:ins>" % WHO
ROW = "<w:tr><w:trPr><w:ins %s/></w:trPr><w:tc>%s</w:tc><w:tc>%s</w:tc></w:tr>"
# name, body, the first header, the clauses of its revisions
MEMBERS = [
    ("in a paragraph", para(props(1, 0)).replace("</w:p>", INS + "</w:p>"), "", ["1."]),
    ("of a mark and of properties", para(props(1, 0), mark="<w:rPr><w:ins %s/></w:rPr>" % WHO) + para(props(1, 1), mark="<w:pPrChange %s><w:pPr/></w:pPrChange>" % WHO), "", ["1.", "1.1"]),
    ("after a number", paras(0) + "<w:p>%s</w:p>" % INS, "", ["before 1."]),
    ("two paragraphs after a number", paras(0) + para() + "<w:p>%s</w:p>" % INS, "", ["before 1."]),
    ("before all numbers", "<w:p>%s</w:p>" % INS + paras(0), "", [None]),
    ("of a row", paras(0) + "<w:tbl>%s</w:tbl>" % (ROW % (WHO, paras(1), paras(1))), "", ["1.1"]),
    ("of a row whose first paragraph has none", paras(0) + "<w:tbl>%s</w:tbl>" % (ROW % (WHO, para(), paras(1))), "", ["before 1."]),
    ("of a table and of a cell", "<w:tbl><w:tblPr><w:tblPrChange %s><w:tblPr/></w:tblPrChange></w:tblPr><w:tr><w:tc>%s</w:tc><w:tc><w:tcPr><w:cellDel %s/></w:tcPr>%s</w:tc></w:tr></w:tbl>" % (WHO, paras(0), WHO, paras(0)), "", ["1.", "2."]),
    ("of the document's section", paras(0) + "<w:sectPr><w:sectPrChange %s><w:sectPr/></w:sectPrChange></w:sectPr>" % WHO, "", ["before 1."]),
    ("behind the end of a section", SECTION % (props(1, 0), "") + para(props(1, 0)).replace("</w:p>", INS + "</w:p>"), "", ["1."]),
    ("behind the end of a section with a drawing", SECTION % (props(1, 0), "<w:r><w:drawing/></w:r>") + para(props(1, 0)).replace("</w:p>", INS + "</w:p>"), "", ["2."]),
    ("behind the end of a section with a note", SECTION % (props(1, 0), '<w:r><w:footnoteReference w:id="2"/></w:r>') + para(props(1, 0)).replace("</w:p>", INS + "</w:p>"), "", ["2."]),
    ("in a text box", paras(0, 0) + BOX % (props(1, 0), "<w:p>%s</w:p>" % INS + paras(0) + "<w:p>%s</w:p>" % INS, ""), "", [None, "before 1."]),
    ("behind a text box", BOX % (props(1, 0), paras(0, 0), "") + "<w:p>%s</w:p>" % INS, "", ["before 1."]),
    ("in a header", paras(0, 0), "<w:p>%s</w:p>" % INS + para(props(1, 0)).replace("</w:p>", INS + "</w:p>"), [None, "1."]),
]


def told(name, got, wanted):
    print("ok " + name if got == wanted else "FAILED %s: %r, and not %r" % (name, got, wanted))


for name, numbering, styles, body, wanted in ROWS:
    read = package(numbering, styles, body)
    own, _ = clauses.numbers(clauses.Lists(read), read.stories[0][1])
    told(name, [text or "" for text in own.values()], wanted.split("|"))
for form, examples, count, wanted in FORMS:
    told("%d as %s" % (count, form), clauses.numeral(form, examples, count), wanted)
for name, body, header, wanted in MEMBERS:
    found = clauses.clauses(package(THREE + num(), "", body, header))
    told("a change " + name, [found[at] for at in sorted(found)], wanted)


def listed(read):
    """The clauses that the program lists."""
    with tempfile.NamedTemporaryFile("w", suffix=".xml", newline="", encoding="utf-8") as file:
        file.write(read.text)
        file.flush()
        rows = subprocess.run([sys.argv[2], "list", file.name, "--format", "full"], capture_output=True, check=True).stdout
    return [row["clause"] for row in json.loads(rows)]


for name, read in (
    [(name, package(numbering, styles, body.replace("</w:p>", INS + "</w:p>"))) for name, numbering, styles, body, _ in ROWS]
    + [("a change " + name, package(THREE + num(), "", body, header)) for name, body, header, _ in MEMBERS]
    if sys.argv[2:]
    else []
):
    found = clauses.clauses(read)
    told("listed: " + name, listed(read), [found[at] for at in sorted(found)])
