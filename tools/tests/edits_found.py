"""The edits of revisions by the second writer, examples/edits.py, on rows that were worked by hand.

    python3 edits_found.py EXAMPLES [PROGRAM]

Each row has a story and the edit of each of its revisions. Each case is a line, as common has it. With a program whose listings tell edits,
each row is listed by it too, and so are the examples and stories made by chance: their edits are to be those of the second writer.
"""
import glob
import json
import os
import random
import subprocess
import sys
import tempfile

sys.dont_write_bytecode = True
sys.path.insert(0, sys.argv[1])
import edits
import reading

W = 'xmlns:w="http://schemas.openxmlformats.org/wordprocessingml/2006/main" xmlns:m="http://schemas.openxmlformats.org/officeDocument/2006/math"'
PART = '<pkg:part pkg:name="/word/%s.xml" pkg:contentType="application/xml"><pkg:xmlData><w:%s %s>%s</w:%s></pkg:xmlData></pkg:part>'
PACKAGE = '<pkg:package xmlns:pkg="http://schemas.microsoft.com/office/2006/xmlPackage">%s</pkg:package>'


def package(body, header=""):
    stories = [("document", "<w:body>%s</w:body>" % body)] + ([("hdr", header)] if header else [])
    return reading.Package(PACKAGE % "".join(PART % (root, root, W, inside, root) for root, inside in stories))


def who(author="Ann", second=0):
    """An author, and a date so many seconds after noon; without a number there is none."""
    date = "" if second is None else ' w:date="2026-01-01T12:%02d:%02dZ"' % divmod(second, 60)
    return 'w:author="%s"%s' % (author, date)


def one(name, *by):
    return "<w:%s %s/>" % (name, who(*by))


def run(text, props=""):
    return "<w:r>%s<w:t>%s</w:t></w:r>" % ("<w:rPr>%s</w:rPr>" % props if props else "", text)


def content(name, inside, *by):
    inside = inside if inside.startswith("<") else run(inside)
    return "<w:%s %s>%s</w:%s>" % (name, who(*by), inside.replace("w:t>", "w:delText>") if name == "del" else inside, name)


def ins(inside, *by):
    return content("ins", inside, *by)


def gone(inside, *by):
    return content("del", inside, *by)


def changed(what, former, *by):
    return "<w:%sChange %s><w:%s>%s</w:%s></w:%sChange>" % (what, who(*by), what, former, what, what)


def bold(text, *by, former=""):
    return run(text, "<w:b/>" + changed("rPr", former, *by))


def para(*inside, props="", mark=""):
    mark = "<w:rPr>%s</w:rPr>" % mark if mark else ""
    held = props.partition("<w:pPrChange")
    return "<w:p>%s%s</w:p>" % ("<w:pPr>%s%s%s%s</w:pPr>" % (held[0], mark, held[1], held[2]) if props or mark else "", "".join(inside))


def cell(*inside, props=""):
    inside = [it if it.startswith("<w:p>") or it.startswith("<w:tbl>") else para(run(it)) for it in inside]
    return "<w:tc>%s%s</w:tc>" % ("<w:tcPr>%s</w:tcPr>" % props if props else "", "".join(inside))


def row(*cells, props=""):
    return "<w:tr>%s%s</w:tr>" % ("<w:trPr>%s</w:trPr>" % props if props else "", "".join(cells))


def table(*rows, props=""):
    return "<w:tbl>%s%s</w:tbl>" % ("<w:tblPr>%s</w:tblPr>" % props if props else "", "".join(rows)) + para()


GONE = one("cellDel")
BOX = "<w:r><w:pict><w:txbxContent>%s</w:txbxContent></w:pict></w:r>"
MOVE = '<w:move%sRangeStart w:id="%d" w:name="m" %s/>%s<w:move%sRangeEnd w:id="%d"/>'
# name, body, the edit of each revision
ROWS = [
    ("a replaced word", para(run("a "), gone("old"), ins("new"), run(" b")), [1, 1]),
    ("two authors side by side", para(gone("old"), ins("new", "Ben")), [1, 2]),
    ("a minute apart", para(gone("old"), ins("new", "Ann", 60)), [1, 1]),
    ("61 seconds apart", para(gone("old", "Ann", 61), ins("new")), [1, 2]),
    ("no dates", para(gone("old", "", None), ins("new", "", None)), [1, 1]),
    ("dates that can't be read", para(gone("old").replace("12:00:00", "25:00:00"), ins("new", "Ann", None)), [1, 1]),
    ("one date", para(gone("old", "Ann", None), ins("new")), [1, 2]),
    ("one moment in two zones", para(gone("old").replace("12:00:00Z", "14:00:30+02:00"), ins("new")), [1, 1]),
    ("an author by a reference", para(gone("old", "A&#110;n"), ins("new")), [1, 1]),
    ("authors are told apart by the case of letters", para(gone("old", "ann"), ins("new")), [1, 2]),
    ("near dates are handed on", para(ins("a"), gone("b", "Ann", 50), ins("c", "Ann", 100)), [1, 1, 1]),
    ("a space between", para(gone("old"), run(" "), ins("new")), [1, 2]),
    ("empty runs between", para(gone("old"), run(""), '<w:bookmarkStart w:id="1"/>', ins("new")), [1, 1]),
    ("a sign between", para(gone("old"), "<w:r><w:sym/></w:r>", ins("new")), [1, 2]),
    ("nothing is held", para(ins(run("")), gone("old")), [1, 2]),
    ("one in the other", para(ins(run("a") + gone("b") + run("c"))), [1, 1]),
    ("one in the other, by another", para(ins(run("a") + gone("b", "Ben") + run("c"))), [1, 2]),
    ("a deleted paragraph with its end", para(gone("ab"), mark=one("del")) + para(run("c")), [1, 1]),
    ("and its style", para(gone("ab"), mark=one("del"), props='<w:pStyle w:val="A"/>' + changed("pPr", "")) + para(run("c")), [1, 1, 1]),
    ("a style of a paragraph that stays in part", para(run("x"), gone("ab"), mark=one("del"), props='<w:pStyle w:val="A"/>' + changed("pPr", "")), [1, 2, 1]),
    ("inserted paragraphs", para(ins("a"), mark=one("ins")) + para(ins("b"), mark=one("ins")) + para(run("c")), [1, 1, 1, 1]),
    ("an end, and the text behind it", para(run("a"), mark=one("ins")) + para(ins("b")), [1, 1]),
    ("an end of two members", para(run("a"), mark=one("ins") + one("del", "Ann", 30)), [1, 1]),
    ("a deleted row", table(row(cell(para(gone("a"), mark=one("del"))), cell(para(gone("b"))), props=one("del")), row(cell("c"))), [1, 1, 1, 1]),
    ("rows one after the other", table(row(cell("a"), props=one("ins")), row(cell("b"), props=one("ins", "Ann", 45)), row(cell("c"))), [1, 1]),
    ("a deleted column", table(row(cell("a", props=GONE), cell("b")), row(cell("c", props=GONE), cell("d"))), [1, 1]),
    ("a deleted column by two", table(row(cell("a", props=GONE), cell("b")), row(cell("c", props=one("cellDel", "Ben")), cell("d")), row(cell("e", props=GONE), cell("f"))), [1, 2, 3]),
    ("two columns", table(*[row(cell("a", props=GONE), cell("b"), cell("c", props=one("cellIns")), cell("d"))] * 2), [1, 2, 1, 2]),
    ("a column in a table in a cell", table(row(cell("a", props=GONE), cell(table(row(cell("x"), cell("b", props=GONE))))), row(cell("c", props=GONE), cell("d"))), [1, 2, 1]),
    ("columns of two tables", table(row(cell("a", props=GONE), cell("b"))) + para(run("x")) + table(row(cell("c", props=GONE), cell("d"))), [1, 2]),
    ("a format given to runs", para(bold("a"), run(" "), bold("b")) + para("<w:r><w:tab/></w:r>", bold("c")), [1, 1, 1]),
    ("a format given to forty runs", "".join(para(bold("a"), bold("b")) for _ in range(20)), [1] * 40),
    ("a format, with text between", para(bold("a"), run("x"), bold("b")), [1, 2]),
    ("a format, with a sign between", para(bold("a"), "<w:r><w:noBreakHyphen/></w:r>", bold("b")), [1, 2]),
    ("a format, with text of its author between", para(bold("a"), ins("x", "Ann", 3000), bold("b")), [1, 2, 1]),
    ("a format, with text of another between", para(bold("a"), ins("x", "Ben"), bold("b")), [1, 2, 3]),
    ("a format from another one", para(bold("a"), bold("b", former='<w:b w:val="0"/>'), bold("c")), [1, 2, 1]),
    ("the same format, said otherwise", para(bold("a", former='<w:b w:val="0"/>'), bold("b", former='<w:b w:val="false"/>')), [1, 1]),
    ("a format by two", para(bold("a"), bold("b", "Ben"), bold("c")), [1, 2, 3]),
    ("a format at other times", para(bold("a"), bold("b", "Ann", 100), bold("c", "Ann", 30)), [1, 2, 3]),
    ("formats of a run and of an end", para(bold("a"), mark="<w:b/>" + changed("rPr", "")), [1, 1]),
    ("formats of runs and paragraphs", para(bold("a"), props="<w:keepNext/>" + changed("pPr", "")) + para(bold("b"), props="<w:keepNext/>" + changed("pPr", "")), [1, 2, 1, 2]),
    ("a format inside an insertion", para(ins(bold("a") + run("b"))), [1, 1]),
    ("a format inside two", para(ins(gone(bold("a", "Ann", 60), "Ann", 120) + run("b"))), [1, 2, 1]),
    ("a format inside an insertion by another", para(ins(bold("a", "Ben")), bold("c", "Ben")), [1, 2, 2]),
    ("a format of a run without text", para("<w:r><w:rPr>%s</w:rPr></w:r>" % changed("rPr", ""), bold("a")), [1, 2]),
    ("formats of sections", para(props="<w:sectPr>%s</w:sectPr>" % changed("sectPr", "")) * 2, [1, 2]),
    ("changes of one table", table(row(cell("a", props=changed("tcPr", "")), props=changed("trPr", "")), props=changed("tblPr", "")), [1, 1, 1]),
    ("changes of two tables", table(row(cell("a", props=changed("tcPr", "")))) + para(run("x")) + table(row(cell("a", props=changed("tcPr", "")))), [1, 2]),
    ("of one format, with an end of a paragraph between", table(row(cell("a", props=changed("tcPr", "")))) + table(row(cell("a", props=changed("tcPr", "")))), [1, 1]),
    ("a paired move", para(MOVE % ("From", 1, who(), content("moveFrom", "a"), "From", 1)) + para(run("x"), MOVE % ("To", 2, who(), content("moveTo", "a"), "To", 2), ins("b")), [1, 1]),
    ("a text box", para(run("a"), BOX % para(ins("b")), ins("c")), [1, 2]),
    ("a text box, and its end", para(BOX % para(run("a"), mark=one("ins")), ins("c")), [1, 1]),
]
STORIES = [("two stories", para(ins("a"), mark=one("ins")), para(ins("b")), [1, 1, 3])]
# A row without a cell breaks a rule of packages, so the program lists none.
REFUSED = [("a deleted row without a unit but its edge", table(row(props=one("del")), row(cell(para(gone("c"))), props=one("del"))), [1, 1, 1])]


def told(name, got, wanted):
    print("ok " + name if got == wanted else "FAILED %s: %r, and not %r" % (name, got, wanted))


def listed(text):
    """The edits that the program lists, or None where its listings tell none."""
    with tempfile.NamedTemporaryFile("w", suffix=".xml", newline="", encoding="utf-8") as file:
        file.write(text)
        file.flush()
        rows = json.loads(subprocess.run([sys.argv[2], "list", file.name, "--format", "full"], capture_output=True, check=True).stdout)
    return None if any("edit" not in row for row in rows) else [row["edit"] for row in rows]


def by_chance(chance):
    """A story of paragraphs and tables with changes of two authors at near and far times."""
    by = lambda: (chance.choice(["Ann", "Ann", "Ben"]), chance.choice([0, 0, 0, 40, 100, None]))
    few = lambda make, most: "".join(make() for _ in range(chance.randint(0, most)))
    formatted = lambda: bold("f", *by(), former=chance.choice(["", "", '<w:b w:val="0"/>', '<w:i/>']))
    pieces = [lambda: run("x"), lambda: run(" "), formatted, formatted, lambda: ins(chance.choice(["i", formatted()]), *by()), lambda: gone("d", *by())]
    pieces += [lambda: "<w:r><w:tab/></w:r>", lambda: ins(run("i") + gone(formatted(), *by()), *by()), lambda: run("")]
    marks = lambda: few(lambda: one(chance.choice(["ins", "del"]), *by()), 1) + few(lambda: "<w:b/>" + changed("rPr", "", *by()), chance.randint(0, 1))
    text = lambda: para(few(lambda: chance.choice(pieces)(), 5), mark=marks(), props=few(lambda: '<w:pStyle w:val="A"/>' + changed("pPr", "", *by()), chance.randint(0, 1)))
    cells = lambda: cell(text(), props=few(lambda: one(chance.choice(["cellIns", "cellDel"]), *by()), 1) + few(lambda: changed("tcPr", "", *by()), chance.randint(0, 1)))
    rows = lambda: row(cells(), cells(), props=few(lambda: one(chance.choice(["ins", "del"]), *by()), 1) + few(lambda: changed("trPr", "", *by()), chance.randint(0, 1)))
    tables = lambda: table(rows(), rows(), props=few(lambda: changed("tblPr", "", *by()), 1))
    return "".join(chance.choice([text, text, text, tables])() for _ in range(chance.randint(1, 8))) + para(BOX % text())


def cases():
    for name, body, wanted in ROWS:
        yield name, package(body), wanted
    for name, body, header, wanted in STORIES:
        yield name, package(body, header), wanted


for name, read, wanted in [*cases(), *((name, package(body), wanted) for name, body, wanted in REFUSED)]:
    told(name, edits.edits(read), wanted)
if not sys.argv[2:] or listed(package(para(ins("a"))).text) is None:
    print("skipped edits in listings: the program lists none")
    sys.exit()
for name, read, wanted in cases():
    told("listed: " + name, listed(read.text), wanted)
for name in sorted(glob.glob(os.path.join(sys.argv[1], "*.xml"))):
    with open(name, newline="", encoding="utf-8") as file:
        text = file.read()
    if not name.endswith("unsound.xml"):
        told("listed: " + os.path.basename(name), listed(text), edits.edits(reading.Package(text)))
for seed in range(40):
    read = package(by_chance(random.Random(seed)))
    told("listed: by chance %d" % seed, listed(read.text), edits.edits(read))
