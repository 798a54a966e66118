"""The package contract.xml: a contract of two pages with changes of four people, of every kind that there is, and with comments.

The parts are those that a word processor writes: the document with its header, footer, footnotes, comments, numbering, styles,
settings and a picture. Names and goods are made up.
"""
import base64
import struct
import zlib

WORD = "http://schemas.openxmlformats.org/wordprocessingml/2006/main"
OFFICE = "http://schemas.openxmlformats.org/officeDocument/2006/relationships"
RELATIONSHIPS = "http://schemas.openxmlformats.org/package/2006/relationships"
PACKAGE = "http://schemas.microsoft.com/office/2006/xmlPackage"
TYPE = "application/vnd.openxmlformats-officedocument.wordprocessingml.%s+xml"
DRAWING = "http://schemas.openxmlformats.org/drawingml/2006/"
# Where later versions of a word processor keep the ids of paragraphs, and which comments are answers and which are done.
LATER = "http://schemas.microsoft.com/office/word/2010/wordml"
THREADS = "http://schemas.microsoft.com/office/word/2012/wordml"
STATES = "http://schemas.microsoft.com/office/2011/relationships/commentsExtended"
COMPATIBILITY = "http://schemas.openxmlformats.org/markup-compatibility/2006"

ANN = 'w:author="Ann Gray" w:date="2026-11-02T09:00:00Z"'
BOB = 'w:author="Bob Hay" w:date="2026-11-03T14:30:00Z"'
CARA = 'w:author="Cara Lee" w:date="2026-11-04T08:15:00Z"'
DANA = 'w:author="Dana Fox &amp; Co" w:date="2026-11-05T16:45:00+01:00"'

ids = iter(range(1, 1000))


def part(name, content_type, inside, more=""):
    data = "<pkg:xmlData>%s</pkg:xmlData>" % inside
    return '<pkg:part pkg:name="%s" pkg:contentType="%s"%s>%s</pkg:part>\n' % (name, content_type, more, data)


def relationships(*targets):
    """The relationships rId1, rId2 and so on, each to a target with its type, or the last word of that."""
    each = '<Relationship Id="rId%d" Type="%s" Target="%s"/>'
    lines = [each % (number, kind if ":" in kind else "%s/%s" % (OFFICE, kind), target) for number, (kind, target) in enumerate(targets, 1)]
    return '<Relationships xmlns="%s">%s</Relationships>' % (RELATIONSHIPS, "".join(lines))


# Runs and what happens to them


def text(words, props=""):
    return "<w:r>%s<w:t xml:space=\"preserve\">%s</w:t></w:r>" % (props and "<w:rPr>%s</w:rPr>" % props, words)


def mark(name, who):
    """An element without content that says who did what: in properties, or at the start of a range."""
    return '<w:%s w:id="%d" %s/>' % (name, next(ids), who)


def change(name, who, content):
    return '<w:%s w:id="%d" %s>%s</w:%s>' % (name, next(ids), who, content, name)


def inserted(who, words):
    return change("ins", who, text(words))


def deleted(who, words, behind=""):
    return change("del", who, '<w:r><w:delText xml:space="preserve">%s</w:delText></w:r>%s' % (words, behind))


def former(name, who, props, former_props):
    """Present properties with a change that tells the former ones."""
    return props + change(name + "Change", who, "<w:%s>%s</w:%s>" % (name, former_props, name))


# Paragraphs, rows and cells


def paragraph(content, props="", of_mark=""):
    of_mark = of_mark and "<w:rPr>%s</w:rPr>" % of_mark
    whole = props.replace("{mark}", of_mark) if "{mark}" in props else props + of_mark
    return "<w:p>%s%s</w:p>\n" % (whole and "<w:pPr>%s</w:pPr>" % whole, content)


# The styles whose paragraphs are counted, as 1. and 1.1, and what makes a paragraph an item, as (a).
HEADING, CLAUSE = '<w:pStyle w:val="Heading1"/>', '<w:pStyle w:val="Clause"/>'
ITEM = '<w:numPr><w:ilvl w:val="2"/><w:numId w:val="1"/></w:numPr>'


def heading(words):
    return paragraph(text(words), HEADING)


def clause(content, props="", of_mark=""):
    return paragraph(content, CLAUSE + props, of_mark)


def cell(content, props="", of_mark=""):
    return "<w:tc><w:tcPr><w:tcW w:w=\"3000\" w:type=\"dxa\"/>%s</w:tcPr>%s</w:tc>" % (props, paragraph(content, "", of_mark).strip())


def row(*cells, props=""):
    return "<w:tr>%s%s</w:tr>\n" % (props, "".join(cells))


WIDE = '<w:tblStyle w:val="TableGrid"/><w:tblW w:w="9000" w:type="dxa"/>'


def table(*rows, props=WIDE):
    grid = "<w:tblGrid>%s</w:tblGrid>\n" % ('<w:gridCol w:w="3000"/>' * 3)
    return "<w:tbl><w:tblPr>%s</w:tblPr>%s%s</w:tbl>\n" % (props, grid, "".join(rows))


def deleted_row(who, *words):
    """A row as a word processor deletes it: the row, the text of its cells, and the marks of their paragraphs."""
    props = "<w:trPr>%s</w:trPr>" % mark("del", who)
    return row(*[cell(deleted(who, it), "", mark("del", who)) for it in words], props=props)


def inserted_row(who, *words):
    props = "<w:trPr>%s</w:trPr>" % mark("ins", who)
    return row(*[cell(inserted(who, it), "", mark("ins", who)) for it in words], props=props)


def range_of(side, who, name):
    """The markers at the start and at the end of what is moved."""
    number = next(ids)
    return '<w:move%sRangeStart w:id="%d" %s w:name="%s"/>' % (side, number, who, name), '<w:move%sRangeEnd w:id="%d"/>' % (side, number)


def moved(side, who, words):
    return change("move" + side, who, text(words))


def moved_paragraph(side, who, name, words):
    """A paragraph that is moved with its mark: the range ends after it."""
    start, end = range_of(side, who, name)
    return clause(start + moved(side, who, words), "", mark("move" + side, who)) + end + "\n"


def moved_cell(side, who, name, words):
    """A cell whose text is moved with the mark of its paragraph."""
    start, end = range_of(side, who, name)
    return cell(start + moved(side, who, words) + end, "", mark("move" + side, who))


# Comments

# Who wrote a comment, when, what it says, which one it answers, and whether it is done. Their numbers are their places here.
COMMENTS = [
    (CARA.replace("08:15", "08:20"), "CL", "Does Gray Ltd agree to fourteen days?", None, False),
    (ANN.replace("02T09:00", "05T10:30"), "AG", "Yes, from January on.", 0, False),
    (ANN.replace("02T09:00", "05T10:20"), "AG", "Does anybody still pay cash?", None, True),
    (DANA.replace("16:45", "17:05"), "DF", "Leeds or London?", None, False),
]


def referred(number):
    return '<w:r><w:commentReference w:id="%d"/></w:r>' % number


def opened(*numbers):
    """The begin of what these comments are on."""
    return "".join('<w:commentRangeStart w:id="%d"/>' % number for number in numbers)


def closed(*numbers):
    return "".join('<w:commentRangeEnd w:id="%d"/>%s' % (number, referred(number)) for number in numbers)


def paragraph_id(number):
    return "%08X" % (0x1A2B3C00 + number)


def comments():
    said = '<w:comment w:id="%d" %s w:initials="%s"><w:p w14:paraId="%s">%s%s</w:p></w:comment>\n'
    style, sign = '<w:pPr><w:pStyle w:val="CommentText"/></w:pPr>', "<w:r><w:annotationRef/></w:r>"
    return "".join(said % (at, who, initials, paragraph_id(at), style, sign + text(words)) for at, (who, initials, words, _, _) in enumerate(COMMENTS))


def threads():
    answers = lambda to: "" if to is None else ' w15:paraIdParent="%s"' % paragraph_id(to)
    state = '<w15:commentEx w15:paraId="%s"%s w15:done="%d"/>'
    return "".join(state % (paragraph_id(at), answers(to), is_done) for at, (_, _, _, to, is_done) in enumerate(COMMENTS))


# The picture


def picture():
    """A bar of 120 by 24 points in one colour, as PNG."""
    chunk = lambda kind, data: struct.pack(">I", len(data)) + kind + data + struct.pack(">I", zlib.crc32(kind + data))
    head = struct.pack(">IIBBBBB", 120, 24, 8, 2, 0, 0, 0)
    # Stored and not compressed, so that the bytes depend on no version of a library.
    lines = (b"\0" + b"\x1f\x4e\x79" * 120) * 24
    stored = b"\x78\x01\x01" + struct.pack("<HH", len(lines), len(lines) ^ 0xFFFF) + lines + struct.pack(">I", zlib.adler32(lines))
    png = b"\x89PNG\r\n\x1a\n" + chunk(b"IHDR", head) + chunk(b"IDAT", stored) + chunk(b"IEND", b"")
    return base64.encodebytes(png).decode().replace("\n", "\r\n")


SHOWN = (
    '<w:r><w:drawing><wp:inline xmlns:wp="{0}wordprocessingDrawing" distT="0" distB="0" distL="0" distR="0">'
    '<wp:extent cx="1524000" cy="304800"/><wp:docPr id="1" name="Picture 1"/>'
    '<a:graphic xmlns:a="{0}main"><a:graphicData uri="{0}picture"><pic:pic xmlns:pic="{0}picture">'
    '<pic:nvPicPr><pic:cNvPr id="1" name="bar.png"/><pic:cNvPicPr/></pic:nvPicPr>'
    '<pic:blipFill><a:blip r:embed="rId6"/><a:stretch><a:fillRect/></a:stretch></pic:blipFill>'
    '<pic:spPr><a:xfrm><a:off x="0" y="0"/><a:ext cx="1524000" cy="304800"/></a:xfrm>'
    '<a:prstGeom prst="rect"><a:avLst/></a:prstGeom></pic:spPr></pic:pic></a:graphicData></a:graphic>'
    "</wp:inline></w:drawing></w:r>"
).format(DRAWING)

NOTE = '<w:r><w:rPr><w:rStyle w:val="FootnoteReference"/></w:rPr><w:footnoteReference w:id="1"/></w:r>'

# The contract

TITLE = "The Seller keeps the title to the goods until they are paid for in full."


def body():
    page = '<w:pgSz w:w="11906" w:h="16838"/><w:pgMar w:top="%d" w:right="1134" w:bottom="1134" w:left="1134" w:header="567" w:footer="567" w:gutter="0"/>'
    ends = '<w:headerReference w:type="default" r:id="rId1"/><w:footerReference w:type="default" r:id="rId2"/>'
    return "".join(
        [
            paragraph(SHOWN),
            paragraph(
                text("Supply agreement ", "<w:b/>") + text("(subject to contract)", former("rPr", CARA, "<w:b/><w:vanish/>", "<w:b/>")),
                '<w:pStyle w:val="Title"/>',
            ),
            paragraph(
                text("between Gray Ltd, London (the Buyer), and ")
                + deleted(BOB, "Hay Brothers")
                + inserted(BOB, "Hay &amp; Sons")
                + text(", Leeds (the Seller).")
            ),
            paragraph(
                text("Goods and prices"),
                former("pPr", ANN, HEADING + "{mark}", '<w:pStyle w:val="Heading2"/>'),
                "<w:b/>",
            ),
            clause(
                text("The Seller sells and the Buyer buys the goods of this list. The prices hold for orders until 30 June 2027. ")
                + change("ins", CARA, text("They are net prices") + opened(2) + deleted(BOB, " for cash", closed(2)) + text(", without value added tax."))
            ),
            table(
                row(
                    cell(text("Item")),
                    cell(text("Unit")),
                    cell(text("Price"), former("tcPr", CARA, '<w:vAlign w:val="center"/>', "")),
                    props="<w:tblPrEx>%s</w:tblPrEx><w:trPr>%s</w:trPr>"
                    % (
                        former("tblPrEx", CARA, '<w:tblW w:w="9000" w:type="dxa"/>', '<w:tblW w:w="8000" w:type="dxa"/>'),
                        former("trPr", CARA, "<w:cantSplit/><w:tblHeader/>", "<w:tblHeader/>"),
                    ),
                ),
                row(cell(text("Cable")), cell(text("metre")), cell(deleted(BOB, "3.00 EUR") + inserted(ANN, "2.80 EUR"))),
                deleted_row(BOB, "Rope", "metre", "1.10 EUR"),
                inserted_row(ANN, "Chain", "metre", "4.00 EUR"),
                row(
                    cell(text("Delivery")),
                    cell(text("order"), mark("cellDel", BOB)),
                    cell(text("free"), mark("cellIns", ANN)),
                    cell(text("20.00 EUR")),
                ),
                props=former("tblPr", CARA, WIDE + '<w:jc w:val="center"/>', WIDE),
            ),
            paragraph(text("")),
            heading("Delivery"),
            clause(text("The Seller delivers the goods "), '<w:jc w:val="both"/>', mark("del", BOB)),
            clause(text("to the store of the Buyer within ten days of the order."), '<w:jc w:val="left"/>'),
            clause(text("Risk passes to the Buyer on delivery. "), "<w:keepNext/>", mark("ins", ANN)),
            clause(text("The Buyer looks at the goods at once, and tells the Seller of any fault within seven days. A fault that could not be seen is told within seven days after it was found.")),
            moved_paragraph("To", ANN, "title", TITLE),
            clause(text("Where a delivery is late by more than ten days, the Buyer may take the goods from another seller, and Hay bears what these cost more.")),
            heading("Payment"),
            clause(
                text("The price is due within ")
                + opened(0, 1)
                + deleted(BOB, "thirty")
                + inserted(ANN, "fourteen")
                + closed(0, 1)
                + text(" days of delivery")
                + NOTE
                + text(". The Buyer pays ")
                + '<w:sdt><w:sdtPr><w:alias w:val="Account"/></w:sdtPr><w:sdtContent>%s</w:sdtContent></w:sdt>'
                % (deleted(CARA, "by cheque") + inserted(CARA, "to the account of the Seller"))
                + text(".")
            ),
            moved_paragraph("From", ANN, "title", TITLE),
            clause(text("A payment that is late bears interest of five per cent a year. The Buyer may set off only what the Seller does not dispute, or what a court has found.")),
            table(
                row(cell(text("Account of the Seller")), cell(text("Bank of the North")), cell(text("GB00 0000 1234"))),
                row(
                    moved_cell("From", CARA, "desk", "Desk for invoices"),
                    cell(text("Hay &amp; Sons")),
                    cell(text("Leeds")),
                    props="<w:trPr>%s</w:trPr>" % mark("del", CARA),
                ),
                row(cell(text("Desk for orders")), cell(text("Gray Ltd")), cell(text("London"))),
                row(
                    moved_cell("To", CARA, "desk", "Desk for invoices"),
                    cell(text("Hay &amp; Sons")),
                    cell(text("Leeds")),
                    props="<w:trPr>%s</w:trPr>" % mark("ins", CARA),
                ),
            ),
            paragraph(text("")),
            heading("Warranty and liability"),
            clause(text("The goods are new and as described in the order. Where they are not, the Seller mends or replaces them within ten days, and bears what that costs.")),
            clause(text("For damage this holds:"), "<w:keepNext/>"),
            paragraph(
                text("The Seller is liable for damage that the goods cause ")
                + deleted(DANA, "without limit")
                + inserted(DANA, "up to the price of the order")
                + text(". This limit does not hold for damage that was caused on purpose, or for harm to life and limb."),
                ITEM,
            ),
            paragraph(inserted(DANA, "No party is liable for what nobody could prevent, such as war, flood or a strike."), ITEM, mark("ins", DANA)),
            heading("Term and end"),
            clause(text("This agreement holds for two years from the day of the last signature. It goes on for a year each time, unless a party ends it three months before. Each party may end it at once where the other does not pay or deliver in spite of a written reminder.")),
            clause(text("The parties keep what they learn of each other’s business to themselves, also for three years after the end of this agreement.")),
            heading("Law and court"),
            clause(text("The law of England holds. Courts in Leeds") + referred(3) + text(" decide.")),
            paragraph(text("London and Leeds, 9 November 2026")),
            "<w:sectPr>%s%s</w:sectPr>" % (ends, former("sectPr", DANA, page % 1134, page % 1701)),
        ]
    )


def header():
    return paragraph(text("Supply agreement, draft ") + deleted(ANN, "2") + inserted(ANN, "3"), '<w:pStyle w:val="Header"/>')


def footer():
    number = '<w:fldSimple w:instr=" PAGE "><w:r><w:t>1</w:t></w:r></w:fldSimple>'
    return paragraph(text("Page ") + number, '<w:pStyle w:val="Footer"/>')


def footnotes():
    line = '<w:footnote w:type="%s" w:id="%d"><w:p><w:r><w:%s/></w:r></w:p></w:footnote>'
    reference = '<w:r><w:rPr><w:rStyle w:val="FootnoteReference"/></w:rPr><w:footnoteRef/></w:r>'
    note = paragraph(reference + text(" Bank days in London") + inserted(BOB, " and Leeds") + text("."), '<w:pStyle w:val="FootnoteText"/>')
    return "%s%s<w:footnote w:id=\"1\">%s</w:footnote>" % (
        line % ("separator", -1, "separator"),
        line % ("continuationSeparator", 0, "continuationSeparator"),
        note.strip(),
    )


def numbering():
    """One list of three levels, as 1., 1.1 and (a), of which a style has the first and another one the second."""
    levels = [("decimal", "Heading1", "%1."), ("decimal", "Clause", "%1.%2"), ("lowerLetter", None, "(%3)")]
    level = '<w:lvl w:ilvl="%d"><w:start w:val="1"/><w:numFmt w:val="%s"/>%s<w:lvlText w:val="%s"/><w:lvlJc w:val="left"/><w:pPr><w:ind w:left="%d" w:hanging="567"/></w:pPr></w:lvl>\n'
    of_style = lambda name: '<w:pStyle w:val="%s"/>' % name if name else ""
    each = "".join(level % (at, sort, of_style(name), shown, 1134 if at == 2 else 567) for at, (sort, name, shown) in enumerate(levels))
    return '<w:abstractNum w:abstractNumId="0"><w:multiLevelType w:val="multilevel"/>\n%s</w:abstractNum><w:num w:numId="1"><w:abstractNumId w:val="0"/></w:num>' % each


def style(kind, name, shown, more=""):
    default = ' w:default="1"' if name in ("Normal", "TableNormal") else ""
    return '<w:style w:type="%s"%s w:styleId="%s"><w:name w:val="%s"/>%s</w:style>\n' % (kind, default, name, shown, more)


def styles():
    base, counted = '<w:basedOn w:val="Normal"/>', '<w:numPr><w:numId w:val="1"/></w:numPr>'
    grid = "".join('<w:%s w:val="single" w:sz="4" w:space="0" w:color="808080"/>' % side for side in ("top", "left", "bottom", "right", "insideH", "insideV"))
    return "".join(
        [
            '<w:docDefaults><w:rPrDefault><w:rPr><w:rFonts w:ascii="Liberation Serif" w:hAnsi="Liberation Serif"/>'
            '<w:sz w:val="24"/></w:rPr></w:rPrDefault><w:pPrDefault><w:pPr><w:spacing w:after="160" w:line="300" w:lineRule="auto"/></w:pPr></w:pPrDefault></w:docDefaults>\n',
            style("paragraph", "Normal", "Normal", "<w:qFormat/>"),
            style("paragraph", "Title", "Title", base + '<w:pPr><w:jc w:val="center"/></w:pPr><w:rPr><w:sz w:val="40"/></w:rPr>'),
            style("paragraph", "Heading1", "heading 1", base + '<w:pPr><w:keepNext/>%s<w:spacing w:before="240"/><w:outlineLvl w:val="0"/></w:pPr><w:rPr><w:b/><w:sz w:val="28"/></w:rPr>' % counted),
            style("paragraph", "Heading2", "heading 2", base + '<w:pPr><w:keepNext/><w:outlineLvl w:val="1"/></w:pPr><w:rPr><w:i/></w:rPr>'),
            style("paragraph", "Clause", "Clause", base + "<w:pPr>%s</w:pPr>" % counted.replace("<w:numId", '<w:ilvl w:val="1"/><w:numId')),
            style("paragraph", "Header", "header", base),
            style("paragraph", "Footer", "footer", base + '<w:pPr><w:jc w:val="center"/></w:pPr>'),
            style("paragraph", "FootnoteText", "footnote text", base + '<w:rPr><w:sz w:val="20"/></w:rPr>'),
            style("paragraph", "CommentText", "annotation text", base + '<w:rPr><w:sz w:val="20"/></w:rPr>'),
            style("character", "FootnoteReference", "footnote reference", '<w:rPr><w:vertAlign w:val="superscript"/></w:rPr>'),
            style("table", "TableNormal", "Normal Table", '<w:tblPr><w:tblInd w:w="0" w:type="dxa"/><w:tblCellMar><w:left w:w="108" w:type="dxa"/><w:right w:w="108" w:type="dxa"/></w:tblCellMar></w:tblPr>'),
            style("table", "TableGrid", "Table Grid", '<w:basedOn w:val="TableNormal"/><w:pPr><w:spacing w:after="0"/></w:pPr><w:tblPr><w:tblBorders>%s</w:tblBorders></w:tblPr>' % grid),
        ]
    )


def settings():
    notes = '<w:footnotePr><w:footnote w:id="-1"/><w:footnote w:id="0"/></w:footnotePr>'
    return '<w:trackRevisions/><w:defaultTabStop w:val="708"/>%s<w:compat><w:compatSetting w:name="compatibilityMode" w:uri="http://schemas.microsoft.com/office/word" w:val="15"/></w:compat>' % notes


def package():
    """The text of contract.xml."""
    root = lambda name, inside, more="": '<w:%s xmlns:w="%s" xmlns:r="%s"%s>%s</w:%s>' % (name, WORD, OFFICE, more, inside, name)
    later = lambda prefix, space: ' xmlns:mc="%s" xmlns:%s="%s" mc:Ignorable="%s"' % (COMPATIBILITY, prefix, space, prefix)
    rels = "application/vnd.openxmlformats-package.relationships+xml"
    of_document = relationships(
        ("header", "header1.xml"), ("footer", "footer1.xml"), ("footnotes", "footnotes.xml"), ("styles", "styles.xml"),
        ("settings", "settings.xml"), ("image", "media/image1.png"), ("numbering", "numbering.xml"), ("comments", "comments.xml"),
        (STATES, "commentsExtended.xml"),
    )
    return "".join(
        [
            '<?xml version="1.0" encoding="UTF-8" standalone="yes"?>\n<?mso-application progid="Word.Document"?>\n',
            '<pkg:package xmlns:pkg="%s">\n' % PACKAGE,
            part("/_rels/.rels", rels, relationships(("officeDocument", "word/document.xml")), ' pkg:padding="512"'),
            part("/word/_rels/document.xml.rels", rels, of_document, ' pkg:padding="256"'),
            part("/word/document.xml", TYPE % "document.main", root("document", "<w:body>\n%s</w:body>" % body())),
            part("/word/footnotes.xml", TYPE % "footnotes", root("footnotes", footnotes())),
            part("/word/header1.xml", TYPE % "header", root("hdr", header())),
            part("/word/footer1.xml", TYPE % "footer", root("ftr", footer())),
            part("/word/comments.xml", TYPE % "comments", root("comments", comments(), later("w14", LATER))),
            part("/word/commentsExtended.xml", TYPE % "commentsExtended", '<w15:commentsEx%s>%s</w15:commentsEx>' % (later("w15", THREADS), threads())),
            '<pkg:part pkg:name="/word/media/image1.png" pkg:contentType="image/png" pkg:compression="store"><pkg:binaryData>%s</pkg:binaryData></pkg:part>\n' % picture(),
            part("/word/numbering.xml", TYPE % "numbering", root("numbering", numbering())),
            part("/word/settings.xml", TYPE % "settings", root("settings", settings())),
            part("/word/styles.xml", TYPE % "styles", root("styles", styles())),
            "</pkg:package>\n",
        ]
    )
