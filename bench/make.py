"""Makes the inputs of the programs in this folder, and of tools/tests/hostile.test.

    python3 make.py document BYTES FILE          paragraphs up to so many bytes
    python3 make.py script NAME BYTES FILE       the same in Chinese, Cyrillic or German
    python3 make.py package BYTES FILE           a package of several parts, as a word processor saves one: a document with
                                                 references in its text and many attributes, styles, pictures
    python3 make.py changes BYTES FILE           paragraphs with a tracked mark and changes of properties, up to so many bytes
    python3 make.py nodes COUNT FILE             a document of so many small nodes
    python3 make.py reviewed PARAGRAPHS ENTRIES FOLDER
                                                 P with two revisions a paragraph, and the journals J0, J1 and J2
    python3 make.py ranked PARAGRAPHS ENTRIES FOLDER
                                                 the same, and of each journal every second entry has rank 1
    python3 make.py shape NAME FILE [SCALE]      a document of 6 to 60 MB of an unusual shape, or so many times as large
    python3 make.py deep NAME FILE               a sound document whose elements stand 512 deep, as deep as they may
    python3 make.py grown BYTES FILE             a document of some 80 MB of which `settle accept` makes so many bytes, 128 MiB or more
    python3 make.py text NAME FILE               a text that is deep, wide or long, and no package
    python3 make.py comments NAME FILE           a document with 100,000 comments
    python3 make.py numbered NAME FILE           a document with 10,000 numbered paragraphs, a change in each, and numbering gone wrong
"""
import hashlib
import sys

FRONT = (
    '<?xml version="1.0" encoding="UTF-8"?>'
    '<pkg:package xmlns:pkg="http://schemas.microsoft.com/office/2006/xmlPackage">'
    '<pkg:part pkg:name="/word/document.xml" pkg:contentType="application/vnd.openxmlformats-officedocument.wordprocessingml.document.main+xml">'
    "<pkg:xmlData>"
    '<w:document xmlns:w="http://schemas.openxmlformats.org/wordprocessingml/2006/main"><w:body>'
)
BACK = "</w:body></w:document></pkg:xmlData></pkg:part></pkg:package>"
SENTENCE = "The parties agree that payment is due within thirty days of delivery, and that"
STAMP = 'w:date="2026-05-06T07:08:09Z"'
PARAGRAPH = (
    '<w:p><w:r><w:t xml:space="preserve">%s %d </w:t></w:r>'
    '<w:ins w:id="%d" w:author="Ann Gray" ' + STAMP + "><w:r><w:t>%s</w:t></w:r></w:ins>"
    '<w:del w:id="%d" w:author="Bob Hay" ' + STAMP + "><w:r><w:delText>%s</w:delText></w:r></w:del></w:p>"
)
REVIEWERS = ["Ann Gray", "Bob Hay", "Cara Lee"]
WORDS = ["accept", "accept", "reject", "accept", "withdraw"]


# Sentences in scripts whose letters take one, two or three bytes, with the signs that such texts have.
SCRIPTS = {
    "chinese": "双方同意，货款应于交货之日起三十日内支付；逾期付款的，买方应按未付金额支付利息，并且",
    "cyrillic": "Стороны согласны, что оплата производится в течение тридцати дней после поставки, и что",
    "german": "Die Parteien sind sich einig, dass die Zahlung innerhalb von dreißig Tagen nach Übergabe fällig ist, und dass",
}


def paragraph(i, sentence=SENTENCE):
    return PARAGRAPH % (sentence, i, 2 * i, sentence, 2 * i + 1, sentence)


def document(size, sentence=SENTENCE):
    """A document of at most so many bytes."""
    pieces = [FRONT]
    left = size - len(FRONT) - len(BACK)
    i = 0
    while True:
        piece = paragraph(i, sentence)
        length = len(piece.encode())
        if length > left:
            return "".join(pieces + [BACK])
        pieces.append(piece)
        left -= length
        i += 1


PACKAGE_FRONT = (
    '<?xml version="1.0" encoding="UTF-8" standalone="yes"?>\n<?mso-application progid="Word.Document"?>\n'
    '<pkg:package xmlns:pkg="http://schemas.microsoft.com/office/2006/xmlPackage">'
    '<pkg:part pkg:name="/_rels/.rels" pkg:contentType="application/vnd.openxmlformats-package.relationships+xml" pkg:padding="512">'
    '<pkg:xmlData><Relationships xmlns="http://schemas.openxmlformats.org/package/2006/relationships">'
    '<Relationship Id="rId1" Type="http://schemas.openxmlformats.org/officeDocument/2006/relationships/officeDocument" Target="word/document.xml"/>'
    "</Relationships></pkg:xmlData></pkg:part>"
    '<pkg:part pkg:name="/word/document.xml" pkg:contentType="application/vnd.openxmlformats-officedocument.wordprocessingml.document.main+xml">'
    '<pkg:xmlData><w:document xmlns:w="http://schemas.openxmlformats.org/wordprocessingml/2006/main"'
    ' xmlns:r="http://schemas.openxmlformats.org/officeDocument/2006/relationships"'
    ' xmlns:w14="http://schemas.microsoft.com/office/word/2010/wordml"><w:body>'
)
PACKAGE_MIDDLE = (
    "</w:body></w:document></pkg:xmlData></pkg:part>"
    '<pkg:part pkg:name="/word/styles.xml" pkg:contentType="application/vnd.openxmlformats-officedocument.wordprocessingml.styles+xml">'
    '<pkg:xmlData><w:styles xmlns:w="http://schemas.openxmlformats.org/wordprocessingml/2006/main">'
)
STYLE = '<w:style w:type="paragraph" w:styleId="Style%d"><w:name w:val="Style %d"/><w:pPr><w:spacing w:after="120"/></w:pPr></w:style>'
PACKAGE_BACK = "</w:styles></pkg:xmlData></pkg:part>%s</pkg:package>\n"
PICTURE = (
    '<pkg:part pkg:name="/word/media/image%d.png" pkg:contentType="image/png" pkg:compression="store"><pkg:binaryData>%s'
    "</pkg:binaryData></pkg:part>"
)
LINE = "iVBORw0KGgoAAAANSUhEUgAAAAEAAAABCAYAAAAfFcSJAAAADUlEQVR42mNkYPhfDwAEhAGA\r\n"
LETTER_PARAGRAPH = (
    '<w:p w14:paraId="%08X" w14:textId="77777777" w:rsidR="00A77B3E" w:rsidRDefault="00A77B3E">'
    '<w:r w:rsidRPr="00B1C2D3"><w:t xml:space="preserve">%s &#8212; Smith &amp; Sons, no. %d </w:t></w:r>'
    '<w:ins w:id="%d" w:author="Ann Gray" ' + STAMP + '><w:r w:rsidRPr="00B1C2D3"><w:t>%s &lt;40&gt;</w:t></w:r></w:ins>'
    '<w:r><w:tab/><w:t>%s</w:t></w:r></w:p>'
)


def pictures(size):
    """Pictures of a tenth of a package of this size, of 6 MB at most each, and of what is above 100 MB, since the paragraphs
    of a larger document would be more nodes than a package may have."""
    left = max(size // 10, size - 100000000) if size > 60000000 else size // 10
    made = []
    while left > 0:
        made.append(PICTURE % (len(made) + 1, LINE * (min(left, 6000000) // len(LINE))))
        left -= 6000000
    return "".join(made)


def package(size):
    """A package of about so many bytes."""
    styles = "".join(STYLE % (i, i) for i in range(400))
    back = PACKAGE_MIDDLE + styles + PACKAGE_BACK % pictures(size)
    pieces = [PACKAGE_FRONT]
    left = size - len(PACKAGE_FRONT) - len(back)
    i = 0
    while left > 0:
        piece = LETTER_PARAGRAPH % (i, SENTENCE, i, i, SENTENCE, SENTENCE)
        pieces.append(piece)
        left -= len(piece)
        i += 1
    return "".join(pieces + [back])


def reviewed_package(size):
    """A document of at most so many bytes, with a mark and changes of properties on every paragraph."""
    return FRONT + CHANGED * ((size - len(FRONT) - len(BACK) - 6) // len(CHANGED)) + "<w:p/>" + BACK


def nodes(count):
    """A document with so many nodes: five nodes a paragraph."""
    return FRONT + "<w:p><w:r><w:br/><w:tab/></w:r><w:r/></w:p>" * ((count - 6) // 5) + BACK


def journal(whole, revisions, entries, k, has_ranks=False):
    """Reviewer k's journal: their share of the entries, spread over the revisions, with rising sequence numbers and, where it has
    ranks, the ranks 0 and 1 in turn."""
    version = 2 if has_ranks else 1
    lines = ["redline-journal %d\n" % version, "document %s\n" % hashlib.sha256(whole).hexdigest(), "revisions %d\n" % revisions]
    for seq, i in enumerate(range(k, entries, len(REVIEWERS)), 1):
        rank = "%d\t" % (seq % 2) if has_ranks else ""
        lines.append("%d\t%d\t%s\t%s%s\n" % (seq, 1 + i * 7919 % revisions, WORDS[i % len(WORDS)], rank, REVIEWERS[k]))
    return "".join(lines)


def letters(i):
    """A word of ASCII letters, another one for each number."""
    word = ""
    while True:
        word = chr(97 + i % 26) + word
        i //= 26
        if i == 0:
            return word


def nested(depth, inside):
    return '<w:ins w:id="1">' * depth + inside + "</w:ins>" * depth


CHANGED = (
    '<w:p><w:pPr><w:jc w:val="left"/><w:rPr><w:ins w:id="1" w:author="Ann Gray"/></w:rPr>'
    '<w:pPrChange w:id="2" w:author="Ann Gray"><w:pPr><w:jc w:val="right"/></w:pPr></w:pPrChange></w:pPr>'
    '<w:r><w:rPr><w:b/><w:rPrChange w:id="3" w:author="Bob Hay"><w:rPr><w:i/></w:rPr></w:rPrChange></w:rPr><w:t>changed</w:t></w:r></w:p>'
)
DELETED_ROW = '<w:tr><w:trPr><w:del w:id="1"/></w:trPr><w:tc><w:p><w:r><w:t>row</w:t></w:r></w:p></w:tc></w:tr>'


def row(i):
    """A row of two cells: each third row is inserted, and in each second row the first cell is deleted."""
    tracked = '<w:trPr><w:ins w:id="%d" w:author="Ann Gray"/></w:trPr>' % i if i % 3 == 0 else ""
    cell = '<w:tcPr><w:cellDel w:id="%d" w:author="Bob Hay"/></w:tcPr>' % i if i % 2 == 0 else ""
    return "<w:tr>%s<w:tc>%s<w:p/></w:tc><w:tc><w:p><w:r><w:t>row %d</w:t></w:r></w:p></w:tc></w:tr>" % (tracked, cell, i)


def moved(i):
    """A paragraph that text is moved from, and one that it is moved to."""
    side = (
        '<w:p><w:move{0}RangeStart w:id="%d" w:author="Ann Gray" w:name="move%d"/><w:move{0} w:id="%d" w:author="Ann Gray">'
        '<w:r><w:t>moved %d</w:t></w:r></w:move{0}><w:move{0}RangeEnd w:id="%d"/></w:p>'
    )
    numbers = (i, i, i, i, i)
    return side.format("From") % numbers + side.format("To") % numbers


# What `of` gives is a number to scale.
SHAPES = {
    # 2,000,000 empty elements in one run, and more than there may be
    "wide": lambda of: "<w:p><w:r>%s</w:r></w:p>" % ("<w:br/>" * of(2000000)),
    "wider": lambda of: "<w:p><w:r>%s</w:r></w:p>" % ("<w:br/>" * of(8000000)),
    # as deep as elements may stand, again and again, and deeper
    "deep": lambda of: ("<w:p>%s</w:p>" % nested(504, "<w:r><w:br/></w:r>")) * of(1650),
    "deeper": lambda of: "<w:p>%s</w:p>" % nested(of(800000), ""),
    # elements that are never closed
    "open": lambda of: "<w:ins>" * of(8000000),
    # 830,000 revisions with nothing in them
    "revisions": lambda of: "<w:p>%s</w:p>" % ('<w:del w:id="1"></w:del>' * of(830000)),
    # 1,300,000 attributes in one tag
    "attributes": lambda of: "<w:p%s></w:p>" % "".join(' w:x%s="1"' % letters(i) for i in range(of(1300000))),
    # 200,000 attributes and 100,000 declarations in one tag
    "declarations": lambda of: "<w:p%s%s></w:p>"
    % ("".join(' w:x%s="1"' % letters(i) for i in range(of(200000))), "".join(' xmlns:n%s="u"' % letters(i) for i in range(of(100000)))),
    # 400,000 elements with a declaration each
    "scopes": lambda of: "<w:p>%s</w:p>" % "".join('<w:r xmlns:n%s="u"/>' % letters(i) for i in range(of(400000))),
    # one stretch of 20 MB
    "text": lambda of: "<w:p><w:r><w:t>%s</w:t></w:r></w:p>" % ("x" * of(20000000)),
    # 100,000 paragraphs whose marks are all inserted: rejected, they are one group
    "group": lambda of: '<w:p><w:pPr><w:rPr><w:ins w:id="1"/></w:rPr></w:pPr><w:r><w:t>joined</w:t></w:r></w:p>' * of(100000) + "<w:p/>",
    # a mark and a change of properties on each of 100,000 paragraphs, and a change on each of their runs
    "changes": lambda of: CHANGED * of(100000) + "<w:p/>",
    # one table of 100,000 rows, of which each third one and each second cell are tracked
    "table": lambda of: "<w:tbl>%s</w:tbl><w:p/>" % "".join(map(row, range(of(100000)))),
    # a table of 40,000 deleted rows and one that stays, all of them in 240 content controls, each in the one before
    "shells": lambda of: "<w:tbl>%s</w:tbl><w:p/>"
    % ("<w:sdt><w:sdtContent>" * 240 + DELETED_ROW * of(40000) + "<w:tr><w:tc><w:p/></w:tc></w:tr>" + "</w:sdtContent></w:sdt>" * 240),
    # 20,000 moves, each from one paragraph to another
    "moves": lambda of: "".join(map(moved, range(of(20000)))) + "<w:p/>",
    # 100,000 starts of ranges that all have one name, so that none is paired
    "names": lambda of: "<w:p>%s</w:p>" % "".join('<w:moveFromRangeStart w:id="%d" w:name="same"/>' % i for i in range(of(100000))),
}


# Comments: what a document has of them, and what is said of their state.
COMMENTS = 100000
NUMBERS = range(COMMENTS)
PLACE = '<w:comment%s w:id="%d"/>'
ADDED = '<w:ins w:id="1" w:author="Ann Gray"><w:r><w:t>added</w:t></w:r></w:ins>'
RELATIONSHIPS = (
    '<pkg:part pkg:name="/word/_rels/document.xml.rels" pkg:contentType="application/vnd.openxmlformats-package.relationships+xml"><pkg:xmlData>'
    '<Relationships xmlns="http://schemas.openxmlformats.org/package/2006/relationships">'
    '<Relationship Id="a" Type="x/comments" Target="comments.xml"/><Relationship Id="b" Type="x/commentsExtended" Target="states.xml"/>'
    "</Relationships></pkg:xmlData></pkg:part>"
)
PART = '<pkg:part pkg:name="/word/%s.xml" pkg:contentType="text/xml"><pkg:xmlData>%s</pkg:xmlData></pkg:part>'
COMMENT = '<w:comment w:id="%d" w:author="Bob Hay"><w:p w:paraId="%X"><w:r><w:t>why</w:t></w:r></w:p></w:comment>'
STATE = '<s:commentEx s:paraId="%X" s:paraIdParent="%X" s:done="0"/>'


def places(name, numbers):
    return "".join(PLACE % (name, i) for i in numbers)


def answers(to):
    """What is said of the state of each comment: it answers the one that `to` gives for it."""
    return "".join(STATE % (i + 1, to(i) % COMMENTS + 1) for i in NUMBERS)


COMMENTED = {
    # all on one change
    "crowded": lambda: (places("RangeStart", NUMBERS) + ADDED + places("RangeEnd", NUMBERS), ""),
    # each range crosses the next ones, and as many changes are in them
    "crossing": lambda: ("".join(places("RangeStart", [i]) + ADDED + places("RangeEnd", [i - 50]) for i in NUMBERS), ""),
    # ranges that end before they begin, and ranges without a start, each at a change
    "turned": lambda: ("".join(places("RangeEnd", [i, i + 1]) + ADDED + places("RangeStart", [i]) for i in NUMBERS[::2]), ""),
    # each answers the one before it, and only the first one has a place
    "answers": lambda: (places("RangeStart", [0]) + ADDED + places("RangeEnd", [0]), answers(lambda i: max(0, i - 1))),
    # each answers the next one, and the last one the first; none has a place
    "ring": lambda: (ADDED, answers(lambda i: i + 1)),
}


def commented(name):
    inside, states = COMMENTED[name]()
    space = FRONT[FRONT.index(" xmlns:w=") : FRONT.index("><w:body>")]
    said = "<w:comments%s>%s</w:comments>" % (space, "".join(COMMENT % (i, i + 1) for i in NUMBERS))
    stated = '<s:commentsEx xmlns:s="http://schemas.microsoft.com/office/word/2012/wordml">%s</s:commentsEx>' % states
    more = RELATIONSHIPS + PART % ("comments", said) + PART % ("states", stated)
    return FRONT + "<w:p>%s</w:p>" % inside + BACK.replace("</pkg:package>", more + "</pkg:package>")


# Numbered paragraphs: what the numbering part and the styles part say, and the properties of each paragraph.
NUMBERED = 10000
PARTS_BESIDE = (
    '<pkg:part pkg:name="/word/_rels/document.xml.rels" pkg:contentType="application/vnd.openxmlformats-package.relationships+xml"><pkg:xmlData>'
    '<Relationships xmlns="http://schemas.openxmlformats.org/package/2006/relationships">'
    '<Relationship Id="a" Type="x/numbering" Target="numbering.xml"/><Relationship Id="b" Type="x/styles" Target="styles.xml"/>'
    "</Relationships></pkg:xmlData></pkg:part>"
)
LEVEL = '<w:lvl w:ilvl="%d"><w:start w:val="%d"/><w:lvlText w:val="%%1."/></w:lvl>'
LIST = '<w:abstractNum w:abstractNumId="%d">%s</w:abstractNum>'
NUM = '<w:num w:numId="%d"><w:abstractNumId w:val="%d"/></w:num>'
NUM_PROPERTIES = '<w:pPr><w:numPr><w:ilvl w:val="%d"/><w:numId w:val="%d"/></w:numPr></w:pPr>'
BASED_STYLE = '<w:style w:type="paragraph" w:styleId="S%d"><w:basedOn w:val="S%d"/>%s</w:style>'
ONE_LIST = LIST % (0, LEVEL % (0, 1)) + NUM % (1, 0)


def each(of):
    return "".join(of(i) for i in range(NUMBERED))


def styled(num_at, base):
    """Styles of which each is based on the one that `base` gives; one of them has the num. Each paragraph has the last one."""
    styles = each(lambda i: BASED_STYLE % (i, base(i), NUM_PROPERTIES % (0, 1) if i == num_at else ""))
    return ONE_LIST, styles, lambda i: '<w:pPr><w:pStyle w:val="S%d"/></w:pPr>' % (NUMBERED - 1)


WRONGLY_NUMBERED = {
    # a chain of 10,000 styles, of which the first has the num, or one near the last
    "chain": lambda: styled(0, lambda i: i - 1),
    "near": lambda: styled(NUMBERED - 99, lambda i: i - 1),
    # a ring of as many, of which none has one
    "ring": lambda: styled(None, lambda i: (i + 1) % NUMBERED),
    # 10,000 lists and nums; each list leads to the next one by its style, and the last to the first
    "links": lambda: (
        each(lambda i: LIST % (i, '<w:styleLink w:val="L%d"/><w:numStyleLink w:val="L%d"/>' % (i, (i + 1) % NUMBERED) + LEVEL % (0, i + 1)))
        + each(lambda i: NUM % (i + 1, i)),
        "",
        lambda i: NUM_PROPERTIES % (0, i + 1),
    ),
    # levels from 9 to 10,008 in a list, and a paragraph at each
    "levels": lambda: (LIST % (0, LEVEL % (0, 1) + each(lambda i: LEVEL % (i + 9, 1))) + NUM % (1, 0), "", lambda i: NUM_PROPERTIES % (i + 9, 1)),
    # numbers from 999,999,999 on, and a start past 2^31, which is none
    "far": lambda: (LIST % (0, LEVEL % (0, 999999999)) + NUM % (1, 0), "", lambda i: NUM_PROPERTIES % (0, 1)),
    "past": lambda: (LIST % (0, LEVEL % (0, 2 ** 31)) + NUM % (1, 0), "", lambda i: NUM_PROPERTIES % (0, 1)),
    # each paragraph has a num of its own, which begins the one list anew
    "anew": lambda: (
        LIST % (0, LEVEL % (0, 1))
        + each(lambda i: NUM.replace("</w:num>", '<w:lvlOverride w:ilvl="0"><w:startOverride w:val="%d"/></w:lvlOverride></w:num>' % (i + 1)) % (i + 1, 0)),
        "",
        lambda i: NUM_PROPERTIES % (0, i + 1),
    ),
}


def numbered(name):
    numbering, styles, properties = WRONGLY_NUMBERED[name]()
    space = FRONT[FRONT.index(" xmlns:w=") : FRONT.index("><w:body>")]
    more = PARTS_BESIDE + PART % ("numbering", "<w:numbering%s>%s</w:numbering>" % (space, numbering))
    more += PART % ("styles", "<w:styles%s>%s</w:styles>" % (space, styles))
    body = each(lambda i: "<w:p>%s%s</w:p>" % (properties(i), ADDED))
    return FRONT + body + BACK.replace("</pkg:package>", more + "</pkg:package>")


DELETED_MARK = '<w:p><w:pPr><w:rPr><w:del w:id="1"/></w:rPr></w:pPr></w:p>'
BODY = 5  # so deep in the elements of its package the body of a document stands
DEEPEST = 512


def around(pair, inside, levels):
    """What stands inside, in so many levels of a pair: texts that open elements, and texts that close them."""
    opens, closes = pair
    times, rest = divmod(levels, closes.count("</"))
    return "<w:customXml>" * rest + opens * times + inside + closes * times + "</w:customXml>" * rest


TEXT = "<w:p><w:r><w:t>x</w:t></w:r></w:p>"  # three levels
CELLS = "<w:tr><w:tc><w:p/></w:tc></w:tr>"  # three levels
DEEP = {
    # run content, each time inserted or deleted
    "insertions": lambda: "<w:p>%s</w:p>" % nested(DEEPEST - BODY - 3, "<w:r><w:br/></w:r>"),
    "deletions": lambda: "<w:p>%s</w:p>"
    % nested(DEEPEST - BODY - 3, "<w:r><w:delText>x</w:delText></w:r>").replace("w:ins", "w:del"),
    # blocks in content controls, and in custom XML
    "controls": lambda: around(("<w:sdt><w:sdtContent>", "</w:sdtContent></w:sdt>"), TEXT, DEEPEST - BODY - 3),
    "custom": lambda: around(("<w:customXml>", "</w:customXml>"), TEXT, DEEPEST - BODY - 3),
    # tables in cells: each cell ends with a paragraph, and each row is inserted
    "tables": lambda: around(
        ('<w:tbl><w:tr><w:trPr><w:ins w:id="1"/></w:trPr><w:tc>', "<w:p/></w:tc></w:tr></w:tbl>"), TEXT, DEEPEST - BODY - 3
    ),
    # one table, whose row is in content controls
    "rows": lambda: "<w:tbl>%s</w:tbl>" % around(("<w:sdt><w:sdtContent>", "</w:sdtContent></w:sdt>"), CELLS, DEEPEST - BODY - 4),
    # paragraphs in text boxes, each of them with a mark that is deleted, and one after it
    "boxes": lambda: around(
        (
            '<w:p><w:pPr><w:rPr><w:del w:id="1"/></w:rPr></w:pPr><w:r><w:pict><w:txbxContent>',
            "</w:txbxContent></w:pict></w:r></w:p><w:p/>",
        ),
        TEXT,
        DEEPEST - BODY - 3,
    ),
    # runs that declare a namespace each, with an element of it
    "foreign": lambda: "<w:p>%s</w:p>" % around(('<w:r xmlns:z="z"><z:y>', "</z:y></w:r>"), "<w:br/>", DEEPEST - BODY - 2),
    # former properties, of which one holds the elements
    "properties": lambda: "<w:p><w:pPr><w:pPrChange w:id=\"1\"><w:pPr>%s</w:pPr></w:pPrChange></w:pPr></w:p>"
    % around(("<w:tabs>", "</w:tabs>"), "<w:tab/>", DEEPEST - BODY - 5),
}

# between two paragraphs that are joined, so that they stand one deeper then
DEEP["joined"] = lambda: DELETED_MARK + around(("<w:smartTag>", "</w:smartTag>"), "", DEEPEST - BODY) + "<w:p/>"
DEEP["less"] = lambda: DELETED_MARK + around(("<w:smartTag>", "</w:smartTag>"), "", DEEPEST - BODY - 1) + "<w:p/>"

LONG = "l" * 300  # a prefix, which an end tag has too


def grown(size):
    """Pairs of paragraphs that are joined, of which the second one has no end tag before that."""
    front = FRONT.replace("<w:document ", '<w:document xmlns:%s="http://schemas.openxmlformats.org/wordprocessingml/2006/main" ' % LONG)
    last = "<w:p><w:r><w:t>%s</w:t></w:r></w:p>"
    times, rest = divmod(size - len(front + last % "" + BACK), len("<%s:p></%s:p>" % (LONG, LONG)))
    return front + (DELETED_MARK + "<%s:p/>" % LONG) * times + last % ("x" * rest) + BACK


HEAD = "redline-journal 1\ndocument %s\nrevisions 3\n" % hashlib.sha256(b"").hexdigest()
NAMES = "".join(' a%d=""' % i for i in range(200000))
TEXTS = {
    "deep": lambda: "<a>" * 8000000 + "</a>" * 8000000,
    "unclosed": lambda: "<a>" * 8000000 + "</a>" * 7999999,
    "wide": lambda: "<a>%s</a>" % ("<b/>" * 8000000),
    "attributes": lambda: "<a%s/>" % NAMES,
    "repeated": lambda: '<a%s a0=""/>' % NAMES,
    # the journal with one entry 4,000,000 times
    "entries": lambda: HEAD + "1\t1\taccept\tAnn\n" * 4000000,
    "entry": lambda: HEAD + "1\t1\taccept\tAnn\n",
}


def save(name, whole):
    with open(name, "w", encoding="utf-8", newline="\n") as file:
        file.write(whole)


def reviewed(paragraphs, entries, folder, has_ranks=False):
    whole = FRONT + "".join(map(paragraph, range(paragraphs))) + BACK
    save(folder + "/P", whole)
    for k in range(len(REVIEWERS)):
        save("%s/J%d" % (folder, k), journal(whole.encode(), 2 * paragraphs, entries, k, has_ranks))


def shape(name, scale=1.0):
    return FRONT + SHAPES[name](lambda count: max(1, int(count * scale))) + BACK


def main(form, value, *rest):
    if form in ("reviewed", "ranked"):
        reviewed(int(value), int(rest[0]), rest[1], form == "ranked")
        return
    made = {
        "document": lambda: document(int(value)),
        "script": lambda: document(int(rest[0]), SCRIPTS[value]),
        "package": lambda: package(int(value)),
        "changes": lambda: reviewed_package(int(value)),
        "nodes": lambda: nodes(int(value)),
        "shape": lambda: shape(value, *map(float, rest[1:])),
        "deep": lambda: FRONT + DEEP[value]() + BACK,
        "grown": lambda: grown(int(value)),
        "text": lambda: TEXTS[value](),
        "comments": lambda: commented(value),
        "numbered": lambda: numbered(value),
    }[form]()
    save(rest[1] if form == "script" else rest[0], made)


if __name__ == "__main__":
    main(*sys.argv[1:])
