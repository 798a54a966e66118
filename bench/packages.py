"""Small packages that are made at random, and damage to bytes: what bench/fuzz calls the program with."""
import re

import make

MARKS = ("ins", "del", "moveFrom", "moveTo")


def small_package(pick):
    """A package of some paragraphs and tables, with revisions of every kind in one another, mostly sound."""
    count = iter(range(1, 1000000))

    def stamp():
        date = pick.choice(['w:date="2026-05-06T07:08:09Z"', 'w:date="2026-05-06T09:08:10.5+02:00"', 'w:date="soon"', ""])
        author = pick.choice(["Ann Gray", "Bob Hay", "Cara &amp; Lee", "&#x5A;oë", ""])
        return ' w:id="%d" w:author="%s" %s' % (next(count), author, date)

    def some(make_one, most):
        return "".join(make_one() for _ in range(pick.randint(0, most)))

    def maybe(chance, make_one):
        return make_one() if pick.random() < chance else ""

    def change(name, former):
        return "<w:%sChange%s>%s</w:%sChange>" % (name, stamp(), former, name)

    def run_props():
        former = "<w:rPr>%s</w:rPr>" % maybe(0.5, lambda: "<w:i/>")
        return "<w:rPr>%s%s</w:rPr>" % (maybe(0.5, lambda: "<w:b/>"), maybe(0.5, lambda: change("rPr", former)))

    def text():
        word = pick.choice(["fourteen ", "days", " a ]] b", "&gt; c", "&#8212;", "ü", "<!-- x -->", "<![CDATA[<y>]]>"])
        return "<w:%s>%s</w:%s>" % ((name := pick.choice(["t", "t", "delText", "delInstrText"])), word, name)

    def run(deep):
        inside = pick.choice([text, text, lambda: "<w:tab/>", lambda: box(deep)])()
        return "<w:r>%s%s</w:r>" % (maybe(0.3, run_props), inside)

    def box(deep):
        return "<w:pict><w:txbxContent>%s</w:txbxContent></w:pict>" % blocks(deep - 2) if deep > 2 else "<w:br/>"

    def content(deep):
        if deep <= 0 or pick.random() < 0.4:
            return run(deep)
        name = pick.choice(["ins", "del", "moveFrom", "moveTo", "ins", "del", "hyperlink", "smartTag", "move"])
        if name == "move":
            return move(deep)
        inside = some(lambda: content(deep - 1), 3)
        return "<w:%s%s>%s</w:%s>" % (name, stamp() if name in MARKS else "", inside, name)

    def move(deep):
        side, name, number = pick.choice(["From", "To"]), "move%d" % pick.randint(1, 2), next(count)
        start = '<w:move%sRangeStart w:id="%d" w:author="Ann Gray" w:name="%s"/>' % (side, number, name)
        inside = "<w:move%s%s>%s</w:move%s>" % (side, stamp(), run(deep), side)
        return start + inside + '<w:move%sRangeEnd w:id="%d"/>' % (side, number)

    def mark():
        name = pick.choice(MARKS)
        return "<w:rPr><w:%s%s/>%s</w:rPr>" % (name, stamp(), maybe(0.2, lambda: change("rPr", "<w:rPr/>")))

    def para_props():
        former = "<w:pPr>%s</w:pPr>" % maybe(0.5, lambda: '<w:jc w:val="left"/>')
        return "<w:pPr>%s%s%s</w:pPr>" % (maybe(0.3, lambda: "<w:keepNext/>"), maybe(0.5, mark), maybe(0.3, lambda: change("pPr", former)))

    def paragraph(deep):
        return "<w:p>%s%s</w:p>" % (maybe(0.5, para_props), some(lambda: content(deep), 4))

    def props(name, marks):
        of = pick.choice(marks)
        former = "<w:%s>%s</w:%s>" % (name, '<w:jc w:val="left"/>', name)
        return "<w:%s>%s%s</w:%s>" % (name, maybe(0.5, lambda: "<w:%s%s/>" % (of, stamp())), maybe(0.2, lambda: change(name, former)), name)

    def cell(deep):
        return "<w:tc>%s%s%s</w:tc>" % (maybe(0.4, lambda: props("tcPr", ["cellIns", "cellDel"])), blocks(deep - 3), paragraph(1))

    def wrapped(item, chance):
        return "<w:sdt><w:sdtContent>%s</w:sdtContent></w:sdt>" % item if pick.random() < chance else item

    def row(deep):
        cells = wrapped(cell(deep), 0.1) + some(lambda: cell(deep), 2)
        return "<w:tr>%s%s</w:tr>" % (maybe(0.4, lambda: props("trPr", ["ins", "del"])), cells)

    def table(deep):
        return "<w:tbl>%s</w:tbl>" % (wrapped(row(deep), 0.2) + some(lambda: row(deep), 2))

    def block(deep):
        if deep <= 0:
            return paragraph(1)
        kinds = [lambda: paragraph(deep)] * 4 + [lambda: table(deep), lambda: "\n<!-- between -->", lambda: wrapped(paragraph(deep), 1)]
        return pick.choice(kinds + [lambda: "<w:customXml>%s</w:customXml>" % blocks(deep - 1)])()

    def blocks(deep):
        return some(lambda: block(deep), 3)

    section = "<w:sectPr>%s</w:sectPr>" % change("sectPr", "<w:sectPr><w:cols/></w:sectPr>") if pick.random() < 0.2 else ""
    return (make.FRONT + "".join(block(4) for _ in range(pick.randint(1, 6))) + section + make.BACK).encode()


# A run that holds no other one, and codes of fields, of which some count pages or tell the time.
RUN = re.compile(rb"<w:r>(?:(?!</?w:r>|<w:txbx).)*</w:r>", re.S)
CODES = [b" PAGE ", b"page", b"NumPages\\* x", b" DATE \\@ &quot;x&quot;", b"REF a&amp;b", b"PAGEREF x", b"", b" ", b"SAVEDATEX"]


FIELD_PART = b'<w:r><w:fldChar w:fldCharType="%s"/></w:r>'


def with_fields(package, pick, plain=False):
    """The package with some of its runs in fields, of one element or of several. Where they aren't plain, some lack a part."""

    def field(found):
        if pick.random() > 0.2:
            return found.group()
        code = pick.choice(CODES)
        if pick.random() < 0.5:
            return b'<w:fldSimple w:instr="%s">%s</w:fldSimple>' % (code, found.group())
        begin, separate, end = (FIELD_PART % kind for kind in (b"begin", b"separate", b"end"))
        parts = (begin, b"<w:r><w:instrText>%s</w:instrText></w:r>" % code, separate, found.group(), end)
        return b"".join(part for part in parts if plain or pick.random() > 0.1)

    return RUN.sub(field, package)


PART = b'<pkg:part pkg:name="/word/%s.xml" pkg:contentType="x"><pkg:xmlData><w:%s xmlns:w="%s">%s</w:%s></pkg:xmlData></pkg:part>'
W_NAME = b"http://schemas.openxmlformats.org/wordprocessingml/2006/main"
PLAIN_IDS = [b' w:id="%d"' % number for number in range(1, 6)]
NOTE_IDS = PLAIN_IDS[:2] + [b" w:id='3'", b' w:x="y" w:id="4"', b' w:id="&#49;"', b' w:id=""', b""]


def with_notes(package, pick, plain=False):
    """The package with references in some of its runs, and with notes, of which some have no reference. Where they aren't plain, some
    have the same id, another part or none."""
    kinds, ids = [b"footnote", b"endnote"], PLAIN_IDS if plain else NOTE_IDS

    def reference(found):
        if pick.random() > 0.3:
            return found.group()
        return b"<w:r><w:%sReference%s/></w:r>%s" % (pick.choice(kinds), pick.choice(ids), found.group())

    def note(kind, ident):
        kind_of = b"" if plain or pick.random() > 0.2 else b' w:type="separator"'
        return b"<w:%s%s%s><w:p><w:r><w:t>note %d</w:t></w:r></w:p></w:%s>" % (kind, kind_of, ident, pick.randrange(99), kind)

    def part(root, kids):
        return PART % (root + b"%d" % pick.randrange(999), root, W_NAME, kids, root)

    parts = []
    for kind in kinds if plain else pick.choices(kinds, k=pick.randint(1, 3)):
        some = pick.sample(ids, pick.randint(0, 5)) if plain else pick.choices(ids, k=pick.randint(0, 5))
        parts.append(part(kind + b"s", b"".join(note(kind, ident) for ident in some)))
    parts += [part(root, b"<w:p/>") for root in pick.choices([b"hdr", b"ftr"], k=pick.randint(0, 2))]
    for one in parts:
        place = pick.choice([package.index(b"<pkg:part"), package.rindex(b"</pkg:package>")])
        package = package[:place] + one + package[place:]
    return RUN.sub(reference, package)


R_NAME = b"http://schemas.openxmlformats.org/officeDocument/2006/relationships"
LEADS = b'<pkg:part pkg:name="/word/_rels/document.xml.rels" pkg:contentType="x"><pkg:xmlData><Relationships>%s</Relationships></pkg:xmlData></pkg:part>'
# Ways to write the target of a part in the same folder, and targets that lead nowhere.
TARGETS = [b"%s.xml", b"/word/%s.xml", b"./%s.xml", b"../word/%s.xml", b"x/../%s.xml"]
WRONG_TARGETS = [b"%s", b"%s.xml/..", b"../%s.xml", b"//word/%s.xml"]


def with_headers(package, pick, plain=False):
    """The package with headers and footers, and with references to them in some of its runs. Where they aren't plain, some have no
    reference, no relationship or one that leads elsewhere, and some ids are there twice."""
    parts, leads = [], []
    for number in range(pick.randint(1, 6)):
        root = pick.choice([b"hdr", b"ftr"])
        name = root + b"%d" % number
        text = b"<w:p><w:r><w:t>%s %d</w:t></w:r></w:p>" % (root, number)
        parts.append(PART % (name, root, W_NAME, text, root))
        target = pick.choice(TARGETS[:2] if plain else TARGETS + WRONG_TARGETS) % name
        kind = b"header" if root == b"hdr" else b"footer"
        mode = b"" if plain or pick.random() > 0.1 else b' TargetMode="External"'
        ident = number if plain else pick.randrange(number + 1)
        leads.append((b'<Relationship Id="r%d" Type="%s/%s" Target="%s"%s/>' % (ident, R_NAME, kind, target, mode), kind, ident))
    named = leads if plain else pick.choices(leads, k=pick.randint(0, 6))
    pick.shuffle(named)
    references = b"".join(b'<w:%sReference xmlns:r="%s" w:type="default" r:id="r%d"/>' % (kind, R_NAME, ident) for _, kind, ident in named)
    parts += [LEADS % b"".join(lead for lead, _, _ in leads)] if plain or pick.random() > 0.1 else []
    pick.shuffle(parts)
    for one in parts:
        place = pick.choice([package.index(b"<pkg:part"), package.rindex(b"</pkg:package>")])
        package = package[:place] + one + package[place:]
    return package.replace(b"<w:body>", b"<w:body><w:p><w:pPr><w:sectPr>%s</w:sectPr></w:pPr></w:p>" % references, 1)


TAG = re.compile(rb"<[^<>]*>")


def elements_of(data):
    """Where the elements of a text begin, where their start tags end, where their end tags begin, and where they end."""
    found, open_ones = [], []
    for tag in TAG.finditer(data):
        if tag[0].startswith(b"</"):
            if open_ones:
                start = open_ones.pop()
                found.append((start.start(), start.end(), tag.start(), tag.end()))
        elif tag[0].endswith(b"/>"):
            found.append((tag.start(), tag.end(), tag.end(), tag.end()))
        elif not tag[0].startswith((b"<?", b"<!")):
            open_ones.append(tag)
    return found


def element_at(data, pick):
    """Where an element of the text begins and ends, or the whole text."""
    start, _, _, end = pick.choice(elements_of(data) or [(0, 0, 0, len(data))])
    return start, end


def damaged(data, others, pick):
    """The bytes with one damage."""
    at, to = sorted((pick.randrange(len(data) + 1), pick.randrange(len(data) + 1)))
    to = min(to, at + pick.choice([1, 8, 100, 10000]))
    first, last = element_at(data, pick)
    other = pick.choice(others)
    begin, end = element_at(other, pick)
    times = pick.choice([2, 3, 40, 600])
    opens, closes = pick.choice([(b'<w:ins w:id="1">', b"</w:ins>"), (b"<w:sdt><w:sdtContent>", b"</w:sdtContent></w:sdt>"), (b"<a>", b"</a>")])
    return pick.choice(
        [
            lambda: data[:at],  # cut off
            lambda: data[:at] + data[to:],  # cut out
            lambda: data[:at] + bytes([pick.randrange(256)]) + data[at + 1 :],  # flipped
            lambda: data[:at] + data[at:to] * min(times, 100000 // (to - at + 1) + 1) + data[to:],  # repeated
            lambda: data[:at] + other[pick.randrange(len(other) + 1) :],  # spliced
            lambda: data[:first] + data[last:],  # without an element
            lambda: data[:first] + data[first:last] * min(times, 20000 // (last - first + 1) + 2) + data[last:],
            lambda: data[:first] + other[begin:end] + data[first:],  # with an element of another one
            lambda: data[:first] + opens * times + data[first:last] + closes * times + data[last:],  # deepened
        ]
    )()
