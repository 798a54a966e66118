"""Writes a package anew as a word processor would: the same document with other runs, ids, rsids and order of attributes.

    python3 rewriter.py IN.xml OUT.xml SEED

Each by chance, drawn from the seed: runs and texts split, neighbouring runs of one look merged, rsids new and dropped, other
ids, attributes in another order, proofing marks, bookmarks and page breaks put in, neighbouring changes of one author and date
merged or split, properties that say nothing added, empty changes dropped, dates cut to the minute, other prefixes. Notes are
numbered and ordered as their references are, and those that nothing names are gone; headers and footers have other names and
come in another order, and those of no section are gone by chance. A field in one element becomes one in several, and pages and times are counted anew. The part that names the
program says that Word wrote it.
"""
import copy
import posixpath
import random
import re
import sys
from xml.etree import ElementTree
from xml.sax.saxutils import quoteattr

W = "http://schemas.openxmlformats.org/wordprocessingml/2006/main"
STRICT = "http://purl.oclc.org/ooxml/wordprocessingml/main"
PACKAGE = "http://schemas.microsoft.com/office/2006/xmlPackage"
EXTENDED = "http://schemas.openxmlformats.org/officeDocument/2006/extended-properties"
SPACE = "{http://www.w3.org/XML/1998/namespace}space"
STORIES = ("document", "hdr", "ftr", "footnotes", "endnotes", "comments")
PROPERTIES = ("pPr", "rPr", "sectPr", "tblPr", "trPr", "tcPr", "tblPrEx")
CONTENT = ("ins", "del", "moveFrom", "moveTo")
CHANGES = ("rPrChange", "pPrChange", "sectPrChange", "tblPrChange", "tblPrExChange", "trPrChange", "tcPrChange")
REVISIONS = CONTENT + CHANGES + ("cellIns", "cellDel")
NOTES = {"footnotes": "footnote", "endnotes": "endnote"}
RELATIONSHIPS = "http://schemas.openxmlformats.org/package/2006/relationships"
OFFICE_RELATIONSHIPS = (
    "http://schemas.openxmlformats.org/officeDocument/2006/relationships",
    "http://purl.oclc.org/ooxml/officeDocument/relationships",
)
RANGES = ("moveFromRangeStart", "moveFromRangeEnd", "moveToRangeStart", "moveToRangeEnd")
# The fields that count pages or tell the time.
COUNTED = ("PAGE", "NUMPAGES", "SECTIONPAGES", "DATE", "TIME", "SAVEDATE", "PRINTDATE", "CREATEDATE", "EDITTIME")
# What Word says of itself in the part docProps/app.xml.
APPLICATION = (
    '<pkg:part xmlns:pkg="%s" pkg:name="/docProps/app.xml" '
    'pkg:contentType="application/vnd.openxmlformats-officedocument.extended-properties+xml"><pkg:xmlData>'
    '<Properties xmlns="%s"><Application>Microsoft Office Word</Application></Properties></pkg:xmlData></pkg:part>'
) % (PACKAGE, EXTENDED)


def refill(element, kids):
    for kid in list(element):
        element.remove(kid)
    element.extend(kids)


def written(package):
    """The bytes of a package, with the namespaces of each part on its own root, since parts are files of their own."""
    out = ['<?xml version="1.0" encoding="UTF-8" standalone="yes"?>\n<pkg:package xmlns:pkg="%s">' % PACKAGE]
    for part in package:
        holder = part[0]
        out.append("<pkg:part %s>" % " ".join("pkg:%s=%s" % (key.rpartition("}")[2], quoteattr(value)) for key, value in part.attrib.items()))
        data = "".join(ElementTree.tostring(kid, encoding="unicode") for kid in holder) or holder.text or ""
        name = holder.tag.rpartition("}")[2]
        out.append("<pkg:%s>%s</pkg:%s></pkg:part>" % (name, data, name))
    return ("".join(out) + "</pkg:package>\n").encode()


class Rewriter:
    def __init__(self, seed):
        self.seed, self.random = seed, random.Random(seed)
        self.ids, self.ranges, self.space = 90000, {}, W
        self.to_the_minute = self.chance(0.5)

    def chance(self, share):
        return self.random.random() < share

    def name(self, local):
        return "{%s}%s" % (self.space, local)

    def local(self, element):
        return element.tag.rpartition("}")[2] if isinstance(element.tag, str) and element.tag.startswith("{" + self.space) else ""

    def rewritten(self, data):
        for name, space in (("pkg", PACKAGE), (self.random.choice(("w", "w", "wx")), W)):
            ElementTree.register_namespace(name, space)
        package = ElementTree.fromstring(data)
        for story in package.findall("{%s}part/{%s}xmlData/*" % (PACKAGE, PACKAGE)):
            space, _, local = story.tag[1:].partition("}")
            if space in (W, STRICT) and local in STORIES:
                self.space, self.ranges = space, {}
                self.container(story)
                self.count(story, [])
                for element in story.iter():
                    self.attributes(element)
        Numberer(package, self.seed).number()
        if package.find("{%s}part[@{%s}name='/docProps/app.xml']" % (PACKAGE, PACKAGE)) is None:
            package.append(ElementTree.fromstring(APPLICATION))
        return written(package)

    def attributes(self, element):
        local, ident, date = self.local(element), self.name("id"), self.name("date")
        if local in REVISIONS and ident in element.attrib:
            self.ids += self.random.randint(1, 9)
            element.set(ident, str(self.ids))
        if self.to_the_minute and date in element.attrib:
            element.set(date, re.sub(r"(T\d\d:\d\d):\d\d.*", r"\1:00Z", element.get(date)))
        if local in RANGES and ident in element.attrib:
            self.ids += 1
            element.set(ident, self.ranges.setdefault((local[:8], element.get(ident)), str(self.ids)))
        if local in ("p", "r", "tr", "sectPr"):
            for key in [one for one in element.attrib if "rsid" in one]:
                if self.chance(0.5):
                    del element.attrib[key]
            if self.chance(0.4):
                element.set(self.name("rsidR"), "%08X" % self.random.getrandbits(32))
        pairs = list(element.attrib.items())
        self.random.shuffle(pairs)
        element.attrib.clear()
        element.attrib.update(pairs)

    def container(self, element):
        for kid in list(element):
            self.container(kid)
        if self.local(element) not in PROPERTIES:
            self.fields(element)
            self.runs(element)
            self.changes(element)
            if self.local(element) == "p":
                self.noise(element)

    # Fields

    def fields(self, element):
        out = []
        for kid in list(element):
            out += self.in_several(kid) if self.local(kid) == "fldSimple" and self.chance(0.5) else [kid]
        refill(element, out)

    def in_several(self, field):
        """A field in one element, as one in several."""
        begin, separate, end = (self.run_of("fldChar", {self.name("fldCharType"): kind}) for kind in ("begin", "separate", "end"))
        code = self.run_of("instrText", {SPACE: "preserve"})
        code[0].text, end.tail = field.get(self.name("instr")) or "", field.tail
        return [begin, code, separate, *field, end]

    def run_of(self, local, attributes):
        run = ElementTree.Element(self.name("r"))
        ElementTree.SubElement(run, self.name(local), attributes)
        return run

    def count(self, element, fields):
        """Counts pages and times anew. Of each field that is open `fields` has the code, and whether its result has begun."""
        for kid in element:
            local, kind = self.local(kid), kid.get(self.name("fldCharType"))
            if local == "fldSimple":
                self.count(kid, fields + [[kid.get(self.name("instr")) or "", True]])
                continue
            if kind == "begin":
                self.meet(fields, "")
                fields.append(["", False])
            elif kind == "separate" and fields:
                fields[-1][1] = True
            elif kind == "end" and fields:
                fields.pop()
            elif local in ("instrText", "delInstrText"):
                self.meet(fields, (fields[-1][0] if fields else "") + (kid.text or ""))
            elif local in ("t", "delText") and kid.text and any(shows and is_counted(code) for code, shows in fields):
                kid.text = str(self.random.randint(1, 999))
            self.count(kid, fields)

    @staticmethod
    def meet(fields, code):
        """Gives the last field this code, where its code goes on. (A field in a code ends it.)"""
        if fields and not fields[-1][1]:
            fields[-1][0] = code

    # Runs

    def runs(self, element):
        merged = []
        for kid in list(element):
            for one in self.halves(kid) if self.local(kid) == "r" else [kid]:
                if merged and self.is_one_run(merged[-1], one):
                    merged[-1].extend([inner for inner in one if self.local(inner) != "rPr"])
                    merged[-1].tail = (merged[-1].tail or "") + (one.tail or "")
                else:
                    merged.append(one)
        refill(element, merged)

    def is_one_run(self, one, other):
        """Whether two neighbours are made one run, which they may be where they look alike and neither was changed."""
        if self.local(one) != "r" or self.local(other) != "r" or (one.tail or "").strip() or not self.chance(0.5):
            return False
        return self.look(one) == self.look(other) and b"Change" not in self.look(one)

    def look(self, run):
        return next((ElementTree.tostring(inner).strip() for inner in run if self.local(inner) == "rPr"), b"")

    def halves(self, run):
        """A run as it is, or split in two."""
        props = [one for one in run if self.local(one) == "rPr"]
        rest = [one for one in run if self.local(one) != "rPr"]
        for one in props:
            self.properties(one)
        if not rest or not self.chance(0.4):
            return [run]
        before, after = self.cut(rest, self.random.randrange(len(rest)))
        if not before:
            return [run]
        second = ElementTree.Element(run.tag, dict(run.attrib))
        second.tail, run.tail = run.tail, None
        second.extend([copy.deepcopy(one) for one in props])
        if self.chance(0.1):
            ElementTree.SubElement(second, self.name("lastRenderedPageBreak"))
        second.extend(after)
        refill(run, props + before)
        return [run, second]

    def cut(self, kids, place):
        """The kids before and after a place in one of them, whose text is cut where it can be."""
        one, text = kids[place], kids[place].text or ""
        if self.local(one) not in ("t", "delText", "instrText") or len(text) < 2 or len(one):
            return kids[:place], kids[place:]
        at = self.random.randint(1, len(text) - 1)
        left, right = copy.deepcopy(one), copy.deepcopy(one)
        left.text, right.text, left.tail, right.tail = text[:at], text[at:], None, None
        for half in (left, right):
            half.set(SPACE, "preserve")
        return kids[:place] + [left], [right] + kids[place + 1 :]

    def properties(self, props):
        if self.chance(0.2) and not any(self.local(kid) == "rPrChange" for kid in props):
            noise = ElementTree.SubElement(props, self.name(self.random.choice(("lang", "noProof"))))
            if self.local(noise) == "lang":
                noise.set(self.name("val"), "en-GB")
        for kid in props:
            if self.local(kid) == "b" and not kid.attrib and self.chance(0.3):
                kid.set(self.name("val"), "1")

    # Changes

    def changes(self, element):
        out = []
        for kid in list(element):
            if self.local(kid) not in CONTENT:
                out.append(kid)
            elif not len(kid) and not (kid.text or "").strip() and self.chance(0.5):
                if out:
                    out[-1].tail = (out[-1].tail or "") + (kid.tail or "")
            elif out and self.is_one_change(out[-1], kid):
                out[-1].extend(list(kid))
                out[-1].tail = kid.tail
            else:
                out += self.parts(kid)
        refill(element, out)

    def is_one_change(self, one, other):
        keys = (self.name("author"), self.name("date"))
        if one.tag != other.tag or (one.tail or "").strip() or [one.get(key) for key in keys] != [other.get(key) for key in keys]:
            return False
        return self.chance(0.7)

    def parts(self, change):
        """A change as it is, or split in two."""
        if len(change) < 2 or not self.chance(0.3):
            return [change]
        place, inner = self.random.randint(1, len(change) - 1), list(change)
        second = ElementTree.Element(change.tag, dict(change.attrib))
        second.tail, change.tail = change.tail, None
        refill(change, inner[:place])
        second.extend(inner[place:])
        return [change, second]

    # Marks of proofing and places

    def noise(self, paragraph):
        out = []
        for kid in list(paragraph):
            if self.local(kid) != "pPr" and self.chance(0.15):
                self.ids += 1
                if self.chance(0.5):
                    out.append(ElementTree.Element(self.name("proofErr"), {self.name("type"): "spellStart"}))
                else:
                    ident = {self.name("id"): str(self.ids)}
                    out.append(ElementTree.Element(self.name("bookmarkStart"), {**ident, self.name("name"): "_GoBack"}))
                    out.append(ElementTree.Element(self.name("bookmarkEnd"), ident))
            out.append(kid)
        refill(paragraph, out)


class Numberer:
    """Gives notes, headers and footers of a package other numbers, names and places, as whoever stores it does."""

    def __init__(self, package, seed):
        self.package, self.random = package, random.Random("notes %d" % seed)
        self.parts = {part.get("{%s}name" % PACKAGE): part for part in package}
        self.roots = {name: part[0][0] for name, part in self.parts.items() if part[0].tag.endswith("}xmlData") and len(part[0])}

    def number(self):
        for name, root in self.roots.items():
            if local_of(root) == "document":
                for notes, note in NOTES.items():
                    self.notes(root, notes, note)
                self.headers(name, root)

    def notes(self, document, notes, note):
        """Notes in the order of their references, under new ids, which may change places with one another."""
        kept = [one for root in self.roots.values() if local_of(root) == notes for one in list(root) if is_plain_note(one, note)]
        references = [one for one in document.iter() if local_of(one) == note + "Reference"]
        holders = [root for root in self.roots.values() if local_of(root) == notes]
        if len(holders) != 1 or not all(ident(one) for one in kept + references):
            return
        named = list(dict.fromkeys(ident(one) for one in references))
        news = {old: str(place) for place, old in enumerate(named, self.random.randint(1, 3))}
        for one in references:
            set_ident(one, news[ident(one)])
        for one in kept:
            holders[0].remove(one)
        found = [one for old in named for one in kept if ident(one) == old]
        for one in found:
            set_ident(one, news[ident(one)])
        if self.random.random() < 0.3:
            self.random.shuffle(found)
        holders[0].extend(found)

    def headers(self, name, document):
        """Other names for the parts of headers and footers, other ids of their relationships, and another order of parts.

        Those that no section refers to are gone, or stay.
        """
        folder, file = posixpath.split(name)
        relationships = self.roots.get("%s/_rels/%s.rels" % (folder, file), ())
        parts, news = [(one, self.header_of(one, folder)) for one in relationships], {}
        references = [one for one in document.iter() if local_of(one) in ("headerReference", "footerReference")]
        keys = ["{%s}id" % space for space in OFFICE_RELATIONSHIPS]
        referred = {one.get(key) for one in references for key in keys}
        shown = [part for one, part in parts if one.get("Id") in referred]
        for one, part in parts:
            if part is None:
                continue
            if part not in shown and self.random.random() < 0.5:
                self.leave_out(part, one, relationships)
            else:
                self.rename(part, one, news, folder)
        for one in references:
            for key in keys:
                if one.get(key) in news:
                    one.set(key, news[one.get(key)])
        self.shuffle()

    def header_of(self, relationship, folder):
        """The part of a header or footer to which a relationship leads, or None."""
        if relationship.get("Type", "").rpartition("/")[2] not in ("header", "footer") or relationship.get("TargetMode") == "External":
            return None
        return self.parts.get(posixpath.normpath(posixpath.join(folder, relationship.get("Target"))))

    def leave_out(self, part, relationship, relationships):
        relationships.remove(relationship)
        own = self.parts.get("%s/_rels/%s.rels" % posixpath.split(part.get("{%s}name" % PACKAGE)))
        for one in (part, own):
            if one is not None and one in list(self.package):
                self.package.remove(one)

    def rename(self, part, relationship, news, folder):
        name = part.get("{%s}name" % PACKAGE)
        if name in self.parts:
            kind = relationship.get("Type").rpartition("/")[2]
            file = "%s%d.xml" % (kind, 50 + len(news) if self.random.random() < 0.5 else 90 - len(news))
            part.set("{%s}name" % PACKAGE, posixpath.join(folder, file))
            own = self.parts.get("%s/_rels/%s.rels" % posixpath.split(name))
            if own is not None:
                own.set("{%s}name" % PACKAGE, "%s/_rels/%s.rels" % (folder, file))
        news[relationship.get("Id")] = "rId%d" % (700 + len(news))
        relationship.set("Id", news[relationship.get("Id")])
        relationship.set("Target", posixpath.basename(part.get("{%s}name" % PACKAGE)))

    def shuffle(self):
        """The parts of headers and footers in another order, in the places of such parts."""
        parts = list(self.package)
        places = [place for place, part in enumerate(parts) if len(part[0]) and local_of(part[0][0]) in ("hdr", "ftr")]
        drawn = self.random.sample(places, len(places))
        refill(self.package, [parts[drawn[places.index(place)]] if place in places else part for place, part in enumerate(parts)])


def is_counted(code):
    return re.match(r"\s*([^\s\\]*)", code).group(1).upper() in COUNTED


def local_of(element):
    space, _, local = element.tag[1:].partition("}") if isinstance(element.tag, str) else ("", "", "")
    return local if space in (W, STRICT) else ""


def is_plain_note(element, note):
    return local_of(element) == note and element.get("{%s}type" % element.tag[1:].partition("}")[0]) is None


def ident(element):
    return element.get("{%s}id" % element.tag[1:].partition("}")[0])


def set_ident(element, value):
    element.set("{%s}id" % element.tag[1:].partition("}")[0], value)


def rewritten(data, seed):
    return Rewriter(seed).rewritten(data)


if __name__ == "__main__":
    with open(sys.argv[1], "rb") as file:
        made = rewritten(file.read(), int(sys.argv[3]))
    with open(sys.argv[2], "wb") as file:
        file.write(made)
