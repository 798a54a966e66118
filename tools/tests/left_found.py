"""What is left in packages, found again with lxml and compared with what the program writes.

    python3 left_found.py PROGRAM FOLDER EXAMPLE ..

It reads the packages that are named, and makes others: with each fact once, by chance, without comments, with ids that come
twice, and with 100,000 comments. Of tracked changes it only knows how many there are. Each case is a line, as common has it.
"""
import collections
import json
import os
import posixpath
import random
import subprocess
import sys
from xml.sax.saxutils import escape, quoteattr

from lxml import etree

W = ("http://schemas.openxmlformats.org/wordprocessingml/2006/main", "http://purl.oclc.org/ooxml/wordprocessingml/main")
PKG = "http://schemas.microsoft.com/office/2006/xmlPackage"
CHANGES = "r p sect tbl tblEx tr tc".split()
RANGES = ["customXml%sRange%s" % (what, end) for what in ("Ins", "Del", "MoveFrom", "MoveTo") for end in ("Start", "End")]
DECIDED = {"ins", "del", "moveFrom", "moveTo", "cellIns", "cellDel", *("tblPrExChange" if it == "tblEx" else it + "PrChange" for it in CHANGES)}
OTHERS = {"numberingChange", "tblGridChange", "cellMerge", *RANGES}
MARKERS = {"moveFromRangeStart", "moveFromRangeEnd", "moveToRangeStart", "moveToRangeEnd"}
LEADS = {"oleObject": "embedded", "package": "embedded", "customXml": "custom-xml", "customXmlProps": "custom-xml"}
PROPERTIES = {
    ("coreProperties", "creator"): "creator",
    ("coreProperties", "lastModifiedBy"): "last-editor",
    ("coreProperties", "title"): "title",
    ("coreProperties", "subject"): "subject",
    ("Properties", "Manager"): "manager",
    ("Properties", "Company"): "company",
}


def value_of(element, local):
    for name, value in element.attrib.items():
        if etree.QName(name).localname == local:
            return value
    return None


def is_on(element):
    return value_of(element, "val") not in ("0", "false", "off")


class Found:
    """The facts of a package as counts of fact, part and value, and how many marks of tracked changes there are."""

    def __init__(self, path):
        parser = etree.XMLParser(huge_tree=True, remove_comments=True, remove_pis=True)
        self.root = etree.parse(path, parser).getroot()
        self.facts, self.marks, self.markers = collections.Counter(), 0, 0
        words = [it for it in self.root.iter() if etree.QName(it).namespace in W]
        ids = lambda *locals: {value_of(it, "id") for it in words if etree.QName(it).localname in locals}
        self.commented = ids("commentReference")
        self.noted = {note: ids(note + "Reference") for note in ("footnote", "endnote")}
        self.authors = {value_of(it, "author") for it in words} - {None, ""}
        self.led = {part: fact for fact, part in self.leads()}
        self.texts(self.root, "")
        for part in self.root:
            self.part(part)

    def leads(self):
        """The facts that relationships make of parts, and the names of these parts."""
        for element in self.root.iter("{*}Relationship"):
            part = value_of(next(it for it in element.iterancestors("{%s}part" % PKG)), "name")
            source = posixpath.dirname(posixpath.dirname(part))
            kind = (value_of(element, "Type") or "").rpartition("/")[2]
            if kind in LEADS and value_of(element, "TargetMode") != "External":
                yield LEADS[kind], posixpath.normpath(posixpath.join(source, value_of(element, "Target")))

    def add(self, fact, part, value=""):
        self.facts[fact, part, value] += 1

    def texts(self, element, part):
        for name, value in element.attrib.items():
            if etree.QName(name).localname != "author" and value in self.authors:
                self.add("name", part, value)
        for text in [element.text, *(kid.tail for kid in element)]:
            if text in self.authors:
                self.add("name", part, text)

    def part(self, part):
        name, kind = value_of(part, "name"), value_of(part, "contentType") or ""
        if self.led.get(name) == "embedded" or name.startswith("/word/embeddings/") or kind == "application/vnd.openxmlformats-officedocument.oleObject":
            self.add("embedded", name)
        elif kind.startswith("application/vnd.ms-office.vbaProject") or kind == "application/vnd.ms-word.vbaData+xml":
            self.add("macros", name)
        elif self.led.get(name) == "custom-xml" or name.startswith("/customXml/"):
            self.add("custom-xml", name)
        for element in part.iter():
            self.texts(element, name)
            if etree.QName(element).namespace in W:
                self.word(element, etree.QName(element).localname, name)
            elif element is not part:
                self.other(element, etree.QName(element).localname, etree.QName(element.getparent()).localname, name)

    def word(self, element, local, part):
        author = value_of(element, "author")
        if local in DECIDED | OTHERS:
            self.marks += 1
            if local in OTHERS:
                self.add("undecided", part, local + (" " + author if author is not None else ""))
        elif local in MARKERS:
            self.markers += 1
        elif local == "comment":
            self.add("comment" if value_of(element, "id") in self.commented else "orphan", part, author or "")
        elif local == "commentReference":
            self.add("comment-mark", part)
        elif local in self.noted and etree.QName(element.getparent()).localname == local + "s":
            if value_of(element, "type") in (None, "normal") and value_of(element, "id") not in self.noted[local]:
                self.add("unused-" + local, part)
        elif local == "vanish" and is_on(element):
            self.add("hidden-text", part)
        elif local == "trackRevisions" and is_on(element):
            self.add("tracking", part)
        elif local in ("documentProtection", "writeProtection"):
            self.add("protection", part)
        elif local in ("rsid", "rsidRoot"):
            self.add("rsid", part)
        elif local in ("p", "r", "tr", "sectPr") and any(etree.QName(it).localname.startswith("rsid") for it in element.attrib):
            self.add("rsid", part)
        elif local == "docVar":
            self.add("variable", part, value_of(element, "name") or "")
        elif local == "mailMerge":
            self.add("mail-merge", part)

    def other(self, element, local, parent, part):
        text = (element.text or "") if not len(element) else ""
        if (parent, local) in PROPERTIES:
            if text:
                self.add(PROPERTIES[parent, local], part, text)
        elif (parent, local) == ("people", "person"):
            self.add("person", part, value_of(element, "author") or "")
        elif (parent, local) == ("Properties", "property"):
            held = (element[0].text or "") if len(element) and not len(element[0]) else ""
            self.add("custom-property", part, (value_of(element, "name") or "") + (": " + held if held else ""))
        elif (parent, local) == ("Relationships", "Relationship") and value_of(element, "TargetMode") == "External":
            self.add("external", part, value_of(element, "Target") or "")


def told(program, path):
    """The same of what the program writes."""
    out = subprocess.run([program, "left", path, "--format", "json"], capture_output=True, timeout=60, check=True).stdout
    facts, marks, loose = collections.Counter(), 0, 0
    for line in json.loads(out):
        fact, value, count = line["fact"], line["value"], line["count"]
        kind = fact.partition("-")
        if kind[0] in ("ins", "del", "move", "mark", "row", "cell") or kind[2] == "props" or fact == "undecided":
            marks += count
        if fact == "loose-marker":
            loose += count
        elif fact == "undecided" and value.split(" ")[0] in OTHERS:
            facts[fact, line["part"], value] += count
        elif not (kind[0] in ("ins", "del", "move", "mark", "row", "cell") or kind[2] == "props" or fact == "undecided"):
            facts[fact, line["part"], value] += count
    return facts, marks, loose


def compare(name, program, path):
    found = Found(path)
    facts, marks, loose = told(program, path)
    wrong = []
    if facts != found.facts:
        wrong.append("too many %r, missing %r" % (list((facts - found.facts).items())[:3], list((found.facts - facts).items())[:3]))
    if marks != found.marks:
        wrong.append("%d marks and not %d" % (marks, found.marks))
    if loose > found.markers:
        wrong.append("%d loose markers of %d" % (loose, found.markers))
    print("FAILED %s: %s" % (name, "; ".join(wrong)) if wrong else "ok %s" % name)
    return found.facts


# Packages


def part(name, kind, inside):
    return '<pkg:part pkg:name="%s" pkg:contentType="%s"><pkg:xmlData>%s</pkg:xmlData></pkg:part>' % (name, kind, inside)


def word(root, inside):
    return '<w:%s xmlns:w="%s">%s</w:%s>' % (root, W[0], inside, root)


def package(*parts):
    return '<?xml version="1.0"?><pkg:package xmlns:pkg="%s">%s</pkg:package>' % (PKG, "".join(parts))


class Chance:
    """A package by chance, of authors, ids and values that meet one another."""

    def __init__(self, seed):
        self.by = random.Random(seed)
        self.names = self.by.sample(["Ann", "Bob Hay", "Cy & Co", "O'Neil", '"D"', "\u00c9va", "normal", "1", "w:p"], 4)

    def author(self):
        return " w:author=%s" % quoteattr(self.by.choice(self.names)) if self.by.random() < 0.9 else ""

    def id(self):
        return ' w:id="%d"' % self.by.randrange(6)

    def text(self):
        return escape(self.by.choice([*self.names, *self.names, "a b", "", "Ann and Bob Hay", " Ann"]))

    def run(self):
        by = self.by
        inside = by.choice(["<w:t>%s</w:t>" % self.text(), "<w:commentReference%s/>" % self.id(), "<w:footnoteReference%s/>" % self.id(),
            "<w:endnoteReference%s/>" % self.id(), "<w:tab/>", "<w:t><![CDATA[%s]]></w:t>" % self.text().replace("&amp;", "&")])
        props = by.choice(["", "", "<w:rPr><w:vanish/></w:rPr>", '<w:rPr><w:vanish w:val="%s"/></w:rPr>' % by.choice(["0", "false", "off", "1", "on"])])
        return "<w:r%s>%s%s</w:r>" % (by.choice(["", ' w:rsidR="00A1"', ' w:rsidRPr="00A2"']), props, inside)

    def content(self):
        by = self.by
        runs = "".join(self.run() for _ in range(by.randrange(3)))
        return by.choice([runs, "<w:ins%s%s>%s</w:ins>" % (self.id(), self.author(), runs), "<w:commentRangeStart%s/>" % self.id(),
            "<w:%s%s%s/>" % (by.choice(RANGES), self.id(), self.author()), "<w:moveToRangeStart%s%s/>" % (self.id(), self.author())])

    def para(self):
        by = self.by
        numbers = by.choice(["", "", "<w:numPr><w:ins%s%s/></w:numPr>" % (self.id(), self.author()),
            "<w:numPr><w:numberingChange%s%s/></w:numPr>" % (self.id(), self.author())])
        return "<w:p%s>%s%s</w:p>" % (by.choice(["", ' w:rsidP="00A3"']), "<w:pPr>%s</w:pPr>" % numbers if numbers else "",
            "".join(self.content() for _ in range(by.randrange(4))))

    def notes(self, note):
        kinds = ["", "", ' w:type="normal"', ' w:type="separator"']
        return "".join("<w:%s%s%s>%s</w:%s>" % (note, self.by.choice(kinds), " w:id=\"%d\"" % number, self.para(), note) for number in range(self.by.randrange(6)))

    def whole(self):
        by, parts = self.by, []
        maybe = lambda *more: parts.extend(more) if by.random() < 0.6 else None
        main = part("/word/document.xml", "m", word("document", "<w:body>%s</w:body>" % "".join(self.para() for _ in range(by.randrange(1, 6)))))
        maybe(part("/word/comments.xml", "c", word("comments", "".join("<w:comment%s%s>%s</w:comment>" % (self.id(), self.author(), self.para()) for _ in range(by.randrange(5))))))
        maybe(part("/word/footnotes.xml", "f", word("footnotes", self.notes("footnote"))))
        maybe(part("/word/endnotes.xml", "e", word("endnotes", self.notes("endnote"))))
        maybe(part("/word/settings.xml", "s", word("settings", by.choice(["<w:trackRevisions/>", '<w:trackRevisions w:val="off"/>']) + "<w:documentProtection/>"
            '<w:mailMerge/><w:docVars><w:docVar w:name="n" w:val=%s/></w:docVars><w:rsids><w:rsidRoot w:val="1"/><w:rsid w:val="2"/></w:rsids>' % quoteattr(by.choice(self.names)))))
        maybe(part("/docProps/core.xml", "k", '<c:coreProperties xmlns:c="c" xmlns:d="d"><d:creator>%s</d:creator><d:title>%s</d:title><c:lastModifiedBy>%s</c:lastModifiedBy></c:coreProperties>'
            % (self.text(), self.text(), self.text())))
        maybe(part("/docProps/custom.xml", "k", '<Properties xmlns="p" xmlns:v="v"><property name="Client"> <v:lpwstr>%s</v:lpwstr></property><property/></Properties>' % self.text()))
        maybe(part("/word/people.xml", "p", '<o:people xmlns:o="o"><o:person o:author="Ann"/><o:person o:author=%s/></o:people>' % quoteattr(by.choice(self.names))))
        leads = [("oleObject", "objects/a.bin"), ("package", "/objects/b.bin"), ("customXml", "../data/c.xml"), ("customXmlProps", "../data/d.xml"), ("image", "objects/e.bin")]
        tails = ["", "", ' TargetMode="External"']
        maybe(part("/word/_rels/document.xml.rels", "r", '<Relationships xmlns="r"><Relationship Target="a" TargetMode="External"/><Relationship Target="b"/>%s</Relationships>'
            % "".join('<Relationship Type="t/%s" Target="%s"%s/>' % (*lead, by.choice(tails)) for lead in leads if by.random() < 0.7)))
        maybe(*(part(name, "x", "<x/>") for name in ("/word/objects/a.bin", "/objects/b.bin", "/data/c.xml", "/data/d.xml", "/word/objects/e.bin")))
        maybe(part("/customXml/item1.xml", "x", "<x/>"), part("/word/embeddings/a.bin", "x", "<x/>"))
        return package(main, *parts)


def many_comments(count):
    """So many comments, of which each second one is named, and each tenth id comes twice."""
    comments = "".join('<w:comment w:id="%d" w:author="A%d"><w:p/></w:comment>' % (number - (number % 10 == 9), number % 1000) for number in range(count))
    runs = "".join('<w:r><w:commentReference w:id="%d"/></w:r>' % number for number in range(0, count, 2))
    return package(part("/word/document.xml", "m", word("document", "<w:body><w:p>%s</w:p></w:body>" % runs)), part("/word/comments.xml", "c", word("comments", comments)))


def main(program, folder, *paths):
    for path in paths:
        compare("left of %s" % os.path.basename(path), program, path)
    kinds, made = set(), os.path.join(folder, "left.xml")

    def check(name, text):
        with open(made, "w", encoding="utf-8", newline="") as file:
            file.write(text)
        return {fact for fact, _, _ in compare(name, program, made)}

    for seed in range(200):
        kinds |= check("left of a package by chance, %d" % seed, Chance(seed).whole())
    check("left without comments", package(part("/word/document.xml", "m", word("document", '<w:body><w:p><w:r><w:commentReference w:id="1"/></w:r></w:p></w:body>'))))
    check("left of 100,000 comments", many_comments(100000))
    missing = {"comment", "orphan", "unused-footnote", "unused-endnote", "name", "custom-property", "creator", "undecided", "embedded", "custom-xml"} - kinds
    print("FAILED chance: it made no %s" % missing if missing else "ok each of these facts came up")


if __name__ == "__main__":
    main(*sys.argv[1:])
