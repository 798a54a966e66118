"""What a document still holds that a reader doesn't see, by a second reading of docs/DEFINITIONS.md (see reading.py).

    python3 left.py PACKAGE [text|json]
"""
import json
import re
import sys

import bare
import reading
import texts

FACTS = (
    "ins del move-from move-to mark-ins mark-del mark-from mark-to row-ins row-del cell-ins cell-del run-props para-props "
    "sect-props table-props except-props row-props cell-props undecided loose-marker comment orphan comment-mark "
    "unused-footnote unused-endnote hidden-text tracking "
    "protection rsid creator last-editor title subject manager company person custom-property variable mail-merge external "
    "embedded macros custom-xml name"
).split()
RANGES = ["customXml%sRange%s" % (what, end) for what in ("Ins", "Del", "MoveFrom", "MoveTo") for end in ("Start", "End")]
MARKS = {"numberingChange", "tblGridChange", "cellMerge", "cellIns", "cellDel", *RANGES, *reading.CONTENT, *reading.CHANGES}
OFF = {"0", "false", "off"}
CORE = {"creator": "creator", "lastModifiedBy": "last-editor", "title": "title", "subject": "subject"}
EXTENDED = {"Manager": "manager", "Company": "company"}
PLACES = {
    "commentReference": "comment-mark",
    "footnoteReference": "unused-footnote",
    "endnoteReference": "unused-endnote",
}
NOTES = {"footnote": "unused-footnote", "endnote": "unused-endnote"}
# How the types of relationships end that lead to parts of a kind.
LEADS = {"/oleObject": "embedded", "/package": "embedded", "/customXml": "custom-xml", "/customXmlProps": "custom-xml"}
MACROS = "application/vnd.ms-office.vbaProject"
VBA_DATA = "application/vnd.ms-word.vbaData+xml"
OLE_OBJECT = "application/vnd.openxmlformats-officedocument.oleObject"


def made(element):
    """The local name of a mark, and its author."""
    author = element.attribute("author")
    return element.local if author is None else element.local + " " + author


def alone(element):
    """What an element shows that holds no other."""
    if any(isinstance(kid, reading.Element) for kid in element.kids):
        return ""
    return texts.shown("".join(element.kids))


def named_in(package):
    """Which ids elements name of comments, footnotes and endnotes, those of separators too, and who is named as an author."""
    named = {fact: set() for fact in [*PLACES.values(), "name"]}
    for element in reading.elements(package.nodes):
        fact = PLACES.get(element.local)
        if element.local in NOTES and element.attribute("type") not in (None, "normal"):
            fact = NOTES[element.local]
        if element.space != "W":
            continue
        if fact is not None and element.attribute("id") is not None:
            named[fact].add(element.attribute("id"))
        elif element.attribute("author") is not None:
            named["name"].add(element.attribute("author"))
    return named


def led_to(package):
    """To which parts relationships lead that make them embedded or custom XML. They are in the folder `_rels` beside their source."""
    led = {fact: set() for fact in LEADS.values()}
    for part, root in bare.parts_of(package):
        parents = reading.elements([root]) if root is not None else ()
        for one in (kid for parent in parents if parent.local == "Relationships" for kid in bare.inside(parent, "Relationship")):
            ends = [end for end in LEADS if one.space == "other" and (one.attribute("Type") or "").endswith(end)]
            if ends and one.attribute("TargetMode") != "External":
                led[LEADS[ends[0]]].add(bare.led(part.rpartition("/")[0], one.attribute("Target") or ""))
    return led


def is_spare(element, ids):
    """Nothing names an element of a note or of a comment; separators of notes aren't asked for."""
    return element.attribute("type") in (None, "normal") and element.attribute("id") not in ids


def word_find(element, named):
    """The fact and the value of an element of WordprocessingML that is in no revision, or None."""
    local, value = element.local, element.attribute
    if local in MARKS:
        return "undecided", made(element)
    if local in reading.MARKERS:
        return "loose-marker", made(element)
    if local == "comment":
        return "orphan" if is_spare(element, named["comment-mark"]) else "comment", value("author") or ""
    if local == "commentReference":
        return "comment-mark", ""
    if local in NOTES:
        return (NOTES[local], "") if is_spare(element, named[NOTES[local]]) else None
    if local == "vanish" and value("val") not in OFF:
        return "hidden-text", ""
    if local == "trackRevisions" and value("val") not in OFF:
        return "tracking", ""
    if local in ("documentProtection", "writeProtection"):
        return "protection", ""
    if local in ("rsid", "rsidRoot"):
        return "rsid", ""
    if local in ("p", "r", "tr", "sectPr") and any(name.startswith("rsid") for name, _ in attributes_of(element)):
        return "rsid", ""
    if local == "docVar":
        return "variable", value("name") or ""
    return ("mail-merge", "") if local == "mailMerge" else None


def attributes_of(element):
    """The local names and the decoded values of the attributes."""
    found = re.findall(r"""([\w:.-]+)\s*=\s*(["'])(.*?)\2""", element.tail, re.S)
    return [(name.rpartition(":")[2], reading.decoded(value)) for name, _, value in found]


def held(element):
    """The name of a custom property, and after a colon what the first element in it shows."""
    first = next((alone(kid) for kid in element.kids if isinstance(kid, reading.Element)), "")
    return (element.attribute("name") or "") + (": " + first if first else "")


def other_find(element, parent):
    """The same of an element of another namespace."""
    shown = {"coreProperties": CORE, "Properties": EXTENDED}.get(parent, {}).get(element.local)
    if shown:
        return (shown, alone(element)) if alone(element) else None
    if (parent, element.local) == ("people", "person"):
        return "person", element.attribute("author") or ""
    if (parent, element.local) == ("Properties", "property"):
        return "custom-property", held(element)
    if (parent, element.local) == ("Relationships", "Relationship") and element.attribute("TargetMode") == "External":
        return "external", element.attribute("Target") or ""
    return None


def part_find(element, led):
    """The same of a part."""
    name, kind = element.attribute("name"), element.attribute("contentType") or ""
    if name in led["embedded"] or name.startswith("/word/embeddings/") or kind == OLE_OBJECT:
        return "embedded", ""
    if kind.startswith(MACROS) or kind == VBA_DATA:
        return "macros", ""
    return ("custom-xml", "") if name in led["custom-xml"] or name.startswith("/customXml/") else None


def found(element, parent, named):
    if element.role == "marker":
        return None
    if element.role is not None:
        return reading.kind_name(element), ""
    if element.is_w(element.local):
        return word_find(element, named)
    return other_find(element, parent) if element.space == "other" else None


def left(package):
    """The lines, as lists of fact, count, part and value."""
    tables, named, led = {fact: [] for fact in FACTS}, named_in(package), led_to(package)

    def note(find, part):
        if find is None:
            return
        fact, value = find
        lines = tables[fact]
        if lines and lines[-1][2:] == [part, value]:
            lines[-1][1] += 1
        else:
            lines.append([fact, 1, part, value])

    def note_names(texts, part):
        for text in texts:
            note(("name", text) if text and text in named["name"] else None, part)

    def look(nodes, part, parent, depth):
        for kid in nodes:
            if not isinstance(kid, reading.Element):
                note_names([texts.shown(kid)], part)
                continue
            inner = kid.attribute("name") if depth == 1 else part
            note(part_find(kid, led) if depth == 1 else found(kid, parent, named), inner)
            note_names([value for name, value in attributes_of(kid) if name != "author"], inner)
            look(kid.kids, inner, kid.local, depth + 1)

    look(package.nodes, "", "", 0)
    return [line for fact in FACTS for line in tables[fact]]


def undecided(package):
    """How many marks no revision holds."""
    return sum(line[1] for line in left(package) if line[0] == "undecided")


def written(package, form):
    """What `left` writes of a package."""
    lines = left(package)
    if form == "json":
        rows = [{"count": count, "fact": fact, "part": part, "value": value} for fact, count, part, value in lines]
        return json.dumps(rows, ensure_ascii=False, separators=(",", ":")) + "\n"
    masked = reading.masked
    return "".join("%-15s %7d %s%s\n" % (fact, count, masked(part), ": " + masked(value) if value else "") for fact, count, part, value in lines)


if __name__ == "__main__":
    with open(sys.argv[1], newline="", encoding="utf-8-sig") as file:
        sys.stdout.write(written(reading.Package(file.read()), sys.argv[2] if len(sys.argv) > 2 else "text"))
