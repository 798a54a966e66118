"""A second writer of the bare text of a package, as docs/DEFINITIONS.md tells it.

    python3 bare.py PACKAGE        the bare text, on standard output

It shares no code with the program. make.py makes by it what `text --view bare` is to write of the examples.
"""
import re
import sys

import reading
import texts

STORIES = {"document": "document", "hdr": "header", "ftr": "footer"}
NOTES = ("footnote", "endnote")
# What is round a unit, in the order of a line.
MARKS = ("ins", "del", "move-to", "move-from", "run-props")
TRACES = {"inserted": "ins", "deleted": "del", "to": "move-to", "from": "move-from"}
TEXTS = ("t", "delText", "instrText", "delInstrText")
CHARACTERS = {"tab": "\t", "br": "\n", "cr": "\n", "noBreakHyphen": "\u2011"}
OBJECTS = {
    "drawing": "picture", "pict": "picture", "object": "picture", "footnoteReference": "footnote", "endnoteReference": "endnote",
    "sym": "symbol", "ptab": "ptab", "softHyphen": "softHyphen",
}
FIELDS = ("begin", "separate", "end")
# How much of a field's code is looked at, and how many fields are counted in a result that is left out.
CODE, DEPTH = 64, 512
# What counts pages or tells the time.
COUNTED = (b"PAGE", b"NUMPAGES", b"SECTIONPAGES", b"DATE", b"TIME", b"SAVEDATE", b"PRINTDATE", b"CREATEDATE", b"EDITTIME")
ESCAPES = str.maketrans({"\\": "\\\\", "\t": "\\t", "\n": "\\n", "\r": "\\r"})


def escaped(text):
    return text.translate(ESCAPES)


def stamp(element):
    """Author and minute of a member."""
    minute = (element.attribute("date") or "").encode()[:16].decode(errors="ignore")
    return element.attribute("author") or "", minute


def mark(kind, element):
    """A mark, which has its place by what was done and by the bytes that are written, before its author and minute as they read."""
    author, date = (element.written_value(name) or "" for name in ("author", "date"))
    return (MARKS.index(kind), author.encode(), date.encode()[:16]) + stamp(element)


class Fields:
    """The code that is being read, if one is, and how many fields are open from one on whose result is left out."""

    def __init__(self):
        self.code, self.silent = None, 0

    def read(self, text):
        """Goes past text and says whether it is shown."""
        if self.code is not None:
            self.code = (self.code + text.encode())[:CODE]
        return self.silent == 0

    def meet(self, part):
        """Goes past a part of a field and says whether it is shown."""
        was_silent, counted = self.silent > 0, self.code is not None and is_counted(self.code)
        if part == "begin" and was_silent:
            self.silent = min(self.silent + 1, DEPTH)
        elif part == "begin":
            self.code = b""
        else:
            self.code = None
            if part == "end":
                self.silent = max(self.silent - 1, 0)
            elif counted:
                self.silent = 1
        return not was_silent or self.silent == 0


class Writer:
    """The lines so far, the last of which may be one of text that goes on."""

    def __init__(self):
        self.lines, self.marks, self.fields = [], None, Fields()

    def line(self, text):
        self.lines.append(text)
        self.marks = None

    def story(self, kind):
        """The begin of a story, in which no field goes on."""
        self.line("= " + kind)
        self.fields = Fields()

    def text(self, round_it, text):
        """Units of text, under the marks of what is round them."""
        if self.fields.read(text):
            self.put(round_it, escaped(text))

    def object(self, round_it, name):
        """A unit that is no character."""
        if self.fields.silent == 0:
            self.own_line(round_it, name)

    def part(self, round_it, part):
        """A part of a field."""
        if self.fields.meet(part):
            self.own_line(round_it, "field " + part)

    def own_line(self, round_it, name):
        """A unit with a line of its own, under the marks of what is round it."""
        self.line("%s*%s" % (fields(round_it), name))

    def put(self, round_it, text):
        if not text:
            return
        if round_it == self.marks:
            self.lines[-1] += text
        else:
            self.lines.append(fields(round_it) + "|" + text)
        self.marks = round_it


def fields(round_it):
    """The marks round a unit, in their order."""
    return "".join("%s\t%s\t%s\t" % (MARKS[one[0]], escaped(one[3]), escaped(one[4])) for one in sorted(round_it))


def run_change(run):
    """The change of the properties of a run, where it has one."""
    for props in reading.kids_named(run.kids, "rPr"):
        for change in reading.kids_named(props.kids, "rPrChange"):
            if change.role == "run-props":
                return change
    return None


def is_change_of_run(element):
    above = element.ancestors()
    return element.role == "run-props" and above[0].is_w("rPr") and above[1].is_w("r")


def is_counted(code):
    """Whether the first word of a field's code, before its switches, is one of these names."""
    return re.match(rb"[ \t\n\r]*([^ \t\n\r\\]*)", code).group(1).upper() in COUNTED


def put(writer, nodes, round_it):
    for node in nodes:
        if isinstance(node, reading.Element):
            put_element(writer, node, round_it)


def put_element(writer, element, round_it):
    local = element.local
    if element.space == "other" and local == "Fallback":
        return
    if element.role == "content":
        round_it = round_it | {mark(TRACES[element.trace], element)}
    elif element.role not in (None, "marker") and not is_change_of_run(element):
        author, minute = stamp(element)
        writer.line("+%s\t%s\t%s" % (reading.kind_name(element), escaped(author), escaped(minute)))
    is_w = element.space == "W" and reading.is_open(element) and not reading.is_quiet(element)
    if is_w and local == "r" and run_change(element) is not None:
        round_it = round_it | {mark("run-props", run_change(element))}
    if is_w:
        put_begin(writer, element, round_it)
    put(writer, element.kids, round_it)
    if is_w and local == "fldSimple":
        writer.part(round_it, "end")
    if is_w and local == "p":
        writer.own_line(round_it, "paragraph")


def put_begin(writer, element, round_it):
    """What an element shows at its place, before what it holds."""
    local = element.local
    if local in ("tr", "tc"):
        writer.own_line(round_it, {"tr": "row", "tc": "cell"}[local])
    elif local in TEXTS:
        writer.text(round_it, "".join(texts.shown(kid) for kid in element.kids if isinstance(kid, str)))
    elif local in CHARACTERS:
        writer.text(round_it, CHARACTERS[local])
    elif local in OBJECTS:
        writer.object(round_it, OBJECTS[local])
    elif local == "fldChar" and element.attribute("fldCharType") in FIELDS:
        writer.part(round_it, element.attribute("fldCharType"))
    elif local == "fldSimple":
        writer.part(round_it, "begin")
        writer.text(round_it, element.attribute("instr") or "")
        writer.part(round_it, "separate")


def named(package):
    """For each kind of notes the ids that references of the document have, in their order."""
    found = {kind: {} for kind in NOTES}
    for _, root in package.stories:
        if root.local == "document":
            for element in reading.elements(root.kids):
                if element.is_w(*(kind + "Reference" for kind in NOTES)):
                    found[element.local[: -len("Reference")]][element.written_value("id") or ""] = None
    return found


def inside(element, local):
    """The elements with this local name in an element of no namespace that is known."""
    return [kid for kid in element.kids if isinstance(kid, reading.Element) and kid.local == local]


def parts_of(package):
    """Each part of a package: its name and the root of its data, or None."""
    for root in package.nodes:
        for part in root.kids if isinstance(root, reading.Element) else ():
            if isinstance(part, reading.Element):
                roots = [kid for data in inside(part, "xmlData") for kid in data.kids if isinstance(kid, reading.Element)]
                yield part.attribute("name"), roots[0] if roots else None


def led(source, target):
    """The name to which a target leads from the part with the name `source`."""
    steps = [] if target.startswith("/") else source.split("/")[:-1]
    for step in target.split("/"):
        if step == "..":
            steps = steps[:-1]
        elif step != ".":
            steps.append(step)
    return "/".join(steps)


def targets(parts, source):
    """The numbers of the parts to which the relationships of a part lead, by their ids."""
    names = [name for name, _ in parts]
    folder, _, file = source.rpartition("/")
    own, found = "%s/_rels/%s.rels" % (folder, file), {}
    root = parts[names.index(own)][1] if own in names else None
    if root is not None and root.space == "other" and root.local == "Relationships":
        for one in inside(root, "Relationship"):
            if one.space == "other" and one.written_value("TargetMode") != "External":
                name = led(source, one.attribute("Target") or "")
                found.setdefault(one.written_value("Id") or "", names.index(name) if name in names else None)
    return found


def stories_in_order(package):
    """The document, and then the headers and footers in the order of their references, those without one at the end."""
    parts = list(parts_of(package))
    documents = [root for _, root in parts if root is not None and root.is_w("document")]
    leads = targets(parts, next(name for name, root in parts if root is documents[0]))
    yield from documents
    for local, reference in (("hdr", "headerReference"), ("ftr", "footerReference")):
        order = [leads.get(one.written_value("id") or "") for document in documents for one in reading.elements(document.kids) if one.is_w(reference)]
        for part in dict.fromkeys([one for one in order if one is not None] + list(range(len(parts)))):
            root = parts[part][1]
            if root is not None and root.is_w(local):
                yield root


def bare_text(package):
    """The bare text, as bytes."""
    writer, roots, ids = Writer(), [root for _, root in package.stories], named(package)
    for root in stories_in_order(package):
        writer.story(STORIES[root.local])
        put(writer, root.kids, frozenset())
    for kind in NOTES:
        notes = [note for root in roots for note in reading.kids_named(root.kids, kind) if note.attribute("type") is None]
        for ident in ids[kind]:
            for note in notes:
                if (note.written_value("id") or "") == ident:
                    writer.story(kind)
                    put(writer, note.kids, frozenset())
    return "".join(line + "\n" for line in writer.lines).encode()


if __name__ == "__main__":
    with open(sys.argv[1], newline="", encoding="utf-8") as file:
        sys.stdout.buffer.write(bare_text(reading.Package(file.read())))
