"""The elements of well-formed XML with the places of their bytes, without a change of any of them.

What is read was called sound by redline before, so it is well-formed, has namespaces and no document type declaration.
"""
from opc.xml import end_of_tag

# The names of the spaces that are asked for, each in a word. Another space is the word "".
SPACES = {
    b"http://schemas.openxmlformats.org/wordprocessingml/2006/main": "w",
    b"http://purl.oclc.org/ooxml/wordprocessingml/main": "w",
    b"http://schemas.microsoft.com/office/2006/xmlPackage": "pkg",
    b"http://schemas.openxmlformats.org/officeDocument/2006/relationships": "r",
    b"http://purl.oclc.org/ooxml/officeDocument/relationships": "r",
}
BLANKS = b" \t\r\n"
REFERENCES = {"lt": "<", "gt": ">", "amp": "&", "quot": '"', "apos": "'"}


class Scope:
    """The prefixes that are declared at a place, and each name that was looked up there."""

    def __init__(self, prefixes):
        self.prefixes, self.names = prefixes, {}

    def look_up(self, name):
        """The word of a name's space, and its local name."""
        found = self.names.get(name)
        if found is None:
            prefix, _, local = name.rpartition(b":")
            found = self.names[name] = (self.prefixes.get(prefix, ""), local.decode())
        return found

    def with_declared(self, attributes):
        """The scope in an element with these attributes."""
        prefixes = dict(self.prefixes)
        for name, value, _, _ in attributes:
            if name == b"xmlns" or name.startswith(b"xmlns:"):
                prefixes[name[6:]] = SPACES.get(text_of(value).encode(), "")
        return Scope(prefixes)


class Element:
    """An element of `data`: it begins at `begin`, its start tag ends before `inside`, its end tag is from `close` to `end`."""

    __slots__ = ("data", "scope", "space", "local", "parent", "begin", "name_end", "inside", "close", "end")

    def is_w(self, *locals):
        return self.space == "w" and self.local in locals

    def attributes(self):
        """Space, local name, value, and the place of each attribute with the white space before it."""
        for name, value, begin, end in attributes_of(self.data, self.name_end, self.inside):
            # (an attribute without a prefix is in no space)
            space, local = self.scope.look_up(name) if b":" in name else ("", name.decode())
            yield space, local, text_of(value), begin, end

    def value(self, local):
        """The value of the first attribute with this local name, or None."""
        return next((value for _, name, value, _, _ in self.attributes() if name == local), None)

    def text(self):
        """The text in an element, and in those that it holds."""
        out, at = [], self.inside
        while at < self.close:
            begin = self.data.find(b"<", at, self.close)
            out.append(text_of(self.data[at : begin if begin >= 0 else self.close]))
            if begin < 0:
                break
            at = end_of_markup(self.data, begin)
            if self.data.startswith(b"<![CDATA[", begin):
                out.append(self.data[begin + 9 : at - 3].decode("utf-8"))
        return "".join(out)


def text_of(raw):
    """The text of bytes with references."""
    first, *others = raw.decode("utf-8").split("&")
    out = [first]
    for piece in others:
        name, _, rest = piece.partition(";")
        if name.startswith("#"):
            out.append(chr(int(name[2:], 16) if name[1] == "x" else int(name[1:])))
        else:
            out.append(REFERENCES[name])
        out.append(rest)
    return "".join(out)


def attributes_of(data, at, end):
    """Name, value and place of each attribute from the end of a tag's name on."""
    while True:
        begin = at
        while data[at] in BLANKS:
            at += 1
        if data[at] in b"/>":
            return
        equals = data.index(b"=", at, end)
        name = data[at:equals].rstrip(BLANKS)
        at = equals + 1
        while data[at] in BLANKS:
            at += 1
        close = data.index(data[at : at + 1], at + 1, end)
        yield name, data[at + 1 : close], begin, close + 1
        at = close + 1


def begun(data, begin, scope, parent):
    """The element whose start tag begins here."""
    made = Element()
    made.data, made.begin, made.parent = data, begin, parent
    made.inside = end_of_tag(data, begin)
    tag = data[begin + 1 : made.inside - 1]
    name = tag.split(None, 1)[0].rstrip(b"/")
    made.name_end = begin + 1 + len(name)
    if b"xmlns" in tag:
        scope = scope.with_declared(attributes_of(data, made.name_end, made.inside))
    made.scope = scope
    made.space, made.local = scope.look_up(name)
    made.close = made.end = made.inside if tag.endswith(b"/") else None
    return made


def end_of_markup(data, at):
    """The byte after the tag, the comment, the section of characters or the instruction that begins here."""
    if data.startswith(b"<!--", at):
        return data.index(b"-->", at + 4) + 3
    if data.startswith(b"<!", at):
        return data.index(b"]]>", at) + 3
    if data.startswith(b"<?", at):
        return data.index(b"?>", at) + 2
    return end_of_tag(data, at)


def elements(data, begin=0, end=None, parent=None):
    """Each element at its start tag, in their order. Where it ends is known once all are given."""
    end = len(data) if end is None else end
    top, inner = Scope({b"": ""}), parent
    at = data.find(b"<", begin, end)
    while at >= 0:
        mark = data[at + 1]
        if mark == 0x2F:
            behind = data.index(b">", at) + 1
            inner.close, inner.end = at, behind
            inner = inner.parent
        elif mark == 0x21 or mark == 0x3F:
            behind = end_of_markup(data, at)
        else:
            made = begun(data, at, inner.scope if inner else top, inner)
            behind = made.inside
            if made.end is None:
                inner = made
            yield made
        at = data.find(b"<", behind, end)
