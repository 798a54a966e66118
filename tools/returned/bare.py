"""Reads bare texts, and makes of each story its paragraphs as a word processor keeps them.

A bare text is what `redline text --view bare` writes. What it keeps of what a word processor counts anew when it stores (names of
files, numbers of pages that are named) is left out here, and changes of properties of one paragraph come in one order.
"""
import itertools
import re

from returned.contents import COUNTS, VOLATILE

KINDS = ("ins", "del", "move-to", "move-from", "run-props")
# What has a line of its own in a paragraph, and is no text.
OBJECTS = ("picture", "footnote", "endnote", "symbol", "ptab", "softHyphen", "field begin", "field separate", "field end")
NO_DATE = ("0-00-00", "0000-", "1970-01-01T00:00")
SHOWN = {"ins": ("{+", "+}"), "del": ("[-", "-]"), "move-to": ("{~", "~}"), "move-from": ("[~", "~]"), "run-props": ("{=", "=}")}
# (in a bare text blanks have a backslash too)
NAME = re.compile(r"(?:\s|\\[tnr])*([^\s\\]*)")
COUNTED = re.compile(r"\\(.)|[\d\s.,:ivxlcdmIVXLCDM()\-]", re.S)


class View:
    """How much of a bare text is compared: with objects or the text alone, with names and dates ("all", "authors", "none")."""

    def __init__(self, with_objects, names):
        self.with_objects, self.names = with_objects, names

    def stamp(self, kind, author, minute):
        if self.names == "none":
            return (kind, "", "")
        return (kind, author, "" if self.names == "authors" or minute.startswith(NO_DATE) else minute)


class Story:
    """A story and the lines of its text."""

    def __init__(self, kind, text):
        self.kind, self.text = kind, text

    def is_empty(self):
        return "|" not in self.text and not own_lines(self.text, OBJECTS)


def stories_of(text):
    """The stories of a bare text, by kind, in the order of the text."""
    found = {}
    for piece in re.split(r"^= ", text, flags=re.M)[1:]:
        kind, _, lines = piece.partition("\n")
        found.setdefault(kind, []).append(Story(kind, lines))
    return found


def marks_of(line):
    """The members round the units of a line, and the rest of the line."""
    found = []
    while True:
        kind, tab, rest = line.partition("\t")
        if not tab or kind not in KINDS:
            return found, line
        author, minute, line = rest.split("\t", 2)
        found.append((kind, author, minute))


def own_lines(text, names, end=None):
    """Those of these names that have lines of their own, up to a place of a text."""
    found = re.compile(r"\*(%s)\n" % "|".join(names)).finditer(text, 0, len(text) if end is None else end)
    return [one.group(1) for one in found if is_own(text, one.start())]


def is_own(text, place):
    """Whether the sign at a place of a text has its line for itself but for marks, and isn't in the text of a line."""
    begin = text.rfind("\n", 0, place) + 1
    return begin == place or marks_of(text[begin : text.find("\n", place)])[1].startswith("*")


class Reading:
    """One pass over the lines of a story. A paragraph is a tuple of items: (marks, text), or (sign, ..) for what has a line."""

    def __init__(self, view):
        self.view, self.items, self.fields = view, [], []

    def paragraphs(self, text):
        found = []
        for line in text.split("\n")[:-1]:
            marks, rest = marks_of(line)
            if rest.startswith("+"):
                self.items.append(("+",) + self.view.stamp(*rest[1:].split("\t")))
                continue
            stamps = tuple(sorted({self.view.stamp(*one) for one in marks}))
            if rest.startswith("|"):
                self.put(stamps, rest[1:])
            elif rest[1:] in OBJECTS:
                self.put_object(stamps, rest)
            else:
                self.items.append((rest, stamps))
                if rest == "*paragraph":
                    found.append(self.paragraph())
        return found + ([self.paragraph()] if self.items else [])

    def paragraph(self):
        """The items so far. Changes of properties at one place are in one order, since writers differ in it."""
        made = []
        for is_member, items in itertools.groupby(self.items, key=lambda item: item[0] == "+"):
            made += sorted(items) if is_member else items
        self.items = []
        return tuple(made)

    def put_object(self, stamps, sign):
        if sign == "*field begin":
            self.fields.append(["", False])
        elif sign == "*field separate" and self.fields:
            self.fields[-1][1] = True
        elif sign == "*field end" and self.fields:
            self.fields.pop()
        if self.view.with_objects and self.uncounted("0"):
            self.items.append((sign, stamps))

    def put(self, stamps, text):
        if self.fields and not self.fields[-1][1]:
            self.fields[-1][0] += text
            if not self.view.with_objects:
                return
        if self.fields:
            text = self.uncounted(text)
        if text:
            self.add(stamps, text)

    def uncounted(self, text):
        """What is left of a text without the results of fields that are counted anew."""
        for code, shows in self.fields:
            word = NAME.match(code).group(1).upper()
            if shows and word in VOLATILE:
                return ""
            if shows and word in COUNTS:
                text = COUNTED.sub(lambda found: "" if found.group(1) in (None, "t", "n", "r") else found.group(), text)
        return text

    def add(self, stamps, text):
        if self.items and isinstance(self.items[-1][0], tuple) and self.items[-1][0] == stamps:
            self.items[-1] = (stamps, self.items[-1][1] + text)
        else:
            self.items.append((stamps, text))


# What a reader sees of a paragraph


def unescaped(text):
    return re.sub(r"\\(.)", lambda found: {"t": " ", "n": " ", "r": " "}.get(found.group(1), found.group(1)), text, flags=re.S)


def plain(paragraph):
    """The text of a paragraph, with its objects."""
    return "".join(shown(item) for item in paragraph if isinstance(item[0], tuple) or item[0][1:] in OBJECTS)


def shown(item):
    """What is shown of a text, or of what has a line of its own."""
    return unescaped(item[1]) if isinstance(item[0], tuple) else "[%s]" % item[0][1:]


def marked(paragraph):
    """The text of a paragraph with the signs of its changes."""
    out = ""
    for item in paragraph:
        if item[0] == "+":
            out += "{%s by %s}" % (item[1], unescaped(item[2])) if item[2] else "{%s}" % item[1]
        elif item[0] != "*paragraph":
            out += with_signs(shown(item), item[0] if isinstance(item[0], tuple) else item[1])
    return out


def with_signs(text, stamps):
    for kind, _, _ in stamps:
        left, right = SHOWN[kind]
        text = left + text + right
    return text
