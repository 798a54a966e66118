"""The streams of a package: for each story and each note one text, with the changes round each stretch of it.

A stream is what a comparison of two documents needs: the shown text with one sign for each paragraph end, row, cell and object,
and beside it, as sorted stretches, the tracked changes. Nothing in it depends on how runs are split, on ids, on rsids, on the
order of attributes, or on whether neighbouring changes of one author and date are one element or several.
"""
import bisect
import re

# Signs in the text of a stream. A character of a document that looks like one gets ESCAPE before it.
PARA, ROW, CELL, ESCAPE = "\U0010f001", "\U0010f002", "\U0010f003", "\U0010f000"
SIGNS = re.compile("[\U0010f000-\U0010f03f]")
# Elements of a run that show no text of their own here, and yet are something that a change can hold.
OBJECTS = (
    "drawing", "pict", "object", "sym", "footnoteReference", "endnoteReference", "fldChar", "ptab", "pgNum", "footnoteRef",
    "endnoteRef", "separator", "continuationSeparator", "dayShort", "softHyphen", "commentReference",
)
GROUPS = {"drawing": "picture", "pict": "picture", "object": "picture"}
NAMED = [one for one in OBJECTS if one not in GROUPS] + ["picture", "math", "field begin", "field separate", "field end"]
OBJECT_SIGNS = {name: chr(0x10F010 + place) for place, name in enumerate(NAMED)}


class Member:
    """One element of a tracked change."""

    __slots__ = ("role", "trace", "author", "date", "at", "end_at", "rev", "story")

    def __init__(self, role, trace, author, date, at, story):
        self.role, self.trace, self.author, self.date, self.at, self.story = role, trace, author, date, at, story
        self.end_at = at
        self.rev = 0

    def sign(self):
        """What two documents have in common of one change: its kind, author and moment."""
        return (self.role, self.trace, self.author, self.date)

    def is_new(self):
        """Whether what it holds came with the change: a rejection cuts it, else an acceptance does."""
        return self.trace in ("ins", "to")


class Change:
    """One change of properties: where it is, the present properties, and the former ones."""

    __slots__ = ("member", "holder", "begin", "end", "present", "former")

    def __init__(self, member, holder, place, present, former):
        self.member, self.holder, self.begin, self.end = member, holder, place, place
        self.present, self.former = present, former


class Table:
    """Where a table begins and ends, how deep it is in others, its properties and their change."""

    __slots__ = ("begin", "end", "depth", "props", "change")

    def __init__(self, begin, depth):
        self.begin, self.end, self.depth, self.props, self.change = begin, begin, depth, (), None


class Stream:
    """One story, or one note of a story of notes."""

    def __init__(self, part, root, name):
        self.part, self.root, self.name = part, root, name
        self.kind = self.who = None
        self.pieces = []
        self.length = 0
        # Stretches: where one begins, and the members round it. `shown` are the members whose sign is at that place.
        self.begins, self.round, self.shown = [], [], []
        # Properties by place: stretches of runs, and places of paragraph ends, rows, cells and sections.
        self.run_begins, self.run_props = [], []
        self.props = {"para": {}, "mark": {}, "row": {}, "cell": {}, "except": {}, "sect": {}}
        self.changes = []
        self.objects = []  # (place, what, members, id, properties of its run)
        self.tables, self.open_tables = [], []
        self.others = []  # (place, properties, change or None) of content controls and of signs of a formula
        self.holds = set()  # places of ends of paragraphs that hold an element which no change round text can take away
        self.loose_rows = set()  # places of rows all whose cells may go
        self.box_begins, self.box_ends = [], []  # where the texts of text boxes begin and end
        self.follows = {}  # place of a paragraph's end -> "p" or "other", what comes after the paragraph; none where nothing does
        self.text = ""

    def put(self, text, members, shown, props):
        if not text:
            return
        # (a row is a stretch of its own, since it goes with its cells)
        is_row = text == ROW or (self.pieces and self.pieces[-1] == ROW)
        if is_row or not self.begins or self.round[-1] != members or self.shown[-1] != shown:
            self.begins.append(self.length)
            self.round.append(members)
            self.shown.append(shown)
        if props is not None and (not self.run_props or self.run_props[-1] != props):
            self.run_begins.append(self.length)
            self.run_props.append(props)
        self.pieces.append(text)
        self.length += len(text)

    def close(self):
        self.text = "".join(self.pieces)
        self.pieces = None

    def stretches(self):
        """(begin, end, members, shown) of each stretch."""
        return list(zip(self.begins, self.begins[1:] + [self.length], self.round, self.shown))

    def run_at(self, place):
        """The properties of the run that a place of the text is in."""
        index = bisect.bisect_right(self.run_begins, place) - 1
        return self.run_props[index] if index >= 0 else None

    def paragraph_of(self, place):
        """The number of the paragraph that a place is in, from 1."""
        return self.text.count(PARA, 0, place) + 1


def led(folder, target):
    """The name to which a target leads from a folder."""
    steps = [] if target.startswith("/") else folder.split("/")
    for step in target.split("/"):
        if step == "..":
            steps = steps[:-1]
        elif step != ".":
            steps = steps + [step]
    return "/".join(steps)


class Package:
    """The streams of a package, its members, and its revisions with their numbers."""

    def __init__(self):
        self.streams = []
        self.members = []
        self.markers = []
        self.revisions = []  # lists of members, by number - 1
        self.kinds = []
        self.note_order = {"footnote": [], "endnote": [], "comment": []}
        self.twins = []  # pairs of a member in the first form of some content and the one in its second form
        self.header_ids = []  # of the references to headers and footers, in their order, each with the part where it is
        self.targets = {}  # for each part of relationships where they lead, by their ids

    def stories(self):
        return [one for one in self.streams if isinstance(one.name, str)]

    def referred(self):
        """The names of the parts to which references to headers and footers lead, each with its place among them."""
        named = {}
        for part, ident in self.header_ids:
            folder, _, file = part.rpartition("/")
            target = self.targets.get("%s/_rels/%s.rels" % (folder, file), {}).get(ident)
            if target is not None:
                named.setdefault(led(folder, target), len(named))
        return named

    def in_order(self):
        """The stories as a bare text has them: headers and footers in the order of their references, the others behind them."""
        named = self.referred()
        return sorted(self.stories(), key=lambda one: named.get(one.name, len(named)))

    def notes(self, kind):
        """The notes of a kind, by their ids."""
        return {one.name[1]: one for one in self.streams if isinstance(one.name, tuple) and one.name[0] == kind}
