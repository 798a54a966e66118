"""The edit of each revision: what one act of an editor made is decided as one.

    python3 edits.py PACKAGE        the number of each revision, and the number of its edit

An edit has the number of its first revision. It shares no code with the program. It looks at each thing anew as often as it needs it, so
it is slow and short.
"""
import itertools
import sys
import typing

import formats
import reading
import texts

UNITS = ("tab", "br", "cr", "noBreakHyphen", "softHyphen", "sym", "ptab", "footnoteReference", "endnoteReference", "drawing", "pict", "object")
WHITE = ("tab", "ptab", "br", "cr")
CHANGES = tuple(reading.CHANGES.values())
OF_TABLE = ("table-props", "except-props", "row-props", "cell-props")
MINUTE = 60

# Units


class Unit(typing.NamedTuple):
    """What a reader passes: whether it is white space or the end of a paragraph, and the members that hold it, the outermost first."""

    is_blank: bool
    holders: tuple


def property_members(element):
    """The members in the properties of an element."""
    quiet = [kid for kid in element.kids if isinstance(kid, reading.Element) and reading.is_quiet(kid)]
    return [it for it in reading.elements(quiet) if it.role not in (None, "marker")]


def is_run(element):
    return element.is_w("r") or (element.space == "M" and element.local == "r")


def holds_all(member, element):
    """A member in the properties of an element holds all of its units."""
    if member.role == "run-props":
        return is_run(element)
    return member.role not in ("mark", "sect-props")


def holds_end(member, element):
    """It holds the end of this paragraph."""
    return member.role == "mark" or (member.role == "run-props" and element.is_w("p")) or holds_all(member, element)


def units(root):
    """The units of a story. Of members of one element the last one counts as the outermost."""
    found = []

    def walk(node, outer, in_text):
        if isinstance(node, str):
            found.extend(Unit(character in " \t\r\n", outer) for character in (texts.shown(node) if in_text else ""))
            return
        if reading.is_quiet(node):
            return
        members = property_members(node)[::-1]
        own = (node,) if node.role == "content" else ()
        inner = outer + tuple(it for it in members if holds_all(it, node)) + own
        if not node.is_w("p") and any(it.role in ("row", "cell") for it in members):
            found.append(Unit(False, inner))
        if node.is_w(*UNITS):
            found.append(Unit(node.local in WHITE, inner))
        for kid in node.kids:
            walk(kid, inner, node.is_w("t", "delText"))
        if node.is_w("p"):
            found.append(Unit(True, outer + tuple(it for it in members if holds_end(it, node)) + own))

    for kid in root.kids:
        walk(kid, (), False)
    return found


# What belongs together


class Story:
    """The units of a story, and the members in it that hold any."""

    def __init__(self, package, root):
        self.package, self.root, self.units, self.held = package, root, units(root), {}
        for place, unit in enumerate(self.units):
            for member in unit.holders:
                self.held.setdefault(member, []).append(place)

    def revision(self, member):
        return self.package.revisions[member.number - 1]

    def are_alike(self, one, two):
        """One author, and dates that are at most a minute apart, or none."""
        one, two = self.revision(one), self.revision(two)
        if one.author != two.author or None in (one.date, two.date):
            return one.author == two.author and one.date == two.date
        return abs(one.date - two.date) <= MINUTE

    def round(self, change, place):
        """The members that are alike to a change, are none themselves, and hold a unit."""
        return [it for it in self.units[place].holders if it.role not in CHANGES and self.are_alike(change, it)]

    def is_inside(self, change):
        return all(self.round(change, place) for place in self.held[change])

    def beside(self):
        """Members that hold one unit, or two of which one follows the other."""
        for before, unit in zip([Unit(False, ())] + self.units, self.units):
            holders = [it for it in before.holders + unit.holders if it.role not in CHANGES]
            yield from (pair for pair in itertools.combinations(holders, 2) if self.are_alike(*pair))

    def inside(self):
        """A change of properties with the outermost member round its first unit."""
        for change in self.held:
            if change.role in CHANGES and self.is_inside(change):
                yield change, self.round(change, self.held[change][0])[0]

    def ends(self, member):
        """By this members are in the order in which they end, of nested ones the inner first."""
        last = self.held[member][-1]
        return last, -self.units[last].holders.index(member)

    def reaches(self, one, two):
        """Between two changes is nothing but blank units and what revisions of their author hold."""
        between = self.units[self.held[one][-1] + 1 : self.held[two][0]]
        author = self.revision(one).author
        return all(it.is_blank or any(self.revision(member).author == author for member in it.holders) for it in between)

    def one_format(self):
        """A change of properties with the next one that says the same."""
        changes = sorted((it for it in self.held if it.role in CHANGES and not self.is_inside(it)), key=self.ends)
        said = {it: formats.compared(it) for it in changes}
        for place, one in enumerate(changes):
            same = lambda two: said[one] is not None and said[two] is not None and first_said(said[one]) == first_said(said[two])
            is_next = lambda two: one.role == two.role and self.revision(one).author == self.revision(two).author and same(two)
            two = next((it for it in changes[place + 1 :] if is_next(it)), None)
            if two is not None and self.are_alike(one, two) and self.reaches(one, two):
                yield one, two

    def in_tables(self):
        """A cell with the next one in its table that was made or taken so, and a change of a table with the next one of it."""
        for table in [it for it in reading.elements([self.root]) if it.is_w("tbl")]:
            own = [it for it in reading.elements(table.kids) if it.role is not None and table_of(it) is table]
            for place, one in enumerate(own):
                two = next((it for it in own[place + 1 :] if are_one_sort(one, it)), None)
                if two is not None and self.are_alike(one, two):
                    yield one, two


def first_said(changed):
    """What is kept of the properties that a change changes, and how many there are."""
    kept = [(it["property"], it["from"], it["to"]) for it in changed[: formats.MOST]]
    return kept, len(changed)


def table_of(member):
    return next(it for it in member.ancestors() if it.is_w("tbl"))


def are_one_sort(one, two):
    cells = one.role == two.role == "cell" and one.trace == two.trace
    return cells or (one.role in OF_TABLE and two.role in OF_TABLE)


def pairs(package):
    """The revisions that belong together, two by two."""
    for _, root in package.stories:
        story = Story(package, root)
        for one, two in itertools.chain(story.beside(), story.inside(), story.one_format(), story.in_tables()):
            yield one.number, two.number


def edits(package):
    """The number of the edit of each revision, in the order of their numbers."""
    edit = list(range(len(package.revisions) + 1))
    for one, two in set(pairs(package)):
        both = {edit[one], edit[two]}
        edit = [min(both) if it in both else it for it in edit]
    return edit[1:]


if __name__ == "__main__":
    package = reading.Package(open(sys.argv[1], newline="", encoding="utf-8").read())
    for number, edit in enumerate(edits(package), 1):
        print(number, edit, sep="\t")
