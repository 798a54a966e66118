"""A second writer of which comments are on which revision, as docs/DEFINITIONS.md tells it (ECMA-376 Part 1, 17.13.4).

    python3 comments.py PACKAGE        the comments on each revision, and then those that are nowhere

It shares no code with the program. It looks at each thing anew as often as it needs it, so it is slow and short.
"""
import sys

import clauses
import reading
import texts

OBJECTS = ("tab", "br", "cr", "noBreakHyphen", "softHyphen", "sym", "ptab", "footnoteReference", "endnoteReference", "drawing", "pict", "object")
PLACES = ("commentRangeStart", "commentRangeEnd", "commentReference")
MOST, LONGEST = 20, 100


# What comments say


class Comment:
    def __init__(self, element):
        self.id, self.author, self.date = element.written_value("id") or "", element.attribute("author") or "", reading.moment(element.attribute("date"))
        self.text = texts.shortened(texts.said(element.kids, False).removeprefix(" "), 200)
        self.last = next((it.written_value("paraId") or "" for it in reversed(element.kids) if isinstance(it, reading.Element) and it.is_w("p")), "")
        self.parent, self.said_done = None, False

    def thread(self):
        """The comment and those that it replies to, at most a hundred."""
        found = []
        while self is not None and len(found) < LONGEST:
            found.append(self)
            self = self.parent
        return found

    @property
    def is_done(self):
        return any(it.said_done for it in self.thread())


def comments_of(package):
    """The comments of a package in the order of their part, each with the one that it replies to and its state."""
    root = clauses.part_beside(package, "/comments", "comments")
    found = [Comment(it) for it in ([] if root is None else reading.kids_named(root.kids, "comment"))]
    states = [it for root in clauses.roots_beside(package, "/commentsExtended") for it in clauses.kids(root) if it.local == "commentEx" and it.space not in ("W", "M")]
    for comment in found:
        state = next((it for it in states if comment.last and it.written_value("paraId") == comment.last), None)
        if state is not None:
            parent = state.written_value("paraIdParent")
            comment.said_done = (state.written_value("done") or "0") not in ("0", "false", "off")
            comment.parent = next((it for it in found if parent and it.last == parent), None)
    return found


# Units


class Unit:
    """A unit of a story: the members that hold it, and whether a point after it, in the same paragraph, is on it."""

    def __init__(self, holders, paragraph, is_apart=False):
        self.holders, self.paragraph, self.is_apart = holders, paragraph, is_apart


def held_by(member):
    """What a member holds: an element whole, or (`True`) the end of a paragraph."""
    above = member.ancestors()
    if member.role == "content":
        return member, False
    if member.role == "mark":
        return above[2], True
    if member.role == "run-props":
        return (above[2], True) if above[1].is_w("pPr") else (above[1] if above[1].local == "r" else None, False)
    return (None, False) if member.role in ("marker", "sect-props") else (above[1], False)


def units_of(root):
    """The units of a story, and the places of comments among them: name, id, paragraph, and how many units come before."""
    whole, ends, edged, units, found = {}, {}, set(), [], []
    for member in reading.elements([root]):
        if member.role is not None:
            element, is_end = held_by(member)
            (ends if is_end else whole).setdefault(element, []).append(member)
            if member.role in ("row", "cell"):
                edged.add(element)

    def walk(element, holders, paragraph):
        if reading.is_quiet(element):
            return
        holders = holders + whole.get(element, [])
        paragraph = element if element.is_w("p") else paragraph
        if element in edged or element.is_w(*OBJECTS):
            units.append(Unit(holders, paragraph, element in edged))
        if element.is_w(*PLACES):
            found.append((element.local, element.written_value("id") or "", paragraph, len(units)))
        for kid in element.kids:
            if isinstance(kid, reading.Element):
                walk(kid, holders, paragraph)
            elif element.is_w("t", "delText"):
                units.extend(Unit(holders, paragraph) for _ in texts.shown(kid))
        if element.is_w("p"):
            units.append(Unit(holders + ends.get(element, []), element, True))

    for kid in clauses.kids(root):
        walk(kid, [], None)
    return units, found


# Ranges


def own_range(comment, stories):
    """The units of a comment that has places of its own, with the number of its story, or None."""
    for number, (units, found) in enumerate(stories):
        places = {}
        for name, which, paragraph, before in found:
            if which and which == comment.id:
                places.setdefault(name, (paragraph, before))
        if not places:
            continue
        start, end, reference = map(places.get, PLACES)
        if start and end and start[1] < end[1]:
            return number, start[1], end[1]
        paragraph, at = end or reference or start
        is_near = at and units[at - 1].paragraph is paragraph and not units[at - 1].is_apart
        return (number, at - 1, at) if is_near else (number, at, at + 1)
    return None


def range_of(comment, comments, stories):
    """The units of a comment; a reply without places has those of the comment that it replies to."""
    firsts = [it for it in comment.thread() if next(other for other in comments if other.id == it.id) is it]
    return next((found for found in (own_range(it, stories) for it in firsts) if found is not None), None)


def comments_on(package):
    """For each revision the comments that are on it, at most 20, and how many there are; and the comments that are nowhere."""
    stories = [units_of(root) for _, root in package.stories]
    comments = comments_of(package)
    ranges = [(it, range_of(it, comments, stories)) for it in comments]
    placed = sorted([it for it in ranges if it[1] is not None], key=lambda it: it[1][:2])
    on = []
    for number in range(1, len(package.revisions) + 1):
        held = {}
        for story, (units, _) in enumerate(stories):
            for at, unit in enumerate(units):
                for member in unit.holders:
                    if member.number == number and member.role != "marker":
                        held.setdefault(member, []).append((story, at))
        kept, most = [], 0
        for member in sorted(held, key=lambda it: held[it][-1]):
            here = [it for it in placed if any(story == it[1][0] and it[1][1] <= at < it[1][2] for story, at in held[member])]
            here.sort(key=lambda it: it[1][2], reverse=True)
            most = max(most, len(here))
            kept += [comment for comment, _ in here[:MOST] if comment not in kept]
        on.append((kept[:MOST], max(most, len(kept[:MOST]))))
    return on, [it for it, units in ranges if units is None]


def row_of(comment):
    """What a listing says of a comment."""
    date = None if comment.date is None else reading.date_of(comment.date)
    parent = None if comment.parent is None else comment.parent.id
    return {"author": comment.author, "date": date, "done": comment.is_done, "id": comment.id, "reply_to": parent, "text": comment.text}


if __name__ == "__main__":
    on, orphans = comments_on(reading.Package(open(sys.argv[1], newline="", encoding="utf-8").read()))
    for number, remarks in [*enumerate([kept for kept, _ in on], 1), ("nowhere", orphans)]:
        for it in remarks:
            print(number, it.id, it.author, "done" if it.is_done else "open", it.parent.id if it.parent else "-", it.text, sep="\t")
