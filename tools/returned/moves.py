"""Pairs moves, and gives the members of a package the numbers of their revisions."""

KIND_NAMES = {"ins": "ins", "del": "del", "from": "move-from", "to": "move-to"}


class Marker:
    """A start or an end of a move's range."""

    __slots__ = ("story", "kind", "ident", "name", "at", "is_loose")

    def __init__(self, story, kind, ident, name, at, is_loose):
        self.story, self.kind, self.ident, self.name, self.at, self.is_loose = story, kind, ident, name, at, is_loose


def kind_of(member):
    """The name of a revision's kind, by its first member."""
    if member.role == "change":
        return member.trace
    if member.role == "content":
        return KIND_NAMES[member.trace]
    return "%s-%s" % (member.role, member.trace)


def number(package):
    """Gives the numbers of revisions, through the stories in their order."""
    members, markers = {}, {}
    for one in package.members:
        members.setdefault(one.story, []).append(one)
    for one in package.markers:
        markers.setdefault(one.story, []).append(one)
    for name in dict.fromkeys(stream.name for stream in package.stories()):
        number_story(package, members.get(name, []), markers.get(name, []))


def number_story(package, members, markers):
    moves = paired(markers)
    for trace, begin, end in (("from", 0, 1), ("to", 2, 3)):
        side = [one for one in members if one.trace == trace and one.role in ("content", "mark")]
        assign(side, [(move[begin].at, move[end].at, place) for place, move in enumerate(moves)])
    of_move, found = [[] for _ in moves], []
    for one in members:
        if one.rev:
            of_move[one.rev - 1].append(one)
        else:
            found.append((one.at, kind_of(one), [one]))
    for move, its in zip(moves, of_move):
        found.append((min([marker.at for marker in move] + [one.at for one in its]), "move", its))
    for _, kind, its in sorted(found, key=lambda one: one[0]):
        package.revisions.append(its)
        package.kinds.append(kind)
        for one in its:
            one.rev = len(package.revisions)


def paired(markers):
    """The moves whose four markers are where they should be: source start and end, target start and end."""
    by_kind, names = {}, {}
    for one in markers:
        by_kind.setdefault((one.kind, one.ident), []).append(one)
        if one.kind in (0, 2) and one.name is not None:
            names.setdefault((one.kind, one.name), []).append(one)
    found = []
    for one in markers:
        if one.kind == 0 and one.name is not None:
            sides = [side_of(by_kind, names.get((kind, one.name), [])) for kind in (0, 2)]
            if all(sides) and not any(marker.is_loose for side in sides for marker in side):
                found.append(sides[0] + sides[1])
    return found


def side_of(by_kind, starts):
    """Start and end of one side of a move, where both are the only ones."""
    if len(starts) != 1:
        return None
    start = starts[0]
    ends = by_kind.get((start.kind + 1, start.ident), [])
    if len(by_kind[(start.kind, start.ident)]) != 1 or len(ends) != 1 or ends[0].at <= start.at:
        return None
    return [start, ends[0]]


def assign(members, ranges):
    """Gives each member the move (counted from 1) whose range is open there and began last."""
    events = [(one.end_at if one.role == "mark" else one.at, 1, one) for one in members]
    for begin, end, place in ranges:
        events += [(begin, 0, place), (end, 2, place)]
    opened = []
    for _, what, which in sorted(events, key=lambda event: event[:2]):
        if what == 0:
            opened.append(which)
        elif what == 2:
            opened.remove(which)
        elif opened:
            which.rev = opened[-1] + 1
