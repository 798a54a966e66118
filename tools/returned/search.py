"""Searches one stream for what became of its changes in the stream that came back.

The first stream is cut into stretches with the same changes round them. A stretch is either not there in the second stream, or
there as it is, with the signs of those of its changes that are still marked. The search goes over the stretches from left to
right with a set of states, each a place in the second text and the words given so far to changes that have stretches still to
come. Where no state is left the texts part, and the search goes on at the next stretch that both have.
"""
import bisect

from returned.partings import go_on
from returned.second import Changes, between
from returned.streams import CELL, PARA, ROW
from returned.words import ACCEPT, GONE, OPEN, REJECT

STATES = 64
# What a reading costs that is not the plainest one. The first settles between words, the others between places that look alike.
REJECTED, OTHER_RUN, OTHER_MARK, OTHER_CHANGE, LOST_ROW = 0.001, 0.01, 0.005, 1.0, 0.5


def cuts(member, word):
    return word == (REJECT if member.is_new() else ACCEPT)


class Node:
    """A step of a search: the words given in it, and the stretch that both texts have."""

    __slots__ = ("before", "given", "begin", "place", "length")

    def __init__(self, before, given, begin, place, length):
        self.before, self.given, self.begin, self.place, self.length = before, given, begin, place, length


class Found:
    """What a search of one stream gives."""

    def __init__(self):
        self.words = {}
        self.blocks = []  # (place in the first stream, place in the second, length), rising
        self.votes = {}  # by revision: how much text it has where the texts part, how much is seen, how much is marked
        self.guesses = 0  # how often the texts part


def ways_to_go(members, shown, fixed, goes):
    """The ways in which a stretch can be gone: words given, and the price."""
    for one in members:
        if one.rev not in fixed and (goes or one not in shown):
            word = REJECT if one.is_new() else ACCEPT
            yield {one.rev: word}, REJECTED if word == REJECT else 0.0


def ways_to_stay(members, shown, fixed, stays):
    """The ways in which a stretch can be there: words given, signs, price. `stays` is whether a cut paragraph end does."""
    ways = [({}, 0.0)]
    for one in members:
        if one.rev in fixed:
            continue
        free, cut = (ACCEPT, REJECT) if one.is_new() else (REJECT, ACCEPT)
        more = []
        for given, price in ways:
            if one.rev in given:
                more.append((given, price))
                continue
            more.append(({**given, one.rev: free}, price + (REJECTED if free == REJECT else 0.0)))
            more.append(({**given, one.rev: OPEN}, price))
            if stays and one in shown:
                more.append(({**given, one.rev: cut}, price + (REJECTED if cut == REJECT else 0.0)))
        ways = more
    for given, price in ways:
        both = {**fixed, **given}
        if not any(cuts(one, both[one.rev]) and not (stays and one in shown) for one in members):
            seen = {one.sign() for one in members if both[one.rev] == OPEN and (one.role == "content" or one in shown)}
            yield given, tuple(sorted(seen)), price


def ways_of(members, shown, fixed, behind):
    """All ways of a stretch: (words given, its signs or None where it is gone, price).

    `behind` is what comes after the paragraph where the stretch is a paragraph's end: a paragraph whose end is cut joins one that
    comes after it, and stays where none does.
    """
    if not members:
        return [({}, (), 0.0)]
    is_mark = bool(shown) and shown[0].role == "mark"
    cut = [one for one in members if one.rev in fixed and cuts(one, fixed[one.rev])]
    stays, goes = is_mark and behind != "p", not is_mark or behind is not None
    if any(not (is_mark and one in shown) for one in cut):
        return [({}, None, 0.0)]
    found = []
    if cut and goes:
        found.append(({}, None, 0.0))
        if not stays:
            return found
    found += [(given, None, price) for given, price in ways_to_go(members, shown, fixed, goes)]
    return found + list(ways_to_stay(members, shown, fixed, stays))


def is_bare(node, stream, place):
    """Whether nothing of the text is there since the last end of a paragraph, or since a row, a cell or a text box began."""
    while node is not None:
        if node.length:
            end = node.begin + node.length
            return stream.text[end - 1] in (PARA, ROW, CELL) or bool(between(stream.box_begins, stream.box_begins, end, place))
        node = node.before
    return True


def fewer(states):
    """Of many states those that have gone furthest in the second text, and those that are cheapest."""
    if len(states) <= STATES:
        return states
    furthest = sorted(states.items(), key=lambda one: (-one[0][0], one[1][0]))[: STATES * 3 // 4]
    cheapest = sorted(states.items(), key=lambda one: one[1][0])[: STATES // 4]
    return dict(furthest + cheapest)


class Search:
    def __init__(self, stream, second):
        self.stream, self.second, self.found = stream, second, Found()
        self.pieces = stream.stretches()
        self.last = {one.rev: index for index, piece in enumerate(self.pieces) for one in piece[2]}
        self.changes = Changes(stream)

    def run(self):
        states = {(0, ()): (0.0, Node(None, {}, 0, 0, 0))}
        index = offset = 0
        while index < len(self.pieces):
            begin = self.pieces[index][0] + offset
            following = self.step(states, index, begin)
            if following:
                states, index, offset = fewer(following), index + 1, 0
            else:
                (place, node), index, offset = go_on(self, states, index, begin)
                states = {(place, ()): (0.0, node)}
        self.finish(states)
        return self.found

    def step(self, states, index, begin):
        """The states after a stretch, of those before it."""
        _, end, members, _ = self.pieces[index]
        following, ways = {}, {}
        for (place, kept), (price, node) in states.items():
            behind = self.behind(begin, node)
            if (kept, behind) not in ways:
                ways[kept, behind] = list(self.ways_after(index, kept, behind))
            there = None  # what it costs that the stretch is at this place, once a way asks for it
            for given, signs, more, left in ways[kept, behind]:
                length = 0
                if signs is not None:
                    if not self.has(place, begin, end, signs):
                        continue
                    length = end - begin
                    if length and (members or len(states) > 1):
                        if there is None:
                            there = self.unlike(begin, place) + OTHER_CHANGE * self.strange(begin, end, place)
                        more += there
                key = (place + length, left)
                if key not in following or following[key][0] > price + more:
                    following[key] = (price + more, Node(node, given, begin, place, length))
        if begin in self.stream.loose_rows:
            # (a row whose cells all went goes without a word on it)
            for key, (price, node) in states.items():
                following.setdefault(key, (price + LOST_ROW, node))
        return following

    def ways_after(self, index, kept, behind):
        """The ways of a stretch after some words, each with the words of which stretches are still to come."""
        _, _, members, shown = self.pieces[index]
        fixed = dict(kept)
        for given, signs, price in ways_of(members, shown, fixed, behind):
            both = {**fixed, **given}
            yield given, signs, price, tuple(sorted((rev, word) for rev, word in both.items() if self.last[rev] > index))

    def behind(self, begin, node):
        """What comes after the paragraph that ends here: before a table an empty paragraph goes as one before a paragraph does."""
        behind = self.stream.follows.get(begin)
        if behind == "other":
            return None if begin in self.stream.holds or not is_bare(node, self.stream, begin) else "p"
        return behind

    def has(self, place, begin, end, signs):
        """Whether a stretch is at this place of the second text, with these signs."""
        if not self.second.text.startswith(self.stream.text[begin:end], place):
            return False
        return end == begin or self.second.has_signs(place, end - begin, signs)

    def strange(self, begin, end, place):
        """How many changes of properties are marked in the second text where the first one has none of their sign."""
        its = self.second.changes.signs_in(place, place + end - begin)
        return sum(1 for at, signs in its if not signs <= self.changes.signs_at(at - place + begin))

    def unlike(self, begin, place):
        """A small price where what is at two places looks different; it settles which of two equal texts is meant."""
        stream, other = self.stream, self.second.stream
        if stream.text[begin] != PARA:
            change = self.changes.run_at(begin)
            mine, its = stream.run_at(begin), other.run_at(place)
            return 0.0 if mine == its or (change is not None and change.former == its) else OTHER_RUN
        change = self.changes.paras.get(begin)
        mine, its = stream.props["para"].get(begin, ()), other.props["para"].get(place, ())
        price = 0.0 if mine == its or (change is not None and change.former == its) else OTHER_RUN
        return price if stream.props["mark"].get(begin, ()) == other.props["mark"].get(place, ()) else price + OTHER_MARK

    def finish(self, states):
        """Takes the words and stretches of the cheapest state that has come to the end, else of the one that got furthest."""
        complete = [one for (place, _), one in states.items() if place == self.second.length]
        if complete:
            _, node = min(complete, key=lambda one: one[0])
        else:
            _, (_, node) = max(states.items(), key=lambda one: (one[0][0], -one[1][0]))
        words, gone = self.found.words, []
        while node is not None:
            for rev, word in node.given.items():
                words.setdefault(rev, word)
            if node.length:
                self.found.blocks.append((node.begin, node.place, node.length))
            elif not node.given:
                gone.append(node.begin)
            node = node.before
        self.found.blocks.reverse()
        for begin in gone:
            # (what a decision on something round it took away)
            for one in self.members_at(begin):
                words.setdefault(one.rev, GONE)

    def members_at(self, place):
        index = bisect.bisect_right(self.stream.begins, place) - 1
        return self.pieces[index][2] if index >= 0 else ()
