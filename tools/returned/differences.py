"""The places at which two lists of paragraphs differ, in the words of a reader."""
import bisect

from returned import bare
from returned.clauses import Clauses, place_of

# How much of the text is shown before and after what differs, and at most.
BEFORE, AFTER, SHOWN = 25, 12, 90
DOCUMENT = "the document"


class Difference:
    """One place where the document that came back is not what the decisions give."""

    def __init__(self, place, paragraph, wanted, got):
        self.place, self.paragraph, self.wanted, self.got, self.clause = place, paragraph, wanted, got, None

    def line(self):
        place = place_of(self.paragraph, self.clause)
        return "%s, %s: %s where the decisions give %s" % (self.place, place, quoted(self.got), quoted(self.wanted))


def quoted(text):
    if len(text) > SHOWN:
        text = text[: SHOWN - 30] + "\u2026" + text[-25:]
    return '"%s"' % text if text else "nothing"


def differences(place, wanted, got, before):
    """The differences between the paragraphs that the decisions give and those that came back, after so many that are the same."""
    found = []
    for begin, end, its_begin, its_end in differing(wanted, got):
        if end - begin == its_end - its_begin:
            pairs = [([wanted[begin + step]], [got[its_begin + step]], its_begin + step) for step in range(end - begin)]
        else:
            pairs = [(wanted[begin:end], got[its_begin:its_end], its_begin)]
        for mine, its, at in pairs:
            if mine != its:
                found.append(Difference(place, before + at + 1, *excerpts(mine, its)))
    return found


def excerpts(mine, its):
    """What differs, with some of the text round it: the texts, and where they are the same, the texts with their signs."""
    one, other = ("\u00b6".join(map(bare.plain, paragraphs)) for paragraphs in (mine, its))
    if one == other:
        one, other = ("".join(map(bare.marked, paragraphs)) for paragraphs in (mine, its))
    if one == other and len(mine) != len(its):
        one, other = ("\u00b6" * len(paragraphs) for paragraphs in (mine, its))
    least = min(len(one), len(other))
    begin = next((at for at in range(least) if one[at] != other[at]), least)
    end = next((at for at in range(least - begin) if one[-1 - at] != other[-1 - at]), least - begin)
    begin, end = max(0, begin - BEFORE), max(0, end - AFTER)
    # (from the beginning of a word to the end of one)
    while begin > 0 and not one[begin - 1].isspace():
        begin -= 1
    while end > 0 and not one[len(one) - end].isspace():
        end -= 1
    return one[begin : len(one) - end].strip(), other[begin : len(other) - end].strip()


def differing(one, other):
    """The ranges in which two lists differ. What is once in both lists, in the same order, holds them together."""
    found, waiting = [], [(0, len(one), 0, len(other))]
    while waiting:
        begin, end, its_begin, its_end = waiting.pop()
        while begin < end and its_begin < its_end and one[begin] == other[its_begin]:
            begin, its_begin = begin + 1, its_begin + 1
        while begin < end and its_begin < its_end and one[end - 1] == other[its_end - 1]:
            end, its_end = end - 1, its_end - 1
        if begin == end and its_begin == its_end:
            continue
        held = anchors(one[begin:end], other[its_begin:its_end])
        if not held:
            found.append((begin, end, its_begin, its_end))
            continue
        at, its_at = begin, its_begin
        for mine, its in held + [(end - begin, its_end - its_begin)]:
            waiting.append((at, begin + mine, its_at, its_begin + its))
            at, its_at = begin + mine + 1, its_begin + its + 1
    return sorted(found)


def anchors(one, other):
    """Pairs of places of what is once in both lists, a longest row of them that rises in both."""
    mine, its = once(one), once(other)
    pairs = sorted((place, its[what]) for what, place in mine.items() if what in its)
    ends, rows, links = [], [], {}
    for place, at in pairs:
        index = bisect.bisect_left(ends, at)
        links[place] = rows[index - 1] if index else None
        if index == len(ends):
            ends.append(at)
            rows.append((place, at))
        else:
            ends[index], rows[index] = at, (place, at)
    found, last = [], rows[-1] if rows else None
    while last is not None:
        found.append(last)
        last = links[last[0]]
    return found[::-1]


def once(things):
    """The places of the things that are in a list once."""
    places = {}
    for place, what in enumerate(things):
        places[what] = None if what in places else place
    return {what: place for what, place in places.items() if place is not None}


def tell_clauses(differences, package, data):
    """Tells differences in the document in which clause they are. Their paragraphs are those of a package with these bytes."""
    stream = next((one for one in package.stories() if one.root == "document"), None)
    if stream is not None and differences:
        clauses = Clauses(stream, data)
        for one in differences:
            one.clause = clauses.of(one.paragraph) if one.place == DOCUMENT else None
