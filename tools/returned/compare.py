"""Compares two packages by their bare texts, story with story.

Headers and footers are paired as the search paired them, since parts are named anew by whoever stores a document. One whose section
went under the decisions is shown nowhere, and may be gone. Notes are in the order of their references in both texts.
"""
from returned import bare
from returned.differences import DOCUMENT, differences
from returned.pairs import pair_stories
from returned.partings import common
from returned.reader import read

KINDS = {"document": "document", "hdr": "header", "ftr": "footer"}
HEADERS = ("header", "footer")
NOTES = ("footnote", "endnote")
PARAGRAPH = "*paragraph\n"
FIELD = ("field begin", "field end")


class Comparison:
    """What is the same for each journal that is tried: the streams of both packages, and the bare text that came back."""

    def __init__(self, program, first, second, back):
        self.program = program
        self.back = bare.stories_of(program.bare_text(back))
        self.index_of = {id(one): index for package in (first, second) for index, one in indexed(package)}
        self.first, self.pairs = first, pair_stories(first, second)
        self.extra = self.left_over(second)

    def left_over(self, second):
        """The stories that came back and are paired with none."""
        paired = {id(other) for _, other in self.pairs if other is not None}
        return [one for one in second.stories() if one.root in KINDS and id(one) not in paired]

    def pairs_with(self, made, package):
        """(what the pair is called, the story as it was written, the story that came back); either may be None.

        `made` has the stories as they were written, in the order that they have in a package.
        """
        places, shown = {one.name: index for index, one in indexed(package)}, package.referred()
        for one, other in self.pairs:
            if other is not None or one.root == "document" or one.name in shown:
                yield self.named(one), made[KINDS[one.root]][places[one.name]], other and self.story(other)
        for one in self.extra:
            yield self.named(one), None, self.story(one)
        for kind in NOTES:
            mine, its = made.get(kind, []), self.back.get(kind, [])
            for place in range(max(len(mine), len(its))):
                pair = [notes[place] if place < len(notes) else None for notes in (mine, its)]
                yield ("%s %d" % (kind, place + 1), *pair)

    def story(self, stream):
        """A story of what came back."""
        return self.back[KINDS[stream.root]][self.index_of[id(stream)]]

    def named(self, stream):
        if stream.root == "document":
            return DOCUMENT
        return "%s %d" % (KINDS[stream.root], self.index_of[id(stream)] + 1)

    def unlike(self, written):
        """The pairs whose texts are not the same bytes."""
        made = bare.stories_of(self.program.bare_text(written))
        found = [pair for pair in self.pairs_with(made, self.first) if not is_same(pair)]
        if any(name.startswith(HEADERS) for name, _, _ in found):
            # (a section that goes takes its references with it, and its headers come behind the others then)
            found = [pair for pair in self.pairs_with(made, read(written)) if not is_same(pair)]
        return found


def is_same(pair):
    _, one, other = pair
    if one is None or other is None:
        return (one or other).is_empty()
    return one.text == other.text


def indexed(package):
    """The stories of a package, each with its place among those of its kind in a bare text."""
    counts = {}
    for one in package.in_order():
        if one.root in KINDS:
            yield counts.get(one.root, 0), one
            counts[one.root] = counts.get(one.root, 0) + 1


def differences_of(pairs, view):
    """The places at which pairs of stories differ, as far as a view sees them."""
    found = []
    for name, one, other in pairs:
        texts = [story.text if story is not None else "" for story in (one, other)]
        before, windows = 0, texts
        if view.with_objects:
            before, windows = differing_windows(*texts)
        mine, its = (bare.Reading(view).paragraphs(text) for text in windows)
        if mine != its:
            found += differences(name, mine, its, before)
    return found


def differing_windows(one, other):
    """Two texts without the paragraphs at their beginnings and ends that are the same, and how many the first ones are."""
    begin = after_paragraph(one, common(one, 0, len(one), other, 0))
    parts = bare.own_lines(one, FIELD, begin)
    if parts.count(FIELD[0]) != parts.count(FIELD[1]):
        begin = 0  # (what a field shows depends on what is before)
    most = min(len(one), len(other)) - begin
    low, high = 0, most
    while low < high:
        middle = (low + high + 1) // 2
        if one.endswith(other[len(other) - middle :]):
            low = middle
        else:
            high = middle - 1
    end = one.find(PARAGRAPH, len(one) - low)
    same = 0 if end < 0 else len(one) - end - len(PARAGRAPH)
    return len(bare.own_lines(one, ("paragraph",), begin)), (one[begin : len(one) - same], other[begin : len(other) - same])


def after_paragraph(text, place):
    """The end of the last paragraph before a place, or 0."""
    while place > 0:
        place = text.rfind(PARAGRAPH, 0, place)
        if place < 0:
            return 0
        if bare.is_own(text, place):
            return place + len(PARAGRAPH)
    return 0


def objects_differ(pairs, view):
    """Whether the stories of a pair have other pictures, references or fields, or in another order, or the codes of fields alone differ."""
    for _, one, other in pairs:
        signs = [bare.own_lines(story.text, bare.OBJECTS) if story is not None else [] for story in (one, other)]
        if signs[0] != signs[1]:
            return True
    return not differences_of(pairs, bare.View(False, view.names))
