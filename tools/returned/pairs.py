"""Pairs the stories and notes of two packages: by likeness and by the places of references, never by ids, seldom by names."""
from returned.second import Places

NOTES = ("footnote", "endnote")
# A story is not paired with one that is less like it. The name of a part is worth a little.
LEAST, NAME = 0.2, 0.05


def grams(text):
    return {text[place : place + 3] for place in range(min(len(text), 4000))}


def likeness(one, other):
    if one.text == other.text:
        return 1.0
    mine, its = grams(one.text), grams(other.text)
    return len(mine & its) / (len(mine | its) or 1)


def is_within(text, other):
    """Whether a text is another one with some of its characters left out."""
    rest = iter(other)
    return all(character in rest for character in text)


def pair_stories(first, second):
    """Pairs of streams that are whole parts, the second one perhaps None."""
    pairs = []
    for root in ("document", "hdr", "ftr"):
        mine = [one for one in first.stories() if one.root == root]
        its = [one for one in second.stories() if one.root == root]
        taken = best_pairs(mine, its, -1 if root == "document" else LEAST)
        pairs += [(one, its[taken[place]] if place in taken else None) for place, one in enumerate(mine)]
    return pairs


def best_pairs(mine, its, least):
    """For places of the one list places of the other, the likest pairs first."""
    if len(mine) == 1 == len(its) and least < 0:
        return {0: 0}
    scores = sorted(
        (-(likeness(one, other) + (NAME if one.name == other.name else 0)), place, at)
        for place, one in enumerate(mine)
        for at, other in enumerate(its)
    )
    taken, used = {}, set()
    for score, place, at in scores:
        if place not in taken and at not in used and -score > least:
            taken[place] = at
            used.add(at)
    return taken


def alike_notes(first, second):
    """A test of whether two notes are alike, by the element that refers to them and by their ids."""
    notes = {kind + "Reference": (first.notes(kind), second.notes(kind)) for kind in NOTES}

    def alike(what, ident, other):
        mine, its = notes[what]
        if ident not in mine or other not in its:
            return (ident in mine) == (other in its)
        return is_within(its[other].text, mine[ident].text) or likeness(mine[ident], its[other]) > 0.6

    return alike


def pair_notes(first, second, searches, alike, with_objects):
    """Pairs of notes, by the places of their references in the stories that were searched."""
    pairs = []
    for kind in NOTES:
        mine, its = first.notes(kind), second.notes(kind)
        for search in searches:
            if search is not None:
                pairs += pairs_by_place(search, kind, mine, its, alike, with_objects)
        # notes that nothing refers to, one after the other
        lost = [one for ident, one in mine.items() if ident not in first.note_order[kind]]
        found = [one for ident, one in its.items() if ident not in second.note_order[kind]]
        pairs += [(one, found[place] if place < len(found) else None) for place, one in enumerate(lost)]
    return pairs


def pairs_by_place(search, kind, mine, its, alike, with_objects):
    stream, other, found = search
    what, places = kind + "Reference", Places(found.blocks, other)
    theirs = [one for one in other.stream.objects if one[1] == what]
    pairs, at = [], 0
    for place, name, _, ident, _ in stream.objects:
        if name != what or ident not in mine:
            continue
        low, high = places.window(place)
        if with_objects:
            spot = places.of(place)
            low, high = (0, -1) if spot is None else (spot, spot)
        here = at
        while here < len(theirs) and (theirs[here][0] < low or (theirs[here][0] <= high and not alike(what, ident, theirs[here][3]))):
            here += 1
        if here < len(theirs) and theirs[here][0] <= high and theirs[here][3] in its:
            pairs.append((mine[ident], its[theirs[here][3]]))
            at = here + 1
        else:
            pairs.append((mine[ident], None))
    return pairs


def pair_comments(first, second):
    """Pairs of comments, by who made them and by likeness, and how many the second package has besides."""
    mine, its = list(first.notes("comment").values()), list(second.notes("comment").values())
    pairs, used = [], set()
    for one in mine:
        for place, other in enumerate(its):
            if place not in used and one.who == other.who and likeness(one, other) > 0.3:
                used.add(place)
                pairs.append((one, other))
                break
    return pairs, len(its) - len(used)
