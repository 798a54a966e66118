"""Tells of a large document that what came back is another one altogether, before anything is searched: that would take minutes."""
import re

from returned.counter import plain_of
from returned.differences import DOCUMENT, Difference
from returned.streams import OBJECT_SIGNS

# In a document of so many stretches without changes, each of so many characters, so many of them are looked for in what came back.
MANY, LONG, TRIED = 2000, 24, 200
OBJECTS = re.compile("[%s]" % "".join(OBJECT_SIGNS.values()))


def lost_places(first, second):
    """Places of a large document that no decision can change, where nearly none of those that are tried is in what came back."""
    mine, its = ([one for one in package.stories() if one.root == "document"] for package in (first, second))
    if len(mine) != 1 or len(its) != 1:
        return []
    text, other = mine[0].text, its[0].text
    stretches = [(begin, end) for begin, end, members, _ in mine[0].stretches() if not members and end - begin >= LONG]
    tried = stretches[:: max(1, len(stretches) // TRIED)] if len(stretches) >= MANY else []
    lost = [(begin, end) for begin, end in tried if text[begin:end] not in other]
    if is_most(lost, tried):
        # (what came back may have lost all its pictures and references)
        other = OBJECTS.sub("", other)
        lost = [(begin, end) for begin, end in lost if OBJECTS.sub("", text[begin:end]) not in other]
    if not is_most(lost, tried):
        return []
    return [Difference(DOCUMENT, mine[0].paragraph_of(begin), plain_of(text[begin:end]), "") for begin, end in lost]


def is_most(some, tried):
    return len(some) * 20 > len(tried) * 19
