"""Locks on authors that hold nothing. A lock is a promise: one whose name is spelled otherwise must not fail in silence."""
import unicodedata

from opc.terminal import masked


def letters(name):
    """A name without what two spellings of it may differ in: capitals, spaces, signs that can't be seen, and Unicode's forms."""
    text = unicodedata.normalize("NFKC", unicodedata.normalize("NFKD", name).casefold())
    return "".join(one for one in text if not one.isspace() and unicodedata.category(one) not in ("Cc", "Cf"))


def shown(name):
    """A name as it can go to a terminal."""
    return '"%s"' % masked(name)


def line_on(name, authors):
    """What to say of a lock on this name, which none of the authors has."""
    near = sorted(author for author in authors if letters(author) == letters(name))
    if near:
        return "no change is by %s, but some are by %s, which is spelled otherwise (capitals, spaces or the form of a letter)" % (
            shown(name),
            " and ".join(map(shown, near)),
        )
    return "no change is by %s; redline-docx list shows the names of all authors" % shown(name)


def idle_lines(locked, authors):
    """A line for each name that is locked and is no author's, each once, in their order."""
    return [line_on(name, authors) for name in dict.fromkeys(locked) if name not in authors]
