"""What can be taken out, each by its name, which is that of the fact in `redline left` where that tells it."""

# In the order in which they are told: the name, whether it is taken unless the call says otherwise, and what it is.
THINGS = (
    ("comment", False, "comments that are on text"),
    ("orphan", True, "comments that are on nothing"),
    ("note", True, "footnotes and endnotes that no reference names"),
    ("loose-marker", True, "ends of moves that belong to no change"),
    ("tracking", True, "that changes are tracked"),
    ("protection", False, "what keeps others from changing the document"),
    ("rsid", True, "marks of single sittings"),
    ("creator", True, ""),
    ("last-editor", True, ""),
    ("title", True, ""),
    ("subject", True, ""),
    ("manager", True, ""),
    ("company", True, ""),
    ("person", True, "the list of people"),
    ("custom-property", True, "properties that somebody added"),
    ("variable", True, "variables of the document"),
    ("mail-merge", True, "the source of a mail merge"),
    ("template", True, "the template that the document was made of"),
)
NAMES = tuple(name for name, _, _ in THINGS)


class Unknown(Exception):
    """What is wrong with the words, in a sentence."""


def names_in(word):
    names = word.split(",")
    for name in names:
        if name not in NAMES:
            raise Unknown("there is nothing called %s to take out; there are %s" % (name, ", ".join(NAMES)))
    return names


def read_choice(words):
    """The document, the names of what is taken, and of these the ones that the call asks for by name."""
    taken, asked, documents, rest = {name for name, is_usual, _ in THINGS if is_usual}, set(), [], list(words)
    while rest:
        word = rest.pop(0)
        if word not in ("--keep", "--take"):
            documents.append(word)
        elif not rest:
            raise Unknown("%s needs names, with a comma between them" % word)
        elif word == "--keep":
            taken.difference_update(names_in(rest.pop(0)))
        else:
            asked.update(names_in(rest.pop(0)))
    if len(documents) != 1 or documents[0].startswith("--"):
        raise Unknown("scrub takes one document, and --keep and --take with names")
    return documents[0], taken | asked, asked
