"""The journals in a folder that were made for a document: the second line of a journal says which one that is."""
import hashlib
import os

# More than the first two lines of a journal have.
HEAD = 200


def digest_of(package):
    """The digest of a package, by which its journals name it."""
    return hashlib.sha256(package).hexdigest()


def document_of(path):
    """The digest that a journal was made for, "" where a file is named as a journal and has none, None for another file."""
    try:
        with open(path, "rb") as file:
            first, *more = file.read(HEAD).removeprefix(b"\xef\xbb\xbf").split(b"\n")
    except OSError:
        return "" if path.endswith(".journal") else None
    words = more[0].split() if more else []
    if first.startswith(b"redline-journal ") and len(words) == 2 and words[0] == b"document":
        return words[1].decode("ascii", "replace")
    return "" if path.endswith(".journal") else None


def journals_in(folder, digest):
    """The names of the journals for this digest, in order, and a line for each other one."""
    fitting, lines = [], []
    for name in sorted(os.listdir(folder)):
        path = os.path.join(folder, name)
        document = document_of(path) if os.path.isfile(path) else None
        if document == digest:
            fitting.append(path)
        elif document is not None:
            lines.append("%s %s, and so is left out" % (path, "was made for another document" if document else "is no journal"))
    if not fitting:
        lines.append("no journal in %s was made for this document" % folder)
    return fitting, lines
