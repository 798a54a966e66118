"""The words of a call, and the endings of the names of files that go with them."""
import os
import sys

from opc.terminal import masked

NAME = "redline-docx"
# Where a call's words have packages, counted from 0. Other commands have one as their second word.
PLACES = {"settle": (2,), "resume": (1, 2), "returned": (1, 2)}
# The commands that write a package.
WRITES_PACKAGE = ("settle", "write", "scrub")
# The commands that take a folder of journals.
TAKES_FOLDER = ("list", "report", "page", "write", "desk")
# What each command writes, what the names of these files end in, and how no name of another file may end.
DOCUMENT, PAGE, JOURNAL, TEXT = "a Word document", "a page for a browser", "a journal", "text"
WRITES = {
    **dict.fromkeys(WRITES_PACKAGE, DOCUMENT),
    **dict.fromkeys(("page", "desk"), PAGE),
    **dict.fromkeys(("decide", "join", "resume", "returned"), JOURNAL),
    **dict.fromkeys(("check", "list", "report", "text", "left", "sample"), TEXT),
}
DOCX = (".docx", ".docm", ".dotx", ".dotm")
ENDINGS = {DOCUMENT: DOCX + (".xml",), PAGE: (".html", ".htm")}
FOREIGN = DOCX + (".xml", ".html", ".htm", ".doc", ".dot", ".odt", ".ott", ".rtf", ".pdf", ".zip")
VALUES = {"-o": "out", "--package": "package"}
# The options of redline that no value follows.
FLAGS = ("--no-pictures",)
SWITCHES = ("-f", "--tidy", "--drop-unused-notes", "--idle-locks")


def tell(line):
    """Writes a line of this script for a person."""
    sys.stderr.write("%s: %s\n" % (NAME, masked(line)))


class Refused(Exception):
    """Why nothing was written, with the status of that."""

    def __init__(self, status, line):
        super().__init__(line)
        self.status = status


def read_words(words):
    """The words for redline, and what is for this script. An option that isn't this script's takes the next word with it, but for a flag."""
    own, theirs, rest = {"switches": set()}, [], list(words)
    while rest:
        word = rest.pop(0)
        if word in SWITCHES:
            own["switches"].add(word)
        elif word in VALUES:
            if not rest or VALUES[word] in own:
                raise Refused(2, "%s is named once, with a file (see %s --help)" % (word, NAME))
            own[VALUES[word]] = rest.pop(0)
        else:
            theirs.append(word)
            if word == "--title":
                own["title"] = True
            if word.startswith("--") and word not in FLAGS and rest:
                theirs.append(rest.pop(0))
    return theirs, own


def ending(name):
    return os.path.splitext(name)[1].lower()


def is_zip(path):
    if not os.path.isfile(path):
        return False
    try:
        with open(path, "rb") as file:
            return file.read(2) == b"PK"
    except OSError:
        return False
