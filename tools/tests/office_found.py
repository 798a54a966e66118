#!/usr/bin/env python3
"""Finds the decisions that office.py made in LibreOffice, and tells each case in a line.

    office_found.py PROGRAM FOLDER

FOLDER has contract.docx, and what LibreOffice stored of it: with nothing decided (none.docx), with all accepted or rejected
(accept-all.docx), with the changes of one author (accept-of-Ann.docx), and with each change by itself (accept-1.docx).
LibreOffice drops some kinds of changes when it stores, so what is found is compared with what none.docx gives. It shows the two
ends of a move, and an insertion round a deletion, as changes of their own; to decide one of these alone is half a decision, and
so is to decide Cara Lee's changes, since a part of an insertion stays with the deletion in it, which is another's.
"""
import os
import re
import sys

from came_back import Desk, tell
from opc.unpack import unpack

# The files of decisions on one change and on those of one author, and how many with one word are half decisions.
CASES = {"one change": (r"-\d+", 4), "one author": ("-of-.*", 1)}
WORDS = ("accept", "reject")


def package_of(folder, name):
    with open(os.path.join(folder, name), "rb") as file:
        return unpack(file.read(), name != "contract.docx", lambda line: None)


def new_words(before, after):
    """The words of revisions that were still marked and are not any more."""
    return {after.words[rev] for rev in after.words if before.words[rev] == "open" and after.words[rev] != "open"}


def each_of(desk, folder, none, word, case):
    """Decisions with one word on each change by itself, or on those of each author."""
    pattern, most = CASES[case]
    halves = []
    for name in names(folder, word + pattern):
        answer = desk.answer(package_of(folder, name))
        if answer.differences:
            halves.append(name)
            if len(answer.differences) > 1:
                tell("LibreOffice, " + name, [one.line() for one in answer.differences])
        else:
            words = new_words(none, answer)
            tell("LibreOffice, " + name, None if word in words else "it finds %s" % (words or "nothing"))
    fault = None if len(halves) <= most else ", ".join(halves)
    tell("LibreOffice, %s %s: %d refused, as half decisions are" % (word, case, len(halves)), fault)


def all_changes(desk, folder, none, word):
    answer = desk.answer(package_of(folder, word + "-all.docx"))
    left = [rev for rev, found in answer.words.items() if found == "open"]
    # (cells that were deleted or inserted are kept as they are by LibreOffice)
    fault = None if not answer.differences and len(left) <= 2 and word in new_words(none, answer) else "%s are left" % left
    tell("LibreOffice, %s all" % word, fault)


def names(folder, pattern):
    return sorted(name for name in os.listdir(folder) if re.fullmatch(pattern + r"\.docx", name))


def main(path, folder):
    desk = Desk(path, package_of(folder, "contract.docx"))
    none = desk.answer(package_of(folder, "none.docx"))
    tell("LibreOffice, nothing decided", [one.line() for one in none.differences] or None)
    for word in WORDS:
        all_changes(desk, folder, none, word)
        for case in CASES:
            each_of(desk, folder, none, word, case)


if __name__ == "__main__":
    main(*sys.argv[1:])
