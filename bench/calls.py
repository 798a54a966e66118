#!/usr/bin/env python3
"""Calls whose input grows in another way than the document: reviewers, journals, authors, ranges, depth. Used by bench/shapes."""
import hashlib
import os

import make

WORDS_OF_CALLS = {
    # one change, on which each of so many reviewers has a word in one journal
    "reviewers": ["write P J", "list P J", "list P J --format full", "report P J", "page P J", "join J"],
    # so many journals of twenty words each
    "journals": ["write P JS", "list P JS", "report P JS", "page P JS", "join JS"],
    # so many changes, each by an author of its own
    "authors": ["check P", "list P", "report P", "page P", "left P"],
    # so many ranges that each choose the most of the changes
    "ranges": ["decide P Ann --accept numbers:RANGES", "list P --only numbers:RANGES"],
    # so many insertions in one another, each with a text of its own
    "nested": ["check P", "list P", "list P --format words", "list P --format full", "list P --format words --only numbers:1", "page P", "text P --view marked", "text P --view bare"],
}
# How many at the first of the two sizes; the second has twice as many.
COUNTS = {"reviewers": 2000, "journals": 200, "authors": 2000, "ranges": 200, "nested": 240}
CHANGE = '<w:p><w:ins w:id="1" w:author="%s"><w:r><w:t>so many words</w:t></w:r></w:ins></w:p>'


def named(number):
    return "Reviewer %s" % make.letters(number)


def saved_journal(file, package, revisions, entries):
    """A journal of these entries: sequence number, revision, word and reviewer of each."""
    head = "redline-journal 1\ndocument %s\nrevisions %d\n" % (hashlib.sha256(package.encode()).hexdigest(), revisions)
    make.save(file, head + "".join("%d\t%d\t%s\t%s\n" % entry for entry in entries))


def body_of(name, count):
    """The body of the document, and how many changes it has."""
    if name == "reviewers":
        return CHANGE % "Ann", 1
    if name == "authors":
        return "".join(CHANGE % named(i) for i in range(count)), count
    if name == "nested":
        before = "".join('<w:ins w:id="1"><w:r><w:t>%s, </w:t></w:r>' % make.letters(i) for i in range(count))
        return "<w:p>%s%s</w:p>" % (before, "</w:ins>" * count), count
    return CHANGE % "Ann" * count, count


def call(name, count, folder):
    """Makes the files of a call of this shape, and gives for each of their names in WORDS_OF_CALLS what stands there."""
    body, changes = body_of(name, count)
    whole = make.FRONT + body + make.BACK
    package = os.path.join(folder, "P")
    make.save(package, whole)
    first, journals = os.path.join(folder, "J"), []
    if name == "reviewers":
        saved_journal(first, whole, changes, [(1, 1, ("accept", "reject")[i % 2], named(i)) for i in range(count)])
    if name == "journals":
        for i in range(count):
            journals.append(os.path.join(folder, "J%d" % i))
            entries = [(k + 1, 1 + (i * 20 + k) * 7919 % changes, "accept", named(i)) for k in range(20)]
            saved_journal(journals[-1], whole, changes, entries)
    ranges = ",".join("%d-%d" % (1 + i % 7, changes) for i in range(count))
    return {"P": [package], "J": [first], "JS": journals, "RANGES": ranges}


def words_of(command, there):
    """The words of a call, with the files in place of their names."""
    words = []
    for word in command.split():
        if word in there and word != "RANGES":
            words += there[word]
        else:
            words.append(word.replace("RANGES", there["RANGES"]))
    return words


def size_of(words):
    """The bytes of a call's files and words."""
    return sum(os.path.getsize(word) if os.path.isfile(word) else len(word) for word in words)
