#!/usr/bin/env python3
"""Tries `redline-docx scrub`, and tells each case in a line.

    scrub.py PROGRAM FOLDER N [DOCUMENTS]

A .docx that has one of everything, N .docx at random, examples and random packages that were settled, and each .docx below
DOCUMENTS, settled. What is left is found by a second reading (examples/left.py) and by words that stand nowhere else. FOLDER gets
before/NAME.docx and after/NAME.docx of all that a word processor can open.
"""
import glob
import json
import os
import random
import subprocess
import sys

HERE = os.path.dirname(os.path.realpath(__file__))
TOP = os.path.dirname(os.path.dirname(HERE))
sys.dont_write_bytecode = True
sys.path[:0] = [os.path.join(TOP, "tools"), os.path.join(TOP, "bench"), os.path.join(TOP, "examples"), HERE]
sys.setrecursionlimit(100000)

import scrub_whole
from opc.pack import pack, parts_of
from opc.unpack import unpack
from packages import small_package
from scrub.choice import NAMES, THINGS
from scrub.scrubbed import Scrubbed

DOCX = os.path.join(TOP, "tools", "redline-docx")
RELATIONSHIPS = b"application/vnd.openxmlformats-package.relationships+xml"
USUAL = {name for name, is_usual, _ in THINGS if is_usual}
EVERYTHING = ",".join(NAMES)
SETTLED = ("contract", "letter", "moves", "joins", "terms", "plain", "rows")


def tell(name, fault=None):
    print("FAILED %s: %s" % (name, fault) if fault else "ok %s" % name, flush=True)


class Desk:
    """The program, the tool, and a folder."""

    def __init__(self, program, folder):
        self.program, self.folder = program, folder
        for name in ("before", "after"):
            os.makedirs(os.path.join(folder, name), exist_ok=True)

    def call(self, *words):
        done = subprocess.run([*words], stdin=subprocess.DEVNULL, capture_output=True, env={**os.environ, "REDLINE": self.program})
        return done.returncode, done.stdout, done.stderr.decode()

    def scrub(self, name, data, *words):
        """Status, .docx and lines of a call on a .docx."""
        before, after = (os.path.join(self.folder, which, name + ".docx") for which in ("before", "after"))
        with open(before, "wb") as file:
            file.write(data)
        status, _, lines = self.call(DOCX, "scrub", before, *words, "-f", "-o", after)
        made = None
        if status == 0:
            with open(after, "rb") as file:
                made = file.read()
        else:
            os.unlink(before)
        return status, made, lines


def all_of(docx):
    """All that is in a .docx, and the names of its parts."""
    return "\n".join(name + "\n" + data.decode("utf-8", "replace") for name, _, data in parts_of(unpack(docx)))


def is_within(less, more):
    """Whether the bytes are others, with some of them cut out."""
    rest = iter(more)
    return all(byte in rest for byte in less)


def fault_of(before, after):
    """What is wrong with a result, whatever was taken: bytes that aren't the document's, or relationships that lead to nothing."""
    old = {name: data for name, _, data in parts_of(unpack(before))}
    new = {name: data for name, _, data in parts_of(unpack(after))}
    for name, data in new.items():
        if name not in old or not is_within(data, old[name]):
            return "%s has other bytes" % name
    gone = {name.lower() for name in old} - {name.lower() for name in new}
    for name, data in new.items():
        for lost in gone:
            if name.endswith(".rels") and ('Target="%s"' % lost.rpartition("/")[2]).encode() in data.lower().replace(b'target="../', b'target="').replace(b"target=", b"Target="):
                return "%s leads to %s, which is gone" % (name, lost)
    if Scrubbed(unpack(after), USUAL).data != unpack(after):
        return "a second call would take more"
    return None


def words_fault(text, taken, asked):
    """Which word is there although its thing was taken, or isn't although it was not."""
    for name, words in scrub_whole.WORDS.items():
        shown = scrub_whole.SHOWN.get(name, [])
        for word in words + shown:
            goes = name in (asked if word in shown else taken)
            if (word in text) == goes:
                return "%s is %s" % (word, "left" if goes else "gone")
    return next(("%s is gone" % word for word in scrub_whole.NEVER if word not in text), None)


def one_of_everything(desk):
    whole = scrub_whole.docx_of(scrub_whole.parts())
    cases = [((), USUAL, set())]
    cases += [(("--keep", name), USUAL - {name}, set()) for name in USUAL]
    cases += [(("--take", name), USUAL | {name}, {name}) for name in NAMES]
    cases += [(("--take", EVERYTHING), set(NAMES), set(NAMES)), (("--take", "comment", "--keep", "rsid,title"), USUAL - {"rsid", "title"} | {"comment"}, {"comment"})]
    cases += [(("--keep", ",".join(USUAL)), set(), set())]
    for words, taken, asked in cases:
        name = "everything " + " ".join(words)[:40]
        status, made, lines = desk.scrub("everything", whole, *words)
        if status:
            tell(name, "status %d: %s" % (status, lines))
            continue
        fault = words_fault(all_of(made), taken, asked) or (fault_of(whole, made) if taken == USUAL else None)
        tell(name, fault)
    status, made, _ = desk.scrub("everything", whole, "--keep", ",".join(USUAL))
    tell("nothing taken, nothing changed", None if made == pack(unpack(whole)) else "it changed")


def at_random(desk, many):
    counts, faults = {}, []
    for number in range(many):
        docx = scrub_whole.drawn(number)
        words = [(), ("--take", EVERYTHING), ("--take", "comment"), ("--keep", "rsid")][number % 4]
        # (what is shown and was asked for by name is not compared in a word processor)
        name = "taken" if EVERYTHING in words else "random%d" % number
        status, made, lines = desk.scrub(name, docx, *words)
        counts[status] = counts.get(status, 0) + 1
        if status == 0:
            fault = fault_of(docx, made) if not words else None
        else:
            fault = None if status == 3 else lines
        if fault:
            faults.append("random %d %s: %s" % (number, words, fault))
    tell("%d at random, by status %s" % (many, counts), "; ".join(faults[:3]) if faults else None if counts.get(0, 0) > many / 2 else "too few are written")


def settled(desk, many):
    """Examples and packages at random, with all accepted and all rejected."""
    faults, count = [], 0
    names = [os.path.join(TOP, "examples", name + ".xml") for name in SETTLED]
    for number in range(many):
        names.append(os.path.join(desk.folder, "package%d.xml" % number))
        with open(names[-1], "wb") as file:
            file.write(small_package(random.Random(number)))
    for path in names:
        for half in ("accept", "reject"):
            status, package, _ = desk.call(desk.program, "settle", half, path)
            if status or not is_settled(desk, package):
                continue
            count += 1
            name = os.path.basename(path)[:-4] + "-" + half
            docx = pack(with_way_in(package))
            status, made, lines = desk.scrub(name, docx)
            fault = lines if status else fault_of(docx, made)
            if fault:
                faults.append("%s: %s" % (name, fault))
    tell("%d settled documents" % count, "; ".join(faults[:3]) if faults or not count else None)


def of_people(desk, documents):
    """Each .docx below a folder, with all accepted and all rejected: `left` has nothing of what is taken, but for what it says it kept."""
    faults, counts = [], {"files": 0, "refused": 0, "settled": 0}
    package = os.path.join(desk.folder, "settled.xml")
    for path in sorted(glob.glob(os.path.join(documents, "**", "*.docx"), recursive=True)):
        counts["files"] += 1
        for half in ("accept", "reject"):
            status, _, _ = desk.call(DOCX, "settle", half, path, "--tidy", "-f", "-o", package)
            if status or desk.call(desk.program, "check", package)[1] != b"sound 0 revisions\n":
                counts["refused"] += 1
                continue
            counts["settled"] += 1
            with open(package, "rb") as file:
                docx = pack(file.read())
            name = "%s-%s" % (os.path.basename(path)[:-5], half)
            status, made, lines = desk.scrub(name, docx)
            fault = lines if status else fault_of(docx, made) or left_fault(desk, name, lines)
            if fault:
                faults.append("%s: %s" % (name, fault))
    tell("documents of people: %s" % counts, "; ".join(faults[:5]) if faults or not counts["settled"] else None)


def left_fault(desk, name, lines):
    """What `left` tells of a result that was to be taken, where the lines don't say that it was kept."""
    status, listed, _ = desk.call(DOCX, "left", os.path.join(desk.folder, "after", name + ".docx"), "--format", "json")
    kept = [line.split(": kept ", 1)[1] for line in lines.split("\n") if ": kept " in line]
    for one in json.loads(listed) if status == 0 else [{"fact": "no list", "count": 1, "part": ""}]:
        if one["fact"] in {*USUAL, "no list"} and not any(line.startswith(one["fact"]) for line in kept):
            return "%(fact)s is left %(count)d times in %(part)s" % one
    return None


def with_way_in(package):
    """A package with the relationship to its document, which those at random don't have and a word processor needs."""
    if b'"/_rels/.rels"' in package:
        return package
    part = b'<pkg:part pkg:name="/_rels/.rels" pkg:contentType="%s"><pkg:xmlData>%s</pkg:xmlData></pkg:part>'
    made = part % (RELATIONSHIPS, scrub_whole.rels(("a1", "officeDocument", "word/document.xml")).encode())
    return package.replace(b"</pkg:package", made + b"</pkg:package", 1)


def is_settled(desk, package):
    path = os.path.join(desk.folder, "settled.xml")
    with open(path, "wb") as file:
        file.write(package)
    return desk.call(desk.program, "check", path)[1] == b"sound 0 revisions\n"


def main(program, folder, many, documents=""):
    desk = Desk(program, folder)
    one_of_everything(desk)
    at_random(desk, int(many))
    for which in ("before", "after"):
        os.unlink(os.path.join(folder, which, "taken.docx"))
    settled(desk, int(many))
    if documents:
        of_people(desk, documents)


if __name__ == "__main__":
    main(*sys.argv[1:])
