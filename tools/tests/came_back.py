#!/usr/bin/env python3
"""Tries what redline-docx makes of documents that came back, and tells each case in a line.

    came_back.py PROGRAM [SECONDS [PAIRS [FIRST]]]

Documents are decided by the program, written anew by rewriter.py as a word processor would, changed further where a case wants
that, and found again. Packages are the examples and random ones by their numbers from FIRST on, as many as there are seconds for,
side by side, and 1,000 at most or so many.
"""
import itertools
import os
import random
import re
import sys
import time
from concurrent.futures import ProcessPoolExecutor

HERE = os.path.dirname(os.path.realpath(__file__))
TOP = os.path.dirname(os.path.dirname(HERE))
EXAMPLES = os.path.join(TOP, "examples")
sys.dont_write_bytecode = True
sys.path[:0] = [os.path.join(TOP, "tools"), os.path.join(TOP, "bench"), EXAMPLES, HERE]
sys.setrecursionlimit(100000)

from packages import small_package, with_fields, with_headers, with_notes
from returned import bare, compare, reader
from returned.check import answer_for
from returned.program import Program
from rewriter import rewritten

# So many of a thousand random documents may be refused although they were decided and nothing else.
REFUSED = 5
EVE = b'w:author="Eve Hall" w:date="2026-11-28T10:00:00Z"'


def tell(name, fault=None):
    print("FAILED %s: %s" % (name, fault) if fault else "ok %s" % name, flush=True)


def file_of(name):
    with open(os.path.join(EXAMPLES, name), "rb") as file:
        return file.read()


class Desk:
    """The program, a package that was frozen, and what decisions make of it."""

    def __init__(self, path, package):
        self.program, self.package = Program(path), package
        self.name = self.program.hold(package)
        self.count = len(reader.read(package).revisions)

    def close(self):
        for name in ["/proc/self/fd/%d" % handle for handle in self.program.handles]:
            self.program.drop(name)

    def decided(self, words):
        return self.program.written(self.name, "Eve Hall", words)

    def answer(self, back):
        return answer_for(self.program, (self.name, self.package), (self.program.hold(back), back))


def some_words(count, draw):
    """Words on revisions: all accepted, all rejected, or each by chance."""
    style = draw.random()
    if style < 0.2:
        return dict.fromkeys(range(1, count + 1), "accept" if style < 0.1 else "reject")
    words = {number: draw.choice(("accept", "reject", None)) for number in range(1, count + 1)}
    return {number: word for number, word in words.items() if word}


def read_the_same(program, one, other):
    """Whether two packages have the same bare text, but for the order of two marks with one sign, and for headers of no section.

    (Such marks come in the order of the bytes of their names, and a name may be written with references or without.)
    """
    kept = []
    for data in (one, other):
        found, most = bare.stories_of(program.bare_text(data)), headers_shown(data)
        texts = {kind: [[marks_sorted(line) for line in story.text.split("\n")] for story in found[kind][: most.get(kind)]] for kind in found}
        kept.append({kind: stories for kind, stories in texts.items() if stories})
    return kept[0] == kept[1]


def headers_shown(data):
    """How many headers and footers some section refers to. (In a bare text the others come behind them.)"""
    package = reader.read(data)
    shown = package.referred()
    return {kind: sum(1 for one in package.stories() if one.root == root and one.name in shown) for root, kind in compare.KINDS.items() if root != "document"}


def marks_sorted(line):
    marks, rest = bare.marks_of(line)
    return sorted(marks), rest


def verdict(desk, words, seed):
    """What comes of the document under these words, written anew: the verdict, and its fault or the first place that is told."""
    decided = desk.decided(words)
    back = rewritten(decided, seed)
    if not read_the_same(desk.program, decided, back):
        return "wrong", "written anew, it has another bare text"
    answer = desk.answer(back)
    if answer.differences:
        return "refused", answer.differences[0].line()
    written = desk.decided(answer.said)
    if written == decided:
        return "same", None
    if desk.program.bare_text(written) == desk.program.bare_text(decided):
        return "equal", None
    return ("untold", None) if answer.untold() else ("wrong", "it has another bare text")


class Pairs:
    """Counts of pairs of a document and the same document decided, written anew and found again."""

    def __init__(self):
        self.counts = dict.fromkeys(("same", "equal", "untold", "refused", "wrong"), 0)
        self.faults = {"refused": [], "wrong": []}

    def count(self):
        return sum(self.counts.values())

    def join(self, others):
        for one, count in others.counts.items():
            self.counts[one] += count
        for one, lines in others.faults.items():
            self.faults[one] += lines

    def add(self, desk, name, words, seed):
        said, line = verdict(desk, words, seed)
        self.counts[said] += 1
        if line is not None:
            self.faults[said].append("%s with seed %d: %s" % (name, seed, line))

    def told(self):
        form = "%d pairs: %d the same bytes, %d the same bare text, %d with properties that are neither, %d refused"
        return form % (self.count(), *(self.counts[one] for one in ("same", "equal", "untold", "refused")))


def add_pair(pairs, path, name, package, seed):
    desk = Desk(path, package)
    try:
        pairs.add(desk, name, some_words(desk.count, random.Random(seed)), seed)
    finally:
        desk.close()


def pairs_of_examples(path):
    pairs = Pairs()
    for name in sorted(os.listdir(EXAMPLES)):
        if name.endswith(".xml") and name not in ("unsound.xml", "contract.back.xml"):
            for seed in range(3):
                add_pair(pairs, path, name, file_of(name), seed)
    tell("examples, " + pairs.told(), "; ".join(pairs.faults["refused"] + pairs.faults["wrong"]))


def random_package(number):
    """The random package with this number. By turns it has notes, headers or fields."""
    package, more = small_package(random.Random(number)), (None, with_notes, with_headers, with_fields)[number % 4]
    return more(package, random.Random(number), plain=True) if more else package


def pairs_by_number(path, numbers, end):
    """The pairs of the packages with these numbers, until the time is over."""
    pairs = Pairs()
    for number in itertools.takewhile(lambda _: time.monotonic() < end, numbers):
        add_pair(pairs, path, "package %d" % number, random_package(number), number)
    return pairs


def pairs_by_chance(path, seconds, most, first):
    """Random packages by their numbers, some on each processor, until the time is over."""
    pairs, end, beside = Pairs(), time.monotonic() + seconds, len(os.sched_getaffinity(0))
    shares = [range(first + place, first + most, beside) for place in range(beside)]
    with ProcessPoolExecutor(beside) as pool:
        for share in pool.map(pairs_by_number, itertools.repeat(path), shares, itertools.repeat(end)):
            pairs.join(share)
    tell("random packages give no other text", "; ".join(pairs.faults["wrong"][:5]))
    few = pairs.counts["refused"] * 1000 < REFUSED * max(pairs.count(), 400)
    tell("random packages, " + pairs.told(), None if few else "more than %d of 1,000 are refused" % REFUSED)


# Changes on top, in the contract


def contract(path, seed=1, words=None):
    """The contract, decided, and written anew with the usual prefix."""
    desk = Desk(path, file_of("contract.xml"))
    words = some_words(desk.count, random.Random(seed)) if words is None else words
    decided = desk.decided(words)
    backs = (rewritten(decided, 100 * again + seed) for again in range(100))
    return desk, words, next(back for back in backs if b"<w:document" in back)


def texts_of(data):
    """The places of the texts of runs that are in no field and have two letters at least."""
    return [found.span(1) for found in re.finditer(rb"<w:t(?: [^>]*)?>([^<]*\w\w[^<]*)</w:t>", data)]


def with_word(back, draw):
    """What came back with a word put into a text without a mark, or None where there is no text."""
    ends = [end for _, end in texts_of(back)]
    end = draw.choice(ends) if ends else None
    return None if end is None else back[:end] + b" zebra" + back[end:]


def untracked_edits(path):
    """A word put into a text by hand is refused, with its place."""
    for seed in range(12):
        desk, _, back = contract(path, seed)
        lines = [one.line() for one in desk.answer(with_word(back, random.Random(seed))).differences]
        if len(lines) != 1 or "zebra" not in lines[0].split(" where the decisions give ")[0]:
            return tell("an untracked edit", "seed %d: %s" % (seed, lines))
        desk.close()
    tell("an untracked edit is refused with its place, 12 times")


def with_insertion(back, draw):
    """What came back with a word that Eve inserted with a mark at a paragraph's end, or None where it has no place."""
    ends = [found.end() for found in re.finditer(rb"</w:r>(?=</w:p>)", back) if is_plain(back, found.end())]
    end = draw.choice(ends) if ends else None
    added = b"<w:ins w:id='9001' %s><w:r><w:t>zebra</w:t></w:r></w:ins>" % EVE
    return None if end is None else back[:end] + added + back[end:]


def tracked_edits(path):
    """A word put in or taken out with a mark is listed, and the decisions are as without it."""
    for seed in range(6):
        desk, words, back = contract(path, seed)
        wanted = desk.answer(back).said
        answer = desk.answer(with_insertion(back, random.Random(seed)))
        lines = [one.line() for one in answer.proposals]
        if answer.differences or answer.said != wanted:
            return tell("a tracked edit", "seed %d: other decisions: %s" % (seed, [one.line() for one in answer.differences]))
        if len(lines) != 1 or not re.fullmatch(r'new in .*, paragraph \d+(?: \(clause .*\))?: inserted by Eve Hall, "zebra"', lines[0]):
            return tell("a tracked edit", "seed %d: %s" % (seed, lines))
        desk.close()
    tell("a tracked edit is listed, 6 times")


def is_plain(data, place):
    """Whether the paragraph of a place has no field."""
    return b"fld" not in data[data.rfind(b"<w:p>", 0, place) : place]


def with_deletion(back, words):
    """What came back with the first run without properties that has these words deleted by Eve with a mark, or None."""
    found = re.search(rb"<w:r(?: [^>]*)?><w:t(?: [^>]*)?>([^<]*%s[^<]*)</w:t></w:r>" % words, back)
    if found is None:
        return None
    run = found.group().replace(b"<w:t", b"<w:delText").replace(b"</w:t>", b"</w:delText>")
    return back[: found.start()] + b"<w:del w:id='9002' %s>" % EVE + run + b"</w:del>" + back[found.end() :]


def deleted_by_reviewer(path):
    """A text that is deleted with a mark is listed as such, and its words are kept."""
    desk, _, back = contract(path, 2)
    answer = desk.answer(with_deletion(back, rb"\w\w"))
    lines = [one.line() for one in answer.proposals]
    fault = None if len(lines) == 1 and "deleted by Eve Hall" in lines[0] and not answer.differences else "%s" % lines
    tell("a tracked deletion is listed", fault)
    desk.close()


def with_half(back):
    """What came back with the first letters of an insertion accepted by themselves, or None where there is no such insertion."""
    run = rb"<w:r(?: [^>]*)?>(?:<w:rPr>(?:(?!</?w:rPr).)*</w:rPr>)?<w:t(?: [^>]*)?>"
    found = re.search(rb"(<w:ins [^>]*>)(%s)(\w{4}[^<]{5,})(</w:t></w:r>)" % run, back)
    if found is None:
        return None
    change, run, text, end = found.groups()
    return back[: found.start()] + run + text[:4] + end + change + run + text[4:] + end + back[found.end() :]


def half_decisions(path):
    """A part of an insertion that was accepted by itself is no decision, and its place is told."""
    desk, _, back = contract(path, 3, {})
    lines = [one.line() for one in desk.answer(with_half(back)).differences]
    fault = None if len(lines) == 1 and "{+" in lines[0] and ", paragraph " in lines[0] else "%s" % lines
    tell("half a decision is refused with its place", fault)
    desk.close()


def without_names(path):
    """Names and dates that were left out: changes are compared by kind."""
    for name, pattern, value in (("dates", rb' w:date="[^"]*"', b""), ("names and dates", rb' w:author="[^"]*"', b' w:author="Author"')):
        desk, words, back = contract(path, 4)
        bare_back = re.sub(pattern, value, re.sub(rb' w:date="[^"]*"', b"", back))
        answer = desk.answer(bare_back)
        fault = "%s" % [one.line() for one in answer.differences] if answer.differences or answer.view.names == "all" or answer.proposals else None
        tell("%s were left out" % name, fault)
        desk.close()


def without_picture(path):
    desk, _, back = contract(path, 5)
    cut = re.sub(rb"<w:drawing>.*?</w:drawing>", b"", back, count=1, flags=re.S)
    answer = desk.answer(cut)
    fault = None if cut != back and not answer.differences and not answer.view.with_objects else "%s" % [one.line() for one in answer.differences]
    tell("a picture was taken out: the text alone is compared", fault)
    desk.close()


def field_in_other_form(path):
    """A page's number that was a field in one element, and came back as one in several with another result."""
    desk, words, back = contract(path, 6)
    found = re.search(rb"<w:fldSimple [^>]*>.*?</w:fldSimple>", back, re.S)
    part = b"<w:r><w:fldChar w:fldCharType='%s'/></w:r>"
    code = b"<w:r><w:instrText> PAGE </w:instrText></w:r>"
    field = part % b"begin" + code + part % b"separate" + b"<w:r><w:t>17</w:t></w:r>" + part % b"end"
    answer = desk.answer(back[: found.start()] + field + back[found.end() :])
    other = desk.answer(back[: found.start()] + field.replace(b"PAGE", b"SEQ a") + back[found.end() :])
    lines = [one.line() for one in answer.differences]
    fault = None if not lines and answer.said == desk.answer(back).said and other.differences else "%s" % lines
    tell("a page's number in another form is the same, and another field is not", fault)
    desk.close()


def read_aside(path):
    """Large packages are read side by side, with the same answer."""
    desk, _, back = contract(path, 6)
    wanted, kept = desk.answer(back).said, reader.LARGE
    reader.LARGE = 0
    answer = desk.answer(back)
    reader.LARGE = kept
    tell("two packages that are read side by side", None if answer.said == wanted and not answer.differences else "other decisions")
    desk.close()


def main(path, seconds=20, most=1000, first=0):
    pairs_of_examples(path)
    pairs_by_chance(path, float(seconds), int(most), int(first))
    for case in (untracked_edits, tracked_edits, deleted_by_reviewer, half_decisions, without_names, without_picture, field_in_other_form, read_aside):
        case(path)


if __name__ == "__main__":
    main(*sys.argv[1:])
