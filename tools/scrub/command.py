"""Answers `redline-docx scrub IN [--keep NAMES] [--take NAMES]`: the words, the lines, the status, and the check of the result."""
import json

from returned.command import pass_on
from returned.program import CallFailed, Program
from scrub.choice import NAMES, Unknown, read_choice
from scrub.scrubbed import Scrubbed

USAGE, TRACKED, FAULTY = 2, 14, 15
NOTHING_TRACKED = b"sound 0 revisions\n"
# Facts of `redline left` that no name of ours takes, and that are told as left.
TOLD = ("undecided", "hidden-text", "external", "embedded", "macros", "custom-xml", "name")
# Facts that a name of ours takes which is not theirs.
UNUSED = ("unused-footnote", "unused-endnote")


class Fault(Exception):
    """What the check of the result found."""


def scrub(words, call, find_redline):
    """Status and package, the latter None where nothing is to be written. `call` tells lines and has the files in memory."""
    try:
        document, taken, asked = read_choice(words)
    except Unknown as error:
        call.say(str(error))
        return USAGE, None
    program = Program(find_redline(), call.memory.values())
    status, said, lines = program.answer("check", document)
    pass_on(lines, call)
    if status:
        return status, None
    if said != NOTHING_TRACKED:
        count = int(said.split()[1])
        changes = "a tracked change" if count == 1 else "%d tracked changes" % count
        call.say("%s has %s, to be decided first (redline-docx list shows where)" % (call.called(document), changes))
        return TRACKED, None
    with open(document, "rb") as file:
        before = file.read()
    try:
        made = Scrubbed(before, taken, asked)
        left = checked(program, made, document)
    except (Fault, CallFailed) as fault:
        call.say("nothing is written, since the result is not what it should be: %s" % fault)
        return FAULTY, None
    tell(call, call.called(document), made, left)
    return 0, made.data


def checked(program, made, document):
    """What is left in the result by fact, once that is found to have nothing of what was taken, and the same text."""
    result = program.hold(made.data)
    try:
        if program.made("check", result) != NOTHING_TRACKED:
            raise Fault("it has tracked changes")
        if program.made("text", result) != program.made("text", document):
            raise Fault("its text is another one")
        if not is_same_but_for_notes(stories_of(program, document), stories_of(program, result), made.counts.get("note", 0)):
            raise Fault("what can be seen in it is something else")
        left = counts_of(program.made("left", result, "--format", "json"))
    finally:
        program.drop(result)
    for name, count in left.items():
        if count > expected(made, name):
            raise Fault("it has %s %d times" % (name, count))
    return left


def expected(made, fact):
    """How often a fact may be left."""
    name = "note" if fact in UNUSED else fact
    if name not in made.taken:
        return float("inf")
    # (what the settings say of separators that the document doesn't have is told as notes too)
    if fact in UNUSED:
        return made.separators
    # (comments that are kept are on nothing, where those on text are taken)
    return made.comments if name == "comment" else sum(kept == name for kept, _ in made.kept)


def counts_of(listed):
    """How often each fact is left. What data beside the document hold is theirs."""
    counts = {}
    for line in json.loads(listed):
        if line["fact"] == "custom-xml" or not line["part"].lower().startswith("/customxml/"):
            counts[line["fact"]] = counts.get(line["fact"], 0) + line["count"]
    return counts


def stories_of(program, package):
    """The stories of a package's bare text."""
    lines = program.made("text", package, "--view", "bare").removesuffix(b"\n").split(b"\n")
    begins = [number for number, line in enumerate(lines) if line.startswith(b"= ")]
    return [lines[begin:end] for begin, end in zip(begins, begins[1:] + [len(lines)])]


def is_same_but_for_notes(before, after, notes):
    """Whether the stories are the same, in their order, but for so many notes at most."""
    at = 0
    for story in before:
        if at < len(after) and after[at] == story:
            at += 1
        elif story[0] in (b"= footnote", b"= endnote") and notes > 0:
            notes -= 1
        else:
            return False
    return at == len(after)


def tell(call, name, made, left):
    """Says what went of the document with this name, what stays since the document shows it, and what else is left."""
    went = ["%s %d" % (one, made.counts[one]) for one in NAMES if made.counts.get(one)]
    call.say("%s: took out %s" % (name, ", ".join(went) or "nothing, since there was nothing to take"))
    for one, value in made.kept:
        call.say("%s: kept %s, since the document shows it" % (name, one if value == one else "%s %s" % (one, value)))
    stays = ["%s %d" % (one, left[one]) for one in (*NAMES, *TOLD) if left.get(one) and one not in made.taken]
    if stays:
        call.say("%s: still there are %s (redline-docx left shows where)" % (name, ", ".join(stays)))
