"""Answers `redline-docx returned IN BACK REVIEWER [--journal J ..]`: the words, the lines and the status."""
import gc
import os
import re
import sys

from returned.check import answer_for
from returned.program import NOTHING, CallFailed, Program
from returned.reader import Unreadable
from returned.words import ACCEPT, OPEN, REJECT

WRITTEN, WITH_LINES, USAGE, UNREADABLE, NO_MEMORY, OTHERWISE_CHANGED = 0, 1, 2, 3, 8, 13
# So many places are told, and the count of all.
PLACES = 200
FORM = "returned takes IN BACK REVIEWER, and --journal J any number of times"
NO_NAME = "no journal can hold this name of a reviewer: 1 to 255 bytes of UTF-8, and no tab, line end or other control character"
WRITER = re.compile(rb"<(?:[\w.-]+:)?Application>\s*([^<]*?)\s*</")


class Words:
    """The words of the call, with the names of files as they were given (`called`) and as the program opens them."""

    def __init__(self, words, called):
        self.journals, plain, rest = [], [], list(words)
        while rest:
            word = rest.pop(0)
            if word == "--journal" and rest:
                self.journals.append(rest.pop(0))
            else:
                plain.append(word)
        self.is_read = len(plain) == 3 and not any(word.startswith("--") for word in plain)
        if self.is_read:
            self.document, self.back, self.reviewer = plain
            self.back_name = called(self.back)


def is_name(reviewer):
    """Whether a journal can hold this as a reviewer's name."""
    data = os.fsencode(reviewer)
    try:
        data.decode("utf-8")
    except UnicodeDecodeError:
        return False
    return 1 <= len(data) <= 255 and not any(byte < 0x20 or byte == 0x7F for byte in data)


def returned(words, call, find_redline):
    """Status and journal, the latter None where nothing is to be written. `call` tells lines and has the files in memory."""
    given = Words(words, call.called)
    if not given.is_read or not is_name(given.reviewer):
        call.say(NO_NAME if given.is_read else FORM)
        return USAGE, None
    gc.disable()  # (looking for circles among so many small things takes a fifth of the time, and there are none)
    program = Program(find_redline(), call.memory.values())
    status = refusal(program, given, call)
    if status:
        return status, None
    try:
        return answered(program, given, call)
    except CallFailed as failed:
        pass_on(failed.lines, call)
        return failed.status, None
    except Unreadable as error:
        call.say("the documents can't be read: %s" % error)
        return UNREADABLE, None
    except MemoryError:
        call.say("no memory")
        return NO_MEMORY, None


def pass_on(lines, call, of_back=False):
    """Passes on the program's lines, with the names of files as they were given."""
    for line in lines.splitlines(keepends=True):
        if of_back:
            line = re.sub(rb"^redline: (?:package: )?(?!cannot|hint)", b"redline: second document: ", line)
        sys.stderr.buffer.write(call.named(line))
    sys.stderr.flush()


def refusal(program, given, call):
    """The status with which the program refuses the first document or a journal, or the second document; else 0."""
    items = [item for journal in given.journals for item in ("--journal", journal)]
    other = program.begin("check", given.back)
    status, _, lines = program.answer("decide", given.document, given.reviewer, *items, *NOTHING)
    other = program.end(other)
    if status not in (WRITTEN, WITH_LINES):
        pass_on(lines, call)
        return status
    status, _, lines = other
    if status:
        pass_on(lines, call, of_back=True)
    return status


def bytes_of(name):
    with open(name, "rb") as file:
        return file.read()


def answered(program, given, call):
    back = bytes_of(given.back)
    answer = answer_for(program, (given.document, bytes_of(given.document)), (given.back, back))
    name = given.back_name
    if answer.differences:
        for one in answer.differences[:PLACES]:
            call.say(one.line())
        count = len(answer.differences)
        places = "1 place differs" if count == 1 else "%d places differ" % count
        call.say("%s is not %s with changes decided: %s" % (name, call.called(given.document), places))
        return OTHERWISE_CHANGED, None
    lines = further_lines(answer, name, back)
    for line in lines:
        call.say(line)
    counts = tuple(answer.count(word) for word in (ACCEPT, REJECT, OPEN))
    call.say("%s: %d accepted, %d rejected, %d still marked" % ((name,) + counts))
    words = dict(answer.said)
    words.update(withdrawn(program, given, answer))
    journal = program.decided(given.document, given.reviewer, given.journals, words)
    return (WITH_LINES if lines else WRITTEN), journal


def further_lines(answer, name, back):
    """What a further round, or a look at the journal, has to settle."""
    lines = [one.line() for one in answer.proposals]
    for rev in answer.untold():
        lines.append("revision %d: the properties are neither the former nor the present ones; it is left open" % rev)
    if answer.comments:
        lines.append("%d new comment%s" % (answer.comments, "" if answer.comments == 1 else "s"))
    if not answer.view.with_objects:
        lines.append("pictures, references or fields differ; the text alone was compared")
    if answer.view.names != "all":
        lines.append("names or dates were left out; changes were compared by kind")
    writer = WRITER.search(back)
    if writer is None or not writer.group(1).startswith(b"Microsoft"):
        lines.append("%s was not written by Microsoft Word: marks that its program dropped count as decided" % name)
    return lines


def withdrawn(program, given, answer):
    """A withdrawal for each revision that is still marked, or left open, and on which the reviewer has a word in a journal."""
    if not given.journals:
        return {}
    left = {rev for rev, word in answer.words.items() if word == OPEN}.union(answer.untold())
    joined = program.made("join", *given.journals).decode("utf-8").split("\n")
    last = {}  # by revision the reviewer's greatest sequence number, and whether a word under it decides
    for line in joined[3:-1]:
        fields = line.split("\t")
        sequence, rev, word = int(fields[0]), int(fields[1]), fields[2]
        if fields[-1] == given.reviewer and rev in left:
            greatest, decides = last.get(rev, (0, False))
            if sequence >= greatest:
                last[rev] = (sequence, word != "withdraw" or (decides and sequence == greatest))
    return {rev: "withdraw" for rev, (_, decides) in last.items() if decides}
