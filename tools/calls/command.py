"""Answers the words of redline-docx."""
import os
import sys

from calls.call import Call
from calls.words import WRITES_PACKAGE, Refused, read_words, tell


def main(words, told, here):
    """The status of a call with these words. `told` is the help, `here` the folder of the script that was called."""
    if not words or words[0] in ("-h", "--help", "help"):
        (sys.stdout if words else sys.stderr).write(told.strip() + "\n")
        return 0 if words else 2
    try:
        theirs, own = read_words(words)
        # (the memory of the calls comes in large pages where the system has them)
        os.environ.setdefault("GLIBC_TUNABLES", "glibc.malloc.hugetlb=1")
        call = Call(here, theirs, own)
        return make_desk(call) if call.command == "desk" else answer(call)
    except Refused as error:
        tell(str(error))
        return error.status


def answer(call):
    """Does what redline does, or a command that it doesn't have."""
    call.prepare()
    if call.command in WRITES_PACKAGE and call.memory and "out" not in call.own and sys.stdout.isatty():
        raise Refused(2, "a .docx is not written to a terminal: name a file with -o")
    if call.command == "returned":
        from returned.command import returned

        status, made = returned(call.words[1:], call, call.redline)
    elif call.command == "scrub":
        from scrub.command import scrub

        status, made = scrub(call.words[1:], call, call.redline)
    else:
        status, made = call.run()
    if made is not None and status in (0, 1):
        call.finish(made)
    return status


def make_desk(call):
    """Writes a desk with a document and journals that redline takes together."""
    from calls.desk import with_files
    from calls.places import find_desk

    words = call.words[1:]
    if any(word.startswith("--") for word in words):
        raise Refused(2, "desk takes a document and journals, and no options of redline")
    status, desk = 0, find_desk(call.here)
    call.own.setdefault("out", "-")
    call.prepare()
    if words:
        # (redline, which has no such command, says whether it takes them)
        call.words[0] = "report"
        status, _ = call.run()
        desk = with_files(desk, words[0], call.words[2:], "--tidy" in call.own["switches"])
    if status <= 1:
        call.write(desk.encode())
    return status
