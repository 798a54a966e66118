#!/usr/bin/env python3
"""Runs the command lines of a paper, word for word, in the folder of the call, and compares what they print.

    lines.py PAPER

Each fenced block "sh" is run by sh, in the order of the paper and in one folder, so that a later one finds what an earlier one
wrote. A block is skipped where no PATH has the first word of a line, or what that word needs. Where a block "text" follows at
once, it is what the commands print; in it a line ".." stands for any lines. A block ends with status 0, or with 1 where a line of
it says that an entry was refused. Blocks of other kinds, as "console", are not run. A block "make" is written to the file
Makefile.
"""
import os
import re
import shutil
import subprocess
import sys


# What our own tools call.
NEEDS = {"redline-batch": "parallel"}


def blocks_of(path):
    """Kind, line number and text of each fenced block, and whether only blank lines are between it and the one before."""
    found, kind, lines, begin, near = [], None, [], 0, False
    for number, line in enumerate(open(path, encoding="utf-8"), 1):
        fence = re.match(r"( *)```(\w*)\s*$", line)
        if fence and kind is None:
            kind, lines, begin, indent = fence.group(2), [], number, len(fence.group(1))
        elif fence:
            found.append((kind, begin, "".join(lines), near))
            kind, near = None, True
        elif kind is not None:
            lines.append(line[min(indent, len(line) - len(line.lstrip(" "))) :])
        elif line.strip():
            near = False
    return found


def fits(printed, wanted):
    """Whether the lines are as wanted, where ".." stands for any."""
    pattern = "".join(r"(?:.*\n)*" if line == ".." else re.escape(line) + r" *\n" for line in wanted.splitlines())
    return re.fullmatch(pattern, printed) is not None


def main():
    paper = sys.argv[1]
    name = os.path.relpath(paper, os.path.join(os.path.dirname(os.path.realpath(__file__)), "..", ".."))
    blocks = blocks_of(paper)
    for at, (kind, line, text, _) in enumerate(blocks):
        if kind == "make":
            with open("Makefile", "w") as file:
                file.write(text)
        if kind != "sh":
            continue
        case = "%s:%d" % (name, line)
        words = re.findall(r"^(\w[\w-]*)(?= )", text, re.M)
        missing = [word for word in words + [NEEDS[word] for word in words if word in NEEDS] if not shutil.which(word)]
        if missing:
            print("skipped %s: there is no %s" % (case, missing[0]))
            continue
        done = subprocess.run(["sh", "-e", "-c", text], stdout=subprocess.PIPE, stderr=subprocess.STDOUT, stdin=subprocess.DEVNULL)
        printed = done.stdout.decode("utf-8", "replace")
        follows = at + 1 < len(blocks) and blocks[at + 1][0] == "text" and blocks[at + 1][3]
        wanted = blocks[at + 1][2] if follows else None
        allowed = (0, 1) if wanted and "refused" in wanted else (0,)
        if done.returncode not in allowed:
            print("FAILED %s: status %d: %s" % (case, done.returncode, printed[-300:].replace("\n", " ")))
        elif wanted is not None and not fits(printed, wanted):
            print("FAILED %s: it prints %s" % (case, printed[:600].replace("\n", " / ")))
        else:
            print("ok %s" % case)


main()
