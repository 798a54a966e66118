"""The words of flatopc, and what it does with each file."""
import os
import sys

from opc.files import Fault, read, refuse_overwriting, write
from opc.terminal import masked
from opc.xml import NotOfTheForm

NAME = "flatopc"


def tell(line):
    sys.stderr.write("%s: %s\n" % (NAME, masked(line)))


class Usage(Exception):
    """What is wrong with the words, in a sentence."""


def read_words(words):
    """The command, its switches, the folder or None, and the names."""
    command, switches, folder, names = words[0], set(), None, []
    if command not in ("pack", "unpack"):
        raise Usage("there is no command %s" % command)
    known = {"-f", "--tidy" if command == "unpack" else "--drop-unused-notes"}
    rest = words[1:]
    while rest:
        word = rest.pop(0)
        if word == "--to":
            if not rest:
                raise Usage("--to needs a folder")
            folder = rest.pop(0)
        elif word in known:
            switches.add(word)
        elif word.startswith("-") and word != "-":
            raise Usage("%s has no option %s" % (command, word))
        else:
            names.append(word)
    if not names:
        raise Usage("%s needs a file to read" % command)
    if folder is None and len(names) != 2:
        raise Usage("%s needs IN and OUT, or --to FOLDER and any number of files" % command)
    return command, switches, folder, names


def pairs_of(command, folder, names):
    """Each file with the one that is made of it."""
    if folder is None:
        return [tuple(names)]
    end = ".xml" if command == "unpack" else ".docx"
    return [(name, os.path.join(folder, os.path.splitext(os.path.basename(name))[0] + end)) for name in names]


def convert(command, switches, source, target, seen):
    """Makes one file of one other, and answers the status."""

    def say(line):
        tell("%s: %s" % (source, line))

    try:
        if target in seen:
            raise Fault("%s was made of %s in this call already" % (target, seen[target]))
        seen[target] = source
        if "-f" not in switches:
            refuse_overwriting(target)
        data = read(source)
        # (packing needs a library that takes long to load)
        if command == "unpack":
            from opc.unpack import unpack

            made = unpack(data, "--tidy" in switches, say)
        else:
            from opc.pack import pack

            made = pack(data, "--drop-unused-notes" in switches, say)
        write(target, made)
    except NotOfTheForm as error:
        want = "a .docx" if command == "unpack" else "a package in one XML file"
        tell("%s is not %s: %s" % (source, want, error))
        return 1
    except Fault as error:
        tell(str(error))
        return 2
    return 0


def main(words, told):
    """Does what the words say, and answers the status; `told` is the help."""
    if words and words[0] in ("-h", "--help", "help"):
        sys.stdout.write(told.strip() + "\n")
        return 0
    try:
        if not words:
            raise Usage("it needs a command, pack or unpack")
        command, switches, folder, names = read_words(words)
    except Usage as error:
        tell("%s (see %s --help)" % (error, NAME))
        return 2
    seen = {}
    return max([convert(command, switches, source, target, seen) for source, target in pairs_of(command, folder, names)])
