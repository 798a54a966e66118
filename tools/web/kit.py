"""The Rattle kit and the crates of a checkout, as the commands beside this file need them."""
import os
import shutil
import sys

TOP = os.path.dirname(os.path.dirname(os.path.dirname(os.path.abspath(__file__))))
PROGRAM = "redline"


class Failed(Exception):
    """Why a command made nothing, in a sentence."""


def answer(main, text):
    """Runs a command with the words that it was given, and ends with its status."""
    words = sys.argv[1:]
    if words in (["-h"], ["--help"]):
        print(text.strip())
        sys.exit(0)
    try:
        main(words)
    except Failed as error:
        sys.exit("%s: %s" % (os.path.basename(sys.argv[0]), error))


def read_words(words, options, count):
    """The values of these options, each None where it isn't given, and `count` other words."""
    values, rest = dict.fromkeys(options), []
    left = list(words)
    while left:
        word = left.pop(0)
        if word in values and left:
            values[word] = left.pop(0)
        elif word.startswith("-"):
            raise Failed("there is no option %s with such a value; --help tells the words" % word)
        else:
            rest.append(word)
    if len(rest) != count:
        raise Failed("%d names are needed, and %d are given; --help tells the words" % (count, len(rest)))
    return values, rest


def find_kit():
    """The folder of the kit: that of the command rt."""
    rt = shutil.which("rt")
    kit = os.path.dirname(os.path.dirname(os.path.realpath(rt))) if rt else ""
    if not os.path.isfile(os.path.join(kit, "KIT-ID")):
        raise Failed("there is no command rt of a Rattle kit on the PATH")
    return kit


def tool(kit, name):
    return os.path.join(kit, "toolchain", "bin", name)


def crates_of(checkout):
    """The libraries that each crate names, by crates.txt."""
    found = {}
    with open(os.path.join(checkout, "crates.txt"), encoding="utf-8") as file:
        for line in file:
            name, colon, libraries = line.split("#")[0].partition(":")
            if colon:
                found[name.split()[0]] = libraries.split()
    return found


def below(crates, name):
    """The libraries that a crate stands on, each once, the lowest first."""
    found = {}

    def visit(crate):
        for library in crates.get(crate, []):
            visit(library)
            found[library] = None

    visit(name)
    return list(found)
