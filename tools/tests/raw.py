#!/usr/bin/env python3
"""Names and texts with characters that a terminal would obey: none of them is in what a terminal is given, and all are in exact forms.

    raw.py PROGRAM FOLDER

Each character is tried in an author's name, in the text of a document, in a reviewer's name, in a lock, and in the name of a file.
"""
import os
import subprocess
import sys

program, folder = sys.argv[1:3]
HIDDEN = [
    *range(0x01, 0x20), *range(0x7F, 0xA0), 0x61C, *range(0x200B, 0x2010), *range(0x2028, 0x202F), *range(0x2060, 0x2070), 0xFEFF,
]
SEEN = [0x7E, 0xA0, 0xAD, 0xB6, 0x61B, 0x61D, 0x200A, 0x2010, 0x2011, 0x2027, 0x202F, 0x205F, 0x2070, 0x20AC, 0xFEFE, 0xFF01, 0x1F600]
# What XML 1.0 can hold.
WRITTEN = [it for it in HIDDEN + SEEN if it >= 0x20 or it in (9, 10, 13)]

PACKAGE = (
    '<?xml version="1.0" encoding="UTF-8"?><pkg:package xmlns:pkg="http://schemas.microsoft.com/office/2006/xmlPackage">'
    '<pkg:part pkg:name="/word/document.xml" pkg:contentType="application/vnd.openxmlformats-officedocument.wordprocessingml.document.main+xml">'
    '<pkg:xmlData><w:document xmlns:w="http://schemas.openxmlformats.org/wordprocessingml/2006/main"><w:body>'
    '<w:p><w:pPr><w:numPr><w:ins w:id="1" w:author="%s"/></w:numPr></w:pPr>'
    '<w:r><w:t>%s</w:t></w:r><w:ins w:id="2" w:author="%s"><w:r><w:t>%s</w:t></w:r></w:ins></w:p>'
    "</w:body></w:document></pkg:xmlData></pkg:part></pkg:package>"
)


def put(name, text):
    with open(os.path.join(folder, name), "wb") as file:
        file.write(text.encode())


def call(*words):
    """Status, output and lines."""
    done = subprocess.run([program, *words], cwd=folder, stdin=subprocess.DEVNULL, capture_output=True)
    return done.returncode, done.stdout.decode(), done.stderr.decode()


def masked(text, kept=""):
    return "".join("?" if ord(it) in HIDDEN and it not in kept else it for it in text)


def told(name, came, wanted):
    print("ok %s" % name if came == wanted else "FAILED %s: %r and not %r" % (name, came, wanted))


def shown(name, words, wanted, kept="\n"):
    """The output and the lines of a call have no hidden character but these, and hold what is wanted."""
    _, out, lines = call(*words)
    raw = [it for it in out + lines if ord(it) in HIDDEN and it not in kept]
    told(name, (raw, wanted in out + lines), ([], True))


text = "".join("a%s" % chr(it) for it in WRITTEN)
reference = "".join("a&#x%X;" % it for it in WRITTEN)
put("P.xml", PACKAGE % ((reference,) * 4))
# A reviewer's name has at most 255 bytes.
EDGES = [0x80, 0x85, 0x9B, 0x9F, 0x61C, 0x200B, 0x200E, 0x200F, 0x2028, 0x202A, 0x202E, 0x2060, 0x2066, 0x2069, 0x206F, 0xFEFF]
name = "".join("b%s" % chr(it) for it in EDGES + SEEN)
put("whole.journal", "x")
digest = subprocess.run(["sha256sum", "P.xml"], cwd=folder, capture_output=True, check=True).stdout.decode()[:64]
journal = "redline-journal 1\ndocument %s\nrevisions 1\n1\t7\taccept\t%s\n1\t1\taccept\t%s\n" % (digest, name, name)
put("J", journal + "2\t1\treject\tAnn\n")
file = "".join(chr(it) for it in HIDDEN if it != 0x2F)[:60]

shown("list", ["list", "P.xml"], masked(text))
shown("words", ["list", "P.xml", "J", "--format", "words"], masked(name))
shown("report", ["report", "P.xml"], masked(text))
shown("report of a reviewer", ["report", "P.xml", "J", "--format", "table"], masked(name))
shown("left", ["left", "P.xml"], "ins " + masked(text))
for view in ["final", "original", "marked"]:
    shown("text " + view, ["text", "P.xml", "--view", view], masked(text, "\t\n"), "\t\n")
shown("the line of a refused entry", ["write", "P.xml", "J"], "1 7 accept %s: unknown revision" % masked(name), "\t\n\r" + text)
shown("the line of an idle lock", ["list", "P.xml", "--lock", name], "nothing by %s is locked" % masked(name))
shown("the line of a file", ["check", file], "redline: cannot read %s\n" % masked(file))
shown("the line of a journal", ["list", "P.xml", "whole.journal", file], "redline: journal whole.journal: malformed")
shown("the line of a format", ["list", "P.xml", "--format", name], "no format %s\n" % masked(name))
shown("a hint", ["decide", "P.xml", "Ann", name], "%s is no option" % masked(name))

# What is for programs is exact.
told("tab", text.replace("\t", "\\t").replace("\n", "\\n").replace("\r", "\\r") in call("list", "P.xml", "--format", "tab")[1], True)
told("the bare text", "|" + text.replace("\t", "\\t").replace("\n", "\\n").replace("\r", "\\r") in call("text", "P.xml", "--view", "bare")[1], True)
told("a journal", name in call("join", "J")[1], True)
