#!/usr/bin/env python3
"""Runs the rows of standard input: calls as people mistype them, with the hints that should follow.

    hints.py PROGRAM CHECKOUT FOLDER

A row is lines: "## TITLE", "$ CALL" (for bash, with redline, redline-docx and flatopc of CHECKOUT), "status N", and any number of
"line: TEXT" and "hint: TEXT"; each TEXT is a part of a hint, in their order, and where there is none no hint comes. Each TEXT of a
"line" is a part of another line on standard error. "out: TEXT": what is written begins so. The files that the calls name are made in
FOLDER from the examples of CHECKOUT.
"""
import base64
import gzip
import os
import shutil
import subprocess
import sys
import zipfile

program, checkout, folder = sys.argv[1:4]
examples = os.path.join(checkout, "examples")


def put(name, data):
    with open(os.path.join(folder, name), "wb") as file:
        file.write(data)


def example(name):
    with open(os.path.join(examples, name), "rb") as file:
        return file.read()


def make_files():
    contract, journal = example("contract.xml"), example("contract.ann.journal")
    for name in ["contract.xml", "terms.xml", "unsound.xml", "contract.ann.journal", "contract.bob.journal"]:
        put(name, example(name))
    subprocess.run(
        [sys.executable, os.path.join(checkout, "tools", "flatopc"), "pack", "contract.xml", "contract.docx"],
        cwd=folder, check=True, stdout=subprocess.DEVNULL,
    )
    head, entries = journal.split(b"\n")[:3], journal.split(b"\n")[3:-1]
    lines = lambda *rows: b"\n".join(rows) + b"\n"
    put("crlf.journal", journal.replace(b"\n", b"\r\n"))
    put("bom.journal", b"\xef\xbb\xbf" + journal)
    put("u16.journal", journal.decode().encode("utf-16"))
    put("nonl.journal", journal[:-1])
    put("blank.journal", journal + b"\n")
    put("sp.journal", lines(*head, *[entry.replace(b"\t", b" ") for entry in entries]))
    put("note.journal", lines(*head, b"# too early", *entries))
    put("cap.journal", journal.replace(b"accept", b"Accept"))
    put("acc.journal", journal.replace(b"accept", b"accepted"))
    put("tr.journal", b"".join(line + b" \n" for line in journal.split(b"\n")[:-1]))
    put("head.journal", lines(*head))
    put("cnt.journal", journal.replace(b"revisions 49", b"revisions 48"))
    put("digest.journal", lines(head[0], head[1][:-1], head[2], *entries))
    put("far.journal", lines(*head, *(entries * 3000), b"accept"))
    for name, word in [("a1", "accept"), ("a2", "reject")]:
        put(name + ".journal", lines(*head, b"1\t1\t%s\tAnn Gray" % word.encode()))
    put("a3.journal", lines(*head, b"1\t1\taccept\tAnn  Gray"))
    put("a4.journal", lines(*head, b"2\t1\treject\tAnn Gray"))
    put("laszlo.journal", lines(*head, "1\t1\taccept\tLa\u0301szlo\u0301".encode()))
    put("empty.journal", b"")
    put("h1.journal", b"redline-journal 1\n")
    put("v2.journal", journal.replace(b"redline-journal 1", b"redline-journal 2"))
    put("v3.journal", journal.replace(b"redline-journal 1", b"redline-journal 3"))
    put("u16.xml", contract.decode().encode("utf-16"))
    put("cp.xml", contract.replace(b'encoding="UTF-8"', b'encoding="windows-1252"'))
    put("w2003.xml", b'<?xml version="1.0"?><w:wordDocument xmlns:w="http://schemas.microsoft.com/office/word/2003/wordml"/>')
    put("document.xml", b'<w:document xmlns:w="http://schemas.openxmlformats.org/wordprocessingml/2006/main"><w:body/></w:document>')
    put("web.xml", b"<html><body>Terms</body></html>")
    put("empty.xml", b"")
    put("x.pdf", b"%PDF-1.7\n")
    put("old.doc", b"\xd0\xcf\x11\xe0\xa1\xb1\x1a\xe1")
    put("x.rtf", b"{\\rtf1 Terms}")
    put("cut.xml", contract[:1000])
    put("x.gz", b"\x1f\x8b\x08\x00")
    put("x.b64", b"UEsDBBQAAAAIAA==\n")
    put("j.docx", b"PK\x03\x04")
    put("j.eml", b"Return-Path: <ann@example.org>\n" + journal)
    put("bomcrlf.journal", b"\xef\xbb\xbf" + journal.replace(b"\n", b"\r\n"))
    put("tail.xml", contract + b"<!-- approved -->")
    put("remarked.xml", contract.replace(b"</w:p>", b'</w:p><x:comment xmlns:x="urn:x" x:author="Paul Park"/>', 1))
    make_others(contract, journal)
    make_archives()
    make_bomb()
    put("crlf.xml", contract.replace(b"\n", b"\r\n"))
    put("dt.xml", contract.replace(b"<pkg:package", b"<!DOCTYPE x><pkg:package", 1))


def make_others(contract, journal):
    """More files that are sent for a document or for a journal."""
    head = journal.split(b"\n")[:3]
    word_file, quoted = b"\xd0\xcf\x11\xe0\xa1\xb1\x1a\xe1" + bytes(504), journal.replace(b"\n", b"\n> ")
    for name in ["contract.doc", "renamed.docx", "secret.docx"]:
        put(name, word_file)
    put("contract.pdf", b"%PDF-1.7\n")
    put("contract.rtf", b"{\\rtf1 Terms}")
    put("contract.xml.gz", gzip.compress(contract, mtime=0))
    put("b64.docx", base64.encodebytes(b"PK\x03\x04" + bytes(200)))
    put("empty.docx", b"")
    put("~$lock.docx", b"\x08Ann Gray" + bytes(153))
    put("mail.journal", b"From: Ann Gray <ann@example.org>\nSubject: journal\n\n" + journal)
    put("attach.journal", base64.encodebytes(journal))
    put("notepad.journal", b"\xef\xbb\xbf" + journal.replace(b"\n", b"\r\n"))
    put("unicode.journal", journal.decode().encode("utf-16"))
    put("quoted.journal", b"> " + quoted[:-2])
    put("pasted.journal", b"\xef\xbb\xbf" + journal.replace(b"\t", b" ").replace(b"\n", b"\r\n"))
    put("cat.journal", journal + example("contract.bob.journal"))
    put("cutj.journal", journal[: len(journal) // 2])
    put("upper.journal", journal.replace(head[1], b"document " + head[1][9:].upper()))
    put("nbsp.journal", journal.replace(b"Ann Gray", "Ann\u00a0Gray".encode()))
    put("two.xml", example("terms.xml").replace(b"Bob Hay", "L\u00e1szl\u00f3 N\u00e9meth".encode()))
    os.makedirs(os.path.join(folder, "folder.docx"))


def make_archives():
    """Archives that are no .docx, and documents under other names."""
    with zipfile.ZipFile(os.path.join(folder, "contract.odt"), "w") as archive:
        archive.writestr("mimetype", "application/vnd.oasis.opendocument.text")
        archive.writestr("content.xml", "<a/>")
    shutil.copy(os.path.join(folder, "contract.odt"), os.path.join(folder, "odt-as.docx"))
    with zipfile.ZipFile(os.path.join(folder, "mailed.docx"), "w") as archive:
        archive.write(os.path.join(folder, "contract.docx"), "contract.docx")
    with open(os.path.join(folder, "contract.docx"), "rb") as file:
        whole = file.read()
    put("cut.docx", whole[:-200])
    put("-draft.docx", whole)
    put("ann-journal.docx", whole)
    subprocess.run(
        [sys.executable, os.path.join(checkout, "tools", "flatopc"), "pack", "two.xml", "two.docx"],
        cwd=folder, check=True, stdout=subprocess.DEVNULL,
    )


def make_bomb():
    """A small .docx whose text has 140,000,000 spaces."""
    with zipfile.ZipFile(os.path.join(folder, "contract.docx")) as whole:
        parts = {name: whole.read(name) for name in whole.namelist()}
    text, end = parts.pop("word/document.xml"), b"</w:document>"
    with zipfile.ZipFile(os.path.join(folder, "bomb.docx"), "w", zipfile.ZIP_DEFLATED) as archive:
        for name, part in parts.items():
            archive.writestr(name, part)
        with archive.open("word/document.xml", "w") as part:
            part.write(text.replace(end, b""))
            for _ in range(140):
                part.write(b" " * 1000000)
            part.write(end)


def rows():
    row = None
    for line in sys.stdin.read().split("\n"):
        kind, _, text = line.partition(" ")
        if kind == "##":
            if row:
                yield row
            row = Row(text)
        elif kind == "$":
            row.call = text
        elif kind == "status":
            row.status = int(text)
        elif kind in row.told:
            row.told[kind].append(text)
        elif line:
            sys.exit("hints.py: cannot read the line %r" % line)
    if row:
        yield row


class Row:
    """A call, and what should come of it."""

    def __init__(self, title):
        self.title, self.call, self.status, self.told = title, "", 0, {"line:": [], "hint:": [], "out:": []}

    def fault(self, done):
        """What is wrong with what came of the call, or nothing."""
        told = [line for line in done.stderr.decode("utf-8", "replace").split("\n") if line]
        hints = [line for line in told if line.startswith("redline: hint: ")]
        lines = told[: len(told) - len(hints)]
        if done.returncode != self.status:
            return "status %d and not %d" % (done.returncode, self.status)
        if lines + hints != told:
            return "a hint comes before a line of the program"
        if len(hints) != len(self.told["hint:"]) or not all(want in line for want, line in zip(self.told["hint:"], hints)):
            return "its hints are: %s" % " | ".join(hints)
        if not all(any(want in line for line in lines) for want in self.told["line:"]):
            return "its lines are: %s" % " | ".join(lines)
        if not all(done.stdout.startswith(want.encode()) for want in self.told["out:"]):
            return "it writes %r" % done.stdout[:80]
        return None


# The commands of the calls.
COMMANDS = """
redline() { "$REDLINE" "$@"; }
redline-docx() { "$TOOLS/redline-docx" "$@"; }
flatopc() { "$TOOLS/flatopc" "$@"; }
"""

make_files()
settings = dict(os.environ, REDLINE=program, TOOLS=os.path.join(checkout, "tools"))
for row in rows():
    done = subprocess.run(["bash", "-c", COMMANDS + row.call], cwd=folder, env=settings, stdin=subprocess.DEVNULL, capture_output=True)
    fault = row.fault(done)
    print("ok %s" % row.title if fault is None else "FAILED %s: %s" % (row.title, fault))
