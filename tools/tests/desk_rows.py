"""The rows of crates/redl_rows as files and words: the same texts that the program of the gate makes of its standard input."""
import hashlib
import os
import re

HERE = os.path.dirname(os.path.abspath(__file__))
ROWS = os.path.join(os.path.dirname(os.path.dirname(HERE)), "crates", "redl_rows")
KINDS = (("ranked", "P", 2), ("of Q", "Q", 1), ("ranked of Q", "Q", 2), (None, "P", 1))


def text_of(*path):
    with open(os.path.join(ROWS, *path), encoding="utf-8", newline="") as file:
        return file.read()


def names():
    """The names that stand for longer texts, with their texts, in their order."""
    literal = r'"((?:[^"\\]|\\.)*)"'
    plain = lambda text: text.replace('\\"', '"').replace("\\n", "\n").replace("\\r", "\r").replace("\\t", "\t")
    found = [(name, plain(text)) for name, text in re.findall(r"\(\s*\"(\{[^\"]*\})\",\s*%s,?\s*\)" % literal, text_of("src", "names.rt"))]
    if len(found) < 20:
        raise ValueError("names.rt has another form")
    return found


NAMES = names()


def spelled(text):
    for name, long in NAMES:
        text = text.replace(name, long)
    return text


class Row:
    """A row: its title, its calls, and its files."""

    def __init__(self, block, count):
        """`count` tells how many revisions the bytes of a package have."""
        self.lines = block.split("\n")
        self.title = next((line for line in self.lines if line.startswith("#")), "")
        self.words, self.again = self.field("words"), self.field("again")
        self.count = count

    def field(self, name):
        return next((line[len(name) + 2 :] for line in self.lines if line.startswith(name + ": ")), None)

    def package(self, name):
        text = self.field("text") if name == "P" else None
        body = self.field(name)
        if text is None:
            text = "{package}{document}%s{/document}{/package}" % (body or "")
        return spelled(text).encode()

    def journal(self, name, package, version):
        digest = hashlib.sha256(package).hexdigest()
        tabs = 4 if version == 2 else 3
        entries = [entry.replace(" ", "\t", tabs) for entry in name.split("; ") if entry]
        head = "redline-journal %d\ndocument %s\nrevisions %s\n" % (version, digest, self.field("revisions") or self.count(package))
        return (head + "".join(entry + "\n" for entry in entries)).encode()

    def file(self, name):
        """The bytes of the file of this name, or None."""
        text = self.field(name + " text")
        if text is not None:
            return spelled(text).encode()
        for kind, package, version in KINDS:
            entries = self.field("%s %s" % (name, kind) if kind else name)
            if entries is not None:
                return self.journal(entries, self.package(package), version)
        return None

    def files(self):
        found = {"P": self.package("P")}
        if self.field("Q"):
            found["Q"] = self.package("Q")
        for name in self.words.split(" "):
            data = self.file(name) if name not in found else None
            if data is not None:
                found[name] = data
        return found


def words_of(line):
    """The words of a line; what is between two quotes is one word."""
    found = []
    for place, piece in enumerate(line.split('"')):
        found += [piece] if place % 2 else [word for word in piece.split(" ") if word]
    return found


def rows(count):
    blocks = [block for block in text_of("stdin").split("\n\n") if block.strip()]
    return [row for row in (Row(block, count) for block in blocks) if row.words is not None]
