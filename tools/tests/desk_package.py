#!/usr/bin/env python3
"""Compares the desk's flatopc with tools/flatopc: of each file both make the same bytes and say the same, or both refuse it.

    desk_package.py NODE N [SECONDS]

The files are the .docx of the examples and of N random packages, what is made of them by damage to the archive, to a part in it
and to the package, and archives that are made by hand. NODE is the node to call. The last line counts the files by how they
ended. A random file is made of its number alone.
"""
import base64
import functools
import io
import json
import os
import random
import struct
import subprocess
import sys
import time
import zipfile
import zlib
from xml.parsers import expat

HERE = os.path.dirname(os.path.abspath(__file__))
TOP = os.path.dirname(os.path.dirname(HERE))
sys.dont_write_bytecode = True
sys.path[:0] = [HERE, os.path.join(TOP, "bench"), os.path.join(TOP, "examples")]
import damage
import packages

flatopc = damage.flatopc_of(os.path.join(TOP, "tools", "flatopc"))
TYPES = b'<Types xmlns="%s"><Default Extension="xml" ContentType="application/xml"/></Types>' % flatopc.TYPES.encode()


class Converter:
    """The desk's flatopc in a process of node, which has so many seconds for a file."""

    def __init__(self, node):
        words = [node, os.path.join(HERE, "desk", "convert.js")]
        self.process = subprocess.Popen(words, stdin=subprocess.PIPE, stdout=subprocess.PIPE)

    def ask(self, **words):
        self.process.stdin.write(json.dumps(words).encode() + b"\n")
        self.process.stdin.flush()
        return json.loads(self.process.stdout.readline())

    def convert(self, command, data, **options):
        """What was made and what was said, or None and why it was refused."""
        answer = self.ask(command=command, data=base64.b64encode(data).decode(), **options)
        if "fault" in answer:
            raise AssertionError(answer["fault"])
        return (None, answer["refused"]) if "refused" in answer else (base64.b64decode(answer["made"]), answer["said"])


class Tally:
    """Compares file by file, counts how they ended, and keeps what differs."""

    def __init__(self, converter):
        self.converter, self.counts, self.differ = converter, {"the same": 0, "refused by both": 0}, []

    def compare(self, name, command, data, option=False):
        said = []
        try:
            wanted = (flatopc.unpack if command == "unpack" else flatopc.pack)(data, option, said.append)
        except flatopc.NotOfTheForm as error:
            wanted, said = None, str(error)
        words = {"tidy" if command == "unpack" else "dropUnusedNotes": option}
        made, told = self.converter.convert(command, data, **words)
        # (why a text is no XML is told in the parser's words, which the desk does not have)
        plain = lambda lines: [line.split(" is not XML")[0] for line in lines] if isinstance(lines, list) else None
        if made != wanted or plain(told) != plain(said):
            self.differ.append("%s, %s: %r and not %r" % (name, command, (made and len(made), told), (wanted and len(wanted), said)))
        else:
            self.counts["refused by both" if wanted is None else "the same"] += 1
        return wanted

    def both_ways(self, name, package):
        """A package to a .docx and back, with each option and without it."""
        for option in (False, True):
            docx = self.compare(name, "pack", package, option)
            if docx is not None:
                self.compare(name, "unpack", docx, option)
        return docx


def parts_damaged(docx, number):
    """The archive with damage in the bytes of one of its parts: the archive itself is whole."""
    draw = random.Random(number)
    made = io.BytesIO()
    with zipfile.ZipFile(io.BytesIO(docx)) as old, zipfile.ZipFile(made, "w", zipfile.ZIP_DEFLATED) as new:
        chosen = draw.choice(old.namelist())
        for name in old.namelist():
            data = old.read(name)
            new.writestr(zipfile.ZipInfo(name), spoiled(data, draw) if name == chosen else data)
    return made.getvalue()


PIECES = [b"<", b">", b"&", b"]]>", b"--", b"<!--", b"-->", b"<?a b?>", b"<?xml?>", b"&#0;", b"&#x110000;", b"&lt;", b"&nbsp;", b"\0", b"\x0b"]
PIECES += [b"\xc3\xa9", b"\xff", b"\xed\xa0\x80", b"\xef\xbf\xbe", b"\xf0\x9f\x98\x80", b' xmlns:a="b"', b' xmlns:a=""', b' xmlns="x y"', b"a:b", b":", b"='", b' a="1" a="2"']
PIECES += [b"<![CDATA[", b"\xef\xbb\xbf", b'<?xml version="1.0" encoding="latin1"?>', b"<?xml version='1.0' encoding='US-ASCII'?>", b"<!DOCTYPE a>", b"</", b"/>", b" ", b"\r\n", b"\xcc\x81", b"\xe2\x82\xac"]


def spoiled(data, draw):
    """A text with pieces put in, taken out and changed, most of them near a tag."""
    data = bytearray(data)
    for _ in range(draw.choice([1, 1, 1, 2, 3])):
        at = draw.randrange(len(data) + 1)
        if draw.random() < 0.7:
            at = max(data.find(draw.choice([b"<", b">", b'"', b"?", b" "]), at), 0) + draw.randrange(2)
        size = draw.choice([0, 0, 1, 1, 3, 30])
        data[at : at + size] = draw.choice(PIECES) if draw.random() < 0.8 else b""
    return bytes(data)


@functools.lru_cache(maxsize=None)
def deflated(data):
    packer = zlib.compressobj(-1, zlib.DEFLATED, -15)
    return packer.compress(data) + packer.flush()


def archive(files, **changes):
    """An archive of these files, with changes of the entries: flags, method, name in the directory, sizes, extra fields."""
    made, directory = bytearray(), bytearray()
    for name, data in files:
        packed = deflated(data) + changes.get("junk", b"")
        sizes = (changes.get("sum", zlib.crc32(data)), changes.get("packed", len(packed)), changes.get("whole", len(data)))
        listed, extra = changes.get("listed", name), changes.get("extra", b"")
        common = struct.pack("<HHHHH3L", changes.get("version", 20), changes.get("flags", 0), changes.get("method", 8), 0, 0x21, *sizes)
        directory += struct.pack("<LH", 0x02014B50, 0x314) + common + struct.pack("<HHHHHLL", len(listed), len(extra), 0, 0, 0, 0, len(made)) + listed + extra
        made += struct.pack("<L", 0x04034B50) + common + struct.pack("<HH", len(name), 0) + name + packed
    end = struct.pack("<LHHHHLLH", 0x06054B50, 0, 0, len(files) & 0xFFFF, len(files) & 0xFFFF, len(directory), len(made), len(changes.get("comment", b"")))
    return changes.get("before", b"") + bytes(made + directory) + end + changes.get("comment", b"")


def archives():
    """Archives that are made by hand, by name."""
    plain = [(b"[Content_Types].xml", TYPES), (b"a.xml", b"<a/>")]
    named = lambda name: plain + [(name, b"<b/>")]
    yield from {
        "whole": archive(plain),
        "a comment": archive(plain, comment=b"x" * 1000),
        "a comment of 65,535 bytes": archive(plain, comment=b"x" * 65535),
        "a comment that looks like an end": archive(plain, comment=b"PK\x05\x06"),
        "bytes before it": archive(plain, before=b"x" * 100),
        "a password": archive(plain, flags=1),
        "strong encryption": archive(plain, flags=0x40),
        "patched": archive(plain, flags=0x20),
        "a later version": archive(plain, version=64),
        "another method": archive(plain, method=12),
        "stored, and yet packed": archive(plain, method=0),
        "a wrong sum": archive(plain, sum=7),
        "too many bytes told": archive(plain, whole=10**6),
        "too few bytes told": archive(plain, whole=1),
        "4 GB told": archive(plain, whole=0xFFFFFFFF),
        "packed bytes that aren't there": archive(plain, packed=10**6),
        "too few packed bytes": archive(plain, packed=3),
        "junk behind the packed bytes": archive(plain, junk=b"junk"),
        "sizes in the extra field": archive(plain[:1], whole=0xFFFFFFFF, extra=struct.pack("<HHQ", 1, 8, len(TYPES))),
        "an extra field that is cut off": archive(plain[:1], whole=0xFFFFFFFF, extra=struct.pack("<HH", 1, 8)),
        "an extra field that is too short": archive(plain[:1], whole=0xFFFFFFFF, extra=struct.pack("<HHL", 1, 4, 7)),
        "another name in the directory": archive(plain, listed=b"a.xml"),
        "a name of an old archive": archive(named(b"\x81bung \x9c.xml")),
        "a name in UTF-8": archive([(name, data) for name, data in named("Übung.xml".encode())], flags=0x800),
        "a name that is no UTF-8": archive(named(b"\xff.xml"), flags=0x800),
        "a name that climbs": archive(named(b"../../a.xml")),
        "a name with a zero": archive(named(b"b.xml\0.exe")),
        "a name with a tab": archive(named(b"b\t.xml")),
        "no name": archive(named(b"")),
        "a folder": archive(named(b"folder/")),
        "two names alike": archive(named(b"A.XML")),
        "one name twice": archive(named(b"a.xml")),
        "no list of types": archive(plain[1:]),
        "a part that is declared as ASCII": archive(plain + [(b"b.xml", b"<?xml version='1.0' encoding='US-ASCII'?><b>&#233;</b>")]),
        "a part that is declared so, and isn't": archive(plain + [(b"b.xml", b"<?xml version='1.0' encoding='us-ascii'?><b>\xc3\xa9</b>")]),
        "a mark and a declaration as ASCII": archive(plain + [(b"b.xml", b"\xef\xbb\xbf<?xml version='1.0' encoding='us-ascii'?><b/>")]),
        "an OpenDocument file": archive([(b"mimetype", b"application/vnd.oasis.opendocument.text"), (b"content.xml", b"<a/>")]),
        "a document in it": archive([(b"a.txt", b"a"), (b"to sign/Offer.DOCX", b"a"), (b"b.docx", b"b")]),
        "a document in it, with signs that can't be seen": archive([("a\u00a0b\u00ad\u2028\u0085\ue000 c.docm".encode(), b"a")], flags=0x800),
        "nothing": archive([]),
        "no bytes": b"",
        "a text": b"PK is how it begins",
        "an older form": flatopc.OLDER + bytes(600),
    }.items()
    yield "65,536 entries", archive(plain + [(b"%d.xml" % it, b"") for it in range(65534)])
    many = io.BytesIO()
    with zipfile.ZipFile(many, "w") as large:
        for name, data in plain + [(b"%d.xml" % it, b"<c/>") for it in range(65536)]:
            large.writestr(zipfile.ZipInfo(name.decode()), data)
    yield "65,538 entries", many.getvalue()
    zeros = zlib.compressobj(9, zlib.DEFLATED, -15)
    bomb = b"".join(zeros.compress(bytes(1 << 20)) for _ in range(300)) + zeros.flush()
    yield "a bomb that tells its size", bomb_of(bomb, 300 << 20)
    yield "a bomb that tells a small size", bomb_of(bomb, 1000)


def bomb_of(packed, whole):
    name = b"[Content_Types].xml"
    common = struct.pack("<HHHHH3L", 20, 0, 8, 0, 0x21, 0, len(packed), whole)
    local = struct.pack("<L", 0x04034B50) + common + struct.pack("<HH", len(name), 0) + name + packed
    directory = struct.pack("<LH", 0x02014B50, 0x314) + common + struct.pack("<HHHHHLL", len(name), 0, 0, 0, 0, 0, 0) + name
    return local + directory + struct.pack("<LHHHHLLH", 0x06054B50, 0, 0, 1, 1, len(directory), len(local), 0)


def is_xml(text):
    try:
        expat.ParserCreate("UTF-8", " ").Parse(text, True)
        return True
    except expat.ExpatError:
        return False


def names_differ(converter):
    """The characters that one side takes in a name of an element and the other does not, at its begin and in it."""
    codes = [it for it in range(0x21, 0x11000) if not 0xD800 <= it < 0xE000] + list(range(0x11000, 0x110000, 4099))
    texts = ["%s%s/>" % (front, chr(code)) for front in ("<", "<a") for code in codes]
    return ["%r: %s, and not so there" % (text, it) for text, it in zip(texts, converter.ask(texts=texts)) if it != is_xml(text.encode())]


def small_packages(count):
    for number in range(count):
        package = packages.small_package(random.Random(number))
        yield number, package


def main():
    node, count = sys.argv[1], int(sys.argv[2])
    end = time.monotonic() + float(sys.argv[3] if len(sys.argv) > 3 else 600)
    converter = Converter(node)
    tally = Tally(converter)
    examples = [os.path.join(TOP, "examples", name) for name in sorted(os.listdir(os.path.join(TOP, "examples"))) if name.endswith(".xml")]
    wholes = [open(path, "rb").read() for path in examples]
    docx = [tally.both_ways(os.path.basename(path), whole) for path, whole in zip(examples, wholes)]
    for name, data in archives():
        tally.compare(name, "unpack", data)
    for number, package in small_packages(count):
        if time.monotonic() > end:
            break
        made = tally.both_ways("random %d" % number, package)
        draw = random.Random(number)
        for source in ([made] if made else []) + [draw.choice(docx)]:
            tally.compare("random %d, archive" % number, "unpack", damage.damaged(source, number), draw.random() < 0.5)
            tally.compare("random %d, part" % number, "unpack", parts_damaged(source, number), draw.random() < 0.5)
        for source in (package, draw.choice(wholes)):
            tally.compare("random %d, package" % number, "pack", spoiled(source, draw), draw.random() < 0.5)
    odd = names_differ(converter)
    for line in tally.differ[:20] + odd[:20]:
        print(line)
    print(", ".join("%d %s" % (count, name) for name, count in tally.counts.items()) + ", %d differ" % (len(tally.differ) + len(odd)))
    return 1 if tally.differ or odd else 0


if __name__ == "__main__":
    sys.exit(main())
