"""A second reading of docs/DEFINITIONS.md: what a package and its reviewers' journals come to.

    python3 reading.py PACKAGE            the revisions with their numbers, kinds, dates and authors

make.py works out by it what the program is to write of the examples. It shares no code with the program, was written from
the definitions alone, and looks at each thing anew as often as it needs it, so it is slow and short. It expects a package
that `check` calls sound.
"""
import datetime
import hashlib
import json
import re
import sys
import typing

W = {
    "http://schemas.openxmlformats.org/wordprocessingml/2006/main",
    "http://purl.oclc.org/ooxml/wordprocessingml/main",
}
M = {"http://schemas.openxmlformats.org/officeDocument/2006/math"}
STORIES = {"document", "hdr", "ftr", "footnotes", "endnotes", "comments"}

# Documents


class Element:
    """An element with its start tag as it is written, its kids, and its ancestors by `parent`."""

    def __init__(self, name, tail, space, parent):
        self.name, self.tail, self.space, self.parent = name, tail, space, parent
        self.prefix, _, self.local = name.rpartition(":")
        self.kids, self.close = [], "/>"
        self.start = self.end = 0
        self.role = self.trace = None
        self.number = 0
        # whether no ancestor is quiet, once that was asked
        self.open = None

    def written_value(self, local):
        """The value of the first attribute with this local name, as it is written, or None."""
        for name, _, value in re.findall(r"""([\w:.-]+)\s*=\s*(["'])(.*?)\2""", self.tail, re.S):
            if name.rpartition(":")[2] == local and name.partition(":")[0] != "xmlns":
                return value
        return None

    def attribute(self, local):
        """The same value, decoded."""
        value = self.written_value(local)
        return None if value is None else decoded(value)

    def is_w(self, *locals):
        return self.space == "W" and self.local in locals

    def ancestors(self):
        """The ancestors in the story, the nearest first."""
        found = []
        while self.parent:
            self = self.parent
            found.append(self)
        return found


def decoded(value):
    known = {"amp": "&", "lt": "<", "gt": ">", "quot": '"', "apos": "'"}

    def character(found):
        word = found.group(1)
        if word in known:
            return known[word]
        return chr(int(word[2:], 16) if word[1] == "x" else int(word[1:]))

    return re.sub(r"&(#x[0-9A-Fa-f]+|#[0-9]+|\w+);", character, re.sub(r"\r\n|[\t\r\n]", " ", value))


TOKEN = re.compile(r"""<!--.*?-->|<\?.*?\?>|<!\[CDATA\[.*?\]\]>|<(?:[^>"']|"[^"]*"|'[^']*')*>|[^<]+""", re.S)


def parse(text):
    """The nodes of a text: elements, and the stretches between tags as strings."""
    top, path, scopes = [], [], [{}]

    def add(node):
        kids = path[-1].kids if path else top
        if isinstance(node, str) and kids and isinstance(kids[-1], str):
            kids[-1] += node
        else:
            kids.append(node)

    for token in TOKEN.findall(text):
        if not token.startswith("<") or token.startswith(("<!", "<?")):
            add(token)
        elif token.startswith("</"):
            path.pop().close = token
            scopes.pop()
        else:
            name, tail, close = re.match(r"<([^\s/>]+)(.*?)(/?)>\Z", token, re.S).groups()
            scope = dict(scopes[-1])
            for prefix, _, value in re.findall(r"""\sxmlns:?([\w.-]*)\s*=\s*(["'])(.*?)\2""", tail, re.S):
                scope[prefix] = decoded(value)
            uri = scope.get(name.rpartition(":")[0], "")
            element = Element(name, tail, "W" if uri in W else "M" if uri in M else "other", path[-1] if path else None)
            add(element)
            if close != "/":
                path.append(element)
                scopes.append(scope)
    return top


def text_of(nodes):
    out = []
    for node in nodes:
        if isinstance(node, str):
            out.append(node)
        elif node.close == "/>":
            out.append("<%s%s/>" % (node.name, node.tail))
        else:
            end = node.close[2:-1]
            out.append("<%s%s>%s</%s>" % (node.name, node.tail, text_of(node.kids), node.name + end[len(end.rstrip()) :]))
    return "".join(out)


def elements(nodes):
    """All elements at every depth, in the order of the text."""
    for node in nodes:
        if isinstance(node, Element):
            yield node
            yield from elements(node.kids)


def kids_named(nodes, *locals):
    return [kid for kid in nodes if isinstance(kid, Element) and kid.is_w(*locals)]


# Roles

CONTENT = {"ins": "inserted", "del": "deleted", "moveFrom": "from", "moveTo": "to"}
MARKERS = ("moveFromRangeStart", "moveFromRangeEnd", "moveToRangeStart", "moveToRangeEnd")
CHANGES = {
    "rPrChange": "run-props",
    "pPrChange": "para-props",
    "sectPrChange": "sect-props",
    "tblPrChange": "table-props",
    "tblPrExChange": "except-props",
    "trPrChange": "row-props",
    "tcPrChange": "cell-props",
}
PROPERTIES = ("pPr", "rPr", "sectPr", "tblPr", "tblPrEx", "trPr", "tcPr", "sdtPr", "sdtEndPr", "tblGrid")


def is_quiet(element):
    return element.is_w(*PROPERTIES) or (element.space == "M" and element.local == "ctrlPr")


def is_open(element):
    if element.open is None:
        element.open = element.parent is None or (not is_quiet(element.parent) and is_open(element.parent))
    return element.open


def is_in_para_props(element):
    """The element is in the properties of an open paragraph."""
    above = element.ancestors()
    return len(above) > 1 and above[0].is_w("pPr") and above[1].is_w("p") and is_open(above[1])


def role_of(element):
    """The role of an element, with its trace: content, mark, row, cell, or the name of a change."""
    if element.space != "W":
        return None, None
    above = element.ancestors()
    in_open = lambda props, *owners: len(above) > 1 and above[0].is_w(props) and above[1].is_w(*owners) and is_open(above[1])
    if element.local in CONTENT and is_open(element):
        return "content", CONTENT[element.local]
    if element.local in CONTENT and above and above[0].is_w("rPr") and is_in_para_props(above[0]):
        return "mark", CONTENT[element.local]
    if element.local in ("ins", "del") and in_open("trPr", "tr"):
        return "row", CONTENT[element.local]
    if element.local in ("cellIns", "cellDel") and in_open("tcPr", "tc"):
        return "cell", {"cellIns": "inserted", "cellDel": "deleted"}[element.local]
    change = CHANGES.get(element.local)
    is_one = {
        "run-props": in_open("rPr", "r", "sdtPr", "sdtEndPr")
        or (above and above[0].is_w("rPr") and is_in_para_props(above[0]))
        or (len(above) > 1 and above[0].is_w("rPr") and above[1].space == "M" and above[1].local in ("r", "ctrlPr") and is_open(above[1])),
        "para-props": in_open("pPr", "p"),
        "sect-props": in_open("sectPr", "body") or (above and above[0].is_w("sectPr") and is_in_para_props(above[0])),
        "table-props": in_open("tblPr", "tbl"),
        "except-props": in_open("tblPrEx", "tr"),
        "row-props": in_open("trPr", "tr"),
        "cell-props": in_open("tcPr", "tc"),
    }.get(change)
    return (change, None) if is_one else (None, None)


# Tables and lists


def own(nodes, local):
    """The own rows of a table or the own cells of a row, through content controls and custom XML."""
    found = []
    for kid in nodes:
        if isinstance(kid, Element):
            if kid.is_w(local):
                found.append(kid)
            elif kid.is_w("customXml"):
                found += own(kid.kids, local)
            elif kid.is_w("sdt"):
                for content in kids_named(kid.kids, "sdtContent"):
                    found += own(content.kids, local)
    return found


def list_of(element):
    """What the kids of an element are: blocks, rows, cells, or None."""
    if element is None or is_quiet(element) or not is_open(element):
        return None
    if element.is_w("body", "hdr", "ftr", "footnote", "endnote", "comment", "tc", "txbxContent"):
        return "blocks"
    if element.is_w("tbl", "tr"):
        return {"tbl": "rows", "tr": "cells"}[element.local]
    if element.is_w("customXml"):
        return list_of(element.parent)
    if element.is_w("sdtContent") and element.parent is not None and element.parent.is_w("sdt"):
        return list_of(element.parent.parent)
    return None


def is_thick(node):
    return isinstance(node, Element) and (node.is_w("p", "tbl", "sdt", "customXml", "altChunk") or node.space == "other")


# Revisions


class Revision:
    def __init__(self, kind, author, date, part):
        self.kind, self.author, self.date, self.part = kind, author or "", date, part
        self.members = 0


class Package:
    """A package with its revisions numbered."""

    def __init__(self, text):
        self.text, self.nodes = text, parse(text)
        self.revisions, self.stories = [], []
        parts = [kid for root in self.nodes if isinstance(root, Element) for kid in root.kids if isinstance(kid, Element)]
        for part in parts:
            for data in [kid for kid in part.kids if isinstance(kid, Element) and kid.local == "xmlData"]:
                for root in [kid for kid in data.kids if isinstance(kid, Element)]:
                    if root.is_w(*STORIES):
                        root.parent = None
                        self.stories.append((part.attribute("name"), root))
                        self.number(root, part.attribute("name"))

    def number(self, root, part):
        story = list(elements([root]))
        place(root, 0)
        for element in story:
            element.role, element.trace = role_of(element)
        moves = paired(story)
        found = {}
        for element in story:
            move = move_of(element, moves)
            if move is None and element.role is None:
                continue
            first, of = (move[0], move) if move else (element, element)
            if of not in found:
                kind = "move" if move else kind_name(element)
                self.revisions.append(Revision(kind, first.attribute("author"), moment(first.attribute("date")), part))
                found[of] = len(self.revisions)
            element.number = found[of]
            if element.role is None:
                element.role = "marker"
            else:
                self.revisions[element.number - 1].members += 1


def place(element, at):
    """Counts the start tags and end tags of a story."""
    element.start = at
    for kid in element.kids:
        if isinstance(kid, Element):
            at = place(kid, at + 1)
    element.end = at + 1
    return element.end


def kind_name(element):
    ends = {"inserted": "ins", "deleted": "del", "from": "from", "to": "to"}
    if element.role == "content":
        return {"from": "move-from", "to": "move-to"}.get(element.trace, ends[element.trace])
    if element.role in ("mark", "row", "cell"):
        return element.role + "-" + ends[element.trace]
    return element.role


def is_loose(marker):
    for above in marker.ancestors():
        if above.role == "content":
            return True
        for holder, props in (("tr", "trPr"), ("tc", "tcPr")):
            if above.is_w(holder):
                kids = [kid for prop in kids_named(above.kids, props) for kid in elements(prop.kids)]
                if any(kid.role in ("row", "cell") for kid in kids):
                    return True
        for holder, item in (("tbl", "tr"), ("tr", "tc")):
            if above.is_w(holder) and not any(it in marker.ancestors() for it in own(above.kids, item)):
                return True
    return False


def paired(story):
    """The paired moves of a story: source start, source end, target start, target end."""
    markers = [it for it in story if it.is_w(*MARKERS) and is_open(it) and it.attribute("id") is not None]
    kind = lambda local: [it for it in markers if it.local == local]
    moves = []
    for start in kind("moveFromRangeStart"):
        name = start.attribute("name")
        sides = []
        for side in ("From", "To"):
            starts = [it for it in kind("move%sRangeStart" % side) if name is not None and it.attribute("name") == name]
            if len(starts) != 1:
                break
            same = [it for it in kind("move%sRangeStart" % side) if it.attribute("id") == starts[0].attribute("id")]
            ends = [it for it in kind("move%sRangeEnd" % side) if it.attribute("id") == starts[0].attribute("id")]
            if len(same) != 1 or len(ends) != 1 or ends[0].start < starts[0].start:
                break
            sides += [starts[0], ends[0]]
        if len(sides) == 4 and not any(is_loose(it) for it in sides):
            moves.append(tuple(sides))
    return moves


def move_of(element, moves):
    """The paired move that an element is a marker or a member of."""
    for move in moves:
        if element in move:
            return move
    if element.role not in ("content", "mark") or element.trace not in ("from", "to"):
        return None
    at = element.start if element.role == "content" else element.parent.parent.parent.end
    first = 0 if element.trace == "from" else 2
    around = [move for move in moves if move[first].start < at < move[first + 1].start]
    return max(around, key=lambda move: move[first].start) if around else None


# The pass


def decided(package, says):
    """The text of the package where revision n is decided as says(n) tells: accept, reject or None."""
    fate = lambda element: fate_of(element, says)

    def passed(nodes, parent):
        out, held = [], None
        in_blocks = list_of(parent) == "blocks" if parent else False
        for index, node in enumerate(nodes):
            after = [other for other in nodes[index + 1 :] if is_thick(other)]
            if isinstance(node, Element) and node.is_w("p") and in_blocks:
                kids = kept_kids(node)
                cut = any(fate(it) == "cut" for it in mark_members(node))
                if held is not None:
                    props = [kid for kid in kids if is_named(kid, "pPr")]
                    kids = props + held + [kid for kid in kids if not is_named(kid, "pPr")]
                if cut and after and after[0].is_w("p"):
                    held = [kid for kid in kids if not is_named(kid, "pPr")]
                    continue
                rest = [kid for kid in kids if not is_named(kid, "pPr")]
                if cut and after and not any(isinstance(kid, Element) for kid in rest):
                    out += rest
                else:
                    out.append(like(node, kids, is_joined=held is not None))
                held = None
            elif held is not None:
                held += [kid for kid in given(node) if not is_named(kid, "pPr")]
            else:
                out += given(node)
        return out

    def given(node):
        """What a node gives by itself."""
        if isinstance(node, str):
            return [node]
        what = fate(node)
        if what == "free" and node.role == "content":
            return passed(node.kids, node)
        if what != "leave" or goes(node):
            return []
        return [like(node, kept_kids(node))]

    def like(node, kids, is_joined=False):
        made = Element(node.name, node.tail, node.space, None)
        made.kids, made.close = kids, node.close
        if node.is_w("delText", "delInstrText") and is_open(node):
            fates = [fate(above) for above in node.ancestors() if above.role == "content" and above.trace in ("deleted", "from")]
            if "free" in fates and "leave" not in fates:
                made.local = {"delText": "t", "delInstrText": "instrText"}[node.local]
                made.name = (node.prefix + ":" if node.prefix else "") + made.local
        if made.close == "/>" and (kids or is_joined):
            made.close = "</>"
        return made

    def kept_kids(node):
        kids = passed(node.kids, node)
        change = next((kid for kid in node.kids if isinstance(kid, Element) and kid.role in CHANGES.values() and fate(kid) == "restore"), None)
        if change is None:
            return kids
        former = next((list(kid.kids) for kid in kids_named(change.kids, node.local)), [])
        keeps = {
            "rPr": ("ins", "del", "moveFrom", "moveTo"),
            "pPr": ("rPr", "sectPr"),
            "sectPr": ("headerReference", "footerReference"),
            "trPr": ("ins", "del"),
            "tcPr": ("cellIns", "cellDel", "cellMerge"),
        }.get(node.local, ())
        former = [kid for kid in former if not is_named(kid, *keeps)]
        present = [kid for kid in kids if is_named(kid, *keeps)]
        if node.local == "rPr":
            return (present if is_in_para_props(node) else []) + former
        return present + former if node.local == "sectPr" else former + present

    def mark_members(para):
        return [
            it
            for props in kids_named(para.kids, "pPr")
            for run in kids_named(props.kids, "rPr")
            for it in elements(run.kids)
            if it.role == "mark"
        ]

    def is_cut(element, props, role):
        return any(fate(it) == "cut" for prop in kids_named(element.kids, props) for it in elements(prop.kids) if it.role == role)

    def all_go(items):
        return bool(items) and all(goes(it) for it in items)

    def goes(element):
        if element.is_w("tc"):
            return is_cut(element, "tcPr", "cell")
        if element.is_w("tr"):
            return is_cut(element, "trPr", "row") or all_go(own(element.kids, "tc"))
        if element.is_w("tbl"):
            return all_go(own(element.kids, "tr"))
        around = list_of(element.parent) if element.parent else None
        if element.is_w("sdt", "customXml") and around in ("rows", "cells"):
            return all_go(own([element], {"rows": "tr", "cells": "tc"}[around]))
        return False

    def story(nodes):
        """The nodes of the package, with the kids of each story's root passed."""
        out = []
        for node in nodes:
            if isinstance(node, Element):
                made = Element(node.name, node.tail, node.space, None)
                is_root = node.is_w(*STORIES) and node.parent is None
                made.kids, made.close = passed(node.kids, node) if is_root else story(node.kids), node.close
                node = made
            out.append(node)
        return out

    return text_of(story(package.nodes))


def is_named(node, *locals):
    return isinstance(node, Element) and node.is_w(*locals)


def fate_of(element, says):
    say = says(element.number) if element.number else None
    if say is None:
        return "leave"
    if element.role == "marker":
        return "drop"
    if element.trace in ("inserted", "to"):
        return "free" if say == "accept" else "cut"
    if element.trace in ("deleted", "from"):
        return "cut" if say == "accept" else "free"
    return "clear" if say == "accept" else "restore"


# Journals

WORDS = ["accept", "reject", "withdraw"]


class Entry(typing.NamedTuple):
    reviewer: str
    sequence: int
    revision: int
    word: str
    rank: int = 0


def in_order(entries):
    """A set of entries, each an Entry or its values, in the order of entries."""
    return sorted({Entry(*entry) for entry in entries}, key=lambda it: (it.reviewer.encode(), it.sequence, it.revision, WORDS.index(it.word), it.rank))


def verdict(number, entries):
    """accept, reject, disputed or open."""
    here = [entry for entry in in_order(entries) if entry.revision == number]
    latest = {}
    for entry in here:
        latest[entry.reviewer] = max(entry.sequence, latest.get(entry.reviewer, 0))
    last = [entry for entry in here if entry.sequence == latest[entry.reviewer] and entry.word != "withdraw"]
    words = {entry.word for entry in last if entry.rank == max(it.rank for it in last)}
    return "open" if not words else words.pop() if len(words) == 1 else "disputed"


def holds(revision, lock):
    """Whether a lock holds a revision: ("author", NAME), ("kind", NAME), or ("span", FROM, TO) in seconds."""
    if lock[0] == "span":
        return revision.date is not None and lock[1] <= revision.date < lock[2]
    return lock[1] == (revision.author if lock[0] == "author" else revision.kind)


def refusal(package, entry, locks):
    """Why an entry is refused, or None. A lock that is only a name is one on an author."""
    entry = Entry(*entry)
    locks = [("author", lock) if isinstance(lock, str) else lock for lock in locks]
    if not 1 <= entry.revision <= len(package.revisions):
        return "unknown revision"
    revision = package.revisions[entry.revision - 1]
    bars = [bar for bar in ("author", "kind", "span") if any(lock[0] == bar and holds(revision, lock) for lock in locks)]
    return "locked " + bars[0] if bars else None


def admitted(package, entries, locks=()):
    return in_order(entry for entry in entries if refusal(package, entry, locks) is None)


def refused_lines(package, entries, locks=()):
    lines = ""
    for entry in in_order(entries):
        cause = refusal(package, entry, locks)
        if cause:
            rank = " rank %d" % entry.rank if entry.rank else ""
            lines += "redline: refused %d %d %s%s %s: %s\n" % (entry.sequence, entry.revision, entry.word, rank, entry.reviewer, cause)
    return lines


def written(package, entries, locks=()):
    """The package under the joined verdicts."""
    book = admitted(package, entries, locks)
    word = lambda number: verdict(number, book)
    return decided(package, lambda number: word(number) if word(number) in ("accept", "reject") else None)


def journal(package, entries):
    """The text of a journal with these entries as they stand."""
    entries = [Entry(*entry) for entry in entries]
    version = 2 if any(entry.rank for entry in entries) else 1
    head = "redline-journal %d\ndocument %%s\nrevisions %%d\n" % version
    ranked = lambda entry: "%d\t" % entry.rank if version == 2 else ""
    lines = ["%d\t%d\t%s\t%s%s\n" % (entry.sequence, entry.revision, entry.word, ranked(entry), entry.reviewer) for entry in entries]
    return head % (hashlib.sha256(package.text.encode()).hexdigest(), len(package.revisions)) + "".join(lines)


def decide(package, reviewer, entries, choices, locks=(), rank=0):
    """The book after a reviewer's choices, each a word and the numbers that it is for; the last one that names a revision counts."""
    book = admitted(package, entries, locks)
    sequence = max([entry.sequence for entry in book if entry.reviewer == reviewer], default=0) + 1
    words = {number: word for word, numbers in choices for number in numbers}
    new = [Entry(reviewer, sequence, number, word, rank) for number, word in words.items()]
    return in_order(book + admitted(package, new, locks)), refused_lines(package, list(entries) + new, locks)


# Two sittings


def first_numbers(package, says, second):
    """By each number of `second`, which is what these says leave of the package, its number in the package or 0."""
    tagged = Package(package.text)
    for _, root in tagged.stories:
        for element in elements([root]):
            element.tail += ' number="%d"' % element.number
    firsts = {}
    for (_, left), (_, root) in zip(Package(decided(tagged, says)).stories, second.stories):
        for before, after in zip(elements([left]), elements([root])):
            firsts.setdefault(after.number, int(re.search(r' number="(\d+)"\Z', before.tail).group(1)))
    return firsts


def resumed(package, entries, second, later):
    """The entries of the journal of two sittings, or None where they come to different texts."""
    book = admitted(package, entries)
    decides = lambda number: verdict(number, book) if verdict(number, book) in ("accept", "reject") else None
    firsts = first_numbers(package, decides, second)
    kept = [entry for entry in book if decides(entry.revision)]
    joined = in_order(kept + [entry._replace(revision=firsts[entry.revision]) for entry in admitted(second, later) if firsts[entry.revision]])
    return joined if written(package, joined) == written(second, later) else None


# Listings


# What the calendar repeats after 400 years, and its first day that is counted from here: 2000-01-01, as days from 1970 on.
CYCLE, START = 146097, 10957
# 0000-01-01T00:00:00Z and 9999-12-31T23:59:59Z
FIRST, LAST = -62167219200, 253402300799


def moment(text):
    """The seconds of a date from 1970 on in UTC, or None where it can't be read or is in no year from 0000 to 9999."""
    pattern = "([0-9]{4})-([0-9]{2})-([0-9]{2})T([0-9]{2}):([0-9]{2}):([0-9]{2})(?:[.][0-9]{1,9})?(?:Z|([+-])([0-9]{2}):([0-9]{2}))?"
    found = re.fullmatch(pattern, text or "")
    if not found:
        return None
    year, month, day, hour, minute, second = map(int, found.groups()[:6])
    hours, minutes = int(found.group(8) or 0), int(found.group(9) or 0)
    if hour > 23 or minute > 59 or second > 59 or hours > 14 or minutes > 59:
        return None
    try:
        in_cycle = datetime.date(2000 + year % 400, month, day) - datetime.date(2000, 1, 1)
    except ValueError:
        return None
    days = START + (year // 400 - 5) * CYCLE + in_cycle.days
    ahead = (hours * 3600 + minutes * 60) * (-1 if found.group(7) == "-" else 1)
    seconds = days * 86400 + hour * 3600 + minute * 60 + second - ahead
    return seconds if FIRST <= seconds <= LAST else None


def date_of(seconds):
    """The date of a moment, in UTC."""
    days, second = divmod(seconds, 86400)
    cycles, day = divmod(days - START, CYCLE)
    date = datetime.date(2000, 1, 1) + datetime.timedelta(day)
    time = "%02d:%02d:%02d" % (second // 3600, second // 60 % 60, second % 60)
    return "%04d-%02d-%02dT%sZ" % (date.year + 400 * cycles, date.month, date.day, time)


# Characters that a terminal may take as a command, that turn the direction of a text, end a line, or have no width.
HIDDEN = "\x00-\x08\x0b-\x1f\x7f-\x9f\u061c\u200b-\u200f\u2028-\u202e\u2060-\u206f\ufeff"


def masked(text):
    """A text as a line of a terminal shows it: these characters, tabs and ends of lines are question marks."""
    return re.sub("[\t\n%s]" % HIDDEN, "?", text)


def masked_lines(text):
    """A text of several lines: its tabs and ends of lines stay."""
    return re.sub("[%s]" % HIDDEN, "?", text)


def listed(package, entries, form, locks=(), shown=None):
    """The listing of a package in the form text, tab or json, of all revisions or of those alone that have these numbers."""
    book = admitted(package, entries, locks)
    rows = []
    for number, it in enumerate(package.revisions, 1):
        if shown is not None and number not in shown:
            continue
        date = None if it.date is None else date_of(it.date)
        rows.append((number, it, verdict(number, book), date))
    if form == "text":
        return "".join("%7d %-12s %-8s %-20s %s\n" % (number, it.kind, word, date or "-", masked(it.author)) for number, it, word, date in rows)
    if form == "tab":
        plain = lambda text: text.replace("\\", "\\\\").replace("\t", "\\t").replace("\n", "\\n").replace("\r", "\\r")
        line = lambda number, it, word, date: (str(number), it.kind, word, date or "-", str(it.members), plain(it.part), plain(it.author))
        return "".join("\t".join(line(*row)) + "\n" for row in rows)
    row = lambda number, it, word, date: {
        "author": it.author, "date": date, "kind": it.kind, "members": it.members, "number": number, "part": it.part, "verdict": word,
    }
    return "[" + ",".join(json.dumps(row(*it), ensure_ascii=False, separators=(",", ":")) for it in rows) + "]\n"


if __name__ == "__main__":
    with open(sys.argv[1], newline="", encoding="utf-8") as file:
        print(listed(Package(file.read()), [], "text"), end="")
