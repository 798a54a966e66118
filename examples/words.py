"""A second writer of the listings `words` and `full`, as docs/DEFINITIONS.md tells them.

    python3 words.py words|full PACKAGE [JOURNAL ..]        the listing, on standard output

It shares no code with the program. make.py makes by it what `list` with these formats is to write of the examples.
"""
import json
import re
import sys

import clauses
import comments
import edits
import formats
import hidden
import places
import reading
import texts

SIGNS = {"ins": ("{+", "+}"), "del": ("[-", "-]"), "from": ("[~", "~]"), "to": ("{~", "~}")}


def owner_of(member):
    """What a member is of: itself where it is content, else the nearest ancestor that is no properties."""
    while reading.is_quiet(member.parent):
        member = member.parent
    return member.parent


def before_in(paragraph, element):
    """What a paragraph says before an element in it."""

    def walk(nodes, in_text):
        out = ""
        for node in nodes:
            if node is element:
                return out, True
            if isinstance(node, str):
                out += texts.shown(node) if in_text else ""
            elif not reading.is_quiet(node) and not node.is_w("p"):
                out += texts.said([cut(node)], True)
                inner, found = walk(node.kids, node.is_w("t", "delText"))
                out += inner
                if found:
                    return out, True
        return out, False

    return walk(paragraph.kids, False)[0]


def cut(node):
    """The element without its kids."""
    return reading.Element(node.name, node.tail, node.space, node.parent)


def round_of(element):
    """What stands before and behind an element in its paragraph."""
    paragraph = next((above for above in element.ancestors() if above.is_w("p")), None)
    if paragraph is None:
        return "", ""
    line = texts.spaced(texts.said(paragraph.kids, True)).removeprefix(" ")
    start = len(texts.spaced(before_in(paragraph, element)).removeprefix(" "))
    whole = before_in(paragraph, element) + texts.said(element.kids, True)
    end = len(texts.spaced(whole).removeprefix(" "))
    return line[:start], line[end:]


def mention(member):
    """What a member tells: its words, and what stands before and behind them."""
    if member.role == "mark":
        paragraph = next(above for above in member.ancestors() if above.is_w("p"))
        return "\u00b6", texts.spaced(texts.said(paragraph.kids, True)).removeprefix(" "), ""
    element = member if member.role == "content" else owner_of(member)
    words = texts.said(element.kids, False)
    if element.is_w("p"):
        return words, "", ""
    return (words, *round_of(element))


def members_of(package, number):
    """The members that tell of a revision, in the order of the text."""
    members = [element for _, root in package.stories for element in reading.elements([root])]
    members = [element for element in members if element.number == number and element.role != "marker"]
    if package.revisions[number - 1].kind == "move":
        return [element for element in members if element.trace == "from" and element.role == "content"]
    return members


def excerpt(package, number):
    kind = package.revisions[number - 1].kind
    told = [mention(member) for member in members_of(package, number)]
    words = texts.spaced("".join(words for words, _, _ in told))
    if not (kind in ("ins", "del", "move") or kind.startswith(("move-", "mark-"))):
        words = words.removeprefix(" ")
    before = told[0][1][-40:] if told else ""
    return texts.shortened(words, 200), before, told[-1][2][:40] if told else ""


def changed(package, number):
    """The properties that a revision changes; None where its lists are too large to be compared."""
    if package.revisions[number - 1].kind not in reading.CHANGES.values():
        return []
    return formats.compared(members_of(package, number)[0])


def near_end(text):
    return text if len(text) <= 11 else "\u2026" + text[-11:]


def signs_of(kind):
    if kind == "move":
        return SIGNS["from"]
    return SIGNS.get(kind.rpartition("-")[2], ("{=", "=}"))


def says_of(number, entries):
    """The last words on a revision, in the order of entries."""
    here = [entry for entry in entries if entry.revision == number]
    return [entry for entry in here if entry.sequence == max(it.sequence for it in here if it.reviewer == entry.reviewer)]


def listed(package, entries, shown=None):
    """The listing of a package in the format `words`, of all revisions or of those alone that have these numbers."""
    entries = reading.admitted(package, entries)
    on, _ = comments.comments_on(package)
    out = []
    for number, revision in enumerate(package.revisions, 1):
        if shown is not None and number not in shown:
            continue
        words, before, after = excerpt(package, number)
        verdict = reading.verdict(number, entries)
        begin, end = signs_of(revision.kind)
        masked = reading.masked
        inside = masked(texts.shortened(words, 30)) + end
        if revision.kind in reading.CHANGES.values():
            inside = masked(formats.line(changed(package, number))) + end + masked(texts.shortened(words, 30))
        clause = clauses.clause_of(package, number)
        quoted = "" if clause is None else masked(clause) + " "
        quoted += masked(near_end(before)) + begin + inside + masked(texts.shortened(after, 10))
        line = "%5d %-12s %-8s %-13s %s" % (number, revision.kind, verdict, texts.shortened(masked(revision.author), 12), quoted)
        count = on[number - 1][1]
        line += "" if count == 0 else "  (1 comment)" if count == 1 else "  (%d comments)" % count
        place = places.place_of(package, number)
        line += "" if place == "document" else "  " + place
        said = "".join("  %s: %s" % (masked(entry.reviewer), entry.word) for entry in says_of(number, entries))
        out.append(line + (said if verdict == "disputed" else "") + "\n")
    return "".join(out)


def full(package, entries):
    """The listing of a package in the format `full`: each row of `json`, and what was told of its revision."""
    rows = json.loads(reading.listed(package, entries, "json"))
    entries = reading.admitted(package, entries)
    on, _ = comments.comments_on(package)
    acts, hides = edits.edits(package), hidden.revisions(package)
    for row in rows:
        row["words"], row["before"], row["after"] = excerpt(package, row["number"])
        members = members_of(package, row["number"])
        found = changed(package, row["number"])
        row["changed"] = (found or [])[: formats.MOST]
        row["changed_more"] = None if found is None else max(0, len(found) - formats.MOST)
        row["clause"] = clauses.clause_of(package, row["number"])
        kept, count = on[row["number"] - 1]
        row["comments"] = [comments.row_of(it) for it in kept]
        row["comments_more"] = count - len(kept)
        row["edit"], row["hidden"] = acts[row["number"] - 1], hides[row["number"] - 1]
        row["place"] = places.place_of(package, row["number"])
        row["id"] = members[0].attribute("id") if members else None
        row["says"] = [{"reviewer": entry.reviewer, "word": entry.word} for entry in says_of(row["number"], entries)]
    rows = [dict(sorted(row.items())) for row in rows]
    return json.dumps(rows, ensure_ascii=False, separators=(",", ":")) + "\n"


def entries_of(journal):
    for line in journal.splitlines()[3:]:
        sequence, revision, word, *rank, reviewer = line.split("\t")
        yield reading.Entry(reviewer, int(sequence), int(revision), word, *map(int, rank))


if __name__ == "__main__":
    form = {"words": listed, "full": full}[sys.argv[1]]
    texts_of = [open(name, newline="", encoding="utf-8").read() for name in sys.argv[2:]]
    entries = [entry for journal in texts_of[1:] for entry in entries_of(journal)]
    sys.stdout.write(form(reading.Package(texts_of[0]), entries))
