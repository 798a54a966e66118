"""A second writer of reports, as docs/DEFINITIONS.md tells them.

    python3 report.py text|json|table|text-kinds|.. PACKAGE [JOURNAL ..]        the report, on standard output, also by kind

It shares no code with the program. make.py makes by it what `report` is to write of the examples.
"""
import collections
import json
import sys

import reading
from words import entries_of

VERDICTS = ["accept", "reject", "disputed", "open"]
KINDS = (
    "ins del move-from move-to move mark-ins mark-del mark-from mark-to row-ins row-del cell-ins cell-del "
    "run-props para-props sect-props table-props except-props row-props cell-props"
).split()
Line = collections.namedtuple("Line", ["role", "name", "counts", "kind"])


def counted(role, name, verdicts, kind=None):
    return Line(role, name, [verdicts.count(verdict) for verdict in VERDICTS], kind)


def by_bytes(names):
    return sorted(set(names), key=lambda name: name.encode())


def lines(package, entries, locks=(), by_kind=False):
    """A line for each reviewer, by their own entries alone, and then one for each author, by those of all; and one for each kind."""
    book = reading.admitted(package, entries, locks)
    out = []
    for name in by_bytes(entry.reviewer for entry in book):
        own = [entry for entry in book if entry.reviewer == name]
        out.append(counted("reviewer", name, [reading.verdict(number, own) for number in {entry.revision for entry in own}]))
    for name in by_bytes(revision.author for revision in package.revisions):
        numbers = [number for number, revision in enumerate(package.revisions, 1) if revision.author == name]
        out.append(counted("author", name, [reading.verdict(number, book) for number in numbers]))
        for kind in KINDS if by_kind else []:
            of_kind = [number for number in numbers if package.revisions[number - 1].kind == kind]
            if of_kind:
                out.append(counted("kind", name, [reading.verdict(number, book) for number in of_kind], kind))
    return out


def shown(line):
    return line.kind or reading.masked(line.name)


def as_text(found):
    return "".join("%-8s %7d %7d %7d %7d %s\n" % (it.role, *it.counts, shown(it)) for it in found)


def as_json(found):
    kind = lambda it: {"kind": it.kind} if it.kind else {}
    row = lambda it: {**dict(zip(VERDICTS, it.counts)), **kind(it), "role": it.role, "who": it.name}
    return json.dumps([row(it) for it in found], ensure_ascii=False, separators=(",", ":"), sort_keys=True) + "\n"


def as_table(found):
    row = "%-8s %8s %8s %8s %8s %s\n"
    totals = [sum(it.counts[place] for it in found if it.role == "author") for place in range(4)]
    body = "".join(row % (it.role, *it.counts, shown(it)) for it in found)
    return row % ("role", *VERDICTS, "name") + body + row % ("all", *totals, "revisions")


FORMS = {"text": as_text, "json": as_json, "table": as_table}


def report(package, entries, form, locks=(), by_kind=False):
    """The report on a package in one of the forms."""
    return FORMS[form](lines(package, entries, locks, by_kind))


if __name__ == "__main__":
    texts_of = [open(name, newline="", encoding="utf-8").read() for name in sys.argv[2:]]
    entries = [entry for journal in texts_of[1:] for entry in entries_of(journal)]
    form, _, kinds = sys.argv[1].partition("-")
    sys.stdout.write(report(reading.Package(texts_of[0]), entries, form, by_kind=kinds == "kinds"))
