"""What the document that came back alone has: tracked changes and comments of the reviewer, a proposal for a further round."""
from returned.clauses import Clauses, place_of
from returned.streams import CELL, ESCAPE, OBJECT_SIGNS, PARA, ROW

VERBS = {"ins": "inserted", "del": "deleted", "to": "moved here", "from": "moved away"}
MATTERS = {"mark": "the paragraph's end ", "row": "the row ", "cell": "the cell "}
CHANGED = {
    "run-props": "format", "para-props": "format of the paragraph", "sect-props": "section", "table-props": "format of the table",
    "except-props": "format of the row", "row-props": "format of the row", "cell-props": "format of the cell",
}
NAMES = {"hdr": "a header", "ftr": "a footer", "footnote": "a footnote", "endnote": "an endnote", "comment": "a comment"}
SHOWN = {ord(sign): "[%s]" % name for name, sign in OBJECT_SIGNS.items()}
SHOWN.update({ord(PARA): "\u00b6", ord(ROW): None, ord(CELL): None, ord(ESCAPE): None, ord("\n"): " ", ord("\t"): " "})


def plain_of(text):
    """A text of a stream for a reader."""
    return text.translate(SHOWN).strip()


def foreign_revisions(package, known):
    """The numbers of the revisions whose signs are none of those."""
    return [number for number, members in enumerate(package.revisions, 1) if members and members[0].sign() not in known]


class Proposal:
    """A stretch that changes with one sign cover, and where it is."""

    def __init__(self, stream, sign, begin, end):
        self.stream, self.sign, self.begin, self.end, self.clause = stream, sign, begin, end, None

    def line(self):
        name = NAMES.get(self.stream.root, "the document")
        place = place_of(self.stream.paragraph_of(self.begin), self.clause)
        role, trace, author, _ = self.sign
        what = CHANGED[trace] + " changed" if role == "change" else MATTERS.get(role, "") + VERBS[trace]
        text = plain_of(self.stream.text[self.begin : self.end])
        text = text if len(text) <= 80 else text[:50] + "\u2026" + text[-25:]
        return "new in %s, %s: %s by %s%s" % (name, place, what, author or "nobody", ', "%s"' % text if text and role == "content" else "")


def proposals(package, known, data):
    """What the package has besides the changes with these signs, in the order of its stories. `data` are its bytes."""
    found, numbered = [], {}
    for stream in package.streams:
        found += proposals_in(stream, known)
    for one in found:
        if one.stream not in numbered:
            numbered[one.stream] = Clauses(one.stream, data)
        one.clause = numbered[one.stream].at(one.begin)
    return found


def proposals_in(stream, known):
    found = []
    last = {}  # by sign the last proposal, which a stretch right after it goes on
    for begin, end, members, shown in stream.stretches():
        for sign in dict.fromkeys(one.sign() for one in members if one.role == "content" or one in shown):
            if sign in known:
                continue
            if sign in last and last[sign].end == begin:
                last[sign].end = end
            else:
                last[sign] = Proposal(stream, sign, begin, end)
                found.append(last[sign])
    for change in stream.changes:
        if change.member.sign() not in known:
            place = max(stream.length - 1, 0) if change.begin == "end" else change.begin
            found.append(Proposal(stream, change.member.sign(), place, place))
    return found
