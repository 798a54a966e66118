"""A second writer of the page that a reviewer opens in a browser, as docs/PROGRAMS.md tells it.

    python3 page.py PACKAGE [--title TEXT] [--rank N] [--no-pictures] [--lock AUTHOR ..] [JOURNAL ..]        the page, on standard output

It shares no code with the program but the page's script and style, which are texts of their own. The gate compares the
program's pages with what this makes of the same files, and the browser's test can run on either.
"""
import argparse
import base64
import hashlib
import os
import re
import sys

import clauses
import comments
import edits
import formats
import hidden
import page_lists
import places
import reading
from page_lists import attributes, escaped

SKIN = os.path.join(os.path.dirname(os.path.dirname(os.path.abspath(__file__))), "crates", "redl_skin", "page")

# The document


def shown(stretch):
    """The text that a stretch between tags shows."""
    pieces = re.findall(r"<!--.*?-->|<\?.*?\?>|<!\[CDATA\[.*?\]\]>|[^<]+", stretch, re.S)
    plain = lambda piece: "".join(reading.decoded(it) if it.startswith("&") else it for it in re.findall("&[^;]*;|[^&]+", piece))
    return "".join(it[9:-3] if it.startswith("<![CDATA[") else "" if it.startswith("<") else plain(it) for it in pieces)


def properties(element, name, local):
    """The properties of this name in the properties of an element."""
    return [it for props in reading.kids_named(element.kids, name) for it in reading.kids_named(props.kids, local)]


def first_value(element, name, local):
    """The first value of a property that is given."""
    values = [it.written_value("val") for it in properties(element, name, local)]
    return next((value for value in values if value is not None), None)


def switch(element, name, local):
    """The value of the first property of this name, which may be empty; none where there is no such property."""
    return next(((it.written_value("val") or "") for it in properties(element, name, local)), None)


def is_on(run, local):
    return any(it.written_value("val") not in ("0", "false", "off") for it in properties(run, "rPr", local))


def holds_blocks(para):
    return any(it.is_w("p", "tbl") or is_second_form(it) for it in reading.elements(para.kids))


def is_second_form(element):
    return element.space == "other" and element.local == "Fallback"


def marks_of(para):
    runs = [run for props in reading.kids_named(para.kids, "pPr") for run in reading.kids_named(props.kids, "rPr")]
    return [kid for run in runs for kid in run.kids if isinstance(kid, reading.Element) and kid.role == "mark"]


class Page:
    def __init__(self, package, entries, locks=()):
        self.package, self.locks = package, locks
        self.book = reading.admitted(package, entries, locks)
        # (comments are looked for at each change, which takes long)
        self.remarks = comments.comments_on(package)[0] if comments.comments_of(package) else [([], 0)] * len(package.revisions)
        self.edits = edits.edits(package)
        self.hides = hidden.Styles(package).hides
        self.signs = {kind: places.signs_of(package, kind) for kind in ("footnote", "endnote")}
        found = (element for _, root in package.stories for element in reading.elements([root]))
        self.changes = {element.number: element for element in found if element.number and element.role in reading.CHANGES.values()}

    def author(self, number):
        return escaped(self.package.revisions[number - 1].author)

    # Members of revisions

    def opened(self, name, sort, number):
        return '<%s class="%s" data-revision="%d" data-author="%s">' % (name, sort, number, self.author(number))

    def signed(self, element, sort):
        """The start of the element that shows a member which was inserted, deleted or moved, and its end."""
        name = "ins" if element.trace in ("inserted", "to") else "del"
        sort += " move" if element.trace in ("from", "to") else ""
        return self.opened(name, sort, element.number), "</%s>" % name

    def sign(self, element, sort, word):
        start, end = self.signed(element, sort)
        return start + word + end

    def change(self, element):
        props = self.opened("span", "props", element.number) + element.role + "</span>"
        if element.role == "table-props":
            return "<caption>" + props + "</caption>"
        return edge(props) if element.role in ("row-props", "except-props") else props

    def marker(self, element):
        sides = {"moveFromRangeStart": ("from", "to", "moved away"), "moveToRangeStart": ("to", "from", "moved here")}
        if element.local not in sides:
            return ""
        here, there, words = sides[element.local]
        number = element.number
        link = '<a id="%s-%d" href="#%s-%d" data-revision="%d" data-author="%s">%s</a>'
        return link % (here, number, there, number, number, self.author(number), words)

    def member(self, element):
        if element.role == "content":
            return self.signed(element, "text")
        if element.role == "mark":
            return "", ""
        if element.role == "row":
            return edge(self.sign(element, "row", "row")), ""
        if element.role == "cell":
            return self.sign(element, "cell", "cell"), ""
        return (self.marker(element) if element.role == "marker" else self.change(element)), ""

    # All elements

    def note(self, element):
        """The sign of a note, where it is named and where it stands."""
        kind = element.local.removesuffix("Reference")
        return "<sup>%s</sup>" % self.signs[kind].get(element.written_value("id") or "", "")

    def paragraph(self, element):
        style = first_value(element, "pPr", "pStyle")
        start, end = ('<div class="p"', "</div>\n") if holds_blocks(element) else ("<p", "</p>\n")
        if switch(element, "pPr", "bidi") not in (None, "0", "false", "off"):
            start += ' dir="rtl"'
        if style is not None:
            start += ' data-style="%s"' % escaped(shown(style))
        return start + ">", "".join(self.sign(mark, "mark", "&para;") for mark in marks_of(element)) + end

    def cell(self, element):
        columns = first_value(element, "tcPr", "gridSpan")
        span = "" if columns is None else ' colspan="%s"' % escaped(shown(columns))
        merged = "" if switch(element, "tcPr", "vMerge") in (None, "restart") else ' class="merged"'
        return "<td" + span + merged + ">", "</td>"

    def around(self, element):
        """What stands before and behind what an element holds."""
        if element.role:
            return self.member(element)
        if not reading.is_open(element):
            return "", ""
        if is_second_form(element):
            return "<details><summary>kept in another form</summary>", "</details>"
        if element.space == "other" or element.is_w("altChunk"):
            return "<!--other-->", "<!--/other-->"
        if element.space == "M":
            return structure(element)
        if element.space != "W":
            return "", ""
        if element.local == "p":
            return self.paragraph(element)
        if element.local == "tc":
            return self.cell(element)
        if element.local == "r":
            names = [name for name in "bi" if is_on(element, name)]
            start, end = ('<span class="hidden">', "</span>") if self.hides(element) else ("", "")
            return start + "".join("<%s>" % it for it in names), "".join("</%s>" % it for it in reversed(names)) + end
        if element.is_w("footnoteReference", "endnoteReference"):
            return self.note(element), ""
        if element.is_w("sdt", "customXml", "footnote", "endnote", "comment"):
            is_note = element.is_w("footnote", "endnote") and element.attribute("type") is None
            return "<!--list-->" + (self.note(element) if is_note else remarked(element) if element.is_w("comment") else ""), "<!--/list-->"
        if element.local in REMARKED:
            return remarked(element), ""
        if element.is_w("br", "cr"):
            return "<br>" + ENDS.get(element.written_value("type"), ""), ""
        if element.is_w("drawing", "pict", "object"):
            return '<span class="picture"%s>picture%s</span>' % (embedded(element), described(element)), ""
        if element.local == "sym":
            return symbol(element.written_value("char") or ""), ""
        return FIXED.get(element.local, ("", ""))

    def nodes(self, nodes, parent):
        out = []
        for node in nodes:
            if not isinstance(node, str):
                start, end = self.around(node)
                out.append(start + self.nodes(node.kids, node) + end)
            elif (parent.is_w("t", "delText") or parent.space == "M" and parent.local == "t") and reading.is_open(parent):
                out.append(escaped(shown(node)))
        return "".join(out)

    def sections(self):
        """The stories as they are shown: documents, and then the others."""
        return sorted(self.package.stories, key=lambda story: story[1].local != "document")

    def document(self):
        out = ""
        for place, (name, root) in enumerate(self.sections()):
            is_first = place == 0 and root.local == "document"
            heading = "" if is_first else "<h2>%s</h2>\n" % escaped(STORIES.get(root.local, name))
            out += "<section%s>\n" % attributes(("story", root.local), ("part", name)) + heading + self.nodes(root.kids, root) + "</section>\n"
        return out

    def lists(self, has_pictures):
        """What the script reads beside the document."""
        shown = page_lists.pictures(self.package) if has_pictures else ""
        return page_lists.remarks(self.package) + page_lists.all_numbers(self.package, self.sections()) + shown

    # The list of changes

    def says(self, number):
        here = [entry for entry in self.book if entry[2] == number]
        latest = {}
        for entry in here:
            latest[entry[0]] = max(entry[1], latest.get(entry[0], 0))
        ranked = lambda rank: " with rank %d" % rank if rank else ""
        say = lambda word, rank, who: '<p data-word="%s" data-rank="%d"><bdi>%s</bdi>: %s%s</p>' % (word, rank, escaped(who), DONE[word], ranked(rank))
        return "".join(say(entry[3], rank_of(entry), entry[0]) for entry in here if entry[1] == latest[entry[0]])

    def changed(self, number):
        """What a change of properties changes, in words."""
        return formats.line(formats.compared(self.changes[number])) if number in self.changes else ""

    def words(self, number):
        """The clause of a change, its place where that isn't the document, and what it changes."""
        place = places.place_of(self.package, number)
        said = ("clause", clauses.clause_of(self.package, number)), ("place", "" if place == "document" else place), ("changed", self.changed(number))
        return "".join('<p class="%s"><bdi>%s</bdi></p>' % (name, escaped(text)) for name, text in said if text)

    def row(self, number, revision):
        date = "-"
        if revision.date is not None:
            date = reading.date_of(revision.date)
        locked = "yes" if reading.refusal(self.package, ("", 1, number, "accept"), self.locks) else "no"
        remarks = " ".join(it.id for it in self.remarks[number - 1][0]) or None
        said = (
            ("kind", revision.kind), ("author", revision.author), ("date", date), ("edit", self.edits[number - 1]), ("remarks", remarks),
            ("verdict", reading.verdict(number, self.book)), ("locked", locked))
        return '<li id="revision-%d"%s>' % (number, attributes(*said)) + self.words(number) + self.says(number) + "</li>\n"

    def reviewers(self):
        greatest = {}
        for who, sequence, *_ in self.book:
            greatest[who] = max(sequence, greatest.get(who, 0))
        return "".join('<li data-sequence="%d">%s</li>\n' % (sequence, escaped(who)) for who, sequence in greatest.items())


DONE = {"accept": "accepted", "reject": "rejected", "withdraw": "withdrawn"}


def symbol(digits):
    """A symbol by its number: a box where only its font knows what it shows."""
    number = int(digits, 16) if re.fullmatch("[0-9A-Fa-f]{4}", digits) else 0
    agreed = 0x20 <= number < 0x7F or 0xA0 <= number < 0xD800 or 0xF900 <= number < 0xFFFE
    return '<span class="symbol">%s</span>' % (escaped(chr(number)) if agreed else "&#9633;")


def described(picture):
    """What a picture is said to show, behind a colon."""
    elements = lambda nodes: [it for it in nodes if isinstance(it, reading.Element) and it.space == "other"]
    values = [it.written_value("descr") for around in elements(picture.kids) for it in elements(around.kids) if it.local == "docPr"]
    value = next((it for it in values if it is not None), "")
    return ": " + escaped(shown(value)) if value else ""


def embedded(picture):
    """The relationship by which a picture has its first image."""
    names = {"blip": "embed", "imagedata": "id"}
    found = [it.written_value(names[it.local]) for it in reading.elements(picture.kids) if it.space == "other" and it.local in names]
    value = next((it for it in found if it is not None), None)
    return attributes(("embed", None if value is None else shown(value)))


def remarked(element):
    """A place of a comment, without words."""
    id = element.written_value("id")
    start = '<%s class="%s"%s>' % (*REMARKED[element.local], attributes(("remark", None if id is None else shown(id))))
    return start + "</%s>" % REMARKED[element.local][0]


def structure(element):
    """What stands before and behind what a structure of an equation holds: signs that are given, or the usual ones."""
    start, end = STRUCTURES.get(element.local, ("", ""))
    signs = [sign_of(element, *it) for it in SIGNED.get(element.local, ())]
    return start + "".join(signs[:1]), "".join(signs[1:]) + end


def sign_of(element, holder, name, usual):
    """The first sign of this name that the properties of a structure give, or the usual one."""
    named = lambda nodes, name: [it for it in nodes if isinstance(it, reading.Element) and it.space == "M" and it.local == name]
    values = [it.written_value("val") for props in named(element.kids, holder) for it in named(props.kids, name)]
    return next((escaped(shown(value)) for value in values if value is not None), usual)


# The structures of equations: what stands around each, and of some the properties that give their signs, and the usual signs.
STRUCTURES = {
    "oMath": ('<span class="equation">', "</span>"),
    "e": ("(", ")"),
    "num": ("(", ")"),
    "den": ("/(", ")"),
    "sub": ("_(", ")"),
    "lim": ("_(", ")"),
    "sup": ("^(", ")"),
    "deg": ("[", "]"),
    "mr": ("[", "]"),
    "rad": ("&#8730;", ""),
    "acc": ("&#9676;", ""),
}
SIGNED = {
    "nary": [("naryPr", "chr", "&#8747;")],
    "acc": [("accPr", "chr", "&#770;")],
    "d": [("dPr", "begChr", ""), ("dPr", "endChr", "")],
}


def edge(inside):
    return '<td class="edge">' + inside + "</td>"


def rank_of(entry):
    return entry[4] if len(entry) > 4 else 0


# Where a comment begins and ends, where it is named, and where it stands.
REMARKED = {
    "commentRangeStart": ("span", "remark-start"),
    "commentRangeEnd": ("span", "remark-end"),
    "commentReference": ("sup", "remark"),
    "comment": ("span", "remark-own"),
}
STORIES = {"hdr": "Header", "ftr": "Footer", "footnotes": "Footnotes", "endnotes": "Endnotes", "comments": "Comments"}

ENDS = {"page": '<span class="page-end"></span>', "column": '<span class="column-end"></span>'}

FIXED = {
    "tbl": ("<table>\n", "</table>\n"),
    "tr": ("<tr>", "</tr>\n"),
    "txbxContent": ('<span class="box">', "</span>"),
    "tab": ("\t", ""),
    "noBreakHyphen": ("&#8209;", ""),
    "softHyphen": ("&#173;", ""),
}

WHOLE = """<!DOCTYPE html>
<html lang="en">
<head>
<meta charset="utf-8">
<meta http-equiv="Content-Security-Policy" content="{policy}">
<meta name="viewport" content="width=device-width, initial-scale=1">
<title>{title}</title>
<style>{style}</style>
</head>
<body data-document="{digest}" data-revisions="{count}"{given}>
<main lang="">
{document}</main>
<aside aria-label="Changes">
<noscript><p>Deciding needs the script of this page, which does not run here. The words below are what the journals say.</p></noscript>
<ol>
{rows}</ol>
<ul>
{reviewers}</ul>
{lists}</aside>
<script>{script}</script>
</body>
</html>
"""


def policy(style, script):
    """The security policy of the page: this style and this script alone, and nothing is ever fetched."""
    digest = lambda text: "'sha256-%s'" % base64.b64encode(hashlib.sha256(text.encode()).digest()).decode()
    rules = "default-src 'none'; script-src %s; style-src %s; img-src data:; base-uri 'none'; form-action 'none'; require-trusted-types-for 'script'; trusted-types 'none'"
    return rules % (digest(script), digest(style))


# The files of the style and of the script, in the order in which they are put together.
STYLES = ["base", "bar", "document", "remarks", "changes", "views", "list", "dialogs", "media"]
SCRIPTS = [
    "elements", "kinds", "facts", "edits", "bars", "dialogs", "signs", "views", "document", "numbers", "notes", "images", "remarks", "dress",
    "parts", "excerpts", "list", "words", "verdicts", "blocks", "passes", "picture", "chosen", "decisions", "undo", "filters", "store",
    "opening", "names", "journal", "summary", "help", "keys", "outside", "copies", "start",
]


def together(folder, names, end):
    """The files of a folder as one text, with an empty line between two."""
    return "\n".join(read(os.path.join(SKIN, folder, name + end)) for name in names)


def skin():
    """The policy, the style and the script of the page."""
    style, script = together("style", STYLES, ".css"), together("script", SCRIPTS, ".js")
    return policy(style, script), style, script


def page(package, entries, locks=(), title=None, rank=None, has_pictures=True):
    """The page of a package with the entries of journals, and with the title and the rank that the sender gives, as text."""
    rules, style, script = skin()
    of = Page(package, entries, locks)
    values = {
        "policy": rules,
        "style": style,
        "script": script,
        "digest": hashlib.sha256(package.text.encode()).hexdigest(),
        "count": str(len(package.revisions)),
        "title": "Redline: changes to decide" if title is None else escaped(title),
        "given": "".join(' data-%s="%s"' % (name, escaped(value)) for name, value in (("title", title), ("rank", rank)) if value is not None),
        "document": of.document(),
        "rows": "".join(of.row(number, it) for number, it in enumerate(package.revisions, 1)),
        "reviewers": of.reviewers(),
        "lists": of.lists(has_pictures),
    }
    return re.sub("{(%s)}" % "|".join(values), lambda found: values[found.group(1)], WHOLE)


def read(name):
    with open(name, newline="", encoding="utf-8") as file:
        return file.read()


def entries_of(journal):
    """The entries of a journal's text: reviewer, sequence, revision, word and, in version 2, rank."""
    lines = [line.split("\t") for line in journal.split("\n")[3:-1]]
    return [(who, int(sequence), int(revision), word, *map(int, rank)) for sequence, revision, word, *rank, who in lines]


def main(words):
    parser = argparse.ArgumentParser()
    parser.add_argument("package")
    parser.add_argument("journals", nargs="*")
    parser.add_argument("--title")
    parser.add_argument("--rank")
    parser.add_argument("--no-pictures", action="store_true")
    parser.add_argument("--lock", action="append", default=[])
    given = parser.parse_intermixed_args(words)
    entries = sum((entries_of(read(name)) for name in given.journals), [])
    sys.stdout.reconfigure(encoding="utf-8", newline="")
    sys.stdout.write(page(reading.Package(read(given.package)), entries, given.lock, given.title, given.rank, not given.no_pictures))


if __name__ == "__main__":
    main(sys.argv[1:])
