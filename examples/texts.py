"""A second writer of the texts of a package, as docs/DEFINITIONS.md tells them.

    python3 texts.py PACKAGE original|final|marked        the text, on standard output

It shares no code with the program. make.py makes by it what `text` is to write of the examples.
"""
import re
import sys

import reading

SIGNS = {"inserted": ("{+", "+}"), "deleted": ("[-", "-]"), "from": ("[~", "~]"), "to": ("{~", "~}")}
STARTS = {"tab": "\t", "br": "\n", "cr": "\n"}
BREAKS = ("tab", "br", "cr", "p")


def shown(stretch):
    """The characters that a stretch between tags shows."""
    out = ""
    for piece in re.findall(r"<!--.*?-->|<\?.*?\?>|<!\[CDATA\[.*?\]\]>|&[^;]*;|[^<&]+", stretch, re.S):
        if piece.startswith("<![CDATA["):
            out += piece[9:-3]
        elif piece.startswith("&"):
            out += reading.decoded(piece)
        elif not piece.startswith("<"):
            out += piece
    return out


def said(nodes, in_line, in_text=False):
    """What nodes say; in a line without the paragraphs inside."""
    out = ""
    for node in nodes:
        if isinstance(node, str):
            out += shown(node) if in_text else ""
        elif not reading.is_quiet(node) and not (in_line and node.is_w("p")):
            if node.is_w(*BREAKS):
                out += " "
            elif node.is_w("noBreakHyphen"):
                out += "\u2011"
            out += said(node.kids, in_line, node.is_w("t", "delText"))
    return out


def spaced(text):
    return re.sub("[ \t\r\n]+", " ", text)


def shortened(text, room):
    text = spaced(text)
    return text[:room] + ("\u2026" if text[room:].strip(" ") else "")


def stories(nodes, part=None):
    """The roots of the stories, each with the name of its part, in the order of parts."""
    for node in nodes:
        if isinstance(node, reading.Element):
            if node.is_w(*reading.STORIES):
                yield part, node
            else:
                yield from stories(node.kids, node.attribute("name") if node.local == "part" else part)


def plain(nodes, in_text=False):
    """The plain text of nodes."""
    out = ""
    for node in nodes:
        if isinstance(node, str):
            out += shown(node) if in_text else ""
        elif not reading.is_quiet(node):
            start = STARTS.get(node.local, "") if node.space == "W" else ""
            out += start + plain(node.kids, node.is_w("t")) + ("\n" if node.is_w("p") else "")
    return out


def plain_text(package, say):
    """The plain text of the main story of what is left, where every revision gets this say."""
    left = reading.parse(reading.decided(package, lambda number: say))
    return "".join(plain(root.kids) for _, root in stories(left) if root.local == "document")


def sign(element, word=None):
    begin, end = SIGNS[element.trace]
    return "%s%d %s" % (begin, element.number, word + end if word else "")


def mark_signs(para):
    runs = [run for props in reading.kids_named(para.kids, "pPr") for run in reading.kids_named(props.kids, "rPr")]
    members = [kid for run in runs for kid in run.kids if isinstance(kid, reading.Element) and kid.role == "mark"]
    return "".join(sign(member, "\u00b6") for member in members)


def marked(nodes, in_text=False):
    """The marked text of nodes."""
    out = ""
    for node in nodes:
        if isinstance(node, str):
            out += shown(node) if in_text else ""
            continue
        if node.role == "content":
            out += sign(node)
        elif node.role in ("row", "cell"):
            out += sign(node, node.role)
        elif node.role in reading.CHANGES.values():
            out += "{=%d %s=}" % (node.number, node.role)
        in_open = node.space == "W" and reading.is_open(node)
        if in_open:
            out += "\u2011" if node.local == "noBreakHyphen" else STARTS.get(node.local, "")
        out += marked(node.kids, in_open and node.local in ("t", "delText"))
        if in_open and node.local == "p":
            out += mark_signs(node) + "\n"
        if node.role == "content":
            out += SIGNS[node.trace][1]
    return out


def marked_text(package):
    """The marked text of all stories. Each one after the first that shows anything begins with a line of its own."""
    out = ""
    for part, root in stories(package.nodes):
        if out:
            out += ("" if out.endswith("\n") else "\n") + "== %s\n" % part
        out += marked(root.kids)
    return out


def text(package, view):
    if view == "marked":
        return reading.masked_lines(marked_text(package))
    return reading.masked_lines(plain_text(package, {"original": "reject", "final": "accept"}[view]))


if __name__ == "__main__":
    with open(sys.argv[1], newline="", encoding="utf-8") as file:
        sys.stdout.buffer.write(text(reading.Package(file.read()), sys.argv[2]).encode())
