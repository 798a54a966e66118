"""The manual as lines of a manual page: what docs/MANUAL.md has of Markdown, and no more."""
import re

from packaging.roff import escaped


def inline(text):
    """A text with code, stress and links as a line of a manual page. A link to another paper has its name behind it."""
    out = []
    for piece in re.split(r"(`[^`]+`)", re.sub(r"!\[[^\]]*\]\([^)]*\)", "", text)):
        if piece.startswith("`"):
            out.append("\\fB%s\\fR" % escaped(piece[1:-1]))
            continue
        piece = re.sub(r"\[([^\]]+)\]\(#[^)]*\)", r"\1", piece)
        piece = re.sub(r"\[([^\]]+)\]\((?:[.\w]+/)*([\w.]+)[^)]*\)", lambda link: link.group(1) if link.group(1) in link.group(2) else "%s (%s)" % link.groups(), piece)
        out.append(re.sub(r"\*\*(.+?)\*\*", r"\\fI\1\\fR", escaped(piece).replace("\\&", "")))
    line = "".join(out)
    return "\\&" + line if line.startswith((".", "'", "\\(aq")) else line


def table(rows):
    """The rows of a table: the first cell, and the others below it, with the heads of their columns where these are several."""
    heads, *rows = [[cell.strip() for cell in row.strip().strip("|").split("|")] for row in rows if not re.fullmatch(r"[|\s:-]+", row)]
    lines = []
    for first, *cells in rows:
        lines += [".TP", inline(first)]
        for number, (name, cell) in enumerate(zip(heads[1:], cells)):
            lines += [".br"] * (number > 0) + [inline(cell if len(cells) == 1 else "%s: %s" % (name, cell))]
    return lines + [".PP"]


def block(lines):
    """A paragraph, an item of a list, or a heading, of its lines."""
    text, indent = " ".join(line.strip() for line in lines), lines[0].startswith("  ")
    item = re.match(r"(\d+\.|-) (.*)", text)
    heading = re.match(r"(#+) (.*)", text)
    if heading:
        return [] if heading.group(1) == "#" else ["%s %s" % (".SH" if heading.group(1) == "##" else ".SS", inline(heading.group(2)))]
    if item:
        return [".IP %s 4" % ("\\(bu" if item.group(1) == "-" else item.group(1)), inline(item.group(2))]
    return [".IP \"\" 4" if indent else ".PP", inline(text)]


def manual_lines(text):
    """All lines of the page, without the list of contents."""
    text = re.sub(r"^\d+\. \[[^\]]+\]\(#[^)]*\)\n", "", text, flags=re.M)
    out, waiting, rows, fenced = [], [], [], False
    for line in text.split("\n") + [""]:
        begins = re.match(r"#|\s*(?:\d+\.|-) |\s*```", line) or not line.strip() or line.startswith("|") or fenced
        if waiting and begins:
            out += block(waiting)
            waiting = []
        if rows and not line.startswith("|"):
            out += table(rows)
            rows = []
        if line.strip().startswith("```"):
            out += [".fi", ".RE"] if fenced else [".RS 4", ".nf"]
            fenced = not fenced
        elif fenced:
            out.append(escaped(line.removeprefix("   ")))
        elif line.startswith("|"):
            rows.append(line)
        elif line.strip():
            waiting.append(line)
    return out
