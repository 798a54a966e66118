"""A second writer of where revisions are, as docs/DEFINITIONS.md tells it: `place` of `list --format full`.

    python3 places.py PACKAGE        the number and the place of each revision

It shares no code with the program.
"""
import sys

import reading

HOLDERS = {"hdr": "header", "ftr": "footer", "comment": "comment", "txbxContent": "text box"}
ROMAN = ((1000, "m"), (900, "cm"), (500, "d"), (400, "cd"), (100, "c"), (90, "xc"), (50, "l"), (40, "xl"), (10, "x"), (9, "ix"), (5, "v"), (4, "iv"), (1, "i"))


def roman(number):
    if number > 3999:
        return str(number)
    out = ""
    for value, letters in ROMAN:
        while number >= value:
            out, number = out + letters, number - value
    return out


def signs_of(package, kind):
    """The signs of the footnotes or the endnotes that the document names, by their ids."""
    signs, count = {}, 0
    for _, root in package.stories:
        if not root.is_w("document"):
            continue
        for element in reading.elements(root.kids):
            if not element.is_w(kind + "Reference"):
                continue
            sign = "*"
            if (element.written_value("customMarkFollows") or "0") in ("0", "false", "off"):
                count += 1
                sign = roman(count) if kind == "endnote" else str(count)
            signs.setdefault(element.written_value("id") or "", sign)
    return signs


def place_of(package, number):
    """The innermost of these that holds the first member of a revision."""
    members = [it for _, root in package.stories for it in reading.elements([root]) if it.number == number and it.role != "marker"]
    for above in members[0].ancestors():
        if above.is_w(*HOLDERS):
            return HOLDERS[above.local]
        if above.is_w("footnote", "endnote"):
            return " ".join([above.local, *signs_of(package, above.local).get(above.written_value("id") or "", "").split()])
    return "document"


if __name__ == "__main__":
    package = reading.Package(open(sys.argv[1], newline="", encoding="utf-8").read())
    for number in range(1, len(package.revisions) + 1):
        print(number, place_of(package, number), sep="\t")
