"""The clause of each revision: the number that a word processor shows before its paragraph (ECMA-376 Part 1, 17.9).

    python3 clauses.py PACKAGE                 each revision with its kind and the number of its clause
    python3 clauses.py PACKAGE paragraphs      the number of each paragraph of the document, or an empty line

A revision in a paragraph without a number has `before` and the last number before it, or None. Changes are counted as a reader sees
them while they are shown: inserted and deleted paragraphs too. It shares no code with the program. It looks at each thing anew as
often as it needs it, so it is slow and short.
"""
import re
import sys

import reading
import texts

UNITS = ("tab", "br", "cr", "noBreakHyphen", "softHyphen", "sym", "ptab", "footnoteReference", "endnoteReference", "drawing", "pict", "object")
ROMAN = ((1000, "m"), (900, "cm"), (500, "d"), (400, "cd"), (100, "c"), (90, "xc"), (50, "l"), (40, "xl"), (10, "x"), (9, "ix"), (5, "v"), (4, "iv"), (1, "i"))
KEPT = []
# Of a row, a cell or a table.
HOLDERS = ("row", "cell", "table-props", "except-props", "row-props", "cell-props")


# Parts beside the stories


def kids(node):
    return [kid for kid in node.kids if isinstance(kid, reading.Element)]


def parts_of(package):
    """The roots of each part by the part's name; the first of a name holds."""
    found = {}
    for part in [kid for root in package.nodes if isinstance(root, reading.Element) for kid in kids(root)]:
        roots = [root for data in kids(part) if data.local == "xmlData" for root in kids(data)]
        found.setdefault(part.attribute("name"), roots)
    return found


def roots_beside(package, ending):
    """What is in the part to which the relationship of the first document part with this type leads."""
    parts = parts_of(package)
    name = next((name for name, root in package.stories if root.is_w("document")), None)
    if name is None:
        return []
    folder, _, file = name.rpartition("/")
    for it in [it for root in parts.get(folder + "/_rels/" + file + ".rels", []) for it in kids(root)]:
        if it.local == "Relationship" and (it.attribute("Type") or "").endswith(ending) and it.attribute("TargetMode") != "External":
            target = it.attribute("Target") or ""
            return parts.get(target if target.startswith("/") else folder + "/" + target, [])
    return []


def part_beside(package, ending, local):
    """The root with this name of that part, or None."""
    return first(roots_beside(package, ending), local)


# Properties


def first(nodes, local):
    return next((kid for kid in nodes if isinstance(kid, reading.Element) and kid.is_w(local)), None)


def number(text):
    """The number that a text is: one to nine digits, with a sign or without."""
    return int(text) if text is not None and re.fullmatch("[+-]?[0-9]{1,9}", text) else None


def value(element, local):
    """The value of the first kid with this name."""
    kid = None if element is None else first(element.kids, local)
    return None if kid is None else kid.attribute("val")


def is_on(text):
    return text not in ("0", "false", "off")


# Lists, nums and styles


class Lists:
    """What the numbering part and the styles part of a package say."""

    def __init__(self, package):
        numbering, styles = (part_beside(package, "/" + local, local) for local in ("numbering", "styles"))
        self.lists = reading.kids_named(numbering.kids, "abstractNum") if numbering else []
        self.nums = reading.kids_named(numbering.kids, "num") if numbering else []
        self.styles = reading.kids_named(styles.kids, "style") if styles else []

    def num(self, id):
        return None if id in (None, 0) else next((it for it in self.nums if number(it.attribute("numId")) == id), None)

    def list_of(self, num):
        """The list of a num, past a link to the list of a style."""
        id = number(value(num, "abstractNumId"))
        found = next((it for it in self.lists if id is not None and number(it.attribute("abstractNumId")) == id), None)
        link = value(found, "numStyleLink")
        return found if link is None else next((it for it in self.lists if value(it, "styleLink") == link), None)

    def override(self, num, level):
        return next((it for it in reading.kids_named(num.kids, "lvlOverride") if number(it.attribute("ilvl")) == level), None)

    def level(self, num, level):
        """What a num has at a level: a `lvl`, or None."""
        override, found = self.override(num, level), self.list_of(num)
        own = None if override is None else first(override.kids, "lvl")
        if own is not None or found is None:
            return own if found is not None else None
        return next((it for it in reading.kids_named(found.kids, "lvl") if number(it.attribute("ilvl")) == level), None)

    def start_override(self, num, level):
        return number(value(self.override(num, level), "startOverride"))

    def start(self, num, level):
        override = self.start_override(num, level)
        return override if override is not None else number(value(self.level(num, level), "start")) or 0

    def style(self, id):
        return next((it for it in self.styles if id is not None and it.attribute("styleId") == id), None)

    def default_style(self):
        is_default = lambda it: it.attribute("type") == "paragraph" and it.attribute("default") is not None and is_on(it.attribute("default"))
        return next((it for it in self.styles if is_default(it)), None)

    def chain(self, style):
        """A style, the one that it is based on, and so on, until one is missing or comes a second time."""
        found = []
        while style is not None and style not in found:
            found.append(style)
            style = self.style(value(style, "basedOn"))
        return found

    def found(self, paragraph):
        """The num and the level of a paragraph, or None."""
        properties = first(paragraph.kids, "pPr")
        own = first(properties.kids, "numPr") if properties else None
        style = value(properties, "pStyle")
        chain = self.chain(self.default_style() if style is None else self.style(style))
        said = [(it, first(first(it.kids, "pPr").kids, "numPr") if first(it.kids, "pPr") else None) for it in chain]
        ids = [number(value(own, "numId"))] + [number(value(it, "numId")) for _, it in said]
        num = self.num(next((id for id in ids if id is not None), None))
        if num is None or self.list_of(num) is None:
            return None
        levels = [number(value(own, "ilvl"))]
        for it, properties in said:
            id = it.attribute("styleId")
            levels.append(next((k for k in range(9) if id is not None and value(self.level(num, k), "pStyle") == id), None))
            levels.append(number(value(properties, "ilvl")))
        level = next((level for level in levels if level is not None), 0)
        return (num, level) if 0 <= level <= 8 and self.level(num, level) is not None else None


# Texts of numbers


def numeral(form, examples, count):
    """A number in its form; what the form has no numeral for is decimal."""
    zeros = re.fullmatch("0+1", (examples or "").partition(",")[0])
    if form == "none":
        return ""
    if form == "decimalZero" and 0 <= count <= 9:
        return "0%d" % count
    if form == "custom" and zeros and count >= 0:
        return str(count).rjust(len(zeros.group()), "0")
    if form in ("upperRoman", "lowerRoman") and 1 <= count <= 3999:
        out = ""
        for worth, letters in ROMAN:
            out += letters * (count // worth)
            count %= worth
        return out.upper() if form == "upperRoman" else out
    if form in ("upperLetter", "lowerLetter") and 1 <= count <= 780:
        return chr((65 if form == "upperLetter" else 97) + (count - 1) % 26) * ((count - 1) // 26 + 1)
    if form == "ordinal" and count >= 0:
        teen = count // 10 % 10 == 1
        return "%d%s" % (count, "th" if teen else {1: "st", 2: "nd", 3: "rd"}.get(count % 10, "th"))
    return str(count)


def short(text, most=200):
    """A text of at most so many bytes; a longer one counts as none."""
    return text if text and len(text.encode()) <= most else ""


def form_of(level):
    """The form of a level and its examples; where it has none of its own, the first one below it."""
    if level is None:
        return None, None
    said = first(level.kids, "numFmt")
    said = said if said is not None else next((it for it in reading.elements(level.kids) if it.is_w("numFmt")), None)
    return (None, None) if said is None else (said.attribute("val"), short(said.attribute("format"), 50))


def text_of(lists, num, k, counts):
    """The text of the number of a paragraph at level k, where the levels have these counts."""
    level = lists.level(num, k)
    said = first(level.kids, "lvlText")
    null = None if said is None else said.attribute("null")
    text = "" if said is None or (null is not None and is_on(null)) else short(said.attribute("val"))
    if form_of(level)[0] == "bullet":
        if not text and first(level.kids, "lvlPicBulletId") is not None:
            return "\u2022"
        return short(re.sub("[\ue000-\uf8ff]", "\u2022", text))
    legal = first(level.kids, "isLgl")
    is_legal = legal is not None and is_on(legal.attribute("val"))

    def count(found):
        n = int(found.group(1)) - 1
        if n > k:
            return ""
        form, examples = form_of(lists.level(num, n))
        if is_legal and form not in ("none", "decimalZero"):
            form = "decimal"
        return numeral(form, examples, counts[n])

    return short(re.sub("%([1-9])", count, text))


# The counting


class Counting:
    """What was counted: the values of each list, the levels that each num met, and the last number that isn't empty."""

    def __init__(self):
        self.values, self.met, self.last = {}, set(), None

    def count(self, lists, num, k):
        values = self.values.setdefault(lists.list_of(num), [None] * 9)
        for j in range(k + 1):
            if (num, j) not in self.met:
                self.met.add((num, j))
                if lists.start_override(num, j) is not None:
                    values[j:] = [None] * (9 - j)
        for j in range(k):
            if values[j] is None:
                values[j] = lists.start(num, j)
        values[k] = lists.start(num, k) if values[k] is None else values[k] + 1
        for m in range(k + 1, 9):
            restart = number(value(lists.level(num, m), "lvlRestart"))
            if not (restart == 0 or (restart is not None and 1 <= restart <= m and k >= restart)):
                values[m] = None
        return list(values)


def has_unit(nodes, in_text=False):
    """Whether nodes hold a character, or anything else that a reader sees, or the end of a paragraph."""
    for node in nodes:
        if isinstance(node, str):
            if in_text and texts.shown(node):
                return True
        elif not reading.is_quiet(node):
            if node.is_w("p", *UNITS) or has_unit(node.kids, node.is_w("t", "delText")):
                return True
    return False


def is_counted(paragraph):
    """Not, where it only ends a section."""
    properties = first(paragraph.kids, "pPr")
    return properties is None or first(properties.kids, "sectPr") is None or has_unit(paragraph.kids)


def numbers(lists, root):
    """The numbers of a story: of each paragraph its text (None without a number), and what is said of members at each element."""
    own, before = {}, {}

    def walk(node, counting):
        if node.is_w("txbxContent"):
            counting = Counting()
        before[node] = counting.last
        if node.is_w("p"):
            found = lists.found(node) if is_counted(node) else None
            own[node] = None if found is None else text_of(lists, *found, counting.count(lists, *found))
            counting.last = own[node] or counting.last
        for kid in kids(node):
            walk(kid, counting)

    walk(root, Counting())
    return own, before


def clause(member, own, before):
    """The number of the paragraph that a member is in, `before` and the last one before it, or None."""
    holder = member.parent
    while holder is not None and reading.is_quiet(holder):
        holder = holder.parent
    if member.role in HOLDERS:
        paragraph = next((it for it in reading.elements([holder]) if it.is_w("p")), None)
    else:
        paragraph = next((it for it in member.ancestors() if it.is_w("p")), None)
    if paragraph is not None and own[paragraph]:
        return own[paragraph]
    last = before[member if paragraph is None else paragraph]
    return None if last is None else "before " + last


def clauses(package):
    """The clause of each revision, by its number."""
    lists, found = Lists(package), {}
    for _, root in package.stories:
        own, before = numbers(lists, root)
        for element in reading.elements([root]):
            if element.number and element.role != "marker" and element.number not in found:
                found[element.number] = clause(element, own, before)
    return found


def clause_of(package, number):
    """The clause of one revision, or None. Those of the last package are kept."""
    if KEPT[:1] != [package]:
        KEPT[:] = [package, clauses(package)]
    return KEPT[1].get(number)


def main():
    sys.setrecursionlimit(100000)
    with open(sys.argv[1], newline="", encoding="utf-8") as file:
        package = reading.Package(file.read())
    if sys.argv[2:] == ["paragraphs"]:
        lists = Lists(package)
        for _, root in package.stories:
            if root.is_w("document"):
                print("".join((text or "") + "\n" for text in numbers(lists, root)[0].values()), end="")
        return
    found = clauses(package)
    for at, revision in enumerate(package.revisions, 1):
        print("%d\t%s\t%s" % (at, revision.kind, found.get(at)))


if __name__ == "__main__":
    main()
