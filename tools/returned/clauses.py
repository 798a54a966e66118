"""The numbers that a word processor shows before paragraphs (ECMA-376, 17.9), to say in which clause a place is.

Only lines for a reader have them, and no decision depends on them. What a list of Word in a Western language has is read; a level
with bullets has no number.
"""
import bisect
import re
from xml.etree import ElementTree

from returned.streams import PARA

LEVELS = 9
# A clause's number as it is typed: 4., 4.2, (a), § 4.
TYPED = re.compile(r"\s*(?:(\d+(?:\.\d+)+)\.?|(\d+)\.|(\(\w{1,4}\))|(\u00a7\s?\d+\w?))(?=[\s\u00a0])")
ROMAN = (
    (1000, "m"), (900, "cm"), (500, "d"), (400, "cd"), (100, "c"), (90, "xc"), (50, "l"), (40, "xl"), (10, "x"), (9, "ix"),
    (5, "v"), (4, "iv"), (1, "i"),
)


def local(element):
    return element.tag.rpartition("}")[2] if isinstance(element.tag, str) else ""


def kid(element, name):
    return next((one for one in element if local(one) == name), None) if element is not None else None


def value(element, name="val"):
    if element is None:
        return None
    return next((text for key, text in element.attrib.items() if key.rpartition("}")[2] == name), None)


def number(text):
    return int(text) if text is not None and re.fullmatch(r"[+-]?\d{1,9}", text) else None


def root_of(package, name):
    """The first element of this name with what it holds: the root of a part."""
    found = re.search(rb"<((?:[\w.-]+:)?%s)[\s>].*?</\1\s*>" % name, package, re.S)
    try:
        return ElementTree.fromstring(found.group()) if found else None
    except ElementTree.ParseError:
        return None


class Lists:
    """The lists of a package, and the num and the level that its styles give."""

    def __init__(self, package):
        self.lists, self.nums, self.styles = {}, {}, {}
        for one in root_of(package, b"numbering") or ():
            if local(one) == "abstractNum":
                self.lists.setdefault(value(one, "abstractNumId"), {value(level, "ilvl"): level for level in one if local(level) == "lvl"})
            elif local(one) == "num":
                self.nums.setdefault(value(one, "numId"), one)
        for one in root_of(package, b"styles") or ():
            if local(one) == "style":
                self.styles.setdefault(value(one, "styleId"), one)

    def list_of(self, num):
        return value(kid(self.nums.get(num), "abstractNumId"))

    def override(self, num, level):
        return next((one for one in self.nums[num] if local(one) == "lvlOverride" and value(one, "ilvl") == str(level)), None)

    def level(self, num, level):
        """The level of a num: its own, else that of its list."""
        own = kid(self.override(num, level), "lvl")
        return own if own is not None else self.lists.get(self.list_of(num), {}).get(str(level))

    def restart(self, num, level):
        return number(value(kid(self.override(num, level), "startOverride")))

    def start(self, num, level):
        own = self.restart(num, level)
        return own if own is not None else number(value(kid(self.level(num, level), "start"))) or 0

    def num_and_level(self, props):
        """The num and the level of a paragraph by its own properties, else by its style and those that it is based on."""
        own = dict(dict(props).get("numPr", ((), ()))[1])
        num, level = (dict(own[name][0]).get("val") if name in own else None for name in ("numId", "ilvl"))
        style, seen = dict(dict(props).get("pStyle", ((), ()))[0]).get("val"), set()
        while style in self.styles and style not in seen and (num is None or level is None):
            seen.add(style)
            element = kid(kid(self.styles[style], "pPr"), "numPr")
            num = num if num is not None else value(kid(element, "numId"))
            level = level if level is not None else value(kid(element, "ilvl"))
            style = value(kid(self.styles[style], "basedOn"))
        level = number(level) or 0
        return (num, level) if num in self.nums and num != "0" and 0 <= level < LEVELS else (None, 0)


def shown(count, form):
    """A count in a format of numbers."""
    if form in ("lowerLetter", "upperLetter") and 1 <= count <= 780:
        text = chr(ord("a") + (count - 1) % 26) * ((count - 1) // 26 + 1)
    elif form in ("lowerRoman", "upperRoman") and 1 <= count <= 3999:
        text = ""
        for size, sign in ROMAN:
            text += sign * (count // size)
            count %= size
    else:
        return "" if form == "none" else "%02d" % count if form == "decimalZero" else str(count)
    return text.upper() if form.startswith("upper") else text


class Counter:
    """The counts of the lists of one story."""

    def __init__(self, lists):
        self.lists, self.counts, self.met = lists, {}, set()

    def text(self, num, level):
        """Counts a paragraph, and gives the text of its number."""
        lists = self.lists
        counts = self.counts.setdefault(lists.list_of(num), [None] * LEVELS)
        for above in range(level + 1):
            if (num, above) not in self.met:
                self.met.add((num, above))
                if lists.restart(num, above) is not None:
                    counts[above:] = [None] * (LEVELS - above)
        for above in range(level):
            counts[above] = lists.start(num, above) if counts[above] is None else counts[above]
        counts[level] = lists.start(num, level) if counts[level] is None else counts[level] + 1
        counts[level + 1 :] = [None] * (LEVELS - level - 1)
        element = lists.level(num, level)
        form = value(kid(element, "numFmt")) or "decimal"
        if element is None or form == "bullet":
            return ""
        legal = kid(element, "isLgl") is not None

        def of_level(found):
            at = int(found.group(1)) - 1
            own = value(kid(lists.level(num, at), "numFmt")) or "decimal"
            return shown(counts[at], "decimal" if legal and own != "none" else own) if at <= level else ""

        return re.sub("%([1-9])", of_level, value(kid(element, "lvlText")) or "")


def clauses(stream, package):
    """The ends of paragraphs of a story that have a number, with the number, in their order."""
    counter, found = Counter(Lists(package)), []
    place = stream.text.find(PARA)
    begin = 0
    while place >= 0:
        num, level = counter.lists.num_and_level(stream.props["para"].get(place, ()))
        text = counter.text(num, level) if num is not None else ""
        typed = TYPED.match(stream.text, begin, begin + 40) if not text else None
        text = next(group for group in typed.groups() if group) if typed else text.strip().rstrip(".")
        if text:
            found.append((place, text))
        begin = place + 1
        place = stream.text.find(PARA, begin)
    return found


class Clauses:
    """In which clause each place of a story is."""

    def __init__(self, stream, package):
        counted = clauses(stream, package)
        self.stream = stream
        self.numbered, self.numbers = [end for end, _ in counted], [text for _, text in counted]
        self.ends = [found.start() for found in re.finditer(PARA, stream.text)]

    def at(self, place):
        """The number of the paragraph of a place, else of the nearest one above that has one, or None."""
        index = bisect.bisect_left(self.numbered, place)
        if index == len(self.numbered) or self.numbered[index] != self.stream.text.find(PARA, place):
            index -= 1
        return self.numbers[index] if index >= 0 else None

    def of(self, paragraph):
        """The same of a paragraph, which are counted from 1."""
        return self.at(self.ends[paragraph - 1]) if 0 < paragraph <= len(self.ends) else None


def place_of(paragraph, clause):
    """A place in the words of a reader."""
    return "paragraph %d%s" % (paragraph, " (clause %s)" % clause if clause else "")
