"""What a change of properties changes, in words: the second writer of the facts that `list` with `words` and `full` shows.

properties.tsv has a row for each property with a name: its path, its name, how its values are said, its class and its rank.
"""
import csv
import os
import re

import reading

with open(os.path.join(os.path.dirname(os.path.abspath(__file__)), "properties.tsv"), encoding="utf-8", newline="") as table:
    ROWS = {row["path"]: row for row in csv.DictReader(table, delimiter="\t")}
WHOLE = ("toggle", "border", "shade", "tabs", "width", "height", "merge", "flags")
LISTS = ("tabs/tab", "cols/col")
MARKS = ("ins", "del", "moveFrom", "moveTo", "cellIns", "cellDel", "cellMerge")
UNCOVERED = {"pPr": ("rPr", "sectPr"), "sectPr": ("headerReference", "footerReference")}
TWINS = {"bCs": "b", "iCs": "i", "szCs": "sz", "lang@eastAsia": "lang", "lang@bidi": "lang"}
TWINS.update({"rFonts@" + name: "rFonts@ascii" for name in ("hAnsi", "cs", "eastAsia")})
COMMON = {"both": "justified", "nextPage": "next page", "evenPage": "even page", "oddPage": "odd page", "nextColumn": "next column"}
COLOURS = {"auto": "automatic", "000000": "black", "FFFFFF": "white"}
RULES = {"exact": "exactly", "atLeast": "at least"}
# How many bytes of a path and of a start tag are compared, and how many leaves and attributes of a list; how many properties are kept.
PATH, TAIL, ROOM, MOST = 255, 2000, 500, 20


# Leaves


def is_left_out(what, element):
    marked = element.is_w(*MARKS) or element.is_w(*UNCOVERED.get(what, ()))
    return marked or element.local.endswith("Change")


def name_of(element):
    if element.space != "W":
        return element.name
    return {"start": "left", "end": "right"}.get(element.local, element.local)


def attributes_of(path, element):
    """The attributes by their local names; of several with one name the first counts."""
    found = {}
    for name, _, value in re.findall(r"""([\w:.-]+)\s*=\s*(["'])(.*?)\2""", element.tail, re.S):
        if name == "xmlns" or name.startswith("xmlns:"):
            continue
        local = name.rpartition(":")[2]
        if path == "ind":
            local = re.sub("^start", "left", re.sub("^end", "right", local))
        found.setdefault(local, reading.decoded(value))
    return found


def leaves(what, nodes, path=b""):
    """The elements without elements in them, each with its path; None for one that is too large."""
    for node in nodes:
        if isinstance(node, str) or is_left_out(what, node):
            continue
        below = (path + b"/" * bool(path) + name_of(node).encode())[: PATH + 1]
        if any(not isinstance(kid, str) for kid in node.kids):
            yield from leaves(what, node.kids, below)
        elif len(below) > PATH or len(node.tail.encode()) > TAIL:
            yield None
        else:
            yield below.decode(), attributes_of(below.decode(), node)


def kept_leaves(what, nodes):
    """Those that have room, and whether there is one that hasn't."""
    kept, size, is_cut = [], 0, False
    for leaf in leaves(what, nodes):
        if leaf is None or size + 1 + len(leaf[1]) > ROOM:
            is_cut = True
        else:
            kept.append(leaf)
            size += 1 + len(leaf[1])
    return kept, is_cut


# Changes


def is_off(value):
    return value in ("0", "false", "off")


def whole_value(path, found):
    if not found:
        return None
    if way_of(path) == "toggle":
        return "off" if is_off(found[-1].get("val", "")) else "on"
    return found if path in LISTS else found[-1:]


def values(path, found):
    """The value of each attribute that leaves set; a later one takes the place of an earlier one."""
    merged = {}
    for leaf in found:
        merged.update(leaf or {"val": "on"})
    rule = merged.pop("lineRule", "auto") if path == "spacing" else ""
    if path == "spacing" and "line" in merged:
        merged["line"] += " " + rule
    return merged


def changed_in(path, former, present):
    """The properties of one path that differ: each with its former and its present value."""
    if way_of(path) in WHOLE:
        pairs = [(path, whole_value(path, former), whole_value(path, present))]
    else:
        before, now = values(path, former), values(path, present)
        keys = {name: path if name == "val" else path + "@" + name for leaf in present + former for name in (leaf or {"val": "on"})}
        pairs = [(key, before.get(name), now.get(name)) for name, key in keys.items() if name in before or name in now]
    return [(key, one, two) for key, one, two in pairs if one != two]


def compared(member):
    """The properties that a change changes, of the list that it stands in; None where that or the former list was cut."""
    what = member.local.removesuffix("Change")
    former = next(iter(reading.kids_named(member.kids, what)), None)
    kept = [kept_leaves(what, nodes) for nodes in (member.parent.kids, former.kids if former else [])]
    if any(is_cut for _, is_cut in kept):
        return None
    lists = [found for found, _ in kept]
    paths = dict.fromkeys(path for found in lists for path, _ in found)
    out = []
    for path in paths:
        present, before = ([attributes for own, attributes in found if own == path] for found in lists)
        out += changed_in(path, before, present)
    return [{"from": one, "property": key, "said": said(key, one, two), "to": two} for key, one, two in out]


# Words


def way_of(path):
    return ROWS[path]["way"] if path in ROWS else "text"


def is_number(text):
    return re.fullmatch("[0-9]{1,9}", text)


def amount(parts, number):
    hundredths = (number * 100 + parts // 2) // parts
    return ("%d.%02d" % divmod(hundredths, 100)).rstrip("0").rstrip(".")


def measured(parts, unit, text):
    digits = text[1:] if text[:1] in ("-", "+") else text
    if not is_number(digits):
        return text
    return "-" * (text[0] == "-") + amount(parts, int(digits)) + unit


def line_said(text):
    height, _, rule = text.partition(" ")
    if not is_number(height) or rule not in ("auto", *RULES):
        return text
    if rule in RULES:
        return RULES[rule] + " " + amount(20, int(height)) + " pt"
    return {240: "single", 480: "double"}.get(int(height), amount(240, int(height)) + " lines")


def level_said(text):
    if not is_number(text):
        return text
    return "body text" if int(text) == 9 else str(int(text) + 1)


def text_said(way, text):
    units = {"half": (2, " pt"), "twentieth": (20, " pt"), "percent": (1, "%"), "hundredth": (100, "")}
    if way in units:
        return measured(*units[way], text)
    if way == "colour":
        return COLOURS.get(text, text)
    if way == "list":
        return "none" if text == "0" else "list " + text
    if way == "level":
        return level_said(text)
    if way == "line":
        return line_said(text)
    if way == "switch":
        return "off" if is_off(text) else "on"
    return COMMON.get(text, text) if way == "text" else text


def width_said(leaf):
    width, sort = leaf.get("w", "0"), leaf.get("type", "dxa")
    known = {"auto": "automatic", "nil": "none", "pct": measured(50, "%", width)}
    return known.get(sort, measured(20, " pt", width))


def part_said(way, name, value):
    own = {
        ("border", "sz"): measured(8, " pt", value),
        ("border", "color"): COLOURS.get(value, value),
        ("shade", "fill"): "on " + COLOURS.get(value, value),
        ("shade", "color"): COLOURS.get(value, value),
        ("tabs", "pos"): "at " + measured(20, " pt", value),
        ("height", "val"): measured(20, " pt", value),
        ("height", "hRule"): RULES.get(value, value),
    }
    return own.get((way, name), value if name == "val" else name + " " + value)


def leaf_said(way, leaf):
    if way == "width":
        return width_said(leaf)
    if way == "merge" and not leaf:
        return "continue"
    return " ".join(part_said(way, name, value) for name, value in leaf.items())


def value_said(way, value):
    if value is None:
        return "not set"
    if isinstance(value, str):
        return text_said(way, value)
    return ", ".join(leaf_said(way, leaf) for leaf in value)


def said(key, former, present):
    name = ROWS[key]["name"] if key in ROWS else key
    return "%s: %s \u2192 %s" % (name, value_said(way_of(key), former), value_said(way_of(key), present))


def is_repeated(found, change):
    return any(
        other["property"] == TWINS.get(change["property"]) and (other["from"], other["to"]) == (change["from"], change["to"])
        for other in found
    )


def line(found):
    """One line of words about the changed properties: four of them, and how many more there are."""
    if found is None:
        return "too large to compare"
    if not found:
        return "no property differs"
    if all(ROWS.get(change["property"], {}).get("class") == "language" for change in found):
        return "language only"
    told = [change["said"] for change in found if not is_repeated(found, change)]
    return "; ".join(told[:4]) + ("; and %d more" % (len(told) - 4) if len(told) > 4 else "")
