"""The lists behind a page's changes, as docs/PROGRAMS.md tells them: comments, numbers of paragraphs, levels of lists, and pictures.

The script of the page reads them; nobody sees them as they are. It shares no code with the program, and is part of the second writer,
page.py.
"""
import re

import clauses
import comments
import reading

REFERENCES = {"&": "&amp;", "<": "&lt;", ">": "&gt;", '"': "&quot;", "'": "&#39;", "\r": "&#13;"}
# The control characters of ASCII that HTML doesn't allow.
FORBIDDEN = re.compile("[\x00-\x08\x0b\x0e-\x1f\x7f]")
# The forms of numbers; all others are written as decimal.
FORMS = ("decimalZero", "upperRoman", "lowerRoman", "upperLetter", "lowerLetter", "ordinal", "none", "bullet")
IMAGES = ("image/png", "image/jpeg", "image/gif")


def escaped(text):
    """Text from outside, as it stands in the page: six characters as references, and no control character of ASCII."""
    return FORBIDDEN.sub("\ufffd", re.sub("[&<>\"'\r]", lambda found: REFERENCES[found.group()], text))


def attributes(*pairs):
    """Attributes of names and values, without those that have none."""
    return "".join(' data-%s="%s"' % (name, escaped(str(value))) for name, value in pairs if value is not None)


def listed(start, items):
    return "%s hidden>\n%s</%s>\n" % (start, "".join(items), start[1:3])


# Comments


def remark(comment):
    date = "" if comment.date is None else reading.date_of(comment.date)
    reply = None if comment.parent is None else comment.parent.id
    said = attributes(("remark", comment.id), ("author", comment.author), ("date", date), ("reply", reply), ("done", "yes" if comment.is_done else "no"))
    return "<li%s>%s</li>\n" % (said, escaped(comment.text))


def remarks(package):
    """The comments of a package, in the order of their part."""
    return listed('<ul class="remarks"', map(remark, comments.comments_of(package)))


# Numbers


def numbers(package, name, root, used):
    """The numbers of the paragraphs of a story, each with its place among the paragraphs that are shown. Their nums go into `used`."""
    lists, shown = clauses.Lists(package), [it for it in reading.elements(root.kids) if it.is_w("p") and reading.is_open(it)]
    own, _ = clauses.numbers(lists, root)
    items = []
    for place, it in enumerate(shown, 1):
        if own[it] is not None:
            num, level = lists.found(it)
            number = lists.nums.index(num)
            used.add(number)
            ends = [kid for props in reading.kids_named(it.kids, "pPr")[:1] for kid in reading.kids_named(props.kids, "sectPr")]
            at = attributes(("paragraph", place), ("num", number), ("level", level), ("section", "yes" if ends else None))
            items.append("<li%s>%s</li>\n" % (at, escaped(own[it])))
    return listed('<ol class="numbers"%s' % attributes(("part", name)), items) if items else ""


def form(level):
    """The name of a level's form, and where it has zeros before a number, how wide it is."""
    name, examples = clauses.form_of(level)
    zeros = re.fullmatch("0*1", (examples or "").partition(",")[0]) if name == "custom" else None
    return ("padded", len(zeros.group())) if zeros else (name if name in FORMS else "decimal", None)


def level(lists, number, k):
    """What the counting reads of a level of the num with this number, and the text of its numbers."""
    num = lists.nums[number]
    found = lists.level(num, k)
    said = clauses.first(found.kids, "lvlText")
    is_null = said is not None and said.attribute("null") is not None and clauses.is_on(said.attribute("null"))
    legal = clauses.first(found.kids, "isLgl")
    is_legal = legal is not None and clauses.is_on(legal.attribute("val"))
    is_picture = clauses.first(found.kids, "lvlPicBulletId") is not None
    name, width = form(found)
    at = attributes(
        ("num", number), ("list", lists.lists.index(lists.list_of(num))), ("level", k), ("start", lists.start(num, k)),
        ("again", lists.start_override(num, k)), ("restart", clauses.number(clauses.value(found, "lvlRestart"))),
        ("format", name), ("width", width), ("legal", "yes" if is_legal else None), ("picture", "yes" if is_picture else None))
    return "<li%s>%s</li>\n" % (at, "" if said is None or is_null else escaped(clauses.short(said.attribute("val"))))


def all_numbers(package, stories):
    """The numbers of these stories, and the levels of their nums, by which the script counts again."""
    lists, used = clauses.Lists(package), set()
    out = "".join(numbers(package, *story, used) for story in stories)
    levels = [level(lists, num, k) for num in sorted(used) for k in range(9) if lists.level(lists.nums[num], k) is not None]
    return out + (listed('<ol class="levels"', levels) if levels else "")


# Pictures


def parts(package):
    return [kid for root in package.nodes if isinstance(root, reading.Element) for kid in clauses.kids(root) if kid.local == "part"]


def images(part):
    """The picture of a part, if it is one that every browser shows: nothing but base64 means anything in it."""
    kind = part.written_value("contentType")
    for data in [it for it in clauses.kids(part) if it.local == "binaryData" and kind in IMAGES]:
        text = "" if clauses.kids(data) else "".join(data.kids)
        source = "data:%s;base64,%s" % (kind, re.sub("[^A-Za-z0-9+/=]", "", text))
        yield '<li%s><img alt="" src="%s"></li>\n' % (attributes(("image", part.attribute("name"))), escaped(source))


def target_name(source, target):
    """The name of the part to which a target leads from the part with the name `source`."""
    steps = [] if target.startswith("/") else source.split("/")[:-1]
    for step in target.split("/"):
        steps = steps if step == "." else steps[:-1] if step == ".." else [*steps, step]
    return "/".join(steps)


def leads(package, name):
    """The pictures to which the relationships of a story's part lead."""
    folder, _, file = name.rpartition("/")
    for it in [it for root in clauses.parts_of(package).get(folder + "/_rels/" + file + ".rels", []) for it in clauses.kids(root)]:
        if it.local == "Relationship" and (it.written_value("Type") or "").endswith("/image") and it.written_value("TargetMode") != "External":
            image = target_name(name, it.attribute("Target") or "")
            yield "<li%s></li>\n" % attributes(("part", name), ("embed", it.written_value("Id") or ""), ("image", image))


def pictures(package):
    """Each picture of a package once, and then where the relationships of pictures lead from its stories."""
    found = [item for part in parts(package) for item in images(part)]
    return listed('<ul class="pictures"', found + [item for name, _ in package.stories for item in leads(package, name)])
