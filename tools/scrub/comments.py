"""Comments, with what marks their places and what other parts say of them; and notes that no reference names."""
from collections import Counter

from scrub.tokens import elements

MARKS = ("commentRangeStart", "commentRangeEnd", "commentReference")
# The roots of the parts on comments, and what they have of each one: a comment's paragraphs are named by their ids, and these
# give the id by which dates and reactions are found.
ROOTS = ("comments", "commentsEx", "commentsIds", "commentsExtensible")
WANTED = ("comment", *MARKS, "commentEx", "commentId", "commentExtensible", "footnote", "endnote", "footnoteReference", "endnoteReference")


def id_of(element):
    return element.value("id")


def take_comments(package, taken):
    """Cuts the comments whose name is taken, with their marks, and marks of no comment; answers how many went of each name, and
    how many comments are left."""
    comments, marks = package.named("comment"), package.named(*MARKS)
    referred = {id_of(mark) for mark, _ in marks if mark.local == "commentReference"}
    going = {name: [] for name in ("comment", "orphan") if name in taken}
    stays = set()
    for comment, part in comments:
        name = "comment" if id_of(comment) in referred else "orphan"
        if name in taken:
            going[name].append(comment)
            package.cut(comment, part)
        else:
            stays.add(id_of(comment))
    cut_marks(package, marks, stays, {id_of(comment) for comment, _ in comments}, "orphan" in taken)
    gone = sum(going.values(), [])
    if len(gone) == len(comments):
        package.drop_roots(*ROOTS)
    else:
        cut_what_is_said_of(package, {text for comment in gone for text in paragraphs_of(comment)})
    return {name: len(some) for name, some in going.items()}, len(comments) - len(gone)


def cut_marks(package, marks, stays, there, with_loose):
    """Cuts the marks of comments that went, and those of no comment where these go too."""
    for mark, part in marks:
        if id_of(mark) in there and id_of(mark) not in stays or with_loose and id_of(mark) not in there:
            package.cut(run_of(mark) or mark, part)


def run_of(mark):
    """The run of a reference, where that run has nothing else but properties; else None."""
    run = mark.parent
    if mark.local != "commentReference" or not run.is_w("r"):
        return None
    kids = [kid for kid in elements(run.data, run.inside, run.close, run) if kid.parent is run]
    return run if all(kid.is_w("rPr", "commentReference") for kid in kids) and len(kids) <= 2 else None


def paragraphs_of(comment):
    """The ids of a comment's paragraphs."""
    for element in elements(comment.data, comment.inside, comment.close, comment):
        if element.is_w("p"):
            yield element.value("paraId")


def cut_what_is_said_of(package, paragraphs):
    """Cuts what other parts say of the comments with these paragraphs. An answer to one of them is an answer no more."""
    paragraphs.discard(None)
    for said, part in package.inside("commentsEx", "commentEx"):
        if said.value("paraId") in paragraphs:
            package.cut(said, part)
        elif said.value("paraIdParent") in paragraphs:
            package.cuts += [(begin, end) for _, local, _, begin, end in said.attributes() if local == "paraIdParent"]
    lasting = set()
    for said, part in package.inside("commentsIds", "commentId"):
        if said.value("paraId") in paragraphs:
            lasting.add(said.value("durableId"))
            package.cut(said, part)
    for said, part in package.inside("commentsExtensible", "commentExtensible"):
        if said.value("durableId") in lasting:
            package.cut(said, part)


def take_notes(package):
    """Cuts the notes that no reference names, or only one in what goes, and answers how many. Separators are no notes."""
    notes = {}
    for local in ("footnote", "endnote"):
        for note, part in package.named(local):
            if note.parent.is_w(local + "s") and (note.value("type") or "normal") == "normal":
                notes.setdefault((local, id_of(note)), []).append((note, part))
    named, within = references_of(package)
    count, waiting = 0, [key for key in notes if not named[key]]
    while waiting:
        for note, part in notes[waiting.pop()]:
            package.cut(note, part)
            count += 1
            for key in within.get(id(note), ()):
                named[key] -= 1
                if not named[key] and key in notes:
                    waiting.append(key)
    return count


def separators(package):
    """How many elements name a separator of notes, in the settings of a document, and are no notes."""
    return sum(not element.parent.is_w(local + "s") for local in ("footnote", "endnote") for element, _ in package.named(local))


def references_of(package):
    """How many references that stay name each note, and which notes those in each element of a note name."""
    cut = {id(element) for elements in package.cut_elements.values() for element in elements}
    named, within = Counter(), {}
    for local in ("footnote", "endnote"):
        for reference, _ in package.named(local + "Reference"):
            above = elements_above(reference)
            if cut.isdisjoint(map(id, above)):
                key = (local, id_of(reference))
                named[key] += 1
                for element in above:
                    if element.local in ("footnote", "endnote"):
                        within.setdefault(id(element), []).append(key)
    return named, within


def elements_above(element):
    """The elements that an element stands in."""
    above = []
    while element.parent is not None:
        element = element.parent
        above.append(element)
    return above
