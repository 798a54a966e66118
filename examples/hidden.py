"""Which revisions have to do with hidden text: they change whether a run is hidden, hold a hidden unit, or are in a hidden run.

    python3 hidden.py PACKAGE        the number of each of these revisions

A run is hidden by its own `vanish`, else by its style, else by the style of its paragraph, else by the defaults of the document
(ECMA-376 Part 1, 17.3.2.41; the order is docs/DEFINITIONS.md's). It shares no code with the program. It looks at each thing anew as
often as it needs it, so it is slow and short.
"""
import sys

import clauses
import comments
import reading
import texts


def kid(element, local):
    """The first kid with this name, or None."""
    return None if element is None else clauses.first(element.kids, local)


def value(element, local):
    """The value of the first kid with this name, as it is written."""
    found = kid(element, local)
    return None if found is None else found.written_value("val")


def vanish(properties):
    """Whether these properties of a run hide it, or None where they say nothing of it."""
    found = kid(properties, "vanish")
    return None if found is None else clauses.is_on(found.written_value("val"))


def first_said(*said):
    return next((it for it in said if it is not None), False)


class Styles:
    """What the styles part of a package says of hidden text."""

    def __init__(self, package):
        root = clauses.part_beside(package, "/styles", "styles")
        self.styles = [] if root is None else reading.kids_named(root.kids, "style")
        self.document = vanish(kid(kid(kid(root, "docDefaults"), "rPrDefault"), "rPr"))

    def style(self, id):
        return next((it for it in self.styles if id is not None and it.written_value("styleId") == id), None)

    def default(self, kind):
        is_default = lambda it: it.written_value("default") is not None and clauses.is_on(it.written_value("default"))
        return next((it for it in self.styles if it.written_value("type") == kind and is_default(it)), None)

    def said(self, id, kind):
        """What the style with this id says, or without an id the default one of this kind, or the nearest one that it is based on."""
        style, seen = self.default(kind) if id is None else self.style(id), []
        while style is not None and style not in seen:
            said = vanish(kid(style, "rPr"))
            if said is not None:
                return said
            seen.append(style)
            style = self.style(value(style, "basedOn"))
        return None

    def properties_hide(self, properties, paragraph):
        """Whether these properties of a run hide it, in this paragraph, if it is in one."""
        said = [vanish(properties), self.said(value(properties, "rStyle"), "character")]
        if paragraph is not None:
            said += [self.said(value(kid(paragraph, "pPr"), "pStyle"), "paragraph"), self.document]
        return first_said(*said)

    def hides(self, run):
        paragraph = next((it for it in run.ancestors() if it.is_w("p")), None)
        return self.properties_hide(kid(run, "rPr"), paragraph)

    def hides_end(self, paragraph):
        return self.properties_hide(kid(kid(paragraph, "pPr"), "rPr"), paragraph)

    def is_in_hidden(self, element):
        """It is in a hidden run."""
        return any(it.is_w("r") and self.hides(it) for it in element.ancestors())


def has_hidden_end(styles, paragraph):
    return styles.is_in_hidden(paragraph) or styles.hides_end(paragraph)


def has_hidden(styles, element):
    """A unit in an element is hidden."""
    if reading.is_quiet(element):
        return False
    is_hidden = styles.is_in_hidden(element) or (element.is_w("r") and styles.hides(element))
    if (is_hidden and element.is_w(*comments.OBJECTS)) or (element.is_w("p") and has_hidden_end(styles, element)):
        return True
    said = "".join(texts.shown(it) for it in element.kids if isinstance(it, str)) if element.is_w("t", "delText") else ""
    return (is_hidden and said != "") or any(has_hidden(styles, it) for it in clauses.kids(element))


def changes_vanish(member):
    return member.role == "run-props" and vanish(member.parent) != vanish(kid(member, "rPr"))


def concerns_hidden(styles, member):
    """A member has to do with hidden text."""
    if changes_vanish(member) or styles.is_in_hidden(member):
        return True
    element, is_end = comments.held_by(member)
    if element is None or not reading.is_open(element):
        return False
    return has_hidden_end(styles, element) if is_end else has_hidden(styles, element)


def revisions(package):
    """Whether each revision has to do with hidden text, in the order of the numbers."""
    styles, found = Styles(package), [False] * len(package.revisions)
    for member in [it for _, root in package.stories for it in reading.elements([root])]:
        if member.role not in (None, "marker") and concerns_hidden(styles, member):
            found[member.number - 1] = True
    return found


if __name__ == "__main__":
    package = reading.Package(open(sys.argv[1], newline="", encoding="utf-8").read())
    print(*(number for number, it in enumerate(revisions(package), 1) if it), sep="\n")
