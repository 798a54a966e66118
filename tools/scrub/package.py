"""The parts of a package in one XML file, their relationships, and the package without what is cut."""
import posixpath
from urllib.parse import unquote

from scrub.tokens import elements

RELATIONSHIPS = "application/vnd.openxmlformats-package.relationships+xml"
# The folder of parts with data of any form.
CUSTOM = "/customxml/"


class Part:
    """A part: its element in the package, its name and content type, and the root of its XML, None where it holds bytes."""

    def __init__(self, element):
        self.element, self.root = element, None
        self.type = element.value("contentType") or ""
        self.key = key_of(element.value("name") or "")
        self.is_custom = self.key.startswith(CUSTOM)


class Relationship:
    """A relationship: what it is of ("" for the package), its id, and the key of the part it leads to, None where it leads out."""

    def __init__(self, element, source):
        self.element, self.source, self.is_cut = element, source, False
        self.id = element.value("Id")
        self.target = None if element.value("TargetMode") == "External" else target_of(source, element.value("Target") or "")


def key_of(name):
    """The name of a part as names are compared."""
    return unquote(name).lower()


def target_of(source, target):
    """The key of the part that a relationship of a part names."""
    return key_of(posixpath.normpath(posixpath.join(posixpath.dirname(source) or "/", target.partition("#")[0])))


def source_of(key):
    """The key of the part whose relationships a part has, "" for the package; None where it has none."""
    folder, _, name = key.rpartition("/")
    above, _, last = folder.rpartition("/")
    if last != "_rels" or not name.endswith(".rels"):
        return None
    return "" if name == ".rels" else "%s/%s" % (above, name.removesuffix(".rels"))


def reached(relationships, gone=()):
    """The keys of what relationships lead to from the package on, and not through what is gone."""
    leads = {}
    for one in relationships:
        if one.target is not None and one.target not in gone:
            leads.setdefault(one.source, []).append(one.target)
    found, waiting = {""}, [""]
    while waiting:
        new = set(leads.get(waiting.pop(), ())) - found
        found |= new
        waiting += new
    return found


class Package:
    """A package as it was read: its parts and relationships, the elements whose local names are `wanted`, and what is to be cut.

    `watch` is given each element of a document, and answers the places to cut in its start tag; of so many it had some."""

    def __init__(self, data, wanted, watch=None):
        self.data, self.parts, self.relationships, self.watched = data, [], [], 0
        # the places to cut; of these, by part, the elements; the keys of parts that go
        self.cuts, self.cut_elements, self.gone = [], {}, set()
        self.found = {name: [] for name in wanted}
        self.read(watch)

    def read(self, watch):
        part, found = None, self.found
        for element in elements(self.data):
            if element.local in found:
                found[element.local].append((element, part))
            if watch and element.space == "w":
                places = watch(element)
                self.cuts += places
                self.watched += bool(places)
            if element.parent is None or element.parent.parent is None:
                if element.parent is not None:
                    part = Part(element)
                    self.parts.append(part)
            elif part.root is None and element.space != "pkg":
                part.root = element
            elif element.local == "Relationship" and part.type == RELATIONSHIPS and source_of(part.key) is not None:
                self.relationships.append(Relationship(element, source_of(part.key)))

    def named(self, *locals):
        """The elements of a document with these names, each with its part."""
        return [pair for local in locals for pair in self.found[local] if pair[0].space == "w"]

    def inside(self, parent, local):
        """The elements with this name in a parent with that one, each with its part; none of a document, and of no data that
        somebody put beside it."""
        return [
            (element, part)
            for element, part in self.found[local]
            if element.space == "" and element.parent.local == parent and not part.is_custom
        ]

    # What goes

    def cut(self, element, part):
        self.cuts.append((element.begin, element.end))
        self.cut_elements.setdefault(part, []).append(element)

    def drop(self, part):
        """Takes a part out, and with it what it alone leads to."""
        self.gone.add(part.key)

    def drop_roots(self, *locals):
        """Takes out the parts whose roots have these local names."""
        for part in self.parts:
            if part.root is not None and part.root.local in locals and not part.is_custom:
                self.drop(part)

    def drop_what_is_alone(self):
        """Takes out relationships that only cut elements name, parts that nothing leads to any more, and relationships to parts
        that go."""
        before = reached(self.relationships)
        for part, cut in self.cut_elements.items():
            self.cut_unused(part, cut)
        self.gone |= before - reached([one for one in self.relationships if not one.is_cut], self.gone)
        for part in self.parts:
            if part.key in self.gone or source_of(part.key) in self.gone:
                self.cuts.append((part.element.begin, part.element.end))
        for one in self.relationships:
            if one.is_cut or one.target in self.gone:
                self.cuts.append((one.element.begin, one.element.end))

    def cut_unused(self, part, cut):
        """Marks the relationships of a part that elements name which are cut, and no other."""
        own = [one for one in self.relationships if one.source == part.key]
        named = values_in(cut, self.data) & {one.id for one in own}
        if named:
            named -= values_in([part.element], self.data, {element.begin: element.end for element in cut})
            for one in own:
                one.is_cut |= one.id in named

    def without_cuts(self):
        """The bytes of the package without what was cut."""
        out, at = [], 0
        for begin, end in sorted(self.cuts):
            if begin > at:
                out.append(self.data[at:begin])
            at = max(at, end)
        return b"".join(out + [self.data[at:]])


def values_in(roots, data, but=None):
    """The values of attributes in elements, without those in elements that begin where `but` says."""
    found = set()
    for root in roots:
        end = root.begin
        for element in elements(data, root.begin, root.end, root.parent):
            if but and element.begin in but:
                end = max(end, but[element.begin])
            if element.begin >= end:
                found.update(value for _, _, value, _, _ in element.attributes())
    return found
