"""The document's properties: names of people, title, subject, company, and those that somebody added.

A property that the document shows, by a field or a control that is bound to it, is no secret, and the document would read
otherwise without it. So it stays, and that is told."""

CORE, EXTENDED = "coreProperties", "Properties"
# By the name of what is taken: parent and local name of the element, and the names by which fields show it.
ELEMENTS = {
    "creator": (CORE, "creator", ("AUTHOR",)),
    "last-editor": (CORE, "lastModifiedBy", ("LASTSAVEDBY", "LAST AUTHOR")),
    "title": (CORE, "title", ("TITLE",)),
    "subject": (CORE, "subject", ("SUBJECT",)),
    "manager": (EXTENDED, "Manager", ("MANAGER",)),
    "company": (EXTENDED, "Company", ("COMPANY",)),
}
# What else tells it: the titles that a program lists, and the name of the template.
ALSO = {"title": ("HeadingPairs", "TitlesOfParts"), "template": ("Template",)}
WANTED = ("property", *(local for _, local, _ in ELEMENTS.values()), *sum(ALSO.values(), ()))
FIELDS = ("fldChar", "fldSimple", "instrText", "dataBinding")


class Shown:
    """What elements of these names, each with its part, show of properties and variables: the codes of fields, and what controls
    are bound to."""

    def __init__(self, found):
        self.bound, self.codes, code = set(), [], []
        for element, _ in sorted(found, key=lambda pair: pair[0].begin):
            if element.local == "instrText":
                code.append(element.text())
                continue
            self.codes.append("".join(code))
            code = []
            if element.local == "fldSimple":
                self.codes.append(element.value("instr") or "")
            if element.local == "dataBinding":
                self.bound.add(last_step(element.value("xpath") or ""))
        self.codes = [code.upper() for code in [*self.codes, "".join(code)] if code.strip()]

    def has(self, word, name):
        """Whether a field of this word shows what has the name; or may, where another field gives the name."""
        for code in self.codes:
            first, *others = code.split()
            if first == word and (not others or name.upper() in code):
                return True
        return False

    def has_word(self, word):
        """Whether a field begins with this word."""
        return any(code.split()[0] == word for code in self.codes)

    def has_property(self, local, names):
        """Whether a control or a field shows the property with this element, which fields call by these names."""
        return local in self.bound or any(self.has_word(name) or self.has_named(name) for name in names)

    def has_named(self, name):
        """Whether a field that takes the name of a property shows the one with this name."""
        return self.has("DOCPROPERTY", name) or self.has("INFO", name)


def last_step(path):
    """The local name that a path ends in."""
    return path.rpartition("/")[2].partition("[")[0].rpartition(":")[2]


def take_property(package, name, shown):
    """Cuts a property, and answers how many elements went, and its name where the document shows it and it stays."""
    parent, local, names = ELEMENTS[name]
    found = [pair for pair in package.inside(parent, local) if pair[0].text().strip()]
    if found and shown.has_property(local, names):
        return 0, [name]
    for element, part in found:
        package.cut(element, part)
    take_also(package, name)
    return len(found), []


def take_also(package, name):
    for local in ALSO.get(name, ()):
        for element, part in package.inside(EXTENDED, local):
            package.cut(element, part)


def take_custom(package, shown):
    """Cuts the custom properties that no field shows, and their part with the last; answers how many, and which stay."""
    found, kept, staying = package.inside(EXTENDED, "property"), [], set()
    for element, part in found:
        name = element.value("name") or ""
        if shown.has_named(name):
            kept.append(name)
            staying.add(part)
        else:
            package.cut(element, part)
    for part in {part for _, part in found} - staying:
        package.drop(part)
    return len(found) - len(kept), kept
