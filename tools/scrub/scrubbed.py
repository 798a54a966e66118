"""Takes what was chosen out of a package."""
from scrub import comments, properties, settings
from scrub.package import Package

WANTED = {*comments.WANTED, *settings.WANTED, *properties.WANTED, *properties.FIELDS, "Relationship", "person"}


class Scrubbed:
    """A package without what was chosen: its bytes, how many went of each name, and what stays since the document shows it. What
    was asked for by name goes in any case."""

    def __init__(self, data, taken, asked=()):
        self.taken, self.asked, self.counts, self.kept = taken, asked, {}, []
        package = Package(data, WANTED, settings.places_of_rsids if "rsid" in taken else None)
        self.shown = properties.Shown(package.named(*properties.FIELDS))
        self.take_comments(package)
        for name in ("loose-marker", "tracking", "protection", "mail-merge", "rsid"):
            if name in taken:
                self.counts[name] = settings.take_elements(package, name)
        if "rsid" in taken:
            self.counts["rsid"] += package.watched
        self.take_properties(package)
        if "template" in taken:
            self.take_template(package)
        if "person" in taken:
            self.counts["person"] = len(package.inside("people", "person"))
            package.drop_roots("people")
        package.drop_what_is_alone()
        self.data = package.without_cuts()

    def take_comments(self, package):
        self.comments = len(package.named("comment"))
        if self.taken & {"comment", "orphan"}:
            going, self.comments = comments.take_comments(package, self.taken)
            self.counts.update(going)
        if "note" in self.taken:
            self.counts["note"] = comments.take_notes(package)
            self.separators = comments.separators(package)

    def note(self, name, count, kept):
        """So many went of this name, and those with these names stay."""
        self.counts[name] = count
        self.kept += [(name, one) for one in kept]

    def shown_of(self, name):
        """What the document shows, and what that matters for this name."""
        return properties.Shown(()) if name in self.asked else self.shown

    def take_properties(self, package):
        for name in properties.ELEMENTS:
            if name in self.taken:
                self.note(name, *properties.take_property(package, name, self.shown_of(name)))
        if "custom-property" in self.taken:
            self.note("custom-property", *properties.take_custom(package, self.shown_of("custom-property")))
        if "variable" in self.taken:
            self.note("variable", *settings.take_variables(package, self.shown_of("variable")))

    def take_template(self, package):
        if self.shown_of("template").has_word("TEMPLATE"):
            self.note("template", 0, ["template"])
            return
        self.counts["template"] = settings.take_elements(package, "template")
        properties.take_also(package, "template")
