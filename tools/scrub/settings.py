"""What settings and stories hold of those who wrote: tracking, protection, sources, variables, and the marks of sittings."""

# The values of a property that switch it off.
OFF = ("0", "false", "off")
MARKED = ("p", "r", "tr", "sectPr")
# How the attributes begin by which one sees what was written in one sitting, and the elements that list the sittings.
RSID = "rsid"
RSID_ELEMENTS = ("rsids", "rsid", "rsidRoot")
# By the name of what is taken, its elements.
ELEMENTS = {
    "loose-marker": ("moveFromRangeStart", "moveFromRangeEnd", "moveToRangeStart", "moveToRangeEnd"),
    "protection": ("documentProtection", "writeProtection"),
    "tracking": ("trackRevisions",),
    "mail-merge": ("mailMerge",),
    "template": ("attachedTemplate",),
    "rsid": RSID_ELEMENTS,
}
WANTED = sum(ELEMENTS.values(), ("docVars", "docVar"))


def places_of_rsids(element):
    """The places of the attributes of sittings in an element's start tag."""
    if element.local in MARKED and element.data.find(b"rsid", element.name_end, element.inside) >= 0:
        return [(begin, end) for _, local, _, begin, end in element.attributes() if local.startswith(RSID)]
    return ()


def take_elements(package, name):
    """Cuts the elements of this name of what is taken, and answers how many; what is switched off stays."""
    going = [pair for pair in package.named(*ELEMENTS[name]) if name != "tracking" or pair[0].value("val") not in OFF]
    for element, part in going:
        package.cut(element, part)
    return len(going)


def take_variables(package, shown):
    """Cuts the variables of the document that no field shows; answers how many, and the names of those that stay."""
    variables, kept = package.named("docVar"), []
    for variable, part in variables:
        name = variable.value("name") or ""
        if shown.has("DOCVARIABLE", name):
            kept.append(name)
        else:
            package.cut(variable, part)
    if not kept:
        for element, part in package.named("docVars"):
            package.cut(element, part)
    return len(variables) - len(kept), kept
