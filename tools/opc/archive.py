"""The files of a ZIP package, and their content types."""
from opc.plain import plain_items
from opc.xml import NotOfTheForm, parse, parser_of

TYPES = "http://schemas.openxmlformats.org/package/2006/content-types"
TYPES_ITEM = "[Content_Types].xml"
# More than redline reads, and little enough for a machine's memory.
LIMIT = 256 * 1024 * 1024
# How a file begins that is no ZIP archive but of an older form, which a document with a password has too.
OLDER = b"\xd0\xcf\x11\xe0\xa1\xb1\x1a\xe1"


def items_of(data):
    """The files of a ZIP package, by name."""
    if data.startswith(OLDER):
        raise NotOfTheForm("it has a password, or it is of the older form .doc")
    items = plain_items(data, LIMIT)
    if items is None:
        from opc.library import items_of_any

        items = items_of_any(data, LIMIT)
    if len({name.lower() for name in items}) < len(items):
        raise NotOfTheForm("two of its parts have one name")
    if any(is_no_xml(name) for name in items):
        raise NotOfTheForm("one of its parts has a name with a control character")
    if TYPES_ITEM not in items:
        raise NotOfTheForm(other_archive(items))
    return items


def is_no_xml(name):
    """Whether XML can't have the name as a value."""
    return any(it < " " or "\ud800" <= it <= "\udfff" or it in "\ufffe\uffff" for it in name)


def other_archive(items):
    """What a ZIP file is that is no .docx, and what to do with it."""
    inside = [name for name in items if name.lower().endswith((".docx", ".docm"))]
    if items.get("mimetype", b"").startswith(b"application/vnd.oasis.opendocument"):
        return "it is an OpenDocument file (.odt); open it in a word processor, and save it as .docx"
    if inside:
        name = "".join(character if character.isprintable() else "?" for character in inside[0])
        return "it is a ZIP file with %s in it; take that out first, and name it" % name
    return "it is a ZIP file without %s, and so no .docx" % TYPES_ITEM


def types_of(text):
    """The content types of a ZIP package: by extension, and by the name of the part."""
    by_extension, by_name = {}, {}

    def element(name, attributes):
        if name == TYPES + " Default":
            by_extension[attributes.get("Extension", "").lower()] = attributes.get("ContentType", "")
        elif name == TYPES + " Override":
            by_name[attributes.get("PartName", "").lower()] = attributes.get("ContentType", "")

    parser = parser_of(text, TYPES_ITEM)
    parser.StartElementHandler = element
    parse(parser, text, TYPES_ITEM)
    return by_extension, by_name
