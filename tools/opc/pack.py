"""A .docx of a package."""
import base64
import binascii
import io
import zipfile

from opc.archive import TYPES, TYPES_ITEM
from opc.tidy import without_unused_notes
from opc.xml import DECLARATION, KEPT, MARK, PACKAGE, NotOfTheForm, end_of_tag, parse, parser_of, quoted

RELATIONSHIPS = "application/vnd.openxmlformats-package.relationships+xml"


def parts_of(data):
    """Name, content type and bytes of each part of a package in one XML file."""
    parts, path, at = [], [], {}

    def start(name, attributes):
        path.append(name)
        if len(path) == 1 and name != PACKAGE + " package":
            raise NotOfTheForm("its root is no package of the Flat OPC form")
        if len(path) == 2:
            part = {key.rpartition(" ")[2]: value for key, value in attributes.items()}
            if name != PACKAGE + " part" or not part.get("name", "").startswith("/") or not part.get("contentType"):
                raise NotOfTheForm("something in it is no part with a name and a content type")
            at.update(name=part["name"], type=part["contentType"], data=None)
        if len(path) == 3:
            at["begin"] = parser.CurrentByteIndex

    def end(name):
        if len(path) == 3:
            at["data"] = data_of(name, data[at["begin"] : parser.CurrentByteIndex], at["name"])
        if len(path) == 2:
            if at["data"] is None:
                raise NotOfTheForm("%s has no data" % at["name"])
            parts.append((at["name"], at["type"], at["data"]))
        path.pop()

    parser = parser_of(data, "it")
    parser.StartElementHandler, parser.EndElementHandler = start, end
    parse(parser, data, "it")
    if len({name.lower() for name, _, _ in parts}) < len(parts):
        raise NotOfTheForm("two of its parts have one name")
    return parts


def data_of(name, element, part):
    """The bytes of a part, given the element of its data without the end tag."""
    # (an element without content is the one tag at which it ends)
    inside = element[end_of_tag(element, 0) :] if element else b""
    if name == PACKAGE + " binaryData":
        try:
            return base64.b64decode(b"".join(inside.split()), validate=True)
        except binascii.Error:
            raise NotOfTheForm("%s has bytes that are not base64" % part) from None
    if name != PACKAGE + " xmlData":
        raise NotOfTheForm("%s has no data" % part)
    whole = DECLARATION + inside
    if inside.startswith(KEPT + b" "):
        instruction, _, rest = inside.partition(b"?>")
        words = instruction[len(KEPT) + 1 :]
        word, space, declaration = words.partition(b" ")
        whole = (MARK if word == b"mark" else b"") + (b"<?xml" + declaration + b"?>" if space else b"") + rest
    # A prefix that only the package declares is lost with the package.
    try:
        parse(parser_of(whole, part), whole, part)
    except NotOfTheForm as error:
        raise NotOfTheForm("%s can't stand alone: %s" % (part, error)) from None
    return whole


def list_of_types(parts):
    """The list of content types: one for an extension where all its parts have that type, else one for the part."""
    by_extension = {"rels": RELATIONSHIPS, "xml": "application/xml"}
    for name, content_type, _ in parts:
        extension = name.rpartition("/")[2].rpartition(".")[2].lower()
        if "." in name.rpartition("/")[2] and not content_type.endswith("+xml"):
            by_extension.setdefault(extension, content_type)
    out = ['<Types xmlns="%s">' % TYPES]
    out += ["<Default Extension=%s ContentType=%s/>" % (quoted(key), quoted(value)) for key, value in by_extension.items()]
    for name, content_type, _ in parts:
        last = name.rpartition("/")[2]
        if "." not in last or by_extension.get(last.rpartition(".")[2].lower()) != content_type:
            out.append("<Override PartName=%s ContentType=%s/>" % (quoted(name), quoted(content_type)))
    return DECLARATION + b"\r\n" + "".join(out + ["</Types>"]).encode()


def pack(data, drop_unused_notes=False, say=None):
    """The .docx of a package. What has to be told goes to `say`, a sentence each."""
    parts = parts_of(data)
    if drop_unused_notes:
        parts = without_unused_notes(parts, say or (lambda line: None))
    out = io.BytesIO()
    with zipfile.ZipFile(out, "w", zipfile.ZIP_DEFLATED) as archive:
        for name, part in [(TYPES_ITEM, list_of_types(parts))] + [(name[1:], part) for name, _, part in parts]:
            # The same date each time, so that a package always gives the same bytes.
            archive.writestr(zipfile.ZipInfo(name, (1980, 1, 1, 0, 0, 0)), part, zipfile.ZIP_DEFLATED)
    return out.getvalue()
