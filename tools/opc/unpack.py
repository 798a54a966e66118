"""A package of a .docx."""
import binascii

from opc.archive import TYPES_ITEM, items_of, types_of
from opc.tidy import tidied
from opc.xml import DECLARATION, KEPT, MARK, PACKAGE, NotOfTheForm, counted, parse, parser_of, quoted

# The bytes of a part that a line of Base64 has.
LINE = 57


def encoding_of(declaration):
    """The name of the encoding that a declaration tells, in small letters."""
    _, is_told, rest = declaration.partition(b"encoding")
    value = rest.lstrip()[1:].lstrip()
    return value[1:].partition(value[:1])[0].lower() if is_told else b"utf-8"


def is_read_so(declaration, data):
    """Whether a part with this declaration is what it is read as, UTF-8: it may say so, nothing, or that all of it is ASCII."""
    name = encoding_of(declaration)
    return name == b"utf-8" or name == b"us-ascii" and data.isascii()


def as_xml(data):
    """The bytes of an XML part as they can stand in a package, or None where they can't."""
    try:
        parse(parser_of(data, "it"), data, "it")
    except NotOfTheForm:
        return None
    declaration, rest = b"none", data
    if data.startswith(MARK):
        declaration, rest = b"mark", data[len(MARK) :]
    if rest.startswith(b"<?xml") and rest[5:6].isspace():
        end = rest.index(b"?>") + 2
        if not is_read_so(rest[:end], data):
            return None
        if not data.startswith(MARK) and rest[:end] == DECLARATION:
            return rest[end:]
        declaration, rest = declaration.replace(b"none", b"as") + b" " + rest[5:end].rstrip(b"?>"), rest[end:]
    return KEPT + b" " + declaration + b"?>" + rest

def unpack(data, tidy=False, say=None):
    """The package of a .docx. What has to be told goes to `say`, a sentence each."""
    say = say or (lambda line: None)
    items = items_of(data)
    by_extension, by_name = types_of(items.pop(TYPES_ITEM))
    out = [DECLARATION + b'\r\n<?mso-application progid="Word.Document"?>\r\n', b'<pkg:package xmlns:pkg="%s">' % PACKAGE.encode()]
    for item, part in items.items():
        name = "/" + item
        content_type = by_name.get(name.lower()) or by_extension.get(item.rpartition(".")[2].lower())
        if not content_type:
            say("%s has no content type, and so is left out" % name)
            continue
        xml = None
        if content_type.endswith("+xml") or content_type in ("application/xml", "text/xml"):
            xml = as_xml(part)
            if xml is None:
                say("%s is kept as bytes, since it is not XML in UTF-8 without a document type" % name)
            elif tidy:
                part, count = tidied(part)
                if count:
                    xml = as_xml(part)
                    say("%s: put pPrChange behind rPr in %s" % (name, counted(count, "paragraph")))
        out.append(b"<pkg:part pkg:name=%s pkg:contentType=%s" % (quoted(name).encode(), quoted(content_type).encode()))
        if xml is not None:
            out.append(b"><pkg:xmlData>" + xml + b"</pkg:xmlData></pkg:part>")
        else:
            lines = b"\r\n".join(binascii.b2a_base64(part[at : at + LINE], newline=False) for at in range(0, len(part), LINE))
            out.append(b' pkg:compression="store"><pkg:binaryData>' + lines + b"</pkg:binaryData></pkg:part>")
    out.append(b"</pkg:package>")
    return b"".join(out)
