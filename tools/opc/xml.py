"""What is read as XML: parsers, the names of a document's elements, and the forms of declarations."""
from xml.parsers import expat

PACKAGE = "http://schemas.microsoft.com/office/2006/xmlPackage"
# The two names of the space of a document's elements, in the form in which a parser gives them.
WORD_SPACES = (
    "http://schemas.openxmlformats.org/wordprocessingml/2006/main ",
    "http://purl.oclc.org/ooxml/wordprocessingml/main ",
)
# The declaration that word processors write. Another one, or none, is kept in an instruction before the part's root.
DECLARATION = b'<?xml version="1.0" encoding="UTF-8" standalone="yes"?>'
KEPT = b"<?part-declaration"
MARK = b"\xef\xbb\xbf"


class NotOfTheForm(Exception):
    """What a file lacks of a .docx, or of a package in one XML file."""


def parser_of(data, what):
    """A parser of UTF-8 text with namespaces that refuses a document type declaration."""
    # (where one of the first two bytes is 0 the parser would read UTF-16 all the same)
    if data[:2] in (b"\xff\xfe", b"\xfe\xff") or 0 in data[:2]:
        raise NotOfTheForm("%s is not UTF-8" % what)
    parser = expat.ParserCreate("UTF-8", " ")
    parser.ordered_attributes = False

    def refuse(*_):
        raise NotOfTheForm("%s has a document type declaration" % what)

    parser.StartDoctypeDeclHandler = refuse
    return parser


def parse(parser, data, what):
    try:
        parser.Parse(data, True)
    except expat.ExpatError as error:
        raise NotOfTheForm("%s is not XML: %s" % (what, error)) from None


def quoted(text):
    """An attribute's value in quotes, as Python's quoteattr gives it (whose module takes long to load)."""
    for character, reference in (("&", "&amp;"), (">", "&gt;"), ("<", "&lt;"), ("\n", "&#10;"), ("\r", "&#13;"), ("\t", "&#9;")):
        text = text.replace(character, reference)
    if '"' not in text:
        return '"%s"' % text
    return "'%s'" % text if "'" not in text else '"%s"' % text.replace('"', "&quot;")


def counted(count, noun):
    return "%d %s%s" % (count, noun, "" if count == 1 else "s")


def is_word(name, *locals):
    """Whether a name that a parser gave is one of these names of a document's elements or attributes."""
    return name.startswith(WORD_SPACES) and name.rpartition(" ")[2] in locals


def word_attribute(attributes, local):
    return next((value for name, value in attributes.items() if is_word(name, local)), None)


def end_of(data, begin, at):
    """The byte after an element that begins at `begin`, where the parser is `at` its end tag or at the one tag that it is."""
    return end_of_tag(data, max(begin, at))


def end_of_tag(data, begin):
    """The byte after the start tag that begins here. A value may hold ">"."""
    at = begin
    while True:
        close = data.index(b">", at)
        tag = data[at:close]
        if b"'" not in tag and tag.count(b'"') % 2 == 0:
            return close + 1
        quote = min(data.index(mark, at) for mark in (b'"', b"'") if mark in tag)
        at = data.index(data[quote : quote + 1], quote + 1) + 1
