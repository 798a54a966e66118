"""Reads a package in one XML file (Flat OPC) into its streams, by a parser of namespaces and in one pass."""
import os
import pickle
from xml.parsers import expat

from returned.contents import Contents
from returned.moves import number
from returned.properties import REFERENCES, Properties
from returned.streams import Package, Stream

W_NAMES = (
    "http://schemas.openxmlformats.org/wordprocessingml/2006/main",
    "http://purl.oclc.org/ooxml/wordprocessingml/main",
)
SPACES = dict.fromkeys(W_NAMES, "w")
SPACES["http://schemas.openxmlformats.org/officeDocument/2006/math"] = "m"
SPACES["http://schemas.microsoft.com/office/2006/xmlPackage"] = "pkg"
ROOTS = ("document", "hdr", "ftr", "footnotes", "endnotes", "comments")
# The blocks after which a paragraph is not the last one of its list.
THICK = ("p", "tbl", "sdt", "customXml", "altChunk")
MARKS = ("ins", "del", "moveFrom", "moveTo")
# Two packages of so many bytes each are read side by side.
LARGE = 1000000


class Unreadable(Exception):
    """What a file lacks of a package."""


class Frame:
    """An open element. What `kids`, `state` and `extra` hold depends on the element."""

    __slots__ = ("word", "local", "attributes", "member", "kids", "extra", "state", "members", "before", "holds", "forms")

    def __init__(self, word, local, attributes):
        self.word, self.local, self.attributes = word, local, attributes
        self.member = self.kids = self.extra = self.state = self.before = self.forms = None
        self.members = ()
        self.holds = False

    def is_w(self, *locals):
        return self.word == "w" and self.local in locals


class Reader(Contents, Properties):
    """`with_objects` gives a sign for each picture, reference, field and so on, else there is the text alone. `names` is what is
    taken of who made a change and when: "all", "authors" (no dates) or "none"."""

    def __init__(self, with_objects, names):
        self.with_objects, self.names_of_changes = with_objects, names
        self.package = Package()
        self.table = {}  # equal values are kept once
        self.names = {}
        self.stack = []
        self.story = self.stream = None
        self.part = self.story_name = ""
        self.depth_of_story = self.position = 0
        self.round = ()  # the content members that are open
        self.quiet_from = None
        self.fields = []
        self.text = self.run_props = None
        self.pending = []  # changes of the run that is open

    def read(self, data):
        parser = expat.ParserCreate("UTF-8", " ")
        parser.ordered_attributes = True
        parser.buffer_text = True
        parser.buffer_size = 1 << 16
        parser.StartElementHandler = self.start
        parser.EndElementHandler = self.end
        parser.CharacterDataHandler = self.data
        try:
            parser.Parse(data, True)
        except expat.ExpatError as error:
            raise Unreadable("not XML: %s" % error) from None
        for stream in self.package.streams:
            stream.close()
        number(self.package)
        return self.package

    def name_of(self, name):
        """The space and the local name of a name as the parser gives it."""
        found = self.names.get(name)
        if found is None:
            space, _, local = name.rpartition(" ")
            found = self.names[name] = (SPACES.get(space, ""), local)
        return found

    @staticmethod
    def attribute(attributes, local):
        """The first attribute with this local name."""
        for place in range(0, len(attributes), 2):
            key = attributes[place]
            if key == local or key.endswith(" " + local):
                return attributes[place + 1]
        return None

    # Elements

    def start(self, name, attributes):
        word, local = self.name_of(name)
        if self.story is None and not self.begins_story(word, local, attributes):
            self.stack.append(None)
            return
        frame = Frame(word, local, attributes)
        if self.quiet_from is None and self.stack and self.stack[-1] is not None:
            self.tell_parent(frame, self.stack[-1])
        self.stack.append(frame)
        at = self.position
        self.position += 1
        if self.quiet_from is not None:
            if local in REFERENCES and self.story == "document":
                self.package.header_ids.append((self.part, self.attribute(attributes, "id")))
            self.quiet_start(frame, at)
        elif word == "w":
            self.open_start(frame, at)
        elif word == "m":
            self.math_start(frame)
        else:
            self.foreign_start(frame)

    def begins_story(self, word, local, attributes):
        """Whether an element outside stories is the root of one, which begins here."""
        if word == "pkg" and local == "part":
            self.part = self.attribute(attributes, "name") or ""
        elif local == "Relationship" and word == "" and self.attribute(attributes, "TargetMode") != "External":
            targets = self.package.targets.setdefault(self.part, {})
            targets.setdefault(self.attribute(attributes, "Id"), self.attribute(attributes, "Target") or "")
        if len(self.stack) != 3 or word != "w" or local not in ROOTS:
            return False
        self.story, self.story_name, self.depth_of_story = local, self.part, 4
        self.position, self.round, self.fields = 0, (), []
        self.stream = Stream(self.part, local, self.part)
        self.package.streams.append(self.stream)
        return True

    def tell_parent(self, frame, parent):
        """What a parent learns of an element in it: what comes after a paragraph, and whether a paragraph holds more than text."""
        word, local = frame.word, frame.local
        if parent.before is not None and (word == "" or (word == "w" and local in THICK)):
            stream, place = parent.before
            stream.follows[place] = "p" if word == "w" and local == "p" else "other"
            parent.before = None
        if parent.word == "w" and parent.local == "p" and not (word == "w" and (local == "pPr" or local in MARKS)):
            parent.holds = True

    def end(self, _):
        frame = self.stack.pop()
        if frame is None:
            return
        at = self.position
        self.position += 1
        if self.quiet_from is not None:
            self.quiet_end(frame)
        else:
            self.open_end(frame, at)
        if len(self.stack) < self.depth_of_story:
            self.story = self.stream = None

    def data(self, text):
        if self.text is not None:
            self.text.append(text)
        elif self.quiet_from is None and self.stack and self.stack[-1] is not None and self.stack[-1].state == "code":
            self.stack[-1].extra.append(text)

    # Content that a file keeps in several forms

    def foreign_start(self, frame):
        """The first form alone counts: a word processor makes the second one anew when it stores."""
        stack = self.stack
        if frame.local == "AlternateContent":
            frame.forms = []
        elif frame.local in ("Choice", "Fallback") and len(stack) > 1 and stack[-2] is not None and stack[-2].forms is not None:
            frame.extra = (len(self.package.members), self.stream, self.run_props)
            if stack[-2].forms:
                self.stream = Stream(self.part, self.story, self.stream.name)

    def form_end(self, frame, parent):
        begin, stream, props = frame.extra
        parent.forms.append(self.package.members[begin:])
        if self.stream is not stream:
            self.stream, self.run_props = stream, props
            one, other = parent.forms[0], parent.forms[-1]
            if [(member.role, member.trace) for member in one] == [(member.role, member.trace) for member in other]:
                self.package.twins += zip(one, other)


def read(data, with_objects=True, names="all"):
    """The streams of a package's bytes."""
    return Reader(with_objects, names).read(data)


def read_both(one, other, *view):
    """The streams of two packages. Of large ones the second is read in a process of its own, beside the first."""
    if min(len(one), len(other)) < LARGE:
        return read(one, *view), read(other, *view)
    handle = os.memfd_create("read", 0)
    with open(handle, "w+b") as file:
        child = os.fork()
        if not child:
            read_aside(other, view, file)
        try:
            first = read(one, *view)
        finally:
            ended = os.waitpid(child, 0)[1]
        file.seek(0)
        return first, pickle.load(file) if ended == 0 else read(other, *view)


def read_aside(data, view, file):
    """The whole of a process that puts the streams into a file. What goes wrong in it is met again by whoever needs them."""
    status = 1
    try:
        pickle.dump(read(data, *view), file, pickle.HIGHEST_PROTOCOL)
        file.flush()
        status = 0
    finally:
        os._exit(status)
