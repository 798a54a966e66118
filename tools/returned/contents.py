"""What a reader does at the elements of content: texts, paragraphs, tables, changes of content, fields, objects, markers."""
import re

from returned.moves import Marker
from returned.streams import CELL, ESCAPE, GROUPS, OBJECT_SIGNS, OBJECTS, PARA, ROW, SIGNS, Member, Stream, Table

TRACES = {"ins": "ins", "del": "del", "moveFrom": "from", "moveTo": "to", "cellIns": "ins", "cellDel": "del"}
MARKERS = {"moveFromRangeStart": 0, "moveFromRangeEnd": 1, "moveToRangeStart": 2, "moveToRangeEnd": 3}
NOTES = ("footnote", "endnote", "comment")
PROPERTIES = ("pPr", "rPr", "sectPr", "tblPr", "tblPrEx", "trPr", "tcPr", "sdtPr", "sdtEndPr", "tblGrid")
TEXTS = {"tab": "\t", "br": "\n", "cr": "\n", "noBreakHyphen": "\u2011"}
REFERENCES = {"footnoteReference": "footnote", "endnoteReference": "endnote", "commentReference": "comment"}
# Fields whose result a word processor counts anew by itself; their results are left out of the text, those of the first ones as
# far as they can be a number. A bare text has none of the first two rows of the others.
COUNTS = ("SECTION", "PAGEREF", "FILESIZE", "NUMWORDS", "NUMCHARS", "REVNUM")
VOLATILE = (
    "PAGE", "NUMPAGES", "SECTIONPAGES", "DATE", "TIME",
    "SAVEDATE", "PRINTDATE", "CREATEDATE", "EDITTIME",
    "FILENAME", "LASTSAVEDBY", "STYLEREF",
)
NAME = re.compile(r"\s*([^\s\\]*)")
COUNTED = re.compile(r"[\d\s.,:ivxlcdmIVXLCDM()\-]")


def moment_of(date):
    """The time on the wall of a date, to the minute.

    Word stores no seconds; writers drop a fraction and a zone and put `Z` after any time; some write a date of theirs for none.
    """
    if not date or date.startswith(("0-00-00", "0000-", "1970-01-01T00:00:00")):
        return ""
    return re.sub(r"(:\d\d)(:\d\d)?(\.\d+)?(Z|[+-]\d\d:\d\d)?$", r"\1", date)


class Contents:
    """Half of the reader: the elements outside properties."""

    def member(self, role, trace, attributes, at):
        author = self.attribute(attributes, "author") or "" if self.names_of_changes != "none" else ""
        date = moment_of(self.attribute(attributes, "date")) if self.names_of_changes == "all" else ""
        author, date = self.table.setdefault(author, author), self.table.setdefault(date, date)
        made = Member(role, trace, author, date, at, self.story_name)
        self.package.members.append(made)
        return made

    def open_start(self, frame, at):
        local = frame.local
        if len(self.stack) >= 2 and local not in PROPERTIES:
            self.begin_row_or_cell(self.stack[-2])
        start = self.STARTS.get(local)
        if start is not None:
            start(self, frame, at)

    def begin_row_or_cell(self, parent):
        """Gives the sign of a row or cell where its first kid that is no property element begins."""
        if parent is not None and parent.state in ("row", "cell"):
            sign = ROW if parent.state == "row" else CELL
            parent.state, parent.extra = "begun", self.stream.length
            self.stream.put(sign, self.round, parent.members, ())

    def start_text(self, frame, at):
        self.text = []

    def start_run(self, frame, at):
        frame.extra = (self.stream.length, self.run_props, self.pending)
        self.run_props, self.pending = (), []

    def start_paragraph(self, frame, at):
        frame.state = []  # the members of its mark

    def start_content(self, frame, at):
        frame.member = self.member("content", TRACES[frame.local], frame.attributes, at)
        self.round = self.round + (frame.member,)

    def start_properties(self, frame, at):
        self.quiet_from = len(self.stack)
        frame.kids = []

    def start_shown(self, frame, at):
        self.put(TEXTS[frame.local])

    def start_row(self, frame, at):
        frame.state = "row"

    def start_cell(self, frame, at):
        frame.state = "cell"

    def start_table(self, frame, at):
        stream = self.stream
        stream.open_tables.append(Table(stream.length, len(stream.open_tables)))
        stream.tables.append(stream.open_tables[-1])

    def start_box(self, frame, at):
        frame.extra = len(self.stream.box_begins)
        self.stream.box_begins.append(self.stream.length)
        self.stream.box_ends.append(None)

    def start_note(self, frame, at):
        if len(self.stack) != self.depth_of_story + 1:
            return
        local, ident = frame.local, self.attribute(frame.attributes, "id")
        self.stream = Stream(self.part, local, (local, ident))
        self.stream.kind = self.attribute(frame.attributes, "type")
        if local == "comment":
            self.stream.who = (self.attribute(frame.attributes, "author"), moment_of(self.attribute(frame.attributes, "date")))
        self.package.streams.append(self.stream)

    # Fields

    def start_code(self, frame, at):
        frame.state, frame.extra = "code", []

    def start_simple(self, frame, at):
        """A field in one element reads as one in several: writers turn the one into the other."""
        code = SIGNS.sub("", self.attribute(frame.attributes, "instr") or "")
        self.fields.append(["", False])
        self.put_object("field begin")
        if self.with_objects:
            self.put(code)
        self.fields[-1] = [code, True]
        self.put_object("field separate")

    def start_field(self, frame, at):
        kind = self.attribute(frame.attributes, "fldCharType")
        if kind == "begin":
            self.fields.append(["", False])
        elif kind == "separate" and self.fields:
            self.fields[-1][1] = True
        elif kind == "end" and self.fields:
            self.fields.pop()
        self.put_object("field " + kind if kind in ("begin", "separate", "end") else "field end")

    def uncounted(self, text):
        """What is left of a text, or of one sign, without the results of fields that are counted anew."""
        for name, shows in self.fields:
            word = NAME.match(name).group(1).upper()
            if shows and (word in VOLATILE or (word in COUNTS and SIGNS.fullmatch(text))):
                return ""
            if shows and word in COUNTS:
                # (sign by sign, since writers cut a text into pieces in their own ways)
                text = COUNTED.sub("", text)
        return text

    def put(self, text):
        if self.fields:
            text = self.uncounted(text)
        self.stream.put(text, self.round, (), self.run_props)

    # Objects

    def start_object(self, frame, at):
        kind = REFERENCES.get(frame.local)
        ident = self.attribute(frame.attributes, "id") if kind else None
        if kind:
            self.package.note_order[kind].append(ident)
        if kind != "comment":
            self.put_object(frame.local, ident)

    def put_object(self, what, ident=None):
        what = GROUPS.get(what, what)
        self.stream.objects.append((self.stream.length, what, self.round, ident, self.run_props))
        if self.with_objects:
            self.put(OBJECT_SIGNS[what])

    def math_start(self, frame):
        if frame.local == "ctrlPr":
            self.start_properties(frame, 0)
        elif frame.local == "r":
            self.start_run(frame, 0)
        elif frame.local == "t":
            self.put_object("math")

    # Markers of moves

    def start_marker(self, frame, at):
        ident = self.attribute(frame.attributes, "id")
        if ident is not None:
            name = self.attribute(frame.attributes, "name")
            self.package.markers.append(Marker(self.story_name, MARKERS[frame.local], ident, name, at, self.is_loose()))

    def is_loose(self):
        """Whether a marker here is in what may go: a content change, a changed row or cell, or between rows or cells."""
        ups = [one for one in self.stack[self.depth_of_story - 1 : -1] if one is not None]
        for place, up in enumerate(ups):
            if (up.member is not None and up.member.role == "content") or up.members:
                return True
            if up.is_w("tr", "tbl") and not self.is_in_own(ups[place + 1 :], "tc" if up.local == "tr" else "tr"):
                return True
        return False

    @staticmethod
    def is_in_own(inner, wanted):
        """Whether the way from a table or a row inwards leads through one of its own rows or cells."""
        for one in inner:
            if not one.is_w("sdt", "sdtContent", "customXml"):
                return one.is_w(wanted)
        return False

    STARTS = dict.fromkeys(OBJECTS, start_object)
    STARTS.update({
        "t": start_text, "delText": start_text, "r": start_run, "p": start_paragraph, "tr": start_row, "tbl": start_table,
        "tc": start_cell, "fldChar": start_field, "instrText": start_code, "delInstrText": start_code, "fldSimple": start_simple,
        "txbxContent": start_box,
    })
    STARTS.update(dict.fromkeys(TEXTS, start_shown))
    STARTS.update(dict.fromkeys(("ins", "del", "moveFrom", "moveTo"), start_content))
    STARTS.update(dict.fromkeys(PROPERTIES, start_properties))
    STARTS.update(dict.fromkeys(MARKERS, start_marker))
    STARTS.update(dict.fromkeys(NOTES, start_note))

    # Ends

    def open_end(self, frame, at):
        if frame.word == "w":
            end = self.ENDS.get(frame.local)
            if end is not None:
                end(self, frame, at)
            elif frame.member is not None:
                self.round = self.round[:-1]
                frame.member.end_at = at
        elif frame.word == "m" and frame.local == "r":
            self.end_run(frame, at)
        elif frame.word == "" and frame.extra and self.stack and self.stack[-1] is not None and self.stack[-1].forms is not None:
            self.form_end(frame, self.stack[-1])

    def end_text(self, frame, at):
        text = "".join(self.text)
        self.text = None
        if SIGNS.search(text):
            text = SIGNS.sub(lambda found: ESCAPE + found.group(), text)
        self.put(text)

    def end_run(self, frame, at):
        for change in self.pending:
            change.begin, change.end = frame.extra[0], self.stream.length
        _, self.run_props, self.pending = frame.extra

    def end_code(self, frame, at):
        text = SIGNS.sub("", "".join(frame.extra))
        if self.fields and not self.fields[-1][1]:
            self.fields[-1][0] += text
        if self.with_objects:
            self.put(text)

    def end_simple(self, frame, at):
        self.fields.pop()
        self.put_object("field end")

    def end_row(self, frame, at):
        if frame.members:
            self.round = self.round[: -len(frame.members)]
        if not frame.holds:
            self.stream.loose_rows.add(frame.extra)

    def end_cell(self, frame, at):
        if frame.members:
            self.round = self.round[: -len(frame.members)]
        else:
            row = next((one for one in reversed(self.stack) if one is None or one.is_w("tr")), None)
            if row is not None:
                row.holds = True  # (a cell that stays)

    def end_box(self, frame, at):
        self.stream.box_ends[frame.extra] = self.stream.length

    def end_table(self, frame, at):
        self.stream.open_tables.pop().end = self.stream.length

    def end_paragraph(self, frame, at):
        members, place = tuple(frame.state), self.stream.length
        props = frame.kids or {}
        for made in members:
            made.end_at = at
        self.stream.put(PARA, self.round + members, members, props.get("mark", ()))
        if self.stack and self.stack[-1] is not None:
            self.stack[-1].before = (self.stream, place)
        if frame.holds:
            self.stream.holds.add(place)
        for key in ("para", "mark", "sect"):
            if key in props:
                self.stream.props[key][place] = props[key]
        for change in props.get("changes", ()):
            change.begin, change.end = place, place + 1

    ENDS = {
        "t": end_text, "delText": end_text, "r": end_run, "p": end_paragraph, "instrText": end_code, "delInstrText": end_code,
        "fldSimple": end_simple, "tr": end_row, "tc": end_cell, "tbl": end_table, "txbxContent": end_box,
    }
