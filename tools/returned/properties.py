"""What a reader does in property elements: what they say, in a form that two writers agree on, and the changes in them."""
from returned.contents import TRACES
from returned.streams import Change

MARKS = ("ins", "del", "moveFrom", "moveTo")
KINDS = {
    "rPrChange": "run-props", "pPrChange": "para-props", "sectPrChange": "sect-props", "tblPrChange": "table-props",
    "tblPrExChange": "except-props", "trPrChange": "row-props", "tcPrChange": "cell-props",
}
# Where a change of these stands: in which property element of which owner.
OWNERS = {
    "tblPrChange": ("tblPr", "tbl"), "tblPrExChange": ("tblPrEx", "tr"), "trPrChange": ("trPr", "tr"), "tcPrChange": ("tcPr", "tc"),
}
# What is among properties and is none.
NO_PROPERTIES = tuple(KINDS) + MARKS + ("cellIns", "cellDel", "cellMerge")
# Properties that a word processor adds and drops by itself.
NOISE = ("lang", "noProof", "lastRenderedPageBreak", "rsid", "webHidden", "cnfStyle", "divId")
TOGGLES = ("b", "i", "bCs", "iCs", "strike", "caps")
REFERENCES = ("headerReference", "footerReference")


class Properties:
    """The other half of the reader: property elements and what is in them."""

    def quiet_start(self, frame, at):
        frame.kids = []
        if frame.word != "w":
            return
        local = frame.local
        if local in MARKS and self.is_in("rPr", "pPr", "p"):
            frame.member = self.member("mark", TRACES[local], frame.attributes, at)
            self.up(3).state.append(frame.member)
        elif local in ("ins", "del") and self.is_in("trPr", "tr"):
            frame.member = self.member("row", TRACES[local], frame.attributes, at)
        elif local in ("cellIns", "cellDel") and self.is_in("tcPr", "tc"):
            frame.member = self.member("cell", TRACES[local], frame.attributes, at)
        elif local in KINDS and self.is_place_of(local):
            frame.member = self.member("change", KINDS[local], frame.attributes, at)

    def up(self, steps):
        place = len(self.stack) - 1 - steps
        return self.stack[place] if place >= self.depth_of_story - 1 else None

    def is_in(self, *locals):
        """Whether the ancestors, the nearest first, have these names, and the last of them is in no property element."""
        if len(self.stack) - len(locals) > self.quiet_from:
            return False
        return all(up is not None and up.is_w(local) for up, local in ((self.up(1 + place), local) for place, local in enumerate(locals)))

    def is_place_of(self, local):
        """Whether an element of this name here is a change of properties."""
        if local == "rPrChange":
            owner = self.up(2)
            if owner is not None and owner.word == "m":
                up = self.up(1)
                return up.is_w("rPr") and owner.local in ("r", "ctrlPr") and len(self.stack) - 2 <= self.quiet_from
            return any(self.is_in("rPr", one) for one in ("r", "sdtPr", "sdtEndPr")) or self.is_in("rPr", "pPr", "p")
        if local == "pPrChange":
            return self.is_in("pPr", "p")
        if local == "sectPrChange":
            return self.is_in("sectPr", "body") or self.is_in("sectPr", "pPr", "p")
        return self.is_in(*OWNERS[local])

    def quiet_end(self, frame):
        if len(self.stack) + 1 == self.quiet_from:
            self.quiet_from = None
            if self.stack and self.stack[-1] is not None:
                self.tell_owner(frame, self.stack[-1])
            return
        self.stack[-1].kids.append(frame)

    # What properties say

    def said(self, frames, without=()):
        """Properties as sorted pairs of names and what they say, without what writers add and drop by themselves."""
        found = {}
        for one in frames:
            if one.member is not None or one.local in without or one.local in NOISE or one.local in NO_PROPERTIES:
                continue
            said = (self.values_of(one), self.said(one.kids, without) if one.kids else ())
            name = one.local
            while name in found and found[name] != said:
                name += "'"
            found[name] = said
        made = tuple(sorted(found.items()))
        return self.table.setdefault(made, made)

    @staticmethod
    def values_of(frame):
        """The attributes of a property, without marks of sessions and without the value that says on."""
        attributes, pairs = frame.attributes, []
        for place in range(0, len(attributes), 2):
            if "rsid" not in attributes[place]:
                pair = (attributes[place].rpartition(" ")[2], attributes[place + 1])
                pair = ("val", "1") if pair in (("val", "true"), ("val", "on")) else pair
                if pair != ("val", "1") or frame.local not in TOGGLES:
                    pairs.append(pair)
        return tuple(sorted(pairs))

    def change_in(self, frames, holder, present, without=()):
        """The change among the kids of a property element, if there is one."""
        for one in frames:
            if one.member is not None and one.member.role == "change":
                former = next((self.said(kid.kids, without) for kid in one.kids if kid.word == "w"), ())
                change = Change(one.member, holder, self.stream.length, present, former)
                self.stream.changes.append(change)
                return change
        return None

    def tell_owner(self, frame, owner):
        """What a property element says of the element that holds it."""
        if frame.word == "m" or frame.local in ("sdtPr", "sdtEndPr"):
            for kid in frame.kids:
                if kid.is_w("rPr"):
                    props = self.said(kid.kids)
                    self.stream.others.append((self.stream.length, props, self.change_in(kid.kids, "other", props)))
            return
        tell = self.TOLD.get((frame.local, owner.local))
        if tell is not None:
            tell(self, frame.kids, owner)

    def tell_run(self, kids, run):
        self.run_props = self.said(kids)
        change = self.change_in(kids, "run", self.run_props)
        if change is not None:
            self.pending.append(change)

    def tell_paragraph(self, kids, paragraph):
        props = paragraph.kids = {"changes": []}
        self.note_change(props, kids, "para", ("rPr", "sectPr"))
        for kid in kids:
            if kid.is_w("rPr"):
                self.note_change(props, kid.kids, "mark", MARKS)
            elif kid.is_w("sectPr"):
                self.note_change(props, kid.kids, "sect", REFERENCES)

    def note_change(self, props, kids, key, without):
        """Keeps what some properties of a paragraph say, and their change, until the paragraph's end has a place."""
        props[key] = self.said(kids, without)
        change = self.change_in(kids, key, props[key], without)
        if change is not None:
            props["changes"].append(change)

    def tell_body(self, kids, body):
        props = self.stream.props["sect"]["end"] = self.said(kids, REFERENCES)
        change = self.change_in(kids, "sect", props, REFERENCES)
        if change is not None:
            change.begin = change.end = "end"

    def tell_table(self, kids, table):
        props = self.said(kids)
        if self.stream.open_tables:
            self.stream.open_tables[-1].props = props
            self.stream.open_tables[-1].change = self.change_in(kids, "table", props)

    def tell_exception(self, kids, row):
        props = self.stream.props["except"][self.stream.length] = self.said(kids)
        self.change_in(kids, "except", props)

    def tell_row(self, kids, row):
        self.tell_item(kids, row, "row")

    def tell_cell(self, kids, cell):
        self.tell_item(kids, cell, "cell")

    def tell_item(self, kids, item, role):
        props = self.stream.props[role][self.stream.length] = self.said(kids)
        self.change_in(kids, role, props)
        item.members = tuple(kid.member for kid in kids if kid.member is not None and kid.member.role == role)
        self.round = self.round + item.members

    TOLD = {
        ("rPr", "r"): tell_run, ("pPr", "p"): tell_paragraph, ("sectPr", "body"): tell_body, ("tblPr", "tbl"): tell_table,
        ("tblPrEx", "tr"): tell_exception, ("trPr", "tr"): tell_row, ("tcPr", "tc"): tell_cell,
    }
