"""The words that can be found for a change, and how they are found for changes of properties and for changes without text."""
import bisect

from returned.second import between

# Besides the two words of a journal: still marked; both words give the same; gone with what was round it; not to be told.
ACCEPT, REJECT, OPEN, EITHER, GONE, UNTOLD = "accept", "reject", "open", "either", "gone", "untold"
# So many places of a run are looked at.
PLACES = 200


def told_apart(present, former, now):
    """Which of two sets of properties a third one is: ACCEPT for the present ones, REJECT for the former ones."""
    if present == former:
        return EITHER
    if now == present:
        return ACCEPT
    if now == former:
        return REJECT
    for_present, for_former = likenesses(dict(present), dict(former), dict(now))
    if for_present and not for_former:
        return ACCEPT
    if for_former and not for_present:
        return REJECT
    return UNTOLD


def likenesses(present, former, now):
    """How many of the properties that differ are as the present ones, and how many as the former ones."""
    for_present = for_former = 0
    for name in set(present) | set(former):
        if present.get(name) == former.get(name):
            continue
        if now.get(name) == present.get(name):
            for_present += 1
        elif now.get(name) == former.get(name):
            for_former += 1
        else:
            one, other, its = (set(said[0]) if said else set() for said in (present.get(name), former.get(name), now.get(name)))
            for_present += bool(its & (one - other))
            for_former += bool(its & (other - one))
    return for_present, for_former


def is_covered(ranges, place):
    """Whether a place is in one of some ranges, which rise and don't overlap."""
    index = bisect.bisect_right(ranges, (place, float("inf"))) - 1
    return index >= 0 and place < ranges[index][1]


def merged(ranges):
    """The same places as ranges that rise and don't overlap."""
    found = []
    for begin, end in sorted(ranges):
        if found and begin < found[-1][1]:
            found[-1] = (found[-1][0], max(end, found[-1][1]))
        else:
            found.append((begin, end))
    return found


def is_begin(ranges, place):
    index = bisect.bisect_left(ranges, (place, -1))
    return index < len(ranges) and ranges[index][0] == place


class Looker:
    """Looks in the second stream at what a search found of the first one. `alike` compares two notes by their ids."""

    def __init__(self, stream, second, places, with_objects, alike):
        self.stream, self.second, self.places, self.with_objects, self.alike = stream, second, places, with_objects, alike
        its = second.stream
        self.open = {}  # by holder and sign: the ranges of the changes of properties that are still marked
        for change in its.changes:
            if change.begin == "end" or change.begin != change.end or change.holder != "run":
                key = "end" if change.begin == "end" else change.holder
                self.open.setdefault((key,) + change.member.sign(), []).append((change.begin, change.end))
        self.open = {key: ranges if key[0] == "end" else merged(ranges) for key, ranges in self.open.items()}
        self.tables_of = {id(one.change): one for one in stream.tables if one.change is not None}
        self.table_begins = [one.begin for one in its.tables]
        self.other_begins = [one[0] for one in its.others]
        self.objects = sorted(its.objects, key=lambda one: one[0])
        self.object_begins = [one[0] for one in self.objects]
        empty = [one for one in its.changes if one.holder == "run" and one.begin == one.end]
        self.empty_changes = sorted(empty, key=lambda one: one.begin)
        self.empty_begins = [one.begin for one in self.empty_changes]
        self.own_begins = [one[0] for one in stream.objects]

    def word_of(self, change):
        """What became of a change of properties."""
        look = {"run": self.run_word, "table": self.table_word, "other": self.other_word}.get(change.holder, self.place_word)
        return look(change)

    def ranges_of(self, holder, change):
        return self.open.get((holder,) + change.member.sign(), ())

    def run_word(self, change):
        spots = [self.places.of(place) for place in self.own_places(change)]
        spots = [spot for spot in spots if spot is not None]
        if not spots:
            return self.empty_run_word(change) if change.begin == change.end else GONE
        if any(is_covered(self.ranges_of("run", change), spot) for spot in spots):
            return OPEN
        words = {}
        for spot in spots:
            word = told_apart(change.present, change.former, self.second.stream.run_at(spot) or ())
            words[word] = words.get(word, 0) + 1
        if len(words) > 1:
            words.pop(EITHER, None)
        return max(words, key=words.get)

    def own_places(self, change):
        """The places of a changed run, without those in a text box of it: these have properties of their own."""
        begins, ends = self.stream.box_begins, self.stream.box_ends
        found, begin = [], change.begin
        for index in range(bisect.bisect_left(begins, begin), len(begins)):
            if begins[index] >= change.end or len(found) >= PLACES:
                break
            if begins[index] >= begin and ends[index] <= change.end:
                found += range(begin, min(begins[index], begin + PLACES))
                begin = ends[index]
        return found + list(range(begin, min(change.end, begin + PLACES)))

    def empty_run_word(self, change):
        """The word of a run without text: by a marked change of its kind near, or by the properties of what the run holds."""
        low, high = self.places.window(change.begin)
        for other in between(self.empty_changes, self.empty_begins, low, high):
            if other.member.sign() == change.member.sign() and other.present == change.present:
                return OPEN
        held = {one[1] for one in between(self.stream.objects, self.own_begins, change.begin, change.begin) if one[4] == change.present}
        for _, what, _, _, props in between(self.objects, self.object_begins, low, high):
            if what in held:
                word = told_apart(change.present, change.former, props or ())
                if word != UNTOLD:
                    return word
        return EITHER if self.with_objects or change.present == change.former else UNTOLD

    def table_word(self, change):
        """The word of a table: by the table of the same depth that holds something of this one."""
        table, places = self.tables_of[id(change)], self.places
        index = max(0, bisect.bisect_right(places.begins, table.begin) - 1)
        for begin, _, length in places.blocks[index:]:
            if begin >= table.end:
                break
            if max(begin, table.begin) < begin + length:
                other = self.table_at(places.of(max(begin, table.begin)), table.depth)
                if other is not None:
                    if other.change is not None and other.change.member.sign() == change.member.sign():
                        return OPEN
                    return told_apart(change.present, change.former, other.props)
        return GONE

    def table_at(self, spot, depth):
        """The table of this depth that a place of the second stream is in."""
        near = bisect.bisect_right(self.table_begins, spot)
        while near > 0:
            near -= 1
            table = self.second.stream.tables[near]
            if table.begin <= spot < table.end and table.depth == depth:
                return table
            if table.depth == 0 and table.end <= spot:
                return None
        return None

    def other_word(self, change):
        low, high = self.places.window(change.begin)
        near = between(self.second.stream.others, self.other_begins, low, high)
        if any(one[2] is not None and one[2].member.sign() == change.member.sign() for one in near):
            return OPEN
        words = [told_apart(change.present, change.former, one[1]) for one in near]
        return next((word for word in words if word != UNTOLD), UNTOLD if near else GONE)

    def place_word(self, change):
        props = self.second.stream.props[change.holder]
        if change.begin == "end":
            return OPEN if self.ranges_of("end", change) else told_apart(change.present, change.former, props.get("end", ()))
        spot = self.places.of(change.begin)
        if spot is None:
            return GONE
        if is_begin(self.ranges_of(change.holder, change), spot):
            return OPEN
        return told_apart(change.present, change.former, props.get(spot, ()))

    # Changes that hold no text: by the objects that they hold

    def add_words_of_objects(self, words):
        used = set()
        for place, what, members, ident, _ in self.stream.objects:
            alone = [one for one in members if one.role == "content" and one.rev not in words]
            near = [index for index in self.near(place, what, ident) if index not in used]
            if not alone and near and ident is not None:
                used.add(near[0])
            for one in alone:
                words[one.rev] = self.word_of_object(one, [index for index in near if index not in used], used)

    def near(self, place, what, ident):
        """The objects of the second stream that one of the first can be."""
        low, high = self.places.window(place)
        begin, end = bisect.bisect_left(self.object_begins, low), bisect.bisect_right(self.object_begins, high)
        for index in range(begin, end):
            other = self.objects[index]
            if other[1] == what and (ident is None or self.alike(what, ident, other[3])):
                yield index

    def word_of_object(self, member, near, used):
        marked = [index for index in near if member.sign() in {other.sign() for other in self.objects[index][2]}]
        plain = [index for index in near if index not in marked]
        used.update((marked or plain)[:1])
        if marked:
            return OPEN
        if plain:
            return ACCEPT if member.is_new() else REJECT
        return REJECT if member.is_new() else ACCEPT
