"""The stream that came back, as the search asks it, and where the places of the first stream are in it."""
import bisect

# The holders of properties that have one place: an end of a paragraph, a row, a cell.
POINTS = ("para", "mark", "sect", "row", "except", "cell")


class Second:
    """A stream with the signs of the changes that are marked at each place, and its things by place."""

    def __init__(self, stream):
        self.stream, self.text, self.length = stream, stream.text, stream.length
        self.begins, self.signs = [], []
        for begin, _, members, shown in stream.stretches():
            seen = tuple(sorted({one.sign() for one in members if one.role == "content" or one in shown}))
            if not self.signs or self.signs[-1] != seen:
                self.begins.append(begin)
                self.signs.append(seen)
        self.changes = Changes(stream)

    def signs_at(self, place):
        """The signs at a place, and where the stretch with them ends."""
        index = bisect.bisect_right(self.begins, place) - 1
        end = self.begins[index + 1] if index + 1 < len(self.begins) else self.length
        return self.signs[index], end

    def has_signs(self, place, length, signs):
        """Whether each place of a stretch has these signs and no others."""
        at = place
        while at < place + length:
            its, end = self.signs_at(at)
            if its != signs:
                return False
            at = end
        return True


def outer_runs(runs):
    """For each changed run the place of the one that it is in (by a text box), or -1."""
    found, opened = [], []
    for place, run in enumerate(runs):
        while opened and runs[opened[-1]].end <= run.begin:
            opened.pop()
        found.append(opened[-1] if opened else -1)
        opened.append(place)
    return found


class Changes:
    """The changes of properties of a stream, by place."""

    def __init__(self, stream):
        runs = sorted((one for one in stream.changes if one.holder == "run" and one.begin < one.end), key=lambda one: (one.begin, -one.end))
        self.runs, self.run_begins = runs, [one.begin for one in runs]
        self.outer = outer_runs(runs)
        self.paras, self.points = {}, {}
        for change in stream.changes:
            if change.holder in POINTS and change.begin != "end":
                self.points.setdefault(change.begin, set()).add((change.holder,) + change.member.sign())
                if change.holder == "para":
                    self.paras[change.begin] = change
        self.point_places = sorted(self.points)

    def run_at(self, place):
        """The change of the run at a place, where it has one."""
        index = bisect.bisect_right(self.run_begins, place) - 1
        while index >= 0 and place >= self.runs[index].end:
            index = self.outer[index]
        return self.runs[index] if index >= 0 else None

    def signs_at(self, place):
        run = self.run_at(place)
        signs = self.points.get(place, set())
        return signs if run is None else signs | {("run",) + run.member.sign()}

    def signs_in(self, begin, end):
        """Places in a range at which changes are, with their signs: of each run its first and its last place there."""
        index = max(0, bisect.bisect_right(self.run_begins, begin) - 1)
        while index < len(self.runs) and self.runs[index].begin < end:
            run = self.runs[index]
            for place in {max(run.begin, begin), min(run.end, end) - 1}:
                if begin <= place < min(run.end, end):
                    yield place, {("run",) + run.member.sign()}
            index += 1
        for place in between(self.point_places, self.point_places, begin, end - 1):
            yield place, self.points[place]


class Places:
    """Where a place of the first stream is in the second one, by the stretches that a search found in both."""

    def __init__(self, blocks, second):
        self.blocks, self.second = blocks, second
        self.begins = [one[0] for one in blocks]

    def of(self, place):
        """The place in the second stream, or None."""
        index = bisect.bisect_right(self.begins, place) - 1
        if index < 0:
            return None
        begin, its, length = self.blocks[index]
        return its + place - begin if place < begin + length else None

    def window(self, place):
        """The least and greatest place in the second stream at which something can be that is at this place of the first."""
        index = bisect.bisect_left(self.begins, place)
        low, high = 0, self.second.length
        if index < len(self.blocks):
            high = self.blocks[index][1]
        if index > 0:
            begin, its, length = self.blocks[index - 1]
            low = its + min(place - begin, length)
            if place < begin + length:
                high = low
        return low, high


def between(things, begins, low, high):
    """The things whose places, which rise, are in a range."""
    return things[bisect.bisect_left(begins, low) : bisect.bisect_right(begins, high)]
