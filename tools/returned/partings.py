"""Goes on where two texts part: at the next stretch without changes that both have."""
import bisect
import difflib

# How many characters both texts need to have for going on there, and how far the second text is looked at.
ANCHOR, SHORT_ANCHOR = 24, 8
WINDOW = 4000
# Each place is tried as far as this, and then every seventh, up to so many.
NEAR, FAR = 400, 80000
# A short text has to be nearer than this share of the way to a long one.
NEARER = 0.6
# Above so many pairs of places nothing is guessed, nor where texts part more often than this: then it is another document.
PAIRS, GUESSES = 4000000, 5000


def common(one, at, end, other, place):
    """How far two texts go together."""
    length = min(end - at, len(other) - place)
    if length <= 0:
        return 0
    if one[at : at + length] == other[place : place + length]:
        return length
    low, high = 0, length
    while low < high:
        middle = (low + high + 1) // 2
        if one[at + low : at + middle] == other[place + low : place + middle]:
            low = middle
        else:
            high = middle - 1
    return low


def go_on(search, states, index, begin):
    """A place in the second text with the node of the state that leads to it, and the stretch and the offset to go on from."""
    place, same, node = furthest(search, states, index, begin)
    if same:
        node = type(node)(node, {}, begin, place, same)
    else:
        node = last_sure(node)
    at, its = node.begin + node.length, node.place + node.length
    index = max(0, bisect.bisect_right(search.stream.begins, at) - 1)
    anchor = next_anchor(search, index, at, its)
    if anchor is None:
        vote(search, index, (at, search.stream.length), (its, search.second.length))
        return (search.second.length, node), len(search.pieces), 0
    piece, to, its_to = anchor
    vote(search, index, (at, to), (its, its_to))
    return (its_to, node), piece, to - search.pieces[piece][0]


def furthest(search, states, index, begin):
    """The state that got furthest, with how much of the stretch it still has."""
    _, end, members, _ = search.pieces[index]
    best = None
    for (place, _), (price, node) in states.items():
        same = 0 if members else common(search.stream.text, begin, end, search.second.text, place)
        if best is None or (place + same, -price) > best[0]:
            best = ((place + same, -price), place, same, node)
    return best[1:]


def last_sure(node):
    """The last stretch that both texts have with nothing decided in it: what was decided since led to where the texts part."""
    while node.before is not None and (not node.length or node.given):
        node = node.before
    return node


def next_anchor(search, index, at, its):
    """The nearest text without changes round it that both have: its stretch, its place, and its place in the second text.

    A short one has to be nearer than a long one, since it may be there by chance.
    """
    best, cost = None, FAR
    for size in (ANCHOR, SHORT_ANCHOR):
        for piece in range(index, len(search.pieces)):
            start, stop, members, _ = search.pieces[piece]
            if max(start, at) - at >= cost:
                break
            if not members:
                found = anchor_in(search, (max(start, at), stop), at, its, size, cost)
                if found is not None:
                    cost, best = found[0], (piece,) + found[1:]
        cost = FAR if best is None else int(cost * NEARER)
    return begun(search, index, best[0], at, its, *best[1:]) if best is not None else None


def begun(search, index, piece, at, its, probe, hit):
    """Where the text of an anchor begins in both, through the stretches without changes before it."""
    text, other = search.stream.text, search.second.text
    while probe > at and hit > its and text[probe - 1] == other[hit - 1]:
        if probe == search.pieces[piece][0]:
            if piece == index or search.pieces[piece - 1][2]:
                break
            piece -= 1
        probe, hit = probe - 1, hit - 1
    return piece, probe, hit


def anchor_in(search, stretch, at, its, size, cost):
    """What a stretch has of an anchor of this size that costs less: how far it is in both, and its two places."""
    text, other = search.stream.text, search.second.text
    probe, stop = stretch
    best = None
    while probe + size <= stop and probe - at < cost:
        key = text[probe : probe + size]
        reach = min(its + WINDOW + 2 * (probe - at), its + cost - (probe - at) + size)
        hit = other.find(key, its, reach)
        if hit >= 0 and (size == ANCHOR or len(set(key)) > 4):
            cost = probe - at + hit - its
            best = (cost, probe, hit)
        probe += 1 if probe - at < NEAR else 7
    return best


def vote(search, index, first, second):
    """Guesses at the changes between two places where the texts part, by the text that both have there."""
    (begin, end), (its_begin, its_end) = first, second
    search.found.guesses += 1
    if (end - begin) * (its_end - its_begin) > PAIRS or search.found.guesses > GUESSES:
        return
    match = difflib.SequenceMatcher(None, search.stream.text[begin:end], search.second.text[its_begin:its_end], False)
    blocks = [(begin + one.a, its_begin + one.b, one.size) for one in match.get_matching_blocks() if one.size]
    while index < len(search.pieces) and search.pieces[index][0] < end:
        start, stop, members, shown = search.pieces[index]
        index += 1
        start, stop = max(begin, start), min(end, stop)
        for one in members:
            if one.role == "content" or one in shown:
                seen, marked = seen_of(search.second, one, start, stop, blocks)
                tally = search.found.votes.setdefault(one.rev, [0, 0, 0])
                for at, more in enumerate((stop - start, seen, marked)):
                    tally[at] += more


def seen_of(second, member, start, stop, blocks):
    """How much of a stretch the second text has, and how much of that with the member's sign."""
    seen = marked = 0
    for at, its, size in blocks:
        low, high = max(start, at) + its - at, min(stop, at + size) + its - at
        seen += max(0, high - low)
        while low < high:
            signs, end = second.signs_at(low)
            if member.sign() in signs:
                marked += min(end, high) - low
            low = end
    return seen, marked
