"""Finds for each tracked change of a package what became of it in a document that came back.

Nothing here needs to be right: what is found is checked by the program (see `check`).
"""
from returned.pairs import alike_notes, pair_comments, pair_notes, pair_stories
from returned.search import Search
from returned.second import Places, Second
from returned.words import ACCEPT, EITHER, GONE, OPEN, REJECT, UNTOLD, Looker


def find(first, second, with_objects):
    """The word for each revision of the first package."""
    alike = alike_notes(first, second)
    stories = [search_of(*pair) for pair in pair_stories(first, second)]
    pairs = pair_notes(first, second, stories, alike, with_objects) + pair_comments(first, second)[0]
    notes = [search_of(*pair) for pair in pairs]
    searches = [one for one in stories + notes if one is not None]
    words = {}
    for _, _, found in searches:
        for rev, word in found.words.items():
            words.setdefault(rev, word)
    for _, _, found in searches:
        add_votes(first, words, found.votes)
    for stream, its, found in searches:
        looker = Looker(stream, its, Places(found.blocks, its), with_objects, alike)
        for change in stream.changes:
            words.setdefault(change.member.rev, looker.word_of(change))
        looker.add_words_of_objects(words)
    for one, other in first.twins:
        if one.rev in words and one.rev != other.rev:
            words[other.rev] = words[one.rev]
    settle_untold(first, second, words)
    return words


def search_of(stream, other):
    if other is None:
        return None
    second = Second(other)
    return stream, second, Search(stream, second).run()


def add_votes(first, words, votes):
    """Words for changes where texts part: what is hardly seen went, and what is seen is marked or stayed."""
    for rev, (size, seen, marked) in votes.items():
        if rev not in words and size:
            is_new = first.revisions[rev - 1][0].is_new()
            if seen * 10 < size * 3:
                words[rev] = REJECT if is_new else ACCEPT
            elif marked * 2 > seen:
                words[rev] = OPEN
            else:
                words[rev] = ACCEPT if is_new else REJECT


def settle_untold(first, second, words):
    """A change of which nothing is seen in the text: is any element of its kind, author and moment left?"""
    left = {one.sign() for one in second.members}
    for rev, members in enumerate(first.revisions, 1):
        word = words.setdefault(rev, UNTOLD)
        if word == UNTOLD and not (members and members[0].role == "change"):
            words[rev] = OPEN if any(one.sign() in left for one in members) else EITHER


def words_to_say(first, words, cut):
    """The words of a journal: where both words give one text, accept, or with `cut` what takes away what the change holds."""
    said = {}
    for rev, word in words.items():
        if word == EITHER:
            members = first.revisions[rev - 1]
            is_new = bool(members) and members[0].role != "change" and members[0].is_new()
            said[rev] = REJECT if cut and is_new else ACCEPT
        elif word not in (OPEN, GONE, UNTOLD):
            said[rev] = word
    return said
