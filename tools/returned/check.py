"""Finds a reviewer's decisions in a document that came back, and has the program check them.

What counts is the program's answer: the revisions are those that `list` tells, and `write` under the words that were found, and
the document that came back without what it alone has, have to have the same bare text. Where they don't, the places are told,
and there is no journal.
"""
from returned import compare
from returned.another import lost_places
from returned.bare import View
from returned.counter import foreign_revisions, proposals
from returned.differences import tell_clauses
from returned.find import find, words_to_say
from returned.pairs import pair_comments
from returned.reader import Unreadable, read, read_both
from returned.words import ACCEPT, EITHER, OPEN, REJECT, UNTOLD

# Who the journals that no one sees are by.
NOBODY = "returned"
# Of a document below so many bytes the text alone is tried whatever differs: where an object is gone the search may have gone astray.
SMALL = 1000000


class Answer:
    """What was found: the word of each revision, what else is new, and the places that no decision explains."""

    def __init__(self):
        self.words, self.said = {}, {}
        self.proposals, self.comments, self.differences = [], 0, []
        self.view = None

    def count(self, word):
        words = self.said.values() if word in (ACCEPT, REJECT) else self.words.values()
        return sum(1 for one in words if one == word)

    def untold(self):
        return sorted(rev for rev, word in self.words.items() if word == UNTOLD)

    def still_marked(self):
        return self.count(OPEN)


def answer_for(program, package, back):
    """The answer for two packages, each by its name for the program and its bytes."""
    listing = program.begin_list(package[0])
    first, second = read_both(package[1], back[1])
    if program.kinds(listing) != first.kinds:
        raise Unreadable("the changes have other numbers in a listing")
    names = names_kept(first, second)
    if names != "all":
        first, second = read_both(package[1], back[1], True, names)
    answer = Answer()
    answer.view, answer.differences = View(True, names), lost_places(first, second)
    if answer.differences:
        tell_clauses(answer.differences, first, package[1])
        return answer
    answer = attempt(program, package, back, first, second, View(True, names))
    if answer.differences and (answer.objects_differ or len(back[1]) < SMALL):
        first, second = read_both(package[1], back[1], False, names)
        other = attempt(program, package, back, first, second, View(False, names))
        answer = answer if other.differences else other
    return answer


def names_kept(first, second):
    """What can be compared of names and dates: a word processor can be told to leave them out when it stores."""
    if not second.members or any(one.date for one in second.members) or not any(one.date for one in first.members):
        return "all"
    if {one.author for one in second.members} <= {one.author for one in first.members}:
        return "authors"
    return "none"


def attempt(program, package, back, first, second, view):
    answer = Answer()
    answer.view = view
    known = {one.sign() for one in first.members}
    answer.proposals = proposals(second, known, back[1])
    answer.comments = pair_comments(first, second)[1]
    left = back[1]
    foreign = foreign_revisions(second, known)
    if foreign:
        left = program.written(back[0], NOBODY, dict.fromkeys(foreign, REJECT))
        second = read(left, view.with_objects, view.names)
    answer.words = find(first, second, view.with_objects)
    comparison = compare.Comparison(program, first, second, left)
    for cut in (False, True):
        # (where both words give one text, the first that passes the check; a paragraph may go or stay by what it holds)
        answer.said = words_to_say(first, answer.words, cut)
        check(program, package, comparison, answer)
        if not answer.differences or EITHER not in answer.words.values():
            break
    tell_clauses(answer.differences, second, left)
    return answer


def check(program, package, comparison, answer):
    """Compares what the words give with what came back. What the properties don't tell is accepted for that: it shows no text."""
    words = dict(answer.said)
    words.update(dict.fromkeys(answer.untold(), ACCEPT))
    pairs = comparison.unlike(program.written(package[0], NOBODY, words))
    answer.differences = compare.differences_of(pairs, answer.view)
    answer.objects_differ = bool(answer.differences) and compare.objects_differ(pairs, answer.view)
