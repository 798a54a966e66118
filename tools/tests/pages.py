"""Opens pages in browsers, decides in them as a reviewer does, and looks at what comes.

    python3 pages.py                     the test: a line for each case, "ok NAME", "FAILED NAME: WHY" or "skipped NAME: WHY".
                                         All cases run in Chromium, and in Firefox the rounds and those of what is kept
    python3 pages.py firefox             all cases in this browser
    python3 pages.py firefox large       these cases alone, in this browser alone
    python3 pages.py --picture FILE      the picture of a page for README

The cases are in page_*.py; page_seen.py says whose pages they are.
"""
import sys

import page_facts
import page_hostile
import page_large
import page_looks
import page_round
import page_signs
import page_sizes
import page_store
import page_views
import page_work
from cases import run, run_all
from chromium import Chromium
from firefox import Firefox
from page_seen import IS_OWN, LOCK, REVIEWERS, page_of, second_page, told

BROWSERS = [Chromium, Firefox]
MODULES = [page_round, page_store, page_work, page_looks, page_facts, page_sizes, page_signs, page_views, page_hostile, page_large]
CASES = [case for module in MODULES for case in module.CASES]
IN_EACH = page_round.CASES + page_store.CASES


def same_pages():
    """The program's pages are those of the second writer, byte for byte."""
    for name, journals, locks, *given in [
        ("contract.xml", REVIEWERS, []), ("contract.xml", REVIEWERS[::-1] + REVIEWERS, [LOCK]), ("contract.xml", [], []),
        ("contract.xml", REVIEWERS, [LOCK], 'Supply <July> & "Co"', "0"), ("contract.xml", [], [], None, "9"), ("contract.xml", [], [], ""),
        ("contract.xml", [], [], None, None, False),
        ("plain.xml", ["ann.journal", "bob.journal"], []), ("letter.xml", [], []), ("terms.xml", ["terms.ann.journal"], []),
        ("joins.xml", [], []), ("properties.xml", [], []), ("rows.xml", [], []), ("moves.xml", [], []),
    ]:
        said = " ".join([name, *journals, *locks, *map(str, given)])
        told("the page of " + said, page_of(name, journals, locks, *given) == second_page(name, journals, locks, *given), "other bytes")


def main(words):
    if words[:1] == ["--picture"]:
        return run(lambda driven: page_looks.pictured(driven, words[1]), Chromium)
    if IS_OWN:
        same_pages()
    run_all(BROWSERS, words, "pages", CASES, IN_EACH, page_large.MEASURES)


main(sys.argv[1:])
