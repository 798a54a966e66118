"""Opens the desk in browsers, does rounds in it as a person does, and looks at what comes.

    python3 desks.py                     the test: a line for each case, "ok NAME", "FAILED NAME: WHY" or "skipped NAME: WHY".
                                         All cases run in Chromium, and in the other browsers whole rounds
    python3 desks.py firefox             all cases in this browser
    python3 desks.py firefox docx_round  these cases alone, in this browser alone
    python3 desks.py --picture FILE      the picture of the desk for README

The desk is the one that REDLINE_DESK names, or the one that was built. The cases are in desk_*.py.
"""
import sys

import desk_faults
import desk_hostile
import desk_large
import desk_limits
import desk_looks
import desk_round
from cases import run, run_all
from chromium import Chromium
from desk_seen import built
from firefox import Firefox
from webkit import WebKit

BROWSERS = [Chromium, Firefox, WebKit]
CASES = desk_round.CASES + desk_faults.CASES + desk_hostile.CASES + desk_limits.CASES + desk_looks.CASES + desk_large.CASES
IN_EACH = [desk_round.package_round, desk_round.docx_round, desk_round.second_sitting]


def main(words):
    if not built():
        return print("skipped the desk: it hasn't been built")
    if words[:1] == ["--picture"]:
        return run(lambda driven: desk_looks.pictured(driven, words[1]), Chromium)
    run_all(BROWSERS, words, "the desk", CASES, IN_EACH, desk_large.MEASURES)


main(sys.argv[1:])
