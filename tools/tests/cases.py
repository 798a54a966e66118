"""Runs cases in browsers, each case in a browser of its own, and tells how it went.

A browser that doesn't start is tried again, since on a busy machine one sometimes doesn't. What ends a case early fails that case
alone: those after it are run.
"""
import signal
import sys

from page_seen import told

TRIES = 3


def started(kind):
    """A browser of this kind."""
    for _ in range(TRIES):
        try:
            return kind()
        except (RuntimeError, OSError) as error:
            why = error
    raise RuntimeError("%s did not start %d times: %s" % (kind.name, TRIES, why))


def run(case, kind):
    """A case in a browser of its own."""
    try:
        driven = started(kind)
        try:
            case(driven)
        finally:
            driven.close()
    except Exception as error:
        told(case.__name__, False, "%s: %s" % (type(error).__name__, str(error).split("\n")[0]))


def run_all(kinds, words, what, cases, in_each, measures):
    """All cases in the first of these browsers, and some in each other one; or as the words say, by the names of browsers and cases."""
    # Where the tests are told to end, the browser in use is closed.
    signal.signal(signal.SIGTERM, lambda number, _: sys.exit(128 + number))
    named = [case for case in cases + measures if case.__name__ in words]
    for kind in [kind for kind in kinds if kind.name in words] or kinds:
        if not kind.is_there():
            print("skipped %s in %s: it isn't there" % (what, kind.name))
            continue
        told.browser = kind.name + ": "
        for case in named or (cases if kind is kinds[0] or words else in_each):
            run(case, kind)
