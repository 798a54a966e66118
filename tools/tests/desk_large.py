"""A large document at the desk: how long it takes until it is on the screen, and until a decision is seen.

    python3 desks.py large               5 MB with 20,000 changes
    python3 desks.py largest             60 MB with 200,000 changes
"""
import os
import sys
import time

from desk_seen import Desk
from page_large import large_package, largest_package
from page_seen import same, told, told_times

# What a person waits for, in seconds, on a machine with nothing else to do.
WANTED = {"start": 0.3, "on screen": 4, "decided": 0.1}
DECIDE = """
const done = arguments[arguments.length - 1], page = document.getElementById("page").contentWindow;
page.redline.choose(7);
const button = page.document.querySelector("#revision-7 button[value=accept]"), begun = performance.now();
button.click();
requestAnimationFrame(() => { const it = new MessageChannel(); it.port1.onmessage = () => done(performance.now() - begun); it.port2.postMessage(0); });
"""


def opened(it, whole):
    """How long it took until the desk had started, until a document was on the screen, and until a decision in it was seen."""
    started = it.run("return performance.getEntriesByName('ready')[0].startTime")
    it.give(whole)
    shown = it.run("return performance.measure('on screen', 'opening', 'shown').duration")
    return [(name, took / 1000) for name, took in (("start", started), ("on screen", shown), ("decided", it.driven.run_async(DECIDE)))]


def kept(driven, package):
    """A file of this package."""
    file = os.path.join(driven.folder, "large.xml")
    with open(file, "w", newline="", encoding="utf-8") as out:
        out.write(package)
    return file


def large(driven):
    it = Desk(driven)
    times = opened(it, kept(driven, large_package(10000)))
    same("20,000 changes in a document of 5 MB", it.text("#count"), "20,000 changes")
    same("decided in it", it.decisions(), ["7 accept"])
    it.step("standing")
    told("its tables are shown in parts", 0 < it.run("return document.querySelectorAll('#tables tr').length") < 1000)
    it.step("written")
    told("and it is shown as written", "19,999 changes" in it.text("#written-told"), it.text("#written-told"))
    told_times("large desk", times, WANTED)


def largest(driven):
    """200,000 changes in a package of 60 MB, and what the browser holds of memory by then."""
    it = Desk(driven)
    times = opened(it, kept(driven, largest_package()))
    same("200,000 changes in a document of 60 MB", it.text("#count"), "200,000 changes")
    same("decided in it", it.decisions(), ["7 accept"])
    print("%slargest desk: %d MB" % (told.browser, driven.held() >> 20), file=sys.stderr)
    it.step("save")
    begun = time.time()
    whole = it.saves("#save-document", "large.decided.xml")
    told("and it is saved", whole.startswith(b"<pkg:package"), str(whole[:60]))
    told_times("largest desk", times + [("saved", time.time() - begun)], {**WANTED, "on screen": 60, "decided": 1, "saved": 30})


CASES = [large]
# What takes long, and is done only where it is named.
MEASURES = [largest]
