"""A page with many changes: whether all is there, and how long each step takes.

    python3 pages.py large               20,000 changes, in each browser, as the test has it
    python3 pages.py largest authors     200,000 changes in a package of 60 MB, and 10,000 authors: measured, three times
"""
import os
import time

from page_seen import Seen, in_package, page_of, same, told, told_times

WORDS = "The Seller keeps the title to the goods until they are paid for in full, and the Buyer looks after them with care.".split()
NAMES = ["Ann Gray", "Bob Hay", "Cara Lee", "Dana Fox &amp; Co"]


def large_package(paragraphs, words=49, names=NAMES):
    out = []
    for place in range(paragraphs):
        one, other = names[place % len(names)], names[(place + 1) % len(names)]
        text = " ".join(WORDS[(place + word) % len(WORDS)] for word in range(words))
        out.append(
            '<w:p><w:r><w:t xml:space="preserve">%d. %s </w:t></w:r><w:del w:id="%d" w:author="%s" w:date="2026-11-03T14:30:00Z"><w:r>'
            "<w:delText>thirty</w:delText></w:r></w:del><w:ins w:id=\"%d\" w:author=\"%s\"><w:r><w:t>fourteen</w:t></w:r></w:ins></w:p>"
            % (place, text, 2 * place, one, 2 * place + 1, other))
    return in_package("".join(out))


# How long a step takes until the page is painted again, in milliseconds.
PAINTED = """
const done = arguments[arguments.length - 1], begun = performance.now();
%s;
requestAnimationFrame(() => { const it = new MessageChannel(); it.port1.onmessage = () => done(performance.now() - begun); it.port2.postMessage(0); });
"""
PRESSED = "(document.activeElement || document.body).dispatchEvent(new KeyboardEvent('keydown', { key: '%s', bubbles: true }))"
FILTERED = "const it = document.querySelector('#author'); it.selectedIndex = %d; it.dispatchEvent(new Event('change'))"
OPENED = """
const { domComplete } = performance.getEntriesByType('navigation')[0];
return [performance.getEntriesByType('paint')[0].startTime / 1000, domComplete / 1000];
"""
STEPS = [
    ("the first one chosen by key", PRESSED % "j"),
    ("decided by key", PRESSED % "a"),
    ("the next one by key", PRESSED % "j"),
    ("decided by button", "document.querySelector('#revision-2 button[value=reject]').click()"),
    ("the last one chosen", "redline.choose(%d)"),
    ("filtered by author", FILTERED % 1),
    ("all of them accepted", "document.querySelector('#accept-all').click()"),
    ("filtered by none", FILTERED % 0),
    ("seen as final", "document.querySelector('input[value=final]').click()"),
    ("decided in that view", PRESSED % "r"),
    ("seen with marks", "document.querySelector('input[value=marks]').click()"),
]


def opened(driven, package, times=1):
    """The page of a package, opened so many times, and the least times of its first paint and until it is ready."""
    file = os.path.join(driven.folder, "large.xml")
    with open(file, "w", newline="", encoding="utf-8") as out:
        out.write(package)
    whole = page_of(file)
    figures = []
    for _ in range(times):
        seen = Seen(driven, whole)
        figures.append(seen.run(OPENED))
    return seen, [(name, min(it)) for name, it in zip(["first paint", "ready"], zip(*figures))]


def timed(driven, count, steps=STEPS):
    return [(name, driven.run_async(PAINTED % (script.replace("%d", str(count)))) / 1000) for name, script in steps]


def large(driven):
    seen, first = opened(driven, large_package(10000), 3)
    same("the list holds the rows near sight", seen.run("return document.querySelectorAll('aside > ol > li[id]').length"), 160)
    same("and has room for the others", seen.run("return document.querySelector('aside > ol > li[id]').ariaSetSize"), "20000")
    times = first + timed(driven, 20000)
    told("deciding in it", seen.run("return recordNow().words.size") > 4000)
    # What a person waits for, in seconds, on a busy machine: a quiet one takes a fourth.
    limits = {"first paint": 4, "ready": 12, "the first one chosen by key": 2, "decided by key": 2, "the next one by key": 2, "decided by button": 2}
    told_times("large page", times, {name: limits.get(name, 8) for name, _ in times})


def least(driven, package, count, steps=STEPS):
    """The least times of three rounds, each in a page of its own."""
    rounds = []
    for _ in range(3):
        # (to leave a page with 200,000 rows takes a while too, which is no part of the next one's time)
        driven.send("Navigate", url="about:blank")
        time.sleep(1)
        _, first = opened(driven, package)
        rounds.append(first + timed(driven, count, steps))
        driven.run("localStorage.clear()")
    return [(name, min(seconds for _, seconds in it)) for it in zip(*rounds) for name in [it[0][0]]]


def largest_package():
    """200,000 changes in 60 MB."""
    return large_package(100000, 65)


def largest(driven):
    """200,000 changes in a package of 60 MB."""
    limits = {"first paint": 1.5, "ready": 30, "filtered by author": 2, "filtered by none": 2}
    by_key = {name: 0.3 for name in ["the first one chosen by key", "decided by key", "the next one by key", "decided by button", "decided in that view"]}
    times = least(driven, largest_package(), 200000)
    told_times("largest page", times, {name: {**limits, **by_key}.get(name, 10) for name, _ in times})


def authors(driven):
    """20,000 changes by 10,000 authors."""
    package = large_package(10000, names=["Author number %d" % it for it in range(10000)])
    steps = [("filtered by one of 10,000", FILTERED % 5000), ("filtered by none", FILTERED % 0)]
    times = least(driven, package, 20000, steps)
    told_times("page of 10,000 authors", times, {name: 30 if name == "ready" else 1.5 if name == "first paint" else 1 for name, _ in times})


CASES = [large]
# What takes long, and is done only where it is named.
MEASURES = [largest, authors]
