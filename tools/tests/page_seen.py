"""What the tests of pages share: how a case is told, pages of packages, and a page that is open in a browser.

The pages are those of the program that REDLINE names, where it has the command `page`, else those of examples/page.py.
What a journal comes to is the program's `write`, else that of examples/reading.py.
"""
import os
import subprocess
import sys
import time

TOP = os.path.dirname(os.path.dirname(os.path.dirname(os.path.abspath(__file__))))
EXAMPLES = os.path.join(TOP, "examples")
sys.path.insert(0, EXAMPLES)

import page
import reading

REDLINE = os.environ.get("REDLINE", "")
REVIEWERS = ["contract.ann.journal", "contract.bob.journal", "contract.cara.journal"]
LOCK = "Dana Fox & Co"
TAB, ENTER, SPACE = "\ue004", "\ue007", " "


def told(name, is_right, why=""):
    """Tells how a case went, in the browser that is driven."""
    name = told.browser + name
    print("ok " + name if is_right else "FAILED %s: %s" % (name, why or "it is not so"), flush=True)


told.browser = ""


def same(name, came, wanted):
    told(name, came == wanted, "it is %r and not %r" % (str(came)[:200], str(wanted)[:200]))


def told_times(name, times, limits):
    """Tells how long steps took, and judges it only where the case was asked for by its name: what else a machine does is no fault."""
    print("\n".join("%s: %-20s %6.2f s" % (name, *it) for it in times), file=sys.stderr)
    if not {"large", "largest", "authors"} & set(sys.argv):
        return print("skipped %s%s, times: they are judged where the case is called by its name" % (told.browser, name))
    for step, seconds in times:
        told("%s, %s" % (name, step), seconds <= limits[step], "%.2f s" % seconds)


def call(*words, folder=EXAMPLES):
    return subprocess.run([REDLINE, *words], cwd=folder, capture_output=True)


def has_page():
    return bool(REDLINE) and call("page", "plain.xml").returncode == 0


IS_OWN = has_page()
PACKAGE = '<pkg:package xmlns:pkg="http://schemas.microsoft.com/office/2006/xmlPackage">%s</pkg:package>'
PART = '<pkg:part pkg:name="%s" pkg:contentType="x"><pkg:xmlData><w:%s xmlns:w="%s">%s</w:%s></pkg:xmlData></pkg:part>'
WORD = "http://schemas.openxmlformats.org/wordprocessingml/2006/main"


def in_package(body, more=(), is_last=False):
    """A package with this body, and with more parts behind it or before it, each a name, a root and what it holds."""
    whole = [("/word/document.xml", "document", "<w:body>%s</w:body>" % body)]
    parts = [*more, *whole] if is_last else [*whole, *more]
    return PACKAGE % "".join(PART % (name, root, WORD, inside, root) for name, root, inside in parts)


LEVEL = '<w:lvl w:ilvl="%d"><w:start w:val="1"/><w:numFmt w:val="%s"/><w:lvlText w:val="%s"/></w:lvl>'
LEVELS = "".join(LEVEL % level for level in [(0, "decimal", "%1."), (1, "decimal", "%1.%2"), (2, "lowerLetter", "(%3)")])
NUMBERING = '<w:abstractNum w:abstractNumId="0">%s</w:abstractNum><w:num w:numId="1"><w:abstractNumId w:val="0"/></w:num>' % LEVELS
NUMBERING_RELATIONS = (
    '<pkg:part pkg:name="/word/_rels/document.xml.rels" pkg:contentType="x"><pkg:xmlData><Relationships xmlns="x">'
    '<Relationship Type="http://x/numbering" Target="numbering.xml"/></Relationships></pkg:xmlData></pkg:part>'
)


def in_numbered(body, more=()):
    """The same with a list of three levels, that of the num 1."""
    parts = [("/word/numbering.xml", "numbering", NUMBERING), *more]
    return in_package(body, parts).replace("</pkg:package>", NUMBERING_RELATIONS + "</pkg:package>")


def example(name):
    return page.read(os.path.join(EXAMPLES, name))


def second_page(name, journals=(), locks=(), title=None, rank=None, has_pictures=True):
    entries = sum((page.entries_of(example(it)) for it in journals), [])
    return page.page(reading.Package(example(name)), entries, locks, title, rank, has_pictures).encode()


def page_of(name, journals=(), locks=(), title=None, rank=None, has_pictures=True):
    """The page of a package, a file in examples/ or named whole."""
    if not IS_OWN:
        return second_page(name, journals, locks, title, rank, has_pictures)
    given = [*[("--lock", lock) for lock in locks], ("--title", title), ("--rank", rank)]
    without = [] if has_pictures else ["--no-pictures"]
    made = call("page", name, *journals, *[word for pair in given if pair[1] is not None for word in pair], *without)
    return made.stdout


def written(name, journals):
    if REDLINE:
        return call("write", name, *journals).stdout
    entries = sum((page.entries_of(example(it)) for it in journals), [])
    return reading.written(reading.Package(example(name)), entries).encode()


class Seen:
    """A page that is open in the browser, and what a reviewer does there. Each change has its own row, but where edits are to be rows."""

    def __init__(self, driven, whole, has_edits=False):
        self.driven, self.file = driven, os.path.join(driven.folder, "page.html")
        with open(self.file, "wb") as file:
            file.write(whole)
        driven.open(self.file)
        if not has_edits:
            self.run("const it = document.querySelector('#together'); if (it && it.checked && !document.querySelector('aside').inert) it.click()")

    def run(self, script, *words):
        return self.driven.run(script, *words)

    def outside(self, script, given=None):
        """What the page answers to a page around it; `given` is there by this name."""
        return self.run("const given = arguments[0], { redline } = window.wrappedJSObject || window; return " + script, given)

    def press(self, number, word):
        selector = '#revision-%d button[value="%s"]' % (number, word)
        self.run("document.querySelector(arguments[0]).scrollIntoView({ block: 'center' })", selector)
        self.driven.click(selector)

    def name(self, name):
        self.run("document.querySelector('#person').value = ''; document.querySelector('#person').focus()")
        self.driven.type("#person", name)
        self.driven.keys(TAB)

    def asked(self):
        """The text of the question that is open, or the empty text."""
        return self.run("const it = document.querySelector('dialog[open]'); return it ? it.innerText : ''")

    def answer(self, value):
        """Presses an answer to the question that opens."""
        selector = 'dialog[open] .answer[value="%s"]' % value
        wait(lambda: self.run("return document.querySelector(arguments[0]) !== null", selector))
        self.driven.click(selector)
        wait(lambda: not self.run("return document.querySelector(arguments[0]) !== null", selector))
        # (what it brings comes after the event that closes the question)
        self.driven.run_async("setTimeout(arguments[arguments.length - 1], 20)")

    def stay(self):
        """From now on a change that was decided stays the chosen one."""
        self.run("const it = document.querySelector('#advance'); if (it.checked) it.click()")

    def pick(self, field, value):
        """Chooses in a filter, or types into the search."""
        self.run(
            "const it = document.querySelector(arguments[0]); it.value = arguments[1]; it.dispatchEvent(new Event('change'));"
            "if (it.type === 'search') it.dispatchEvent(new KeyboardEvent('keydown', { key: 'Enter' }))", field, value)

    def chosen(self):
        """The number of the change that is chosen, or 0."""
        return self.run("const it = document.querySelector('aside li[aria-current]'); return it ? Number(it.id.slice(9)) : 0")

    def line(self):
        return self.run("return document.querySelector('#line').textContent")

    def tally(self):
        return self.run("return document.querySelector('#tally').textContent")

    def words(self):
        """The decisions of the page, by number. Those of rows that are in the list are shown there."""
        found = dict(self.run("return Array.from(recordNow().words, ([at, it]) => [at + 1, it.word])"))
        shown = self.run("return [...document.querySelectorAll('aside > ol > li[id^=revision]')].map((it) => [Number(it.id.slice(9)), it.dataset.say || ''])")
        return found if all(found.get(number, "") == word for number, word in shown) else {"shown": shown, "decided": found}

    def saved(self, name):
        """The journal that the page saves in a file of this name."""
        file = os.path.join(self.driven.folder, name + ".journal")
        if os.path.exists(file):
            os.remove(file)
        self.driven.click("#save")
        self.answer("save")
        wait(lambda: os.path.exists(file) and os.path.getsize(file) > 0)
        return page.read(file)


def wait(is_there, seconds=20):
    end = time.time() + seconds
    while not is_there() and time.time() < end:
        time.sleep(0.05)
    return is_there()
