"""The desk that is open in a browser, and what a person does there."""
import base64
import hashlib
import os
import re
import subprocess
import time

from page_seen import EXAMPLES, TOP, told, wait

REDLINE = os.environ.get("REDLINE", "")
FLATOPC = os.path.join(TOP, "tools", "flatopc")
DOCX = os.path.join(TOP, "tools", "redline-docx")
DESKS = [os.environ.get("REDLINE_DESK", ""), os.path.join(TOP, "crates", "redline", "out", "redline-desk.html")]
DROP = """
const bytes = (it) => Uint8Array.from(atob(it), (c) => c.charCodeAt(0));
const given = new DataTransfer();
for (const [name, data] of arguments[0]) given.items.add(new File([bytes(data)], name));
document.querySelector(arguments[1]).dispatchEvent(new DragEvent("drop", { dataTransfer: given, bubbles: true, cancelable: true }));
"""


def built():
    """The desk to test: the one that REDLINE_DESK names, else the one that was built here, else none."""
    return next((os.path.abspath(it) for it in DESKS if it and os.path.isfile(it)), "")


def read(path):
    with open(path, "rb") as file:
        return file.read()


def example(name):
    return read(os.path.join(EXAMPLES, name))


def output(*words):
    """What a command writes."""
    return subprocess.run([str(it) for it in words], capture_output=True, check=False).stdout


def unpacked(docx, folder):
    """The package of a .docx, as flatopc makes it."""
    to = os.path.join(folder, "unpacked.xml")
    subprocess.run([FLATOPC, "unpack", "-f", docx, to], check=True, capture_output=True)
    return read(to)


def for_package(journal, package):
    """A journal of the examples as one of another package with the same changes."""
    lines = journal.split(b"\n")
    lines[1] = b"document " + hashlib.sha256(package).hexdigest().encode()
    return b"\n".join(lines)


class Desk:
    """The desk in a browser."""

    def __init__(self, driven, file="", waits=True):
        self.driven = driven
        driven.open(file or built())
        if waits:
            self.wait_for_start()

    def wait_for_start(self):
        self.wait("document.body.dataset.state !== 'starting' || document.querySelector('.is-fault') !== null")
        self.rest()

    def run(self, script, *words):
        return self.driven.run(script, *words)

    def wait(self, condition, seconds=60):
        return wait(lambda: self.run("return Boolean(%s)" % condition), seconds)

    def rest(self, seconds=120):
        """Waits until nothing goes on any more."""
        return self.wait("document.body.dataset.working !== 'true'", seconds)

    def give(self, *files):
        """Chooses files, as in the window of the system for that."""
        self.driven.choose_file("#picker", "\n".join(files))
        return self.after()

    def drop(self, *files, on="body", answer="yes"):
        """Drops files, each a name and its bytes."""
        self.run(DROP, [[name, base64.b64encode(content).decode()] for name, content in files], on)
        return self.after(answer)

    def after(self, answer="yes"):
        """What is told once all has been done, where a question is answered so."""
        time.sleep(0.05)
        self.wait("document.body.dataset.working !== 'true' || document.getElementById('question').open", 120)
        if self.run("return document.getElementById('question').open"):
            self.driven.click("#question-" + answer)
            time.sleep(0.05)
            self.rest()
        return self.message()

    def press(self, selector):
        self.driven.click(selector)
        return self.after()

    def step(self, name):
        return self.press("#tab-" + name)

    def message(self):
        return self.run("return [...document.querySelectorAll('#message p')].map((it) => it.textContent).join(' ')")

    def is_fault(self):
        return self.run("return document.getElementById('message').classList.contains('is-fault')")

    def text(self, selector):
        return self.run("return document.querySelector(arguments[0]).textContent", selector)

    def in_page(self, script, *words):
        """What a script returns in the page of the document."""
        return self.run("return (function (page, ...words) { %s })(document.getElementById('page').contentWindow, ...arguments)" % script, *words)

    def decide(self, number, word):
        """Presses a button of a change in the page."""
        self.in_page("page.redline.choose(words[0]); page.document.querySelector('#revision-' + words[0] + ' button[value=' + words[1] + ']').click()", number, word)

    def name(self, name):
        """Types a name into the page."""
        self.in_page("const it = page.document.getElementById('person'); it.value = words[0]; it.dispatchEvent(new Event('change', { bubbles: true }))", name)

    def decisions(self):
        """The journal of the page, without its head, as it would be under some name."""
        return self.in_page("return page.redline.journal('x').split('\\n').slice(3, -1).map((it) => it.split('\\t').slice(1, 3).join(' '))")

    def saves_journal(self, name):
        """The journal of the page, once its summary was agreed to."""
        agree = "const it = page.document.querySelector('dialog[open] .answer[value=save]'); if (it) it.click(); return it !== null"
        return self.saves("#save-journal", name, lambda: wait(lambda: self.in_page(agree)))

    def saves(self, selector, name, then=lambda: None):
        """The file that is saved under this name when a button is pressed."""
        file = os.path.join(self.driven.folder, name)
        if os.path.exists(file):
            os.remove(file)
        self.press(selector)
        then()
        if not wait(lambda: os.path.exists(file) and os.path.getsize(file) > 0 and not os.path.exists(file + ".part")):
            there = [it for it in os.listdir(self.driven.folder) if not it.startswith(".")]
            told("saved: " + name, False, "there are %s; it says: %s" % (there, self.run("return [...document.querySelectorAll('.told')].map((it) => it.textContent).join(' ')")))
            return b""
        time.sleep(0.1)
        return read(file)

    def requests(self):
        """What was asked for, in the desk and in its frames, beside what the page itself holds."""
        return self.run("""
            const windows = [window, ...Array.from(document.querySelectorAll('iframe'), (it) => it.contentWindow)];
            return windows.flatMap((it) => it.performance.getEntriesByType('resource')).map((it) => it.name).filter((it) => !it.startsWith('blob:'));""")


def number_in(text):
    """The first number in a text."""
    found = re.search(r"\d+", text)
    return int(found.group()) if found else 0
