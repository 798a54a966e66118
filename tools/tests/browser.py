"""Browsers without a screen, which a test drives as a person would: Debian's chromium and firefox-esr.

Both take the commands of W3C WebDriver by its names. Chromium takes them over its own driver's HTTP, and Firefox over the
socket of its Marionette, so that nothing but the browsers themselves is needed.
"""
import base64
import glob
import os
import re
import shutil
import signal
import subprocess
import tempfile
import unicodedata

ELEMENT = "element-6066-11e4-a52e-4f735466cecf"
# How long a browser may take to start, for a command, and to end.
SECONDS_TO_START, SECONDS, SECONDS_TO_END = 90, 240, 20


def below(process):
    """A process and all that were begun by it or by these, as Linux tells them."""
    begun = {}
    for entry in glob.glob("/proc/[0-9]*/stat"):
        try:
            with open(entry) as file:
                begun.setdefault(int(file.read().rsplit(")", 1)[1].split()[1]), []).append(int(entry.split("/")[2]))
        except OSError:
            pass
    found = [process.pid]
    for it in found:
        found += begun.get(it, [])
    return found


def end(process):
    """Ends a process and all that were begun by it, whether they answer or not."""
    for number in below(process)[1:]:
        try:
            os.kill(number, signal.SIGKILL)
        except ProcessLookupError:
            pass
    process.terminate()
    try:
        process.wait(SECONDS_TO_END)
    except subprocess.TimeoutExpired:
        process.kill()
        process.wait()


def held_by(number):
    """What a process holds of memory; what it shares with others counts by its share."""
    try:
        with open("/proc/%d/smaps_rollup" % number) as file:
            return 1024 * int(re.search(r"^Pss: +(\d+) kB", file.read(), re.M).group(1))
    except OSError:
        return 0


class Browser:
    """A browser with a profile and a folder for downloads of its own, which go when it is closed."""

    name = ""
    # The sides of the smallest window that this browser has.
    least = (0, 0)

    def __init__(self):
        self.folder = tempfile.mkdtemp(prefix="page-")
        self.begun = []
        try:
            self.start()
            self.send("SetTimeouts", script=1000 * SECONDS, pageLoad=1000 * SECONDS)
            self.look(1280, 800)
        except BaseException:
            self.end()
            raise

    def start(self):
        """Starts the browser and a session in it."""
        raise NotImplementedError

    def begin(self, *command, **how):
        """Begins a process that ends with the browser."""
        process = subprocess.Popen(command, stderr=subprocess.DEVNULL, text=True, **how)
        self.begun.append(process)
        return process

    def send(self, command, **words):
        """What a command of WebDriver answers."""
        raise NotImplementedError

    def open(self, file):
        self.send("Navigate", url="file://" + file)

    def run(self, script, *words):
        """What the script returns in the page."""
        return self.send("ExecuteScript", script=script, args=list(words))

    def run_async(self, script, *words):
        """What the script gives to the function that is its last argument."""
        return self.send("ExecuteAsyncScript", script=script, args=list(words))

    def find(self, selector):
        return self.send("FindElement", using="css selector", value=selector)[ELEMENT]

    def click(self, selector):
        self.send("ElementClick", id=self.find(selector))

    def type(self, selector, text):
        """Types into a field that is emptied first."""
        it = self.find(selector)
        self.send("ElementClear", id=it)
        self.send("ElementSendKeys", id=it, text=text)

    def choose_file(self, selector, file):
        self.send("ElementSendKeys", id=self.find(selector), text=file)

    def keys(self, text):
        """Presses keys, wherever the keyboard is."""
        pressed = [{"type": kind, "value": key} for key in text for kind in ("keyDown", "keyUp")]
        self.send("PerformActions", actions=[{"type": "key", "id": "keys", "actions": pressed}])

    def keys_held(self, held, key):
        """Presses a key while another one is held."""
        pressed = [("keyDown", held), ("keyDown", key), ("keyUp", key), ("keyUp", held)]
        self.send("PerformActions", actions=[{"type": "key", "id": "keys", "actions": [{"type": kind, "value": it} for kind, it in pressed]}])

    def spoken(self, selector):
        """The role and the name that a screen reader is told of each element that the selector finds."""
        found = [it[ELEMENT] for it in self.send("FindElements", using="css selector", value=selector)]
        return [(self.send("GetComputedRole", id=it), self.send("GetComputedLabel", id=it)) for it in found]

    def tab(self):
        """This tab, for `go_to`."""
        return self.send("GetWindowHandle")

    def new_tab(self):
        """Opens another tab and goes there."""
        made = self.send("NewWindow", type="tab")["handle"]
        self.go_to(made)
        self.show(*self.looked)
        return made

    def go_to(self, tab):
        self.send("SwitchToWindow", handle=tab)

    def picture(self, name):
        with open(name, "wb") as file:
            file.write(base64.b64decode(self.send("TakeScreenshot")))

    def printed(self):
        """The sheets that the browser prints of this tab, each as the text of a PDF of it."""
        made = subprocess.run(["pdftotext", "-layout", "-", "-"], input=base64.b64decode(self.send("Print")), capture_output=True, check=True)
        return unicodedata.normalize("NFKC", made.stdout.decode()).rstrip("\f").split("\f")

    def look(self, width, height, scheme="light", media="", zoom=1):
        """The size of what is seen, the system's colours, whether it is printed, and how far it is enlarged."""
        self.looked = (width, height, scheme, media, zoom)
        self.show(*self.looked)

    def show(self, width, height, scheme, media, zoom):
        """What `look` does in this browser, and in this tab alone."""
        raise NotImplementedError

    def held(self):
        """How many bytes of memory the system has given to all processes of the browser."""
        return sum(held_by(it) for it in below(self.process))

    def complaints(self):
        """What the browser's console tells, since it was last asked."""
        raise NotImplementedError

    def close(self):
        """Ends the browser; one that doesn't end when it is told to is ended all the same."""
        try:
            self.stop()
        except (RuntimeError, OSError):
            pass
        self.end()

    def stop(self):
        """Tells the browser to end."""
        raise NotImplementedError

    def end(self):
        """Ends all that was begun for this browser, and removes its folder."""
        for process in reversed(self.begun):
            end(process)
        shutil.rmtree(self.folder, ignore_errors=True)
