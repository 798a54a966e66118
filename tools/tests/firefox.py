"""Debian's firefox-esr, driven over the socket of its own Marionette."""
import json
import os
import shutil
import socket
import subprocess
import time

from browser import Browser, SECONDS, SECONDS_TO_END, SECONDS_TO_START

PREFERENCES = {
    "marionette.port": 0,
    "browser.download.folderList": 2,
    "browser.download.useDownloadDir": True,
    "browser.download.always_ask_before_handling_new_types": False,
    "browser.download.alwaysOpenPanel": False,
    "browser.helperApps.neverAsk.saveToDisk": "application/octet-stream",
    "browser.shell.checkDefaultBrowser": False,
    "browser.tabs.remote.separatePrivilegedContentProcess": False,
    "datareporting.policy.dataSubmissionEnabled": False,
    "app.update.enabled": False,
    "dom.ipc.processPrelaunch.enabled": False,
}
# What is done to the whole tab: `arguments` are zoom, colours and media.
LOOK = """
const tab = gBrowser.selectedBrowser.browsingContext;
[tab.fullZoom, tab.prefersColorSchemeOverride, tab.mediumOverride] = arguments;
"""
CONSOLE = """
const found = Services.console.getMessageArray().filter((it) => it instanceof Ci.nsIScriptError && it.sourceName.startsWith("file:"));
Services.console.reset();
return found.map((it) => it.errorMessage);
"""


class Firefox(Browser):
    name = "firefox"
    least = (500, 240)

    @staticmethod
    def is_there():
        return bool(shutil.which("firefox-esr"))

    def start(self):
        profile = self.folder + "/profile"
        os.mkdir(profile)
        with open(profile + "/user.js", "w") as file:
            for name, value in {**PREFERENCES, "browser.download.dir": self.folder}.items():
                file.write("user_pref(%s, %s);\n" % (json.dumps(name), json.dumps(value)))
        words = ["--headless", "--marionette", "--remote-allow-system-access", "--no-remote", "--profile", profile]
        self.process = self.begin("firefox-esr", *words, stdout=subprocess.DEVNULL, env={**os.environ, "HOME": self.folder})
        self.socket = socket.create_connection(("127.0.0.1", self.port(profile)), SECONDS_TO_START)
        self.bytes, self.number = b"", 0
        self.receive()
        self.send("NewSession", capabilities={"alwaysMatch": {"acceptInsecureCerts": True}})
        self.socket.settimeout(SECONDS)

    def port(self, profile):
        """The port that the browser writes down once it listens."""
        end = time.time() + SECONDS_TO_START
        while time.time() < end:
            try:
                with open(profile + "/MarionetteActivePort") as file:
                    return int(file.read())
            except (OSError, ValueError):
                time.sleep(0.05)
        raise RuntimeError("firefox-esr doesn't start")

    def receive(self):
        while b":" not in self.bytes:
            self.bytes += self.received()
        size, self.bytes = self.bytes.split(b":", 1)
        pieces, missing = [self.bytes], int(size) - len(self.bytes)
        while missing > 0:
            pieces.append(self.received())
            missing -= len(pieces[-1])
        whole = b"".join(pieces)
        self.bytes = whole[int(size) :]
        return json.loads(whole[: int(size)])

    def received(self):
        some = self.socket.recv(1 << 20)
        if not some:
            raise RuntimeError("firefox-esr has ended")
        return some

    def send(self, command, **words):
        self.number += 1
        name = command if ":" in command else "WebDriver:" + command
        data = json.dumps([0, self.number, name, words]).encode()
        self.socket.sendall(b"%d:%s" % (len(data), data))
        _, _, error, answer = self.receive()
        if error:
            raise RuntimeError("%s: %s" % (command, error["message"]))
        return answer["value"] if isinstance(answer, dict) and set(answer) == {"value"} else answer

    def run_around(self, script, *words):
        """What the script returns in the browser around the page."""
        self.send("Marionette:SetContext", value="chrome")
        try:
            return self.run(script, *words)
        finally:
            self.send("Marionette:SetContext", value="content")

    def show(self, width, height, scheme, media, zoom):
        more = max(1, *(-(-least // side) for least, side in zip(self.least, (width, height))))
        self.run_around(LOOK, more * zoom, scheme, media)
        frame = self.run_around("return [outerWidth - gBrowser.selectedBrowser.clientWidth, outerHeight - gBrowser.selectedBrowser.clientHeight]")
        self.send("SetWindowRect", width=more * width + frame[0], height=more * height + frame[1])

    def complaints(self):
        return self.run_around(CONSOLE)

    def stop(self):
        self.socket.settimeout(SECONDS_TO_END)
        with self.socket:
            self.send("Marionette:Quit", flags=["eForceQuit"])
