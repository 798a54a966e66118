"""Debian's chromium, driven over its own driver's HTTP."""
import json
import re
import shutil
import subprocess
import urllib.error
import urllib.request

from browser import Browser, SECONDS, SECONDS_TO_END, SECONDS_TO_START

# Where the driver takes each command. What is in braces is one of the command's words.
PATHS = {
    "Navigate": "POST /url",
    "SetTimeouts": "POST /timeouts",
    "ExecuteScript": "POST /execute/sync",
    "ExecuteAsyncScript": "POST /execute/async",
    "FindElement": "POST /element",
    "FindElements": "POST /elements",
    "ElementClick": "POST /element/{id}/click",
    "ElementClear": "POST /element/{id}/clear",
    "ElementSendKeys": "POST /element/{id}/value",
    "PerformActions": "POST /actions",
    "GetComputedLabel": "GET /element/{id}/computedlabel",
    "GetComputedRole": "GET /element/{id}/computedrole",
    "GetWindowHandle": "GET /window",
    "NewWindow": "POST /window/new",
    "SwitchToWindow": "POST /window",
    "SwitchToFrame": "POST /frame",
    "TakeScreenshot": "GET /screenshot",
    "Print": "POST /print",
    "SetWindowRect": "POST /window/rect",
    "GetLog": "POST /se/log",
    "DoTool": "POST /goog/cdp/execute",
}
ARGUMENTS = ["--headless=new", "--no-sandbox", "--disable-gpu", "--hide-scrollbars", "--disable-dev-shm-usage"]


class Chromium(Browser):
    name = "chromium"

    @staticmethod
    def is_there():
        return bool(shutil.which("chromium") and shutil.which("chromedriver"))

    def start(self):
        self.process = self.begin("chromedriver", "--port=0", stdout=subprocess.PIPE)
        self.base = "http://127.0.0.1:" + self.port()
        options = {
            "binary": shutil.which("chromium"),
            "args": ARGUMENTS + ["--user-data-dir=" + self.folder + "/profile"],
            "prefs": {"download.default_directory": self.folder, "download.prompt_for_download": False},
        }
        wanted = {"browserName": "chrome", "goog:chromeOptions": options, "goog:loggingPrefs": {"browser": "ALL"}}
        made = self.ask("POST", self.base + "/session", {"capabilities": {"alwaysMatch": wanted}}, SECONDS_TO_START)
        self.base += "/session/" + made["sessionId"]

    def port(self):
        """The port that the driver tells once it listens."""
        for line in self.process.stdout:
            found = re.search(r"started successfully on port (\d+)", line)
            if found:
                return found.group(1)
        raise RuntimeError("chromedriver doesn't start")

    def ask(self, method, address, words, seconds=SECONDS):
        data = json.dumps(words).encode() if method == "POST" else None
        request = urllib.request.Request(address, data, {"Content-Type": "application/json"}, method=method)
        try:
            with urllib.request.urlopen(request, timeout=seconds) as answer:
                return json.load(answer)["value"]
        except urllib.error.HTTPError as error:
            raise RuntimeError("%s: %s" % (address[len(self.base) :], json.load(error)["value"]["message"])) from None

    def send(self, command, **words):
        method, path = PATHS[command].split(" ")
        return self.ask(method, self.base + path.format(**words), words)

    def tool(self, command, **params):
        """A command of the browser's own tools for developers."""
        return self.send("DoTool", cmd=command, params=params)

    def show(self, width, height, scheme, media, zoom):
        size = {"width": width // zoom, "height": height // zoom, "deviceScaleFactor": zoom}
        self.tool("Emulation.setDeviceMetricsOverride", mobile=False, **size)
        self.tool("Emulation.setEmulatedMedia", media=media, features=[{"name": "prefers-color-scheme", "value": scheme}])

    def complaints(self):
        return [it["message"] for it in self.send("GetLog", type="browser")]

    def stop(self):
        self.ask("DELETE", self.base, {}, SECONDS_TO_END)
