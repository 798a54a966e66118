"""WebKitGTK's own small browser, driven over its driver's HTTP, on a screen that Xvfb keeps in memory."""
import glob
import os
import shutil
import socket
import subprocess
import time
import urllib.error
import urllib.request

from browser import SECONDS_TO_START
from chromium import Chromium

BINARIES = "/usr/lib/*/webkit2gtk-4.*/MiniBrowser"


class WebKit(Chromium):
    name = "webkit"

    @staticmethod
    def is_there():
        return bool(shutil.which("WebKitWebDriver") and shutil.which("Xvfb") and glob.glob(BINARIES))

    def start(self):
        environment = {**os.environ, "HOME": self.folder, "XDG_DOWNLOAD_DIR": self.folder, "GDK_BACKEND": "x11", "LIBGL_ALWAYS_SOFTWARE": "1"}
        os.makedirs(self.folder + "/.config")
        with open(self.folder + "/.config/user-dirs.dirs", "w") as file:
            file.write('XDG_DOWNLOAD_DIR="%s"\n' % self.folder)
        screen = self.begin("Xvfb", "-displayfd", "1", "-screen", "0", "1400x1000x24", stdout=subprocess.PIPE)
        environment["DISPLAY"] = ":" + screen.stdout.readline().strip()
        with socket.socket() as free:
            free.bind(("127.0.0.1", 0))
            port = free.getsockname()[1]
        self.process = self.begin("WebKitWebDriver", "--port=%d" % port, stdout=subprocess.DEVNULL, env=environment)
        self.base = "http://127.0.0.1:%d" % port
        self.wait_for(self.base + "/status")
        options = {"binary": sorted(glob.glob(BINARIES))[-1], "args": ["--automation"]}
        made = self.ask("POST", self.base + "/session", {"capabilities": {"alwaysMatch": {"webkitgtk:browserOptions": options}}}, SECONDS_TO_START)
        self.base += "/session/" + made["sessionId"]

    def wait_for(self, address):
        """Waits until the driver listens."""
        end = time.time() + 20
        while True:
            try:
                return urllib.request.urlopen(address, timeout=5).close()
            except (urllib.error.URLError, OSError):
                if time.time() > end:
                    raise RuntimeError("WebKitWebDriver doesn't start") from None
                time.sleep(0.05)

    def show(self, width, height, scheme, media, zoom):
        self.send("SetWindowRect", width=width, height=height)

    def complaints(self):
        # (this driver tells nothing of the console)
        return []
