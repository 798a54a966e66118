"""Browsers that don't start or don't end, and cases that end early: each fails its own case, and leaves nothing. Prints a line for each.
So do tests that are told to end.

A driver that hangs stands for Chromium's: it listens, begins another process, and answers nothing.
"""
import contextlib
import io
import os
import signal
import socket
import tempfile
import time

import cases
import chromium
from page_seen import same, told

DRIVER = """#!/bin/sh
sleep 1000 &
echo "$$ $!" >>'%s'
echo "ChromeDriver was started successfully on port %d."
wait
"""


class Fake:
    """A browser that starts at the third time, and a count of those that were closed."""

    name, starts, closed = "fake", 0, 0

    def __init__(self):
        Fake.starts += 1
        if Fake.starts < 3:
            raise OSError("timed out")

    @staticmethod
    def is_there():
        return True

    def close(self):
        Fake.closed += 1


def goes_well(driven):
    told("it went well", True)


def ends_early(driven):
    raise KeyError("no such row")


def lines_of(*words):
    """What running cases tells, line by line."""
    before = told.browser
    with contextlib.redirect_stdout(io.StringIO()) as out:
        cases.run_all(*words)
    told.browser = before
    return out.getvalue().splitlines()


def is_running(number):
    """Whether there is such a process that hasn't ended."""
    try:
        with open("/proc/%d/stat" % number) as file:
            return file.read().rsplit(")", 1)[1].split()[0] != "Z"
    except OSError:
        return False


def hangs():
    """A driver that answers nothing fails its case, is tried again, and is ended with all that it began."""
    with tempfile.TemporaryDirectory() as folder, socket.create_server(("127.0.0.1", 0)) as server:
        begun, path, limit = os.path.join(folder, "begun"), os.environ["PATH"], chromium.SECONDS_TO_START
        for name, text in [("chromedriver", DRIVER % (begun, server.getsockname()[1])), ("chromium", "#!/bin/sh\n")]:
            with open(os.path.join(folder, name), "w") as file:
                file.write(text)
            os.chmod(file.name, 0o755)
        os.environ["PATH"], chromium.SECONDS_TO_START = folder + ":" + path, 0.5
        lines = lines_of([chromium.Chromium], [], "it", [goes_well], [], [])
        os.environ["PATH"], chromium.SECONDS_TO_START = path, limit
        with open(begun) as file:
            numbers = [int(number) for line in file for number in line.split()]
    wanted = ["FAILED chromium: goes_well: RuntimeError: chromium did not start 3 times: timed out"]
    same("a browser that hangs at its start fails its case", lines, wanted)
    same("it was tried three times", len(numbers), 2 * cases.TRIES)
    same("nothing that it began is left", [number for number in numbers if is_running(number)], [])


def told_to_end():
    """Tests that are told to end close the browser in use."""
    closing, closed = os.pipe()
    number = os.fork()
    if number == 0:
        Fake.close = lambda driven: os.write(closed, b"closed")
        os.dup2(closed, 1)
        cases.run_all([Fake], [], "it", [lambda driven: (os.write(closed, b"open, "), time.sleep(60))], [], [])
    came = os.read(closing, 6)
    os.kill(number, signal.SIGTERM)
    status = os.waitstatus_to_exitcode(os.waitpid(number, 0)[1])
    same("tests that are told to end close the browser", [came + os.read(closing, 6), status], [b"open, closed", 128 + signal.SIGTERM])


def main():
    lines = lines_of([Fake], [], "it", [goes_well, ends_early, goes_well], [], [])
    wanted = ["ok fake: it went well", "FAILED fake: ends_early: KeyError: 'no such row'", "ok fake: it went well"]
    same("a browser is tried again, and a case that ends early ends no other one", lines, wanted)
    same("each browser that started is closed", [Fake.starts, Fake.closed], [5, 3])
    hangs()
    told_to_end()


main()
