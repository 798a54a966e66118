"""Where the program and the desk are: where a variable says, or beside the script that was called, in its checkout, or on the PATH.
Where a variable says it, nothing else takes its place: the program of a checkout would first be built."""
import os

from calls.words import Refused

# From the folder of the script on.
PROGRAMS = ("redline", "../redline")
DESKS = ("redline-desk.html", "../share/redline/redline-desk.html", "../crates/redline/out/redline-desk.html")


def find_redline(here):
    """The program. `here` is the folder of the script that was called."""
    named = os.environ.get("REDLINE")
    if named:
        paths = [named] if "/" in named else on_path(named)
    else:
        paths = [*(os.path.join(here, name) for name in PROGRAMS), *on_path("redline")]
    for path in paths:
        if os.path.isfile(path) and os.access(path, os.X_OK):
            return path
    raise Refused(70, "REDLINE names %s, which is no program" % named if named else "there is no program redline to call; REDLINE may name it")


def find_desk(here):
    """The text of the desk."""
    named = os.environ.get("REDLINE_DESK")
    for path in [named] if named else [os.path.join(here, name) for name in DESKS]:
        if os.path.isfile(path):
            with open(path, encoding="utf-8") as file:
                return file.read()
    raise Refused(70, "REDLINE_DESK names %s, which is no file" % named if named else "there is no redline-desk.html; REDLINE_DESK may name it")


def on_path(name):
    """Where the PATH has programs with this name."""
    return [os.path.join(folder, name) for folder in os.environ.get("PATH", "").split(os.pathsep) if folder]
