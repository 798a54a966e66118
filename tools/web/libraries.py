"""Libraries of the program's crates that are made of their present text.

`rt ci` builds a library of each crate. Where one stood in crates/NAME/out before, it puts that back at its end, of whatever text it
was: so what lies in a checkout that was changed or pulled after a check can be older than its program, and nothing there says so. A
room that held no library has only what its own run built. What was proved on this machine before is taken there and not proved again.
"""
import os
import shutil
import subprocess

from kit import PROGRAM, Failed, below, crates_of

# What of a crate says nothing of its library.
BESIDE = ["out", "must-fail"]


def crates_below(checkout):
    """The crates of a checkout that the program is made of, itself included, the lowest first."""
    crates = crates_of(checkout)
    return [name for name in below(crates, PROGRAM) if name in crates] + [PROGRAM]


def copy_crates(checkout, room):
    """Makes a checkout of its own of these crates, without what is made of them."""
    names = crates_below(checkout)
    os.makedirs(os.path.join(room, ".git"))
    shutil.copy(os.path.join(checkout, "HANDLES"), room)
    for name in names:
        shutil.copytree(os.path.join(checkout, "crates", name), os.path.join(room, "crates", name), ignore=shutil.ignore_patterns(*BESIDE))
    with open(os.path.join(checkout, "crates.txt"), encoding="utf-8") as file:
        lines = [line for line in file if line.split("#")[0].partition(":")[0].strip().split(" ")[0] in names]
    with open(os.path.join(room, "crates.txt"), "w", encoding="utf-8") as file:
        file.writelines(lines)


def build_libraries(kit, checkout, room):
    """Copies the crates of a checkout into a room, and has `rt ci` build their libraries there."""
    copy_crates(checkout, room)
    command = [os.path.join(kit, "bin", "rt"), "ci"]
    made = subprocess.run(command, cwd=room, stdin=subprocess.DEVNULL, stdout=subprocess.PIPE, stderr=subprocess.STDOUT, check=False)
    if made.returncode != 0:
        raise Failed("`rt ci` of these crates failed: %s" % made.stdout.decode(errors="replace")[-2000:].strip())
