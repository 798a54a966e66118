"""complete.py FILE LINE WANTED: what bash makes of the line and a tab, with the completions of the file. It waits for what is
wanted, and at most a minute."""
import os
import pty
import select
import sys
import time


def wait_for(shell, text, wanted, end):
    """What the shell has written up to now, once that holds what is wanted."""
    while wanted not in text and time.monotonic() < end:
        if select.select([shell], [], [], 0.2)[0]:
            text += os.read(shell, 65536)
    return text


def main(file, line, wanted):
    child, shell = pty.fork()
    if child == 0:
        os.environ.update(TERM="dumb", PS1="$ ", COLUMNS="200", LC_ALL="C.UTF-8")
        os.execvp("bash", ["bash", "--norc", "--noprofile", "-i"])
    end = time.monotonic() + 60
    os.write(shell, b"bind 'set bell-style none'; stty cols 200; . '%s'; echo re''ady\n" % file.encode())
    wait_for(shell, b"", b"ready\r\n", end)
    os.write(shell, line.encode() + b"\t")
    sys.stdout.buffer.write(wait_for(shell, b"", wanted.encode(), end))
    os.kill(child, 9)
    os.waitpid(child, 0)


main(*sys.argv[1:])
