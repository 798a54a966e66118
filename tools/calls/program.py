"""A process of the program, over files in memory. (The library for processes would take as long to load as the program to run.)"""
import os

# SIGPIPE and SIGXFSZ, of which Python takes no notice, and the program should.
DEFAULT_SIGNALS = (13, 25)


class Running:
    """The program with these words, as it runs: `lines` are those that it writes on standard error. Its output goes to a file in
    memory where it is caught."""

    def __init__(self, words, handles, is_caught):
        for handle in handles:
            os.set_inheritable(handle, True)
        self.caught = os.memfd_create("output") if is_caught else None
        read, write = os.pipe()
        actions = [(os.POSIX_SPAWN_OPEN, 0, os.devnull, os.O_RDONLY, 0), (os.POSIX_SPAWN_DUP2, write, 2)]
        if is_caught:
            actions.append((os.POSIX_SPAWN_DUP2, self.caught, 1))
        self.lines = open(read, "rb")
        try:
            self.process = os.posix_spawn(words[0], words, os.environ, file_actions=actions, setsigdef=DEFAULT_SIGNALS)
        finally:
            os.close(write)

    def wait(self):
        """The status, or the signal that ended it as a number below 0."""
        return os.waitstatus_to_exitcode(os.waitpid(self.process, 0)[1])

    def output(self):
        """What was caught."""
        with open(self.caught, "rb") as file:
            file.seek(0)
            return file.read()
