"""Calls of redline over files in memory."""
import os
import subprocess

# A choice that chooses nothing: a span in which no moment is.
NOTHING = ("--accept", "span:2000-01-01T00:00:00Z/2000-01-01T00:00:00Z")
# A word of a call has at most so many numbers, and a call so many bytes of them: the system bounds both.
NUMBERS, BYTES = 10000, 1000000


class CallFailed(Exception):
    """A call that should have succeeded, with its status and lines."""

    def __init__(self, status, lines):
        super().__init__("redline ended with status %d" % status)
        self.status, self.lines = status, lines


def ranges(numbers):
    """Rising numbers as the listed ones and ranges of a choice."""
    found = []
    for number in numbers:
        if found and found[-1][1] == number - 1:
            found[-1][1] = number
        else:
            found.append([number, number])
    return ["%d" % begin if begin == end else "%d-%d" % (begin, end) for begin, end in found]


class Program:
    """The program, and the files in memory that it is given by name."""

    def __init__(self, path, handles=()):
        self.path, self.handles = path, list(handles)

    def hold(self, data):
        """The name of a file in memory with these bytes."""
        handle = os.memfd_create("held", 0)
        with open(handle, "wb", closefd=False) as file:
            file.write(data)
        self.handles.append(handle)
        return "/proc/self/fd/%d" % handle

    def drop(self, name):
        """Gives back the memory of a file that `hold` made."""
        handle = int(name.rpartition("/")[2])
        self.handles.remove(handle)
        os.close(handle)

    def begin(self, *words):
        """A call that goes on beside what comes next, until `end` asks for its answer."""
        pipes = {"stdin": subprocess.DEVNULL, "stdout": subprocess.PIPE, "stderr": subprocess.PIPE}
        return subprocess.Popen([self.path, *words], pass_fds=self.handles, **pipes)

    @staticmethod
    def end(call):
        """Status, output and lines of a call that was begun."""
        output, lines = call.communicate()
        return (128 - call.returncode if call.returncode < 0 else call.returncode), output, lines

    def answer(self, *words):
        """Status, output and lines of a call."""
        return self.end(self.begin(*words))

    def made(self, *words):
        """The output of a call that succeeds."""
        return self.output_of(self.begin(*words))

    def output_of(self, call):
        """The output of a call that was begun, and succeeds."""
        status, output, lines = self.end(call)
        if status not in (0, 1):
            raise CallFailed(status, lines)
        return output

    def begin_list(self, package):
        """A listing of a package that goes on beside what comes next, until `kinds` asks for it."""
        return self.begin("list", package, "--format", "tab")

    def kinds(self, listing):
        """The kind of each revision that a listing has, in the order of their numbers."""
        return [row.split("\t", 2)[1] for row in self.output_of(listing).decode("utf-8").split("\n")[:-1]]

    def decided(self, package, reviewer, journals, words):
        """A journal of a reviewer that goes on from some journals. `words` has a word for each number that gets one."""
        items = [item for journal in journals for item in ("--journal", journal)]
        calls, size = [[]], 0
        for word in ("accept", "reject", "withdraw"):
            listed = ranges([number for number in sorted(words) if words[number] == word])
            for begin in range(0, len(listed), NUMBERS):
                choice = "numbers:" + ",".join(listed[begin : begin + NUMBERS])
                if size + len(choice) > BYTES:
                    calls.append([])
                    size = 0
                calls[-1] += ["--" + word, choice]
                size += len(choice)
        made = self.made("decide", package, reviewer, *items, *(calls[0] or NOTHING))
        for choices in calls[1:]:
            held = self.hold(made)
            made = self.made("decide", package, reviewer, "--journal", held, *choices)
            self.drop(held)
        return made

    def written(self, package, reviewer, words):
        """The package under these words of one reviewer."""
        journal = self.hold(self.decided(package, reviewer, (), words))
        made = self.made("write", package, journal)
        self.drop(journal)
        return made

    def bare_text(self, package):
        """The bare text of a package."""
        held = self.hold(package)
        made = self.made("text", held, "--view", "bare")
        self.drop(held)
        return made.decode("utf-8")
