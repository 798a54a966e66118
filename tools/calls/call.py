"""A call of redline on a .docx: what is read and written, and what is said."""
import os
import sys

from calls.places import find_redline
from calls.program import Running
from calls.words import DOCX, ENDINGS, FLAGS, FOREIGN, PLACES, TAKES_FOLDER, WRITES, WRITES_PACKAGE, Refused, ending, is_zip, tell
from opc import files
from opc.terminal import masked
from opc.unpack import unpack
from opc.xml import NotOfTheForm

# How redline begins the line on a lock that holds nothing.
IDLE_LOCK = b"redline: note: nothing by "
HINT = b"redline: hint: "
# How the name of a file in memory begins, and what follows.
FILES, DIGITS = b"/proc/self/fd/", b"0123456789"


def is_text(name):
    """Whether a file's name can be an argument in UTF-8."""
    try:
        name.encode()
    except UnicodeEncodeError:
        return False
    return True


class Call:
    """A call of redline, with a file in memory for each .docx among its words."""

    def __init__(self, here, words, own):
        self.here, self.words, self.own = here, words, own
        # the file in memory of each .docx, by name
        self.memory = {}
        # the least status of a call that is done
        self.status = 0
        self.command = words[0] if words else ""

    def say(self, line):
        tell(line)

    def redline(self):
        """The program to call."""
        return find_redline(self.here)

    def prepare(self):
        """Refuses what may not be written, and puts a package in the place of each .docx."""
        try:
            self.check_endings()
            self.check_targets()
            for place in PLACES.get(self.command, (1,)):
                if place < len(self.words) and is_zip(self.words[place]):
                    self.unpack(place)
            if self.command in TAKES_FOLDER:
                self.find_journals()
            self.add_title()
        except files.Fault as error:
            raise Refused(2, str(error)) from None

    def check_targets(self):
        """Refuses to write over what is there, and over a file that is read in any case."""
        for target in [self.own.get("out"), self.own.get("package")]:
            if target is None or not os.path.exists(target):
                continue
            for word in self.words[1:]:
                if os.path.isfile(word) and os.path.samefile(word, target):
                    raise Refused(2, "%s is read, and so is not written" % target)
            if "-f" not in self.own["switches"]:
                files.refuse_overwriting(target)

    def check_endings(self):
        """Refuses names that end as if something else were written."""
        package, out, what = self.own.get("package", ""), self.own.get("out", "-"), WRITES.get(self.command)
        if ending(package) not in ("", ".xml"):
            raise Refused(2, "the package is an XML file, and %s does not end in .xml" % package)
        end, wanted = ending(out), ENDINGS.get(what)
        if what is None or not end or os.path.exists(out) and not os.path.isfile(out):
            return
        if end in FOREIGN if wanted is None else end not in wanted:
            mend = "; name it %s%s" % (out[: -len(end)], wanted[0]) if wanted else ""
            raise Refused(2, "%s writes %s, and %s ends in %s%s" % (self.command, what, out, end, mend))

    def unpack(self, place):
        """Puts a package in memory in the place of a .docx."""
        name = self.words[place]
        if name in self.memory:
            self.words[place] = "/proc/self/fd/%d" % self.memory[name]
            return
        is_back = self.command == "returned" and place == 2
        # (no journals are tied to what came back, so it is always tidied)
        tidy = is_back or "--tidy" in self.own["switches"]
        say = (lambda line: None) if is_back else lambda line: self.say("%s: %s" % (name, line))
        try:
            package = unpack(files.read(name), tidy, say)
        except NotOfTheForm as error:
            raise Refused(3, "%s%s is not a .docx: %s" % ("second document: " if is_back else "", name, error)) from None
        if not os.path.isdir("/proc/self/fd"):
            raise Refused(70, "there is no /proc here, by which redline is given the package")
        handle = os.memfd_create("package.xml", 0)
        with open(handle, "wb", closefd=False) as file:
            file.write(package)
        self.memory[name] = handle
        self.words[place] = "/proc/self/fd/%d" % handle
        if "package" in self.own and len(self.memory) == 1:
            files.write(self.own["package"], package)

    def add_title(self):
        """A page of a .docx has the name of its file as its title, unless one is given."""
        name = os.path.splitext(os.path.basename(next(iter(self.memory), "")))[0]
        if self.command == "page" and name and "title" not in self.own and is_text(name):
            self.words += ["--title", name]

    def find_journals(self):
        """Puts the journals that were made for the document in the place of a folder."""
        words, before, digest = self.words[:2], "", None
        for word in self.words[2:]:
            if before.startswith("--") and before not in FLAGS or not os.path.isdir(word):
                words.append(word)
            else:
                from calls.journals import digest_of, journals_in

                digest = digest or digest_of(files.read(self.words[1]))
                journals, lines = journals_in(word, digest)
                words += journals
                for line in lines:
                    self.say(line)
                self.status = 1 if lines else self.status
            before = word
        self.words = words

    def run(self):
        """Calls redline, and answers its status and what it wrote, None where that went to standard output at once."""
        caught = "out" in self.own or "--lock" in self.words or self.command in WRITES_PACKAGE and self.memory
        try:
            called = Running([self.redline()] + self.words, self.memory.values(), caught)
        except OSError as error:
            raise Refused(70, "cannot call redline: %s" % error.strerror) from None
        # (as they come, since a first call of the launcher builds the program and tells how far it is)
        refuses, is_idle = "--idle-locks" not in self.own["switches"], False
        for line in called.lines:
            is_idle |= line.startswith(IDLE_LOCK)
            # (where a lock is refused, what is near its name is told then)
            if not (refuses and is_idle and line.startswith(HINT)):
                sys.stderr.buffer.write(self.named(line))
                sys.stderr.flush()
        status = called.wait()
        if refuses and is_idle and status in (0, 1):
            self.refuse_idle_locks()
        return (128 - status if status < 0 else status or self.status), called.output() if caught else None

    def refuse_idle_locks(self):
        """Refuses a lock on an author who has no change: what it should protect isn't protected."""
        import json

        from calls.locks import idle_lines

        called = Running([self.redline(), "list", self.words[1], "--format", "json"], self.memory.values(), True)
        list(called.lines)
        called.wait()
        authors = {row["author"] for row in json.loads(called.output() or "[]")}
        locked = [value for option, value in zip(self.words, self.words[1:]) if option == "--lock"]
        for line in idle_lines(locked, authors):
            self.say(line)
        raise Refused(2, "a lock holds nothing, and so nothing is written; --idle-locks writes all the same")

    def called(self, name):
        """The name of a file as it was given."""
        return os.fsdecode(self.named(os.fsencode(name)))

    def named(self, line):
        """A line with the names of files as they were given."""
        if FILES not in line:
            return line
        names = {b"%d" % handle: masked(name).encode() for name, handle in self.memory.items()}
        first, *others = line.split(FILES)
        for piece in others:
            handle = piece[: len(piece) - len(piece.lstrip(DIGITS))]
            first += names.get(handle, FILES + handle) + piece[len(handle) :]
        return first

    def finish(self, made):
        """Writes what redline wrote, as a .docx where that is wanted."""
        out = self.own.get("out", "-")
        if self.command in WRITES_PACKAGE and (ending(out) in DOCX or self.memory and ending(out) != ".xml"):
            made = self.packed(made, out)
        self.write(made)

    def packed(self, made, out):
        """The .docx of a package that was made."""
        from opc.pack import pack

        drop = "--drop-unused-notes" in self.own["switches"]
        try:
            return pack(made, drop, lambda line: self.say("%s: %s" % (out, line)))
        except NotOfTheForm as error:
            raise Refused(3, "what redline wrote is no package any more: %s" % error) from None

    def write(self, made):
        try:
            files.write(self.own.get("out", "-"), made)
        except files.Fault as error:
            raise Refused(6, str(error)) from None
