"""What the program says of itself in --help, read as a table: commands with their words, options with their values."""
import re


class Help:
    """The text of --help, read as a table: commands with their words and their lines, options with their values."""

    def __init__(self, text):
        self.text = text
        self.blocks = [block.split("\n") for block in text.rstrip("\n").split("\n\n")]
        self.about = " ".join(self.blocks[0])
        self.commands = self.read_commands()
        self.options = self.read_options()

    def read_commands(self):
        """Name, words and description of each form of a command: the words, a gap, and the description, perhaps over lines."""
        found, last = [], None
        for line in sum(self.blocks, []):
            form = re.match(r"  redline (\S+)((?: \S+)*)(?:   *(\S.*))?$", line)
            more = re.match(r" {20} *(\S.*)$", line)
            if form:
                last = [form.group(1), form.group(1) + form.group(2), form.group(3) or ""]
            elif more and last:
                last[2] = (last[2] + " " + more.group(1)).strip()
            else:
                last = None
            if last and last[2] and last not in found:
                found.append(last)
        return found

    def read_options(self):
        """For each option the words that its value may be, or the name of its value."""
        found = {}
        text = "\n".join(re.sub(r"\n +", " ", "\n".join(block)) for block in self.blocks)
        for option in re.finditer(r"(?<![\w-])--[a-z][a-z-]*", text):
            rest = re.sub(r"\s+", " ", text[option.end() : option.end() + 200])
            value = re.match(r" ([A-Z][A-Z/]*)\b", rest)
            told = re.search(r"^%s is (.*)" % value.group(1), text, re.M) if value else None
            names = re.match(r" ?((?:[a-z-]+, )*[a-z-]+,? or [a-z-]+)(?![\w:])", told.group(1) if told else rest)
            only = re.match(r" ([a-z]+) for ", rest)
            if only:
                found[option.group()] = [only.group(1)]
            elif names:
                found[option.group()] = re.split(r",? or |, ", names.group(1)) + re.findall(r"\bCHANGES\b", told.group(1) if told else "")
            elif value and not found.get(option.group()):
                found[option.group()] = value.group(1)
            else:
                found.setdefault(option.group(), "")
        return found

    def names(self):
        return list(dict.fromkeys(name for name, _, _ in self.commands))

    def clauses_of(self, command):
        """What the help says of a command's options: its own line, and of ITEM where it has ITEM the clauses that name it."""
        forms = " ".join(form for name, form, _ in self.commands if name == command)
        item = [" ".join(block) for block in self.blocks if re.search(r"^ITEM is ", "\n".join(block), re.M)]
        if "ITEM" not in forms.split() or not item:
            return [forms]
        found = [forms]
        text = re.sub(r"\s+", " ", item[0][item[0].index("ITEM is ") :]).split(". ")[0]
        for clause in re.split(r"[;,:] (?=for |and for )", text):
            called = re.match(r"(?:and )?for ((?:[a-z]+(?:, | and )?)+?) (?:also|it is|J\b|--)", clause)
            who = re.split(r", | and ", called.group(1)) if called else [command]
            if command in who:
                found.append(clause)
        return found

    def options_of(self, command):
        return list(dict.fromkeys(re.findall(r"(?<![\w-])--[a-z][a-z-]*", " ".join(self.clauses_of(command)))))

    def values_in(self, command, option):
        """The words that the value of an option may be in this command, where a clause on the command lists them."""
        for clause in self.clauses_of(command):
            listed = re.search(r"(?<![\w-])%s ((?:[a-z-]+, )*[a-z-]+,? or [a-z-]+)(?![\w:])" % option, clause)
            if listed:
                return re.split(r",? or |, ", listed.group(1))
            called = re.search(r"(?<![\w-])%s ([A-Z]+)\b" % option, clause)
            told = re.search(r"^%s is ((?:[a-z-]+, )*[a-z-]+,? or [a-z-]+)" % called.group(1), self.text, re.M) if called else None
            if told:
                return re.split(r",? or |, ", told.group(1))
        return None

    def selections(self):
        """The beginnings of what CHANGES may be."""
        text = re.search(r"^CHANGES is (.*?)(?:\n[A-Z]+ |\n\n|\Z)", "\n\n".join("\n".join(block) for block in self.blocks), re.M | re.S)
        words = re.findall(r'(?<![\w:-])"?([a-z]+:|all\b)', text.group(1)) if text else []
        return list(dict.fromkeys(words))

    def listed_after(self, name):
        """The words that a line such as "KIND is ins, del or move" lists."""
        text = re.search(r"^%s is ([a-z, \n-]+)" % name, "\n\n".join("\n".join(block) for block in self.blocks), re.M)
        return re.findall(r"\b(?!or\b)[a-z]+(?:-[a-z]+)*", text.group(1)) if text else []

    def kinds(self):
        return self.listed_after("KIND")

    def groups(self):
        return self.listed_after("GROUP")
