"""Manual pages: of the program and the scripts, made of what they say to --help, and of the manual."""
import datetime
import os
import re
import subprocess

from packaging.manual import manual_lines
from packaging.roff import escaped, plain

TOOLS = os.path.dirname(os.path.dirname(os.path.realpath(__file__)))
SCRIPTS = ["redline-docx", "flatopc", "redline-batch"]
DATE = int(os.environ.get("SOURCE_DATE_EPOCH", "1795824000"))


def head(name, about, version, section=1):
    date = datetime.datetime.fromtimestamp(DATE, datetime.timezone.utc).strftime("%Y-%m-%d")
    return ['.TH %s %d "%s" "redline %s" "Redline"' % (name.upper(), section, date, version), ".SH NAME", "%s \\- %s" % (escaped(name), escaped(about))]


def see_also(name):
    others = [other for other in ["redline"] + SCRIPTS if other != name]
    pages = ["\\fB%s\\fR(1)" % escaped(other) for other in sorted(others)]
    pages += ["\\fBredline\\-manual\\fR(7)"] * (name != "redline-manual")
    lines = [".SH SEE ALSO", ", ".join(pages) + "."]
    return lines + [".PP", "The papers are in /usr/share/doc/redline/docs, and the examples in /usr/share/doc/redline/examples; of an unpacked folder, in its share/doc/redline."]


def page_of_program(table, version):
    """redline(1): names and forms first, then each block of the help, under its own heading where it has one."""
    about = re.sub(r"^Redline ", "", table.about).rstrip(".")
    lines = head("redline", about, version) + [".SH SYNOPSIS", ".nf"]
    lines += ["\\fBredline\\fR " + escaped(form) for _, form, _ in table.commands]
    lines += [".fi", ".SH COMMANDS"]
    for _, form, description in table.commands:
        lines += [".TP", "\\fB%s\\fR" % escaped(form), escaped(description[0].upper() + description[1:]) + "."]
    lines += [".SH WORDS"]
    for block in table.blocks[1:]:
        if all(re.match(r"  redline \S+.*?   *\S|    +", line) for line in block):
            continue
        if block[0].startswith("The manual is "):
            continue
        title = re.match(r"([A-Z][A-Za-z ]+):$", block[0])
        if title:
            lines += [".SH " + escaped(title.group(1).upper())] + plain(line.strip() for line in block[1:])
        elif block[0].startswith("Exit status: "):
            lines += [".SH EXIT STATUS"] + plain([block[0][len("Exit status: ") :]] + block[1:])
        else:
            lines += [".PP"] + plain(block)
    return "\n".join(lines + see_also("redline")) + "\n"


def page_of_script(name, version):
    """The page of a script: the text that it tells of itself, with its forms as the synopsis."""
    text = subprocess.run([os.path.join(TOOLS, name), "--help"], stdout=subprocess.PIPE, check=True).stdout.decode()
    first, *blocks = [block.split("\n") for block in text.rstrip("\n").split("\n\n")]
    about = " ".join(first).rstrip(".")
    lines = head(name, about[0].lower() + about[1:], version)
    for number, block in enumerate(blocks):
        lines += [".SH SYNOPSIS"] if number == 0 else [".SH DESCRIPTION"] if number == 1 else [".PP"]
        lines += plain(re.sub(r"^    ", "", line) if number == 0 else line for line in block)
    return "\n".join(lines + see_also(name)) + "\n"


def page_of_manual(text, version):
    """redline-manual(7): the manual for people who decide."""
    lines = head("redline-manual", "how tracked changes are decided", version, 7) + [".SH DESCRIPTION"]
    return "\n".join(lines + manual_lines(text) + see_also("redline-manual")) + "\n"
