"""Completions for bash and zsh, made of the table of the help and the texts beside this file."""
import os
import re

from scrub.choice import NAMES

HERE = os.path.dirname(os.path.realpath(__file__))
# The options of redline-docx itself.
DOCX = "-o -f --package --tidy --drop-unused-notes --idle-locks --keep --take"
# The commands that redline-batch has for each document of a folder.
MANY = ("check", "list", "report", "page", "text", "write", "settle")


def second_words(table):
    """For each command whose form begins with words of its own, as settle accept, these words."""
    found = {}
    for name, form, _ in table.commands:
        word = form.split(" ")[1:2]
        if word and re.fullmatch("[a-z]+", word[0]):
            found.setdefault(name, []).append(word[0])
    return found


def completed_values(table):
    """Patterns COMMAND:OPTION with the words that may follow, or the name of another value. Options with files have none."""
    found = []
    for option, value in table.options.items():
        listed = {name: table.values_in(name, option) for name in table.names()}
        if len({tuple(own) for own in listed.values() if own}) > 1:
            found += [("%s:%s" % (name, option), own) for name, own in listed.items() if own]
        elif value and value not in ("J", "P", "Q", "FILE"):
            found.append(("*:%s" % option, value))
    return found


def bash_value(value):
    """What bash offers for a value."""
    if value == "AUTHOR":
        return 'mapfile -t authors < <(_redline_authors) && _redline_offer "${authors[@]}"'
    return {"CHANGES": "_redline_changes", "KIND": "_redline_offer %(kinds)s"}.get(value, ":")


def zsh_value(value):
    """What zsh offers for a value."""
    if value == "AUTHOR":
        return "_redline_authors; compadd -a authors"
    return {"CHANGES": "_redline_changes", "KIND": "compadd -- %(kinds)s"}.get(value, "_message '%s'" % value.lower())


def arms(table, offer, of_value):
    """An arm of a case for each option with values."""
    lines = []
    for pattern, value in completed_values(table):
        listed = value if isinstance(value, list) else [value]
        words = [word for word in listed if not word.isupper()]
        calls = ["%s %s" % (offer, " ".join(words))] if words else []
        calls += [of_value(word) % {"kinds": " ".join(table.kinds())} for word in listed if word.isupper()]
        lines.append("    %s) %s ;;" % (pattern, "; ".join(calls)))
    return "\n".join(lines or ["    '') ;;"])


def made(name, table, offer, options, of_value):
    """The completion of this name, with what the help says."""
    kinds, selections = table.kinds() + table.groups(), table.selections()
    words = {
        "commands": " ".join(table.names()),
        "docx": DOCX,
        "things": " ".join(NAMES),
        "many": " ".join(name for name in MANY if name in table.names()),
        "kinds_and_groups": " ".join("kind:" + kind for kind in kinds) if offer == "_redline_offer" else " ".join(kinds),
        "selections": " ".join(selections),
        "prefixes": " ".join(word for word in selections if word.endswith(":")),
        "values": arms(table, offer, of_value),
        "options": "\n".join("    %s) %s %s ;;" % (command, options, " ".join(table.options_of(command))) for command in table.names()),
        "second": "\n".join("    %s) %s %s ;;" % (command, offer, " ".join(words)) for command, words in second_words(table).items()),
    }
    with open(os.path.join(HERE, name), encoding="utf-8") as file:
        text = file.read()
    if name == "_redline":
        words["commands"] = described(table)
    return re.sub(r"%\((\w+)\)s", lambda found: words[found.group(1)], text)


def described(table):
    """Each command with its line, as zsh shows them."""
    lines = {}
    for name, _, description in table.commands:
        lines.setdefault(name, description)
    lines.update({"--help": "the commands on one screen", "--version": "the version"})
    quote = lambda text: "'%s'" % text.replace("'", "'\\''")
    return "\n".join("        " + quote("%s:%s" % (name, text.replace(":", "\\:"))) for name, text in lines.items())


def bash_completion(table):
    return made("redline.bash", table, "_redline_offer", "echo", bash_value)


def zsh_completion(table):
    return made("_redline", table, "compadd --", "compadd --", zsh_value)
