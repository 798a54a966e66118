"""Lines of manual pages."""


def escaped(text):
    """A line of text as a line of a manual page."""
    text = text.replace("\\", "\\e").replace("-", "\\-").replace("'", "\\(aq").replace("`", "\\(ga").replace("^", "\\(ha").replace("~", "\\(ti")
    return "\\&" + text if text.startswith((".", "\\(aq")) else text


def plain(lines):
    """Lines that stay as they are."""
    return [".nf"] + [escaped(line) for line in lines] + [".fi"]
