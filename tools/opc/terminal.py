"""What goes to a terminal: lines without a character that it would obey, or that shows a text otherwise than it is."""

# First and last of what the program masks, and of what Python makes of bytes that are no UTF-8.
MASKED = (
    ("\x00", "\x1f"), ("\x7f", "\x9f"), ("\u061c", "\u061c"), ("\u200b", "\u200f"), ("\u2028", "\u202e"), ("\u2060", "\u206f"), ("\ufeff", "\ufeff"),
    ("\ud800", "\udfff"),
)


def masked(text):
    """A text in which such a character is a question mark."""
    return "".join("?" if any(first <= it <= last for first, last in MASKED) else it for it in text)
