"""The form of WebAssembly modules: numbers and sections."""


def number(data, at):
    """A number in the module's form, without its sign, and the byte behind it."""
    value = shift = 0
    while True:
        byte = data[at]
        value |= (byte & 0x7F) << shift
        at, shift = at + 1, shift + 7
        if byte < 0x80:
            return value, at


def written(value):
    out = bytearray()
    while value >= 0x80:
        out.append(value & 0x7F | 0x80)
        value >>= 7
    return bytes(out + bytearray([value]))


def written_signed(value):
    """The same for a number that may be below 0, where this one is not: its highest bit stays clear."""
    out = written(value)
    return out if out[-1] < 0x40 else out[:-1] + bytes([out[-1] | 0x80, 0])


def sections_of(data):
    """Kind and content of each section."""
    at = 8
    while at < len(data):
        kind = data[at]
        size, at = number(data, at + 1)
        yield kind, data[at : at + size]
        at += size
