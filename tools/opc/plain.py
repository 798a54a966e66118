"""Archives of the plainest form, as word processors write them, read without the library: that takes as long to load as Python."""
import struct
import zlib

END, CENTRAL, LOCAL, LARGE = b"PK\5\6", b"PK\1\2", b"PK\3\4", b"PK\6\7"
STORED, DEFLATED = 0, 8
# What the flags may say: how well it is packed, that sizes come again behind the bytes, that names are UTF-8.
FLAGS = 0x80E
VERSION = 63


class NotPlain(Exception):
    """The archive is of another form, or is damaged: the library has to say which."""


def need(is_so):
    if not is_so:
        raise NotPlain


def entries_of(data):
    """Name, flags, method, sum, both sizes and place of each entry of the directory, which ends the archive with its end record."""
    end = len(data) - 22
    need(end >= 20 and data[end : end + 4] == END and data[end - 20 : end - 16] != LARGE)
    size, at, comment = struct.unpack("<LLH", data[end + 12 :])
    need(comment == 0 and at + size == end)
    while at < end:
        need(at + 46 <= end and data[at : at + 4] == CENTRAL and data[at + 6] <= VERSION)
        flags, method, _, _, code, packed, whole, name, extra, comment = struct.unpack("<4H3L3H", data[at + 8 : at + 34])
        place, begin = struct.unpack("<L", data[at + 42 : at + 46])[0], at + 46
        at = begin + name + comment
        need(extra == 0 and flags & ~FLAGS == 0 and method in (STORED, DEFLATED) and at <= end)
        yield data[begin : begin + name], method, code, packed, whole, place
    need(at == end)


def bytes_of(data, entry, behind):
    """The bytes of an entry, which ends before `behind`, where the next one begins."""
    name, method, code, packed, whole, place = entry
    need(data[place : place + 4] == LOCAL and place + 30 <= behind)
    told, extra = struct.unpack("<HH", data[place + 26 : place + 30])
    begin = place + 30 + told + extra
    need(data[place + 30 : place + 30 + told] == name and begin + packed <= behind)
    taken = data[begin : begin + packed]
    if method == DEFLATED:
        inflate = zlib.decompressobj(-15)
        try:
            taken = inflate.decompress(taken, whole + 1)
        except zlib.error:
            raise NotPlain from None
        need(inflate.eof and not inflate.unused_data)
    need(len(taken) == whole and zlib.crc32(taken) == code)
    return taken


def plain_items(data, limit):
    """The files of an archive by name, of so many bytes at most, or None where it is not of the plainest form."""
    try:
        entries = list(entries_of(data))
        need(sum(whole for _, _, _, _, whole, _ in entries) <= limit)
        places = sorted(place for *_, place in entries) + [len(data) - 22]
        behind = dict(zip(places, places[1:]))
        need(len(behind) == len(entries))
        items = {}
        for entry in entries:
            name = entry[0].decode("latin-1")
            need(name.isascii() and name.isprintable() and name and not name.endswith("/") and name not in items)
            items[name] = bytes_of(data, entry, behind[entry[-1]])
        return items
    except NotPlain:
        return None
