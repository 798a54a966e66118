#!/usr/bin/env python3
"""Compares the two readers of archives: what the one for plain archives takes, the library gives too, byte for byte.

    archives.py DOCX SECONDS

The archives are those that are made by hand in desk_package.py, and the .docx with damage, as many as there are seconds for.
The line counts what the first one left to the library, and what both gave.
"""
import itertools
import os
import random
import sys
import time

HERE = os.path.dirname(os.path.abspath(__file__))
sys.dont_write_bytecode = True
sys.path[:0] = [HERE, os.path.dirname(HERE)]
import desk_package
from opc.library import items_of_any
from opc.plain import plain_items
from opc.xml import NotOfTheForm

LIMIT = 256 * 1024 * 1024


def damaged(data, draw):
    """An archive with some bytes changed, most of them in its directory, or cut off."""
    data = bytearray(data)
    for _ in range(draw.choice([0, 1, 1, 1, 2, 4])):
        from_end = draw.randrange(1, min(len(data), 1200))
        at = draw.randrange(len(data)) if draw.random() < 0.3 else len(data) - from_end
        data[at] = draw.choice([0, 255, draw.randrange(256), data[at] ^ 1 << draw.randrange(8)])
    if draw.random() < 0.1:
        del data[draw.randrange(len(data)) :]
    return bytes(data)


def fault_of(data):
    """None where the first reader leaves the archive to the library, "" where both give the same, else how they differ."""
    plain = plain_items(data, LIMIT)
    if plain is None:
        return None
    try:
        given = items_of_any(data, LIMIT)
    except NotOfTheForm as error:
        return "the library says: %s" % error
    return "" if list(plain.items()) == list(given.items()) else "other files"


def main(path, seconds):
    with open(path, "rb") as file:
        docx = file.read()
    left, same, number, end = 0, 0, 0, time.monotonic() + float(seconds)
    # (those that take long to make come last)
    made = itertools.islice(desk_package.archives(), 40)
    while time.monotonic() < end:
        _, data = next(made, (None, None))
        number += data is None
        fault = fault_of(damaged(docx, random.Random(number)) if data is None else data)
        if fault:
            sys.exit("archive %d: %s" % (number, fault))
        left, same = left + (fault is None), same + (fault == "")
    print("%d left to the library, %d the same" % (left, same))
    return 0 if same > 10 else 1


if __name__ == "__main__":
    sys.exit(main(*sys.argv[1:]))
