#!/usr/bin/env python3
"""Gives flatopc damaged files, and finds fault with all but a clean answer.

    damage.py FLATOPC PACKAGE N

Makes a .docx of PACKAGE, damages it N times by bytes that are changed and ends that are cut off, and unpacks each; then it does
the same with the package and packs it. Each try has to end with the statuses 0 or 1: with 1 in a line, with 0 in bytes that
can be turned back or are refused in turn. Damage is drawn from the number of the try, so each run tries the same.
"""
import os
import random
import sys
import types

sys.dont_write_bytecode = True


def flatopc_of(path):
    """What the script flatopc is made of: the modules beside it."""
    sys.path.insert(0, os.path.dirname(os.path.abspath(path)))
    from opc import archive, pack, unpack, xml

    return types.SimpleNamespace(unpack=unpack.unpack, pack=pack.pack, NotOfTheForm=xml.NotOfTheForm, OLDER=archive.OLDER, TYPES=archive.TYPES)


def damaged(data, number):
    draw = random.Random(number)
    data = bytearray(data)
    for _ in range(draw.choice([0, 1, 1, 2, 4, 32])):
        at = draw.randrange(len(data))
        data[at] = draw.choice([draw.randrange(256), data[at] ^ 1 << draw.randrange(8), 0, 255])
    if draw.random() < 0.3:
        del data[draw.randrange(len(data)) :]
    if draw.random() < 0.1:
        at = draw.randrange(len(data) + 1)
        data[at:at] = data[: draw.randrange(64)]
    return bytes(data)


def main():
    flatopc = flatopc_of(sys.argv[1])
    package = open(sys.argv[2], "rb").read()
    docx = flatopc.pack(package)
    answers = {"written": 0, "refused": 0}
    lines = []
    for number in range(int(sys.argv[3])):
        for data, there, back in ((docx, flatopc.unpack, flatopc.pack), (package, flatopc.pack, flatopc.unpack)):
            try:
                made = there(damaged(data, number), True, lines.append)
                answers["written"] += 1
            except flatopc.NotOfTheForm as error:
                answers["refused"] += 1
                lines.append(str(error))
                continue
            try:
                back(made)
            except flatopc.NotOfTheForm as error:
                lines.append(str(error))
    odd = [line for line in lines if "\n" in line or not line.strip()]
    print("%(written)d written, %(refused)d refused" % answers)
    if odd:
        print("not one line: %r" % odd[:3])
    return 1 if odd else 0


if __name__ == "__main__":
    sys.exit(main())
