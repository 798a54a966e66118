#!/usr/bin/env python3
"""Asks the desk's worker in node as its page does: a round, and what is refused. Prints a line for each case.

    desk_worker.py NODE REDLINE.WASM

REDLINE names the program, whose .docx of the round has to be the same.
"""
import os
import subprocess
import sys
import tempfile
import zlib

HERE = os.path.dirname(os.path.abspath(__file__))
TOP = os.path.dirname(os.path.dirname(HERE))
sys.dont_write_bytecode = True
sys.path[:0] = [HERE, os.path.join(TOP, "bench"), os.path.join(TOP, "examples")]
import desk_package
import make

EXAMPLES = os.path.join(TOP, "examples")


def example(name):
    with open(os.path.join(EXAMPLES, name), "rb") as file:
        return file.read()


def bomb():
    packer = zlib.compressobj(9, zlib.DEFLATED, -15)
    packed = b"".join(packer.compress(bytes(1 << 20)) for _ in range(300)) + packer.flush()
    return desk_package.bomb_of(packed, 1000)


def files():
    contract, ann = example("contract.xml"), example("contract.ann.journal")
    docx = desk_package.flatopc.pack(contract)
    return {
        "contract.xml": contract,
        "contract.docx": docx,
        "cut.docx": docx[:3000],
        "password.docx": desk_package.flatopc.OLDER + bytes(600),
        "bomb.docx": bomb(),
        "unsound.xml": example("unsound.xml"),
        "ann.journal": ann,
        "wide.journal": ann.decode().encode("utf-16"),
        "large.xml": make.reviewed_package(2000000).encode(),
        "deep.xml": (make.FRONT + make.DEEP["tables"]() + make.BACK).encode(),
    }


def wanted_docx(folder):
    """The .docx of the same round by the program and flatopc."""
    call = lambda *words: subprocess.run([os.environ["REDLINE"], *words], cwd=folder, stdout=subprocess.PIPE, check=True).stdout
    package = desk_package.flatopc.unpack(desk_package.flatopc.pack(example("contract.xml")))
    for name, data in (("P", package), ("J", None)):
        with open(os.path.join(folder, name), "wb") as file:
            file.write(data or call("decide", "P", "Ann Gray", "--accept", "all"))
    return desk_package.flatopc.pack(call("write", "P", "J"))


def main(node, wasm):
    with tempfile.TemporaryDirectory() as folder:
        for name, data in files().items():
            with open(os.path.join(folder, name), "wb") as file:
                file.write(data)
        worker = os.path.join(HERE, "desk", "worker.js")
        for words in ([worker, wasm, folder], ["--stack-size=150", worker, wasm, folder, "stack"]):
            ended = subprocess.run([node, *words], timeout=800, check=False)
            if ended.returncode != 0:
                print("FAILED worker: it ended with status %d" % ended.returncode)
        with open(os.path.join(folder, "written.docx"), "rb") as file:
            is_same = file.read() == wanted_docx(folder)
        print("ok the .docx of a round" if is_same else "FAILED the .docx of a round: other bytes than by the command line")


if __name__ == "__main__":
    main(*sys.argv[1:])
