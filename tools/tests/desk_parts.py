#!/usr/bin/env python3
"""Tests the C files of tools/web by themselves: copying, filling, comparing, products and quotients of 128 bits, against what node
itself makes of the same bytes and numbers.

    desk_parts.py NODE

They are built and lowered as the program is. (heap.c has a test of its own, desk/heap_walk.c.)
"""
import importlib.machinery
import os
import subprocess
import sys
import tempfile
import types

HERE = os.path.dirname(os.path.abspath(__file__))
WEB = os.path.join(os.path.dirname(os.path.dirname(HERE)), "tools", "web")
sys.dont_write_bytecode = True
sys.path.insert(0, WEB)
import kit

EXPORTS = ["memmove", "memcpy", "memset", "memcmp", "__multi3", "__udivti3"]


def load_build():
    build = types.ModuleType("build")
    build.__file__ = os.path.join(WEB, "build")
    importlib.machinery.SourceFileLoader("build", os.path.join(WEB, "build")).exec_module(build)
    return build


def main():
    build, home = load_build(), kit.find_kit()
    clang = [kit.tool(home, "clang"), *build.TARGET]
    with tempfile.TemporaryDirectory() as folder:
        objects = [build.compile_part(clang, name, folder) for name in ("copy", "wide")]
        linker, linked, lowered = (os.path.join(folder, name) for name in ("wasm-ld", "64.wasm", "32.wasm"))
        os.symlink(os.path.realpath(kit.tool(home, "clang")), linker)
        words = [word for word in build.LINK_WORDS if word != "--export=main"]
        build.run(linker, *words, *["--export=" + name for name in EXPORTS], "--initial-memory=2097152", "-o", linked, *objects)
        build.run(os.path.join(WEB, "lower32"), linked, lowered)
        return subprocess.run([sys.argv[1], os.path.join(HERE, "desk", "parts.js"), lowered], check=False, timeout=500).returncode


if __name__ == "__main__":
    sys.exit(main())
