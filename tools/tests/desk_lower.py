#!/usr/bin/env python3
"""Tests tools/web/lower32 on each form of instruction that it changes or passes on: the same calls before and after.

    desk_lower.py NODE [REDLINE.WASM]

A module is made of assembler by the kit's clang: each load and store of numbers and vectors, copying, filling, growing, branches,
constants. Node runs it with a memory of 64 bits and lowered, and each call has to come to the same value or trap in both. It needs
a node with --experimental-wasm-memory64. Such a node runs no table with places of 64 bits: calls through a table are made in the
lowered module alone, against values worked out by hand. Where the program is named, each form that it has must be among these.
"""
import importlib.machinery
import json
import os
import subprocess
import sys
import tempfile
import types

HERE = os.path.dirname(os.path.abspath(__file__))
WEB = os.path.join(os.path.dirname(os.path.dirname(HERE)), "tools", "web")
sys.dont_write_bytecode = True
sys.path.insert(0, WEB)
import kit
import wasm

TARGET = ["--target=wasm64-unknown-unknown", "-mcpu=mvp", "-msign-ext", "-msimd128", "-mbulk-memory", "-mnontrapping-fptoint", "--no-default-config"]
# (the assembler's own check takes addresses of vectors for 32 bits)
TARGET += ["-Wa,--no-type-check"]
# What a call of one word is given: places in the memory of one page of data, at its ends, beyond them, and below 0.
PLACES = ["0n", "1n", "1000n", "65519n", "65528n", "65535n", "131071n", "131072n", "4294967295n", "-1n", "-8n", "-65536n"]
NUMBERS = ["0n", "-1n", "255n", "-129n", "1311768467463790320n"]

LOADS = ["i32.load", "i32.load8_s", "i32.load8_u", "i32.load16_s", "i32.load16_u", "f32.load"]
LOADS += ["i64.load", "i64.load8_s", "i64.load8_u", "i64.load16_s", "i64.load16_u", "i64.load32_s", "i64.load32_u", "f64.load"]
STORES = ["i32.store", "i32.store8", "i32.store16", "i64.store", "i64.store8", "i64.store16", "i64.store32", "f32.store", "f64.store"]
VECTOR_LOADS = ["v128.load"] + ["%s_%s" % (it, sign) for it in ("i16x8.load8x8", "i32x4.load16x4", "i64x2.load32x2") for sign in "su"]
VECTOR_LOADS += ["v128.load%d_splat" % it for it in (8, 16, 32, 64)] + ["v128.load32_zero", "v128.load64_zero"]
LANES = [(8, 15), (16, 7), (32, 3), (64, 1)]
VECTOR = "v128.const 1, 2, 3, 4, 5, 6, 7, 8, 9, 10, 11, 12, 13, 14, 15, 16"
# From a number of each kind to a word of 64 bits, and back.
TO_WORD = {"i32": ["i64.extend_i32_s"], "i64": [], "f32": ["i32.reinterpret_f32", "i64.extend_i32_u"], "f64": ["i64.reinterpret_f64"]}
FROM_WORD = {"i32": ["i32.wrap_i64"], "i64": [], "f32": ["i32.wrap_i64", "f32.reinterpret_i32"], "f64": ["f64.reinterpret_i64"]}
SUM = ["local.tee V", "i64x2.extract_lane 0", "local.get V", "i64x2.extract_lane 1", "i64.add"]


def vector_sum(local):
    return [line.replace("V", str(local)) for line in SUM]


class Functions:
    """Functions of assembler, each with the words that it is called with."""

    def __init__(self):
        self.text, self.calls, self.names = [], [], []

    def add(self, name, count, lines, given, locals=()):
        """A function of so many words of 64 bits to one, and its calls."""
        self.names.append(name)
        head = ".functype %s (%s) -> (i64)" % (name, ", ".join(["i64"] * count))
        own = ["\t.local " + ", ".join(locals)] if locals else []
        self.text += ["\t.globl " + name, "\t.type %s,@function" % name, name + ":", "\t" + head] + own + ["\t" + line for line in lines] + ["\tend_function"]
        self.calls += [(name, words) for words in given]


def add_numbers(made):
    one = [[place] for place in PLACES]
    two = [[place, number] for place in PLACES for number in NUMBERS]
    for offset in (0, 3, 65536):
        for load in LOADS:
            made.add("%s_%d" % (load.replace(".", "_"), offset), 1, ["local.get 0", "%s %d" % (load, offset)] + TO_WORD[load[:3]], one)
        for store in STORES:
            lines = ["local.get 0", "local.get 1"] + FROM_WORD[store[:3]] + ["%s %d" % (store, offset), "i64.const 65528", "i64.load 0"]
            made.add("%s_%d" % (store.replace(".", "_"), offset), 2, lines, two)


def add_vectors(made):
    one = [[place] for place in PLACES]
    for load in VECTOR_LOADS:
        made.add(load.replace(".", "_"), 1, ["local.get 0", load + " 5"] + vector_sum(1), one, ["v128"])
    made.add("v128_store", 1, ["local.get 0", VECTOR, "v128.store 5", "i64.const 1005", "i64.load 0"], one)
    for bits, last in LANES:
        for lane in (0, last):
            load = ["local.get 0", VECTOR, "v128.load%d_lane 5, %d" % (bits, lane)] + vector_sum(1)
            made.add("v128_load%d_lane_%d" % (bits, lane), 1, load, one, ["v128"])
            store = ["local.get 0", VECTOR, "v128.store%d_lane 5, %d" % (bits, lane), "i64.const 1005", "i64.load 0"]
            made.add("v128_store%d_lane_%d" % (bits, lane), 1, store, one)
    shuffle = ["local.get 0", "i64x2.splat", VECTOR, "i8x16.shuffle 0, 17, 2, 19, 4, 21, 6, 23, 8, 25, 10, 27, 12, 29, 14, 31"]
    made.add("shuffle", 1, shuffle + vector_sum(1), [["0n"], ["-1n"]], ["v128"])
    lanes = ["local.get 0", "i64x2.splat", "i32.const 77", "i8x16.replace_lane 9", "i32.const 9", "i32x4.shl"]
    made.add("lanes", 1, lanes + vector_sum(1), [["0n"], ["-1n"]], ["v128"])


def add_memory(made):
    three = [[to, other, length] for to in ("0n", "1000n", "131071n", "-1n") for other in ("7n", "990n", "131072n", "-9n") for length in ("0n", "1n", "100n", "-1n")]
    read = ["i64.const 1000", "i64.load 0", "i64.const 0", "i64.load 0", "i64.add"]
    made.add("copy", 3, ["local.get 0", "local.get 1", "local.get 2", "memory.copy 0, 0"] + read, three)
    made.add("fill", 3, ["local.get 0", "local.get 1", "i32.wrap_i64", "local.get 2", "memory.fill 0"] + read, three)
    made.add("size", 0, ["memory.size 0"], [[]])
    made.add("grow", 1, ["local.get 0", "memory.grow 0"], [["0n"], ["1n"], ["60000n"], ["0n"], ["1n"]])


def add_others(made):
    table = ["block", "block", "block", "local.get 0", "i32.wrap_i64", "br_table {0, 1, 2}", "end_block", "i64.const 10", "return", "end_block"]
    made.add("br_table", 1, table + ["i64.const 20", "return", "end_block", "i64.const -30"], [["0n"], ["1n"], ["2n"], ["9n"]])
    loop = ["loop", "local.get 1", "local.get 0", "i64.add", "local.set 1", "local.get 0", "i64.const -1", "i64.add", "local.tee 0", "i64.const 0", "i64.ne", "br_if 0"]
    made.add("loop", 1, loop + ["end_loop", "local.get 1"], [["1n"], ["100000n"]], ["i64"])
    made.add("calls", 1, ["local.get 0", "call loop", "i64.const 9223372036854775807", "i64.xor"], [["7n"]])
    floats = ["local.get 0", "f64.reinterpret_i64", "f64.const 1.5", "f64.mul", "i64.trunc_sat_f64_s", "f32.const -2.5", "i32.trunc_sat_f32_s", "i64.extend_i32_s", "i64.add"]
    made.add("floats", 1, floats, [["4607182418800017408n"], ["4890909195324358656n"], ["-1n"]])
    signs = ["local.get 0", "i64.extend8_s", "local.get 0", "i64.extend32_s", "local.get 0", "i64.const 8", "i64.gt_s", "i64.select"]
    made.add("signs", 1, signs, [["255n"], ["-1n"], ["8n"], ["4294967295n"]])


# Two functions that are called through a table: by their addresses, and by a place in it.
TABLE = """
	.type more,@function
more:
	.functype more (i64) -> (i64)
	local.get 0
	i64.const 1
	i64.add
	end_function
	.type twice,@function
twice:
	.functype twice (i64) -> (i64)
	local.get 0
	local.get 0
	i64.add
	end_function
	.globl pick
	.type pick,@function
pick:
	.functype pick (i64, i64) -> (i64)
	local.get 1
	i64.const more
	i64.const twice
	local.get 0
	i32.wrap_i64
	i64.select
	call_indirect (i64) -> (i64)
	end_function
	.globl at
	.type at,@function
at:
	.functype at (i64, i64) -> (i64)
	local.get 1
	local.get 0
	call_indirect (i64) -> (i64)
	end_function
"""
# The table begins at its place 1.
CALLED = [("pick", 1, 20, "21"), ("pick", 0, 20, "40"), ("at", 0, 5, "a trap"), ("at", 1, 5, "6"), ("at", 2, 5, "10"), ("at", 9, 5, "a trap")]


def source(made):
    data = ["\t.int8 %d" % ((it * 37 + 11) % 256) for it in range(2048)]
    return "\n".join(made.text + ["\t.section .data.some,\"\",@", "some:"] + data + ["\t.size some, 2048", ""])


def assemble(folder, name, text, exports):
    """The module of this text for 64 bits, and the lowered one: its path."""
    home = kit.find_kit()
    path = lambda ending: os.path.join(folder, name + ending)
    with open(path(".s"), "w", encoding="utf-8") as file:
        file.write(text)
    linker = os.path.join(folder, "wasm-ld")
    if not os.path.lexists(linker):
        os.symlink(os.path.realpath(kit.tool(home, "clang")), linker)
    run = lambda *words: subprocess.run(words, check=True)
    run(kit.tool(home, "clang"), *TARGET, "-c", path(".s"), "-o", path(".o"))
    exported = ["--export=" + it for it in exports]
    places = ["--global-base=1000", "--initial-memory=131072", "--max-memory=1310720", "-z", "stack-size=0"]
    run(linker, "-m", "wasm64", "--no-entry", *exported, "--no-gc-sections", *places, "-o", path(".64.wasm"), path(".o"))
    run(os.path.join(WEB, "lower32"), path(".64.wasm"), path(".32.wasm"))
    return path(".32.wasm")


RUN = """
const fs = require("fs");
const calls = JSON.parse(fs.readFileSync(0, "utf8"));
const made = process.argv.slice(1).map((name) => new WebAssembly.Instance(new WebAssembly.Module(fs.readFileSync(name))).exports);
const answer = (exports, name, words) => {
  try {
    return String(exports[name](...words.map((it) => BigInt(it.slice(0, -1)))));
  } catch (error) {
    if (!(error instanceof WebAssembly.RuntimeError)) throw error;
    return "a trap";
  }
};
let differ = 0, traps = 0;
for (const [name, words] of calls) {
  const [one, other] = made.map((it) => answer(it, name, words));
  traps += one === "a trap";
  if (one !== other) console.log("%s(%s): %s and not %s", name, words, other, one), differ++;
}
const memories = made.map((it) => Buffer.from(it.memory.buffer));
if (!memories[0].equals(memories[1])) console.log("the memories differ"), differ++;
console.log("%d calls, %d of them traps, %d differ", calls.length, traps, differ);
process.exitCode = differ ? 1 : 0;
"""


RUN_TABLE = """
const { exports } = new WebAssembly.Instance(new WebAssembly.Module(require("fs").readFileSync(process.argv[1])));
const answer = (name, words) => {
  try {
    return String(exports[name](...words.map(BigInt)));
  } catch (error) {
    return error instanceof WebAssembly.RuntimeError ? "a trap" : String(error);
  }
};
for (const [name, one, other, wanted] of JSON.parse(process.argv[2])) {
  const came = answer(name, [one, other]);
  if (came !== wanted) console.log("%s(%d, %d) through the table: %s and not %s", name, one, other, came, wanted), (process.exitCode = 1);
}
"""


def load_lower32():
    lower32 = types.ModuleType("lower32")
    lower32.__file__ = os.path.join(WEB, "lower32")
    importlib.machinery.SourceFileLoader("lower32", lower32.__file__).exec_module(lower32)
    return lower32


def forms_of(lower32, body):
    """The forms of a body's instructions: one that is changed is a form by itself; others are one where as much follows their code."""
    while body.at < len(body.body):
        code = body.body[body.at]
        form, at = body.read_form()
        name = body.body[body.at : at].hex()
        yield name if form.before or form.behind else (code == lower32.BR_TABLE or form.numbers, form.more)
        body.instruction()


def forms_in(path):
    """The forms of the instructions of a module."""
    lower32, found = load_lower32(), set()
    with open(path, "rb") as file:
        sections = dict(wasm.sections_of(file.read()))
    count, at = wasm.number(sections[lower32.CODE], 0)
    for _ in range(count):
        size, at = wasm.number(sections[lower32.CODE], at)
        found.update(forms_of(lower32, lower32.Body(sections[lower32.CODE][at : at + size], 0)))
        at += size
    return found


def main():
    made = Functions()
    for add in (add_numbers, add_vectors, add_memory, add_others):
        add(made)
    with tempfile.TemporaryDirectory() as folder:
        lowered = assemble(folder, "forms", source(made), made.names)
        table = assemble(folder, "table", TABLE, ["pick", "at"])
        files = [lowered.replace(".32.", ".64."), lowered]
        ended = subprocess.run([sys.argv[1], "--experimental-wasm-memory64", "-e", RUN, *files], input=json.dumps(made.calls).encode(), check=False, timeout=500)
        called = subprocess.run([sys.argv[1], "-e", RUN_TABLE, table, json.dumps(CALLED)], check=False, timeout=500)
        untested = [forms_in(it) - forms_in(lowered) - forms_in(table) for it in sys.argv[2:]]
    for it in untested:
        print("%d forms of the program's instructions are not tested: %s" % (len(it), sorted(map(str, it))))
    return ended.returncode or called.returncode or int(any(untested))


if __name__ == "__main__":
    sys.exit(main())
