"""Where memory or stack end: real documents and calls, in a desk whose worker and program are as they are.

Only the most that the program's memory may grow to, where its stack begins, or from how deep it is called is another here, as on a
small computer.
"""
import base64
import gzip
import os
import re
import sys

from desk_faults import altered
from desk_seen import Desk, built, example, read
from page_large import large_package
from page_seen import TOP, same, told

sys.path[:0] = [os.path.join(TOP, "tools", "web"), os.path.join(TOP, "bench")]
import make
from wasm import number, sections_of, written, written_signed

PROGRAM = re.compile('(<script type="text/plain" id="program">)([^<]*)')
MEMORY, GLOBALS, HAS_MOST = 5, 6, 1
# The first of the globals says where the stack begins, from which it goes down to 0: a number of 64 bits that changes, as a constant.
STACK_POINTER = b"\x7e\x01\x42"
# In so many pages of 64 KB a document of 2.5 MB opens, but not one of 5: that is checked, and then there is too little for its page.
PAGES = 270
# With so many bytes of stack the example is decided, but a document nested 512 deep isn't read.
STACK = 131072
TOO_DEEP = "more tables in one another than this browser can follow"


def with_most_pages(module, pages):
    """The program with this number of pages of 64 KB as the most of its one memory."""
    out = bytearray(module[:8])
    for kind, content in sections_of(module):
        if kind == MEMORY:
            least, _ = number(content, 2)
            content = bytes([1, HAS_MOST]) + written(least) + written(pages)
        out += bytes([kind]) + written(len(content)) + content
    return bytes(out)


def with_stack(module, size):
    """The program with this many bytes of stack. Below its end there is no memory, so what overflows it ends the call."""
    out = bytearray(module[:8])
    for kind, content in sections_of(module):
        if kind == GLOBALS:
            _, at = number(content, 0)
            if content[at : at + 3] != STACK_POINTER:
                raise ValueError("the program's first global isn't where its stack begins")
            _, end = number(content, at + 3)
            content = content[: at + 3] + written_signed(size) + content[end:]
        out += bytes([kind]) + written(len(content)) + content
    return bytes(out)


def limited(driven, change, size):
    """The desk whose program is changed to this size."""
    def smaller(found):
        module = change(gzip.decompress(base64.b64decode(found.group(2))), size)
        return found.group(1) + base64.b64encode(gzip.compress(module)).decode()

    file = os.path.join(driven.folder, "limited.html")
    with open(file, "w", encoding="utf-8") as out:
        out.write(PROGRAM.sub(smaller, read(built()).decode(), count=1))
    return file


def begun(driven, file=""):
    """A desk with a document on the screen and a decision."""
    it = Desk(driven, file)
    it.drop(("contract.xml", example("contract.xml")))
    it.name("Eve Stone")
    it.decide(3, "accept")
    return it


def stays(it, name):
    same(name + ": what was on the screen stays", [it.text("#name"), it.decisions()], ["contract.xml", ["3 accept"]])


def little_memory(driven):
    """A document that is too large for the memory, and a call on another one that is."""
    it = begun(driven, limited(driven, with_most_pages, PAGES))
    for size in (5, 10):
        said = it.drop(("large.xml", large_package(2000 * size).encode()))
        told("%d MB are too large for the memory" % size, it.is_fault() and "too little memory" in said and "redline: no memory" in said, said)
        stays(it, "%d MB" % size)
    it.drop(("middle.xml", large_package(5000).encode()))
    same("a smaller one opens", it.text("#count"), "10,000 changes")
    it.step("save")
    it.press("#save-listing")
    said = it.text("#save-more-told")
    told("a listing of it is too large", "too little memory" in said and "redline: no memory" in said, said)
    same("and nothing is saved of it", [name for name in os.listdir(driven.folder) if name.endswith(".json")], [])
    told("but the document is", it.saves("#save-document", "middle.decided.xml").startswith(b"<pkg:package"))


def deep_documents(driven):
    """Documents 512 elements deep: each opens and is written, or it is told that this browser can't follow it."""
    for name, body in make.DEEP.items():
        it = begun(driven)
        said = it.drop((name + ".xml", (make.FRONT + body() + make.BACK).encode()))
        if it.is_fault():
            told("%s 512 deep: it is told that they are too deep" % name, TOO_DEEP in said, said)
            stays(it, name + " 512 deep")
            continue
        same("%s 512 deep: they open" % name, it.text("#name"), name + ".xml")
        for step in ["standing", "written", "save"]:
            it.step(step)
            told("%s 512 deep: %s, or it is told why not" % (name, step), not it.is_fault() or TOO_DEEP in it.message(), it.message())


def nested_tables(driven):
    """A hundred tables in one another are shown. More are told of, since browsers don't show them, and WebKit hangs."""
    it = begun(driven)
    table = "<w:tbl><w:tr><w:tc>", "<w:p/></w:tc></w:tr></w:tbl>"
    nested = lambda count: (make.FRONT + make.around(table, make.TEXT, 3 * count) + make.BACK).encode()
    said = it.drop(("nested.xml", nested(101)))
    told("101 tables in one another are told of", it.is_fault() and TOO_DEEP in said and "command line" in said, said)
    stays(it, "101 tables in one another")
    it.drop(("nested.xml", nested(100)))
    same("100 tables in one another open", it.text("#name"), "nested.xml")
    same("and all are there", it.in_page("return page.document.querySelectorAll('main table').length"), 100)


def little_stack(driven):
    """A document whose depth overflows the stack: the call ends, it is told, and what was on the screen stays and can be saved."""
    it = begun(driven, limited(driven, with_stack, STACK))
    for name in ("tables", "insertions"):
        said = it.drop((name + ".xml", (make.FRONT + make.DEEP[name]() + make.BACK).encode()))
        told("%s 512 deep overflow the stack, and it is told" % name, it.is_fault() and TOO_DEEP in said and "the program's stack is too small" in said, said)
        stays(it, name + " 512 deep")
    it.step("save")
    told("the next call goes well", it.saves("#save-document", "contract.decided.xml").startswith(b"<?xml"))


# The program is called from the end of the engine's own stack, and then from ever less deep, until that stack ends in the program.
FROM_DEEP = """
addEventListener("message", () => {
  if (self.isReplaced) return;
  self.isReplaced = true;
  const before = callProgram;
  callProgram = (program, words, files, put) => {
    if (!words.includes("settle")) return before(program, words, files, put);
    let ended = null;
    const descend = () => {
      try {
        descend();
      } catch (error) {
        try {
          if (!ended) ended = before(program, words, files, put);
        } catch (fault) {
          if (/wasm/i.test(fault.stack)) ended = fault;
        }
        throw error;
      }
    };
    try {
      descend();
    } catch {}
    throw ended instanceof Error ? ended : new Error("the stack did not end in the program");
  };
});
"""


def stack_ends(driven):
    """The browser's own stack ends while the program works: its call ends, it is told, and nothing is saved."""
    it = Desk(driven, altered(driven, FROM_DEEP))
    row = '<w:tbl><w:tr><w:trPr><w:ins w:id="1"/></w:trPr><w:tc>', "<w:p/></w:tc></w:tr></w:tbl>"
    it.drop(("tables.xml", (make.FRONT + make.around(row, make.TEXT, 240) + make.BACK).encode()))
    it.decide(1, "accept")
    decided = it.decisions()
    it.step("save")
    it.run("document.querySelector('input[name=how][value=accept]').click()")
    it.press("#save-document")
    said = it.text("#save-document-told")
    told("the end of the browser's stack is told", "Try another browser" in said and "the program's stack is too small" in said, said)
    told("and nothing is saved", not os.path.exists(os.path.join(driven.folder, "tables.accepted.xml")))
    same("the document and the decisions stay", [it.text("#name"), it.decisions()], ["tables.xml", decided])
    it.run("document.querySelector('input[name=how]').click()")
    told("and the next call goes well", it.saves("#save-document", "tables.decided.xml").startswith(b"<"))


CASES = [little_memory, nested_tables, little_stack, stack_ends, deep_documents]
