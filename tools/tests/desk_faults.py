"""Files that the desk refuses, and calls that go wrong: each is told with what to do, and the document on the screen stays."""
import io
import os
import struct
import subprocess
import zipfile

from desk_seen import FLATOPC, Desk, built, example, read
from page_seen import EXAMPLES, in_package, same, told

MAIN = "application/vnd.openxmlformats-officedocument.wordprocessingml.document.main+xml"
OLE = b"\xd0\xcf\x11\xe0\xa1\xb1\x1a\xe1" + bytes(600)
TYPES = '<?xml version="1.0"?><Types xmlns="http://schemas.openxmlformats.org/package/2006/content-types"><Default Extension="xml" ContentType="application/xml"/></Types>'


def archive(*files):
    """A ZIP archive of files, each a name and what it holds."""
    made = io.BytesIO()
    with zipfile.ZipFile(made, "w", zipfile.ZIP_DEFLATED) as out:
        for name, content in files:
            out.writestr(name, content)
    return made.getvalue()


def contract(folder):
    """The example as a .docx."""
    path = os.path.join(folder, "contract.docx")
    subprocess.run([FLATOPC, "pack", "-f", os.path.join(EXAMPLES, "contract.xml"), path], check=True)
    return read(path)


def bomb(says):
    """An archive with 300 MB of zeros, whose directory says that it has so many."""
    whole = archive(("[Content_Types].xml", TYPES), ("word/document.xml", bytes(300 << 20)))
    true = struct.pack("<I", 300 << 20)
    return whole.replace(true, struct.pack("<I", says)) if says != 300 << 20 else whole


def encrypted(docx):
    """The archive with the flag of a password at each file."""
    made, at = bytearray(docx), 0
    for mark, place in [(b"PK\x03\x04", 6), (b"PK\x01\x02", 8)]:
        at = docx.find(mark)
        while at >= 0:
            made[at + place] |= 1
            at = docx.find(mark, at + 4)
    return bytes(made)


def bent(docx):
    """The archive with some other bytes in its middle."""
    made = bytearray(docx)
    for at in range(len(made) // 3, len(made) // 3 + 40):
        made[at] ^= 0x55
    return bytes(made)


def out_of_place(folder):
    """A .docx as LibreOffice writes it: a change of a paragraph's properties stands before the properties of its end."""
    who = 'w:id="1" w:author="Ann" w:date="2026-11-03T14:30:00Z"'
    body = '<w:p><w:pPr><w:pPrChange %s><w:pPr/></w:pPrChange><w:rPr><w:b/></w:rPr></w:pPr><w:r><w:t>a</w:t></w:r></w:p>' % who
    package, docx = os.path.join(folder, "office.xml"), os.path.join(folder, "office.docx")
    with open(package, "w", encoding="utf-8") as out:
        out.write(in_package(body + "<w:p/>").replace('contentType="x"', 'contentType="%s"' % MAIN))
    subprocess.run([FLATOPC, "pack", "-f", package, docx], check=True, capture_output=True)
    return read(docx)


def documents(driven):
    """Each of these is no document that can be decided."""
    docx = contract(driven.folder)
    it = Desk(driven)
    it.drop(("contract.docx", docx))
    it.name("Dee Wood")
    it.decide(3, "accept")
    deep = in_package("<w:p>" + "<w:r>" * 600 + "</w:r>" * 600 + "</w:p>").encode()
    for name, content, what in [
        ("empty.docx", b"", "“empty.docx” is empty"),
        ("old.docx", OLE, "has a password, or is in the old form of Word"),
        ("scan.pdf", b"%PDF-1.7\n", "is a PDF"),
        ("page.html", b"<!DOCTYPE html><p>", "is a web page"),
        ("other.xml", b"<other/>", "is another kind of XML file"),
        ("letter.odt", archive(("mimetype", "application/vnd.oasis.opendocument.text")), "is an OpenDocument file (.odt)"),
        ("sheet.xlsx", archive(("[Content_Types].xml", TYPES), ("xl/workbook.xml", "<workbook/>")), "isn't as a word processor writes documents"),
        ("cut.docx", docx[:600], "is damaged"),
        ("bent.docx", bent(docx), "is damaged"),
        ("secret.docx", encrypted(docx), "has a password"),
        ("bomb.docx", bomb(300 << 20), "unpacks to more"),
        ("lying.docx", bomb(1000), "“lying.docx”"),
        ("unsound.xml", example("unsound.xml"), "redline: package: rule"),
        ("deep.xml", deep, "redline: limit depth 512"),
        ("text.docx", b"Dear Sir", "can't be read as a Word document"),
        ("utf16.xml", example("plain.xml").decode().encode("utf-16"), "can't be read as a Word document"),
    ]:
        said = it.drop((name, content))
        told("%s is refused, with what and what to do" % name, it.is_fault() and what in said and len(said) > len(what) + 10, said)
    same("the document on the screen stays", [it.text("#name"), it.decisions()], ["contract.docx", ["3 accept"]])
    it.drop(("plain.xml", example("plain.xml")), ("ann.journal", example("ann.journal")), answer="no")
    same("it stays where another one is not to be opened, and no journal is added", [it.text("#name"), it.decisions(), it.text("#others-badge")], ["contract.docx", ["3 accept"], ""])
    said = it.drop(("a.docx", docx), ("b.docx", docx))
    told("one document at a time", it.is_fault() and "one document at a time" in said, said)
    said = it.drop(("office.docx", out_of_place(driven.folder)))
    told("what LibreOffice puts in the wrong place is told", "LibreOffice" in said and "rule 4" in said, said)
    said = it.press("#message .acts button")
    told("and can be put in its place", "1 change to decide" in said, said)


def journals(driven):
    """Journals that are none, that are another document's, or that are many."""
    it = Desk(driven)
    said = it.drop(("ann.journal", example("contract.ann.journal")))
    told("a journal before the document", it.is_fault() and "Open the document first" in said, said)
    it.drop(("contract.xml", example("contract.xml")))
    good = example("contract.ann.journal")
    for name, content, what in [
        ("utf16.journal", good.decode().encode("utf-16"), "saved it as UTF-16"),
        ("windows.journal", good.replace(b"\n", b"\r\n"), "changed its line ends"),
        ("remark.journal", good + b"looks fine to me\n", "is no journal"),
        ("noise.journal", bytes(range(256)) * 9, "is no journal"),
        ("empty.journal", b"", "“empty.journal” is empty"),
        ("other.journal", example("ann.journal"), "another document"),
    ]:
        said = it.drop((name, content))
        told("%s is refused, with the program's line and what to do" % name, it.is_fault() and what in said and "redline: journal %s: " % name in said, said)
    same("none was added", it.text("#others-badge"), "")
    head = b"\n".join(good.split(b"\n")[:3]) + b"\n"
    many = [("r%d.journal" % at, head + b"1\t%d\taccept\tReviewer %03d\n" % (at % 49 + 1, at)) for at in range(500)]
    said = it.drop(*many, ("other.journal", example("ann.journal")))
    told("500 journals are added at once, and another document's is left out", "500 journals were added" in said and "other.journal" in said, said)
    same("all of them count", it.text("#others-badge"), "500")
    said = it.drop(("again.journal", many[7][1]))
    told("a journal that is there already", "is there already, as “r7.journal”" in said, said)
    said = it.drop(("-x.journal", good), ("document.xml.journal", good.replace(b"Ann Gray", b"Ann Grey")), ("r1.journal", good.replace(b"Ann Gray", b"ann  gray")))
    told("names that are options or are taken are no trouble", "3 journals were added" in said, said)
    it.step("others")
    warnings = it.text("#warnings")
    told("spellings that nearly agree are told", "Ann Gray” and “Ann Grey" in warnings and "ann  gray" in warnings, warnings[:300])
    it.press("#journals button")
    same("a journal is taken away", it.text("#others-badge"), "502")


def two_words(driven):
    """One reviewer with two words on one change, from two sittings that don't know of each other."""
    it = Desk(driven)
    good = example("contract.ann.journal")
    it.drop(("contract.xml", example("contract.xml")), ("one.journal", good), ("two.journal", good.replace(b"\taccept\t", b"\treject\t")))
    it.step("others")
    told("two words by one reviewer are told", "“Ann Gray” says both accept and reject of change" in it.text("#warnings"), it.text("#warnings")[:200])


def altered(driven, script):
    """The desk with a script before that of its worker."""
    whole = read(built()).decode()
    file = os.path.join(driven.folder, "altered.html")
    with open(file, "w", encoding="utf-8") as out:
        out.write(whole.replace('id="worker">', 'id="worker">\n' + script, 1))
    return file


# What a call comes to in a worker whose program is replaced, where its words have the first of these.
REPLACED = """
addEventListener("message", () => {
  if (self.isReplaced) return;
  self.isReplaced = true;
  const before = callProgram;
  callProgram = (program, words, files, put) => {
    if (!words.includes(%r)) return before(program, words, files, put);
    %s
  };
});
"""


def too_little(driven):
    """What a browser lacks: WebAssembly, memory, stack."""
    for lack, script in [
        ("WebAssembly", "WebAssembly = undefined;"),
        ("a part of WebAssembly", "WebAssembly.compile = async () => { throw new WebAssembly.CompileError('invalid opcode'); };"),
    ]:
        it = Desk(driven, altered(driven, script))
        told("a browser without " + lack, it.is_fault() and "can't run Redline" in it.message() and "administrator" in it.message(), it.message())
    for word, script, what in [
        ("memory", "put(2, new TextEncoder().encode('redline: no memory\\n')); return { status: 8, memory: 0 };", "too little memory"),
        ("stack", "throw new RangeError('Maximum call stack size exceeded');", "Try another browser"),
        ("trap", "throw new WebAssembly.RuntimeError('memory access out of bounds');", "Try another browser"),
    ]:
        it = Desk(driven, altered(driven, REPLACED % ("settle", script)))
        it.drop(("contract.xml", example("contract.xml")))
        it.step("save")
        it.run("document.querySelector('input[name=how][value=accept]').click()")
        it.press("#save-document")
        said = it.text("#save-document-told")
        told("too little %s is told" % word, what in said, said)
        told("and nothing is saved", not os.path.exists(os.path.join(driven.folder, "contract.accepted.xml")))
        it.run("document.querySelector('input[name=how][value=reject]').click()")


def stops(driven):
    """A long call shows how far it is, and can be stopped; the document and the decisions stay."""
    slow = "for (const end = Date.now() + 20000; Date.now() < end; ); return before(program, words, files, put);"
    it = Desk(driven, altered(driven, REPLACED % ("settle", slow)))
    it.drop(("contract.xml", example("contract.xml")), ("ann.journal", example("contract.ann.journal")))
    it.decide(3, "accept")
    it.step("save")
    it.run("document.querySelector('input[name=how][value=accept]').click()")
    it.run("document.querySelector('#save-document').click()")
    told("a long call is told", it.wait("!document.getElementById('progress').hidden", 10), "no progress is shown")
    same("with what it does", it.text("#doing"), "Writing the document…")
    it.press("#stop")
    told("it can be stopped", "Stopped" in it.text("#save-document-told"), it.text("#save-document-told"))
    told("and nothing is shown of it any more", it.wait("document.getElementById('progress').hidden"))
    same("the document and the decisions stay", [it.text("#name"), it.decisions(), it.text("#others-badge")], ["contract.xml", ["3 accept"], "1"])
    it.run("document.querySelector('input[name=how]').click()")
    told("and the next call goes well", it.saves("#save-document", "contract.decided.xml").startswith(b"<?xml"))


# What a screen reader is told of long work, and how often what is seen of it changes.
HEARD = """
window.heardAll = [];
window.seenChanges = 0;
new MutationObserver(() => window.heardAll.push(document.getElementById("heard").textContent)).observe(document.getElementById("heard"), { childList: true });
new MutationObserver(() => (window.seenChanges += 1)).observe(document.getElementById("doing"), { childList: true });
"""
# What is told in these elements stays silent: they, or what they are in, say that they aren't ready, or aren't there for a screen reader.
SILENT = "return [...document.querySelectorAll('[role=status]')].filter((it) => it.closest('[aria-busy=true], [aria-hidden=true], [aria-live=off]')).map((it) => it.id)"


def heard(driven):
    """A screen reader is told what a long call does, once, and that it is at its end, and not of each megabyte."""
    slow = "for (let at = Date.now(), end = at + 4000; at < end; ) if (Date.now() > at + 40) { at = Date.now(); tellPhase('read', 1e6); } return before(program, words, files, put);"
    it = Desk(driven, altered(driven, REPLACED % ("settle", slow)))
    it.drop(("contract.xml", example("contract.xml")))
    it.step("save")
    it.run(HEARD)
    it.run("document.querySelector('input[name=how][value=accept]').click()")
    it.run("document.querySelector('#save-document').click()")
    told("a long call is told to a screen reader", it.wait("heardAll.length > 0", 10))
    same("in an element that waits its turn", [role for role, _ in driven.spoken("#heard")], ["status"])
    same("no such element is silent while work goes on", it.run(SILENT), [])
    it.after()
    all_heard, changes = it.run("return [window.heardAll, window.seenChanges]")
    told("once, and then that it is at its end", len(all_heard) == 2 and all_heard[0].startswith("Writing the document…") and all_heard[1] == "Ready.", str(all_heard))
    told("while what is seen of it goes on", changes > 10, str(changes))
    told("what was saved is told too", it.text("#save-document-told").startswith("Saved as contract.accepted.xml."), it.text("#save-document-told"))


def before_it_starts(driven):
    """A file that comes before the program is ready is opened once it is, and where it never is, that is told again."""
    it = Desk(driven, altered(driven, "for (const end = Date.now() + 3000; Date.now() < end; );"), waits=False)
    it.drop(("contract.xml", example("contract.xml")))
    told("a file that came too early is opened", it.wait("document.getElementById('name').textContent === 'contract.xml'"), it.message())
    it = Desk(driven, altered(driven, "WebAssembly = undefined;"))
    said = it.drop(("contract.xml", example("contract.xml")))
    told("in a browser that can't run it, no file is opened", it.is_fault() and "can't run Redline" in said, said)


CASES = [documents, journals, two_words, too_little, stops, heard, before_it_starts]
