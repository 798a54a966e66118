"""What a page makes of the facts that come with it: edits as rows, numbers of clauses, comments, pictures, notes and hidden text."""
import base64
import os
import struct
import zlib

from page_seen import ENTER, IS_OWN, LOCK, REVIEWERS, Seen, example, in_numbered, in_package, page_of, reading, same, second_page, told, wait

import clauses

ROWS = "return [...document.querySelectorAll('aside > ol > li[id]')].map((it) => it.id.replace('revision-', ''))"
CHOSEN = "return document.querySelector('aside li[aria-current]').id"
ROW = "return document.querySelector(arguments[0]).innerText.replace(/\\s+/g, ' ')"
PRESSED = "return [...document.querySelectorAll(arguments[0] + ' button[value]')].map((it) => it.ariaPressed)"
CLICK = "document.querySelector(arguments[0]).click()"


def made(driven, name, whole):
    """A package in a file, and its page, which is that of the second writer too."""
    file = os.path.join(driven.folder, name + ".xml")
    with open(file, "w", newline="", encoding="utf-8") as out:
        out.write(whole)
    page = page_of(file)
    told("there is a page of " + name, page != b"")
    if IS_OWN:
        told("both writers make one page of " + name, page == second_page(file))
    return page


# Edits


def edits_are_rows(driven):
    """An edit of several changes is one row with one decision, which is undone as one and saved as its changes."""
    seen = Seen(driven, page_of("contract.xml"), has_edits=True)
    rows = seen.run(ROWS)
    same("an edit of several changes is one row", rows[:6], ["1", "edit-2", "4", "5", "6", "edit-7"])
    same("and there are as many rows as edits", len(rows), 25)
    text = seen.run(ROW, "#edit-2")
    told("a replacement is called so, with both its texts", all(it in text for it in ("2–3", "replaced by Bob Hay", "Hay Brothers", "Hay & Sons", "2 changes")), text)
    told("other edits say how many changes they have of each kind", "row deleted, 3 × paragraph end deleted, 3 × deleted" in seen.run(ROW, "#edit-13"), seen.run(ROW, "#edit-13"))
    driven.keys("jja")
    same("a key decides all changes of an edit", seen.words(), {2: "accept", 3: "accept"})
    told("single changes are counted", seen.tally().startswith("2 of 49 decided"), seen.tally())
    same("and the next row is chosen", seen.run(CHOSEN), "revision-4")
    driven.keys("ka")
    same("the same word again takes it away", seen.words(), {})
    seen.run(CLICK, "#edit-13 button[value=reject]")
    same("a button does the same", seen.words(), {it: "reject" for it in range(13, 20)})
    same("its button is pressed", seen.run(PRESSED, "#edit-13"), ["false", "true", "false"])
    driven.keys("uu")
    same("undo takes an edit back as one", seen.words(), {2: "accept", 3: "accept"})
    marked = "return [...document.querySelectorAll('main [aria-current]')].map((it) => it.dataset.revision)"
    seen.run(CLICK, "main [data-revision='3']")
    same("a change that is clicked in the document chooses its edit, and all of it is marked", [seen.run(CHOSEN), seen.run(marked)], ["edit-2", ["2", "3"]])
    seen.name("Eve Stone")
    package = reading.Package(example("contract.xml"))
    same("the journal has the single changes", seen.saved("Eve Stone"), reading.journal(package, [("Eve Stone", 1, it, "accept") for it in (2, 3)]))


def edits_open(driven):
    """An edit opens to its changes. Where these differ its row says so, and what is decided is kept."""
    seen = Seen(driven, page_of("contract.xml"), has_edits=True)
    seen.stay()
    driven.keys("jje")
    same("an open edit has its changes below it", seen.run(ROWS)[:5], ["1", "edit-2", "2", "3", "4"])
    same("a screen reader hears that it is open", seen.run("return document.querySelector('#edit-2 .open-edit').ariaExpanded"), "true")
    driven.keys("ja")
    same("one of them is decided by itself", seen.words(), {2: "accept"})
    same("the row of the edit shows that", seen.run(PRESSED, "#edit-2"), ["mixed", "false", "false"])
    told("and says it in words", "Its changes differ: 1 accepted, 1 not decided." in seen.run(ROW, "#edit-2"), seen.run(ROW, "#edit-2"))
    driven.keys("e")
    same("closed again, the edit is chosen", [seen.run(ROWS)[:3], seen.run(CHOSEN)], [["1", "edit-2", "4"], "edit-2"])
    driven.keys("r")
    told("its word is for what isn't decided", seen.words() == {2: "accept", 3: "reject"} and "others keep their words" in seen.line(), seen.line())
    driven.keys("r")
    told("where words that differ would be replaced there is a question", wait(lambda: "Replace 1 word of yours?" in seen.asked()), seen.asked())
    seen.answer("")
    same("without an answer nothing is", seen.words(), {2: "accept", 3: "reject"})
    driven.keys("r")
    seen.answer("all")
    same("with one all have the word", seen.words(), {2: "reject", 3: "reject"})
    driven.keys("u")
    same("which is undone as one", seen.words(), {2: "accept", 3: "reject"})
    seen.run(CLICK, "#together")
    same("each change can have its own row", len(seen.run(ROWS)), 49)
    told("the one that was chosen stays so", seen.chosen() == 2, str(seen.chosen()))


def apart(inside, more=""):
    return "<w:p>%s%s</w:p>" % (inside, more)


def edits_far_apart(driven):
    """The changes of an edit may stand far from each other: an open one has them together, and each by itself has its own place."""
    bold = '<w:r><w:rPr><w:b/><w:rPrChange w:author="Ann"><w:rPr/></w:rPrChange></w:rPr><w:t>%s</w:t></w:r>'
    bob = '<w:ins w:author="Bob"><w:r><w:t>x</w:t></w:r></w:ins>'
    body = apart(bold % "a", '<w:ins w:author="Ann"><w:r><w:t xml:space="preserve"> </w:t></w:r>%s</w:ins>' % bob) + apart(bold % "b", bob + bob) + apart(bold % "c")
    seen = Seen(driven, made(driven, "apart", in_package(body)), has_edits=True)
    driven.keys("je")
    same("an open edit has its changes together", seen.run(ROWS)[:4], ["edit-1", "1", "4", "2"])
    seen.run(CLICK, "#together")
    edits = seen.run("return [...document.querySelectorAll('aside > ol > li')].map((it) => it.dataset.edit)")
    same("two formats with one change between them are one edit", edits, ["1", "2", "3", "1", "5", "5", "7"])
    same("each by itself stands in its place", seen.run(ROWS), [str(it) for it in range(1, 8)])
    seen.run(CLICK, "#together")
    same("and together again", seen.run(ROWS)[:4], ["edit-1", "1", "4", "2"])
    seen.outside("redline.choose(4)")
    same("a page around this one chooses a change itself", seen.chosen(), 4)
    driven.keys("e")
    same("closed, the edit is chosen", [seen.run(CHOSEN), seen.run(ROWS)[:2]], ["edit-1", ["edit-1", "2"]])
    seen.outside("redline.choose(4)")
    same("and it is opened for the change", [seen.chosen(), seen.run(ROWS)[:3]], [4, ["edit-1", "1", "4"]])


def edits_and_filters(driven):
    """A filter counts single changes: an edit decides those alone that it leaves, and no locked one."""
    seen = Seen(driven, page_of("contract.xml", [], [LOCK]), has_edits=True)
    seen.pick("#kind", "ins")
    same("one change of an edit is a row of its own", seen.run(ROWS)[:2], ["3", "5"])
    same("of several the edit has those", [it for it in seen.run(ROWS) if it.startswith("edit")], ["edit-20"])
    told("and says how many", "22, 24, 26" in seen.run(ROW, "#edit-20") and "3 changes" in seen.run(ROW, "#edit-20"), seen.run(ROW, "#edit-20"))
    seen.run(CLICK, "#edit-20 button[value=accept]")
    same("it decides those alone", seen.words(), {22: "accept", 24: "accept", 26: "accept"})
    same("the buttons for all count single changes", seen.run("return document.querySelector('#accept-all').textContent"), "Accept these 10")
    seen.pick("#kind", "")
    told("then its changes differ", "3 accepted, 4 not decided" in seen.run(ROW, "#edit-20"), seen.run(ROW, "#edit-20"))
    told("a locked edit can't be decided", seen.run("return document.querySelectorAll('#edit-42 button[value]').length") == 0 and "2 changes locked" in seen.run(ROW, "#edit-42"))
    seen.run(CLICK, "#edit-42")
    driven.keys("a")
    told("and says so", "locked" in seen.line() and len(seen.words()) == 3, seen.line())
    seen.run("document.querySelector('#save').click()")
    seen.name("Eve Stone")
    seen.run("document.querySelector('#save').click()")
    wait(seen.asked)
    counts = seen.run("return [...document.querySelectorAll('.counts dd')].map((it) => it.textContent)")
    same("the summary counts single changes", counts, ["3", "0", "0", "41", "5"])
    seen.answer("")


# Numbers of clauses

INS, DEL = 'w:id="1" w:author="Ann"', 'w:id="2" w:author="Bob"'
TEXT = "<w:r><w:t>%s</w:t></w:r>"


def clause(level, text, mark="", num=1, more=""):
    props = '<w:numPr><w:ilvl w:val="%d"/><w:numId w:val="%d"/></w:numPr>' % (level, num)
    return "<w:p><w:pPr>%s%s%s</w:pPr>%s</w:p>" % (props, mark and "<w:rPr><w:%s %s/></w:rPr>" % (mark, INS), more, text)


def inserted(text):
    return "<w:ins %s>%s</w:ins>" % (INS, TEXT % text)


def deleted(text):
    return '<w:del %s><w:r><w:delText>%s</w:delText></w:r></w:del>' % (DEL, text)


ROW_GONE = "<w:tbl><w:tr><w:trPr><w:del %s/></w:trPr><w:tc>%%s</w:tc></w:tr><w:tr><w:tc>%%s</w:tc></w:tr></w:tbl>" % DEL
BOX = "<w:p>%s</w:p>" % "<w:r><w:pict><w:txbxContent>%s</w:txbxContent></w:pict></w:r>"
PAGE_END = '<w:sectPr><w:pgSz w:w="11906" w:h="16838"/></w:sectPr>'
NUMBERED = {
    "a new clause": clause(0, TEXT % "a") + clause(1, inserted("b"), "ins") + clause(1, TEXT % "c"),
    "clauses that go": clause(0, TEXT % "a") + clause(1, deleted("b"), "del") + clause(1, deleted("c"), "del") + clause(1, TEXT % "d"),
    "two that become one": clause(0, TEXT % "a", "del") + clause(1, TEXT % "b") + clause(0, TEXT % "c"),
    "a row that goes": clause(0, TEXT % "a") + ROW_GONE % (clause(0, TEXT % "b"), clause(0, TEXT % "c")) + clause(0, TEXT % "d"),
    "text boxes": clause(0, TEXT % "a") + BOX % (clause(0, inserted("b"), "ins") + clause(0, TEXT % "c")) + clause(0, TEXT % "d"),
    "a text box that goes": clause(0, TEXT % "a") + "<w:p><w:ins %s><w:r><w:pict><w:txbxContent>%s</w:txbxContent></w:pict></w:r></w:ins></w:p>" % (INS, clause(0, TEXT % "b")) + clause(0, TEXT % "c"),
    "an end of a section": clause(0, TEXT % "a") + clause(0, deleted("b"), more=PAGE_END) + clause(0, TEXT % "c"),
    "levels that begin again": clause(0, TEXT % "a") + clause(2, TEXT % "b") + clause(2, inserted("c"), "ins") + clause(1, TEXT % "d") + clause(2, TEXT % "e"),
    "a list that begins again": clause(0, TEXT % "a") + clause(1, TEXT % "b", num=2) + clause(1, TEXT % "c", num=2) + clause(1, deleted("d"), "del") + clause(1, TEXT % "e", num=3),
    "an empty clause that goes": clause(0, TEXT % "a") + clause(0, "", "ins") + clause(0, TEXT % "c"),
}
SHOWN_NUMBERS = """
document.querySelector("input[value=" + arguments[0] + "]").click();
seeNumbers();
return [...document.querySelectorAll("main [data-number]")]
  .filter((it) => it.getClientRects().length && getComputedStyle(it, "::before").content !== "none").map((it) => it.dataset.number);
"""
LISTS = (
    '<w:num w:numId="2"><w:abstractNumId w:val="0"/><w:lvlOverride w:ilvl="1"><w:startOverride w:val="7"/></w:lvlOverride></w:num>'
    '<w:num w:numId="3"><w:abstractNumId w:val="0"/><w:lvlOverride w:ilvl="1"><w:lvl w:ilvl="1"><w:start w:val="3"/><w:numFmt w:val="upperRoman"/>'
    '<w:isLgl/><w:lvlText w:val="%1-%2"/></w:lvl></w:lvlOverride></w:num></w:numbering>')


def numbers_of(package):
    """The numbers of a package's paragraphs, by the second writer."""
    return [text for _, root in package.stories for text in clauses.numbers(clauses.Lists(package), root)[0].values() if text]


def numbers_in_views(driven):
    """Each view has the numbers of the document that is written."""
    for name, body in NUMBERED.items():
        whole = in_numbered(body + "<w:p/>").replace("</w:numbering>", LISTS)
        seen = Seen(driven, made(driven, "numbers", whole))
        package = reading.Package(whole)
        for view, say in [("marks", None), ("final", "accept"), ("original", "reject"), ("marks", None)]:
            wanted = numbers_of(reading.Package(reading.decided(package, lambda number: say)))
            same("%s: numbers as %s" % (name, view), seen.run(SHOWN_NUMBERS, view), wanted)
        if not package.revisions:
            continue
        seen.run("say(0, 'reject')")
        decided = reading.Package(reading.decided(reading.Package(reading.decided(package, lambda number: "reject" if number == 1 else None)), lambda number: "accept"))
        same("%s: numbers after a decision" % name, seen.run(SHOWN_NUMBERS, "final"), numbers_of(decided))


def numbers_that_differ(driven):
    """Where the page's own counting comes to another number than the one that it was made with, there are none in the other views."""
    whole = made(driven, "numbers", in_numbered(NUMBERED["a new clause"] + "<w:p/>"))
    seen = Seen(driven, whole.replace(b">1.2<", b">1.3<"))
    same("with marks they are those of the page", seen.run(SHOWN_NUMBERS, "marks"), ["1.", "1.1", "1.3"])
    same("the other views have none", seen.run(SHOWN_NUMBERS, "final"), [])
    line = seen.run("return document.querySelector('#view-line').textContent")
    told("and say so", "numbers of clauses are shown with marks alone" in line, line)
    same("a screen reader hears a number before its text", [it for it in driven.spoken("main p") if it][0][0], "paragraph")


# Comments

RELATION = '<Relationship Id="rId%d" Type="http://x/%s" Target="%s"/>'
EXTENDED = 'xmlns:w15="http://schemas.microsoft.com/office/word/2012/wordml"'
WHO = 'w:author="Ann &lt;b&gt; Gray" w:date="2026-11-03T14:30:00Z"'


def remark(number, text):
    return '<w:comment w:id="%d" %s><w:p w14:paraId="0000000%d">%s</w:p></w:comment>' % (number, WHO, number, TEXT % text)


def state(number, done=0, answers=None):
    parent = "" if answers is None else ' w15:paraIdParent="0000000%d"' % answers
    return '<w15:commentEx w15:paraId="0000000%d"%s w15:done="%d"/>' % (number, parent, done)


def with_parts(whole, *parts):
    """The package with these parts too, as they are."""
    return whole.replace("</pkg:package>", "".join(parts) + "</pkg:package>")


def xml_part(name, inside):
    return '<pkg:part pkg:name="%s" pkg:contentType="x"><pkg:xmlData>%s</pkg:xmlData></pkg:part>' % (name, inside)


def relations(*targets):
    each = "".join(RELATION % (at, *it) for at, it in enumerate(targets, 1))
    return xml_part("/word/_rels/document.xml.rels", '<Relationships xmlns="x">%s</Relationships>' % each)


def commented_package():
    mark = lambda name, number: '<w:%s w:id="%d"/>' % (name, number)
    reference = lambda number: "<w:r>%s</w:r>" % mark("commentReference", number)
    body = (
        "<w:p>%s%s%s%s%s%s%s</w:p>" % (mark("commentRangeStart", 1), TEXT % "before ", inserted("new"), mark("commentRangeEnd", 1), reference(1), reference(2), TEXT % " after"),
        "<w:p>%s%s</w:p>" % (TEXT % "at a point", reference(3)),
        "<w:p>%s%s%s%s</w:p><w:p/>" % (mark("commentRangeStart", 4), TEXT % "no reference", mark("commentRangeEnd", 4), TEXT % ", and more"),
    )
    notes = "".join(remark(*it) for it in [(1, "Is <b>this</b> right?".replace("<", "&lt;")), (2, "Yes."), (3, "A point."), (4, "A range."), (5, "Nowhere.")])
    states = "<w15:commentsEx %s>%s</w15:commentsEx>" % (EXTENDED, state(1) + state(2, answers=1) + state(3, done=1))
    whole = in_package("".join(body), [("/word/comments.xml", "comments", notes)]).replace("<w:comments ", '<w:comments xmlns:w14="w14" ')
    return with_parts(whole, xml_part("/word/commentsExtended.xml", states), relations(("comments", "comments.xml"), ("commentsExtended", "commentsExtended.xml")))


TINTED = "const it = CSS.highlights.get('remark'); return it ? [...it].map(String).join() : ''"


def comments_in_place(driven):
    """A comment has a sign at its place, which says it and opens it with its answers."""
    seen = Seen(driven, made(driven, "comments", commented_package()))
    signs = seen.run("return [...document.querySelectorAll('.remark-sign')].map((it) => [it.textContent, it.closest('p').textContent.slice(0, 6)])")
    same("each thread has a sign at its place", signs, [["c1", "before"], ["c3", "at a p"], ["c4", "no ref"]])
    names = [name for _, name in driven.spoken(".remark-sign")]
    same("a screen reader hears who said what, the answers, and what is done", names, [
        "Comment 1 by Ann <b> Gray, 2026-11-03: Is <b>this</b> right?; Answer by Ann <b> Gray, 2026-11-03: Yes.",
        "Comment 3 by Ann <b> Gray, 2026-11-03, done: A point.", "Comment 4 by Ann <b> Gray, 2026-11-03: A range."])
    seen.run("document.querySelector('.remark-sign').focus()")
    same("what it is on is tinted", seen.run(TINTED), "before new")
    driven.keys(ENTER)
    text = seen.run("return document.querySelector('.remark-box').innerText.replace(/\\s+/g, ' ')")
    told("it opens to what was said, as text", "Is <b>this</b> right?" in text and "Ann <b> Gray, 2026-11-03, an answer to comment 1: Yes." in text, text)
    same("its button says that it is open", seen.run("return document.querySelector('.remark-sign').ariaExpanded"), "true")
    driven.keys("\ue00c")
    same("the Escape key closes it", seen.run("return [document.querySelectorAll('.remark-box').length, document.querySelector('.remark-sign').ariaExpanded]"), [0, "false"])
    seen.run("document.querySelector('#person').focus()")
    same("and the tint goes", seen.run(TINTED), "")
    same("one that is nowhere in the text is by itself", seen.run("return [...document.querySelectorAll('.orphans li')].map((it) => it.textContent)"), ["Comment 5 by Ann <b> Gray, 2026-11-03: Nowhere."])
    own = seen.run("return [...document.querySelectorAll('.remark-own')].map((it) => it.innerText)")
    told("the comments themselves say whose they are", len(own) == 5 and own[2] == "Comment 3 by Ann <b> Gray, 2026-11-03, done show its place" and "place" not in own[4], str(own))


def comments_beside_changes(driven):
    """The comments on a change stand in its row, can be searched, and lead to their place."""
    seen = Seen(driven, made(driven, "comments", commented_package()))
    text = seen.run(ROW, "#revision-1 .remarks")
    told("the row of a change has its comments with their answers", all(it in text for it in ("2 comments", "Comment 1 by Ann <b> Gray", "Is <b>this</b> right?", "an answer to comment 1: Yes.")), text)
    told("a screen reader hears how many", seen.run("return wordsOfChange(0)").endswith(", 2 comments"))
    seen.pick("#search", "is <b>this")
    same("they are searched", seen.run(ROWS), ["1"])
    seen.run(CLICK, "#revision-1 .remark-way")
    told("they lead to their place", seen.run("return document.activeElement.matches('.remark-sign') && document.querySelector('.remark-box') !== null"))
    same("which decides nothing", seen.words(), {})
    seen = Seen(driven, page_of("contract.xml", REVIEWERS), has_edits=True)
    open_now = lambda row: seen.run("return document.querySelector(arguments[0] + ' .remarks').open", row)
    same("what is done is closed", [open_now("#revision-6"), open_now("#revision-32")], [False, True])


# Pictures


def png():
    chunk = lambda kind, data: struct.pack(">I", len(data)) + kind + data + struct.pack(">I", zlib.crc32(kind + data))
    return b"\x89PNG\r\n\x1a\n" + chunk(b"IHDR", struct.pack(">IIBBBBB", 2, 1, 8, 2, 0, 0, 0)) + chunk(b"IDAT", zlib.compress(b"\0\1\2\3\4\5\6")) + chunk(b"IEND", b"")


DRAWING = '<w:r><w:drawing><x:inline xmlns:x="x"><x:docPr descr="%s"/><a:blip xmlns:a="a" xmlns:r="r" r:embed="%s"/></x:inline></w:drawing></w:r>'
BINARY = '<pkg:part pkg:name="/word/media/%s" pkg:contentType="image/%s" pkg:compression="store"><pkg:binaryData>%s</pkg:binaryData></pkg:part>'
IMAGES = """
return [...document.querySelectorAll("main .picture")].map((it) => {
  const image = it.querySelector("img");
  return image ? [image.alt, image.naturalWidth] : it.textContent;
});
"""


def pictures_are_shown(driven):
    """A picture stands in place of the word, and what is said of it is its text. What isn't a picture stays a word."""
    names = [("a &lt;bar&gt;", "rId1"), ("", "rId2"), ("a drawing", "rId3"), ("none", "rId9"), ("broken", "rId4")]
    body = "<w:p>%s</w:p><w:p/>" % "".join(DRAWING % it for it in names)
    data = base64.b64encode(png()).decode()
    parts = [BINARY % ("a.png", "png", data[:20] + "\r\n" + data[20:]), BINARY % ("b.svg", "svg+xml", data), BINARY % ("c.png", "png", "AAAA")]
    targets = [("image", it) for it in ("media/a.png", "/word/media/a.png", "media/b.svg", "media/c.png")]
    seen = Seen(driven, made(driven, "pictures", with_parts(in_package(body), *parts, relations(*targets))))
    wanted = [["a <bar>", 2], ["picture", 2], "picture: a drawing", "picture: none", "picture: broken"]
    wait(lambda: seen.run(IMAGES) == wanted, 5)
    same("pictures by their relationships", seen.run(IMAGES), wanted)
    same("nothing is fetched", seen.run("return performance.getEntriesByType('resource').filter((it) => !it.name.startsWith('data:')).length"), 0)
    same("no complaint of the browser", [it for it in driven.complaints() if "image" not in it.lower()], [])


# Notes


def notes_have_signs(driven):
    """Notes are counted whatever their ids, and their signs lead there and back."""
    note = lambda kind, number, text: '<w:%s w:id="%s"><w:p>%s</w:p></w:%s>' % (kind, number, TEXT % text, kind)
    reference = lambda kind, number, more="": '<w:r><w:%sReference w:id="%s"%s/></w:r>' % (kind, number, more)
    own = ' w:customMarkFollows="1"'
    body = "<w:p>%s</w:p><w:p/>" % (reference("footnote", 7) + reference("footnote", 3, own) + reference("footnote", 2) + reference("endnote", 5) + inserted("x"))
    more = [("/word/footnotes.xml", "footnotes", note("footnote", 2, "two") + note("footnote", 3, "own") + note("footnote", 7, "one") + note("footnote", 9, "none")),
            ("/word/endnotes.xml", "endnotes", note("endnote", 5, "last"))]
    seen = Seen(driven, made(driven, "notes", in_package(body, more)))
    signs = "return [...document.querySelectorAll(arguments[0] + ' sup')].map((it) => it.textContent)"
    same("references are counted", seen.run(signs, "[data-story=document]"), ["1", "*", "2", "i"])
    same("notes have the signs of their references", [seen.run(signs, "[data-story=%s]" % it) for it in ("footnotes", "endnotes")], [["2", "*", "1", ""], ["i"]])
    same("a screen reader hears where they lead", [role for role, _ in driven.spoken("[data-story=document] sup")], ["link"] * 4)
    there = "return document.activeElement.closest('section').dataset.story + ' ' + document.activeElement.textContent"
    seen.run(CLICK, "[data-story=document] sup")
    same("a reference leads to its note", seen.run(there), "footnotes 1")
    driven.keys(ENTER)
    same("and the note back, by key too", seen.run(there), "document 1")


# Hidden text


def finds_hidden(driven):
    """Changes of hidden text have a filter: those in it, those that hold it, and those that make it so."""
    hidden = '<w:r><w:rPr><w:rStyle w:val="Secret"/></w:rPr><w:t>%s</w:t></w:r>'
    turned = '<w:r><w:rPr><w:vanish/><w:rPrChange %s><w:rPr/></w:rPrChange></w:rPr><w:t>turned</w:t></w:r>' % INS
    body = "<w:p>%s%s</w:p><w:p>%s</w:p><w:p/>" % (inserted("seen"), turned, '<w:ins w:id="3" w:author="Cara">%s</w:ins>' % (hidden % "unseen"))
    styles = '<w:style w:type="character" w:styleId="Secret"><w:rPr><w:vanish/></w:rPr></w:style>'
    whole = with_parts(in_package(body, [("/word/styles.xml", "styles", styles)]), relations(("styles", "styles.xml")))
    seen = Seen(driven, made(driven, "hidden", whole))
    same("text that a style hides is hidden", seen.run("return [...document.querySelectorAll('main .hidden')].map((it) => it.textContent.replace('run-props', ''))"), ["turned", "unseen"])
    options = "return [...document.querySelectorAll('#kind option')].map((it) => it.textContent)"
    told("there is a filter for it", "hidden text (2)" in seen.run(options), str(seen.run(options)))
    seen.pick("#kind", "h:hidden")
    same("which leaves these", seen.run(ROWS), ["2", "3"])


CASES = [
    edits_are_rows, edits_open, edits_far_apart, edits_and_filters, numbers_in_views, numbers_that_differ, comments_in_place, comments_beside_changes,
    pictures_are_shown, notes_have_signs, finds_hidden,
]
