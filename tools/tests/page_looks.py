"""How a page looks: views, sizes, colours, keys alone, and what a screen reader is told."""
import os
import re
import time

import pictures
from page_seen import ENTER, IS_OWN, LOCK, REVIEWERS, SPACE, TAB, Seen, in_package, page_of, same, second_page, told, wait


SHOWN = """
const isShown = (it) => it.getClientRects().length > 0 && it.checkVisibility({ visibilityProperty: true });
return [...document.querySelectorAll(arguments[0])].filter(isShown).map((it) => it.textContent);
"""


def views(driven):
    seen = Seen(driven, page_of("contract.xml"))
    texts = lambda selector: " ".join(seen.run(SHOWN, selector))
    marked = texts("ins.text, del.text")
    told("with marks both are shown", "Hay Brothers" in marked and "Hay & Sons" in marked)
    driven.click("input[value=final]")
    told("final: what is inserted", "Hay & Sons" in texts("ins.text") and "Hay Brothers" not in texts("del.text"))
    told("final: rows", "Chain" in texts("tr") and "Rope" not in texts("tr"))
    told("final: no signs but of ends of paragraphs that are open", not seen.run(SHOWN, "main :is(.edge, .props, a, .mark[data-verdict])"))
    seen.press(3, "reject")
    told("final: what the page rejects is gone", "Hay & Sons" not in texts("ins.text"))
    seen.press(20, "reject")
    told("final: a rejected row is gone", "Chain" not in texts("tr"))
    driven.click("input[value=original]")
    told("original: what was there", "Hay Brothers" in texts("del.text") and "Hay & Sons" not in texts("ins.text"))
    told("original: rows and cells", "Rope" in texts("tr") and "order" in texts("td") and "free" not in texts("td"))
    seen.press(13, "accept")
    told("original: what the page accepts is done", "Rope" not in texts("tr"))
    driven.click("input[value=marks]")
    links = "return [...document.querySelectorAll('main a')].every((it) => document.querySelector(it.hash).hash === '#' + it.id)"
    told("both halves of a move lead to each other", seen.run(links) and seen.run("return document.querySelectorAll('main a').length") == 2)
    numbers = seen.run("return [...new Set([...document.querySelectorAll('main [data-revision]')].map((it) => Number(it.dataset.revision)))]")
    same("each change stands in the document", sorted(numbers), list(range(1, 50)))
    driven.click("main ins[data-revision='33']")
    same("a change that is clicked is chosen", seen.run("return document.querySelector('li[aria-current]').id"), "revision-33")


def read_whole(driven):
    """The browser makes of each page what its text says: no element of a change is dropped or put elsewhere."""
    for name in ["contract.xml", "plain.xml", "letter.xml", "terms.xml", "joins.xml", "properties.xml", "rows.xml", "moves.xml"]:
        whole = page_of(name)
        seen = Seen(driven, whole)
        depth, nest = 0, []
        for tag in re.findall(r"<(/?)([a-z0-9]+)([^>]*)>", whole.decode().split("<main lang=\"\">")[1].split("</main>")[0]):
            depth += -1 if tag[0] else 0
            if "data-revision" in tag[2]:
                nest.append([depth, tag[1]])
            depth += 0 if tag[0] or tag[1] in ("br",) else 1
        came = seen.run(
            "const depth = (it) => it.matches('main') ? 0 : 1 + depth(it.parentElement) - (it.matches('tbody, .edge') ? 1 : 0);"
            "return [...document.querySelectorAll('main [data-revision]')].map((it) => [depth(it) - 1, it.localName])")
        same("read whole: " + name, came, nest)


def two_forms(driven):
    """A text box that the file keeps in two forms, with a table in it: nothing behind it falls out of the paragraph."""
    who = 'w:author="Ann" w:date="2026-11-03T14:30:00Z"'
    box = (
        '<w:txbxContent><w:p><w:r><w:t>box </w:t></w:r><w:ins w:id="1" %s><w:r><w:t>new</w:t></w:r></w:ins></w:p>'
        '<w:tbl><w:tr><w:trPr><w:ins w:id="2" %s/></w:trPr><w:tc><w:p/></w:tc></w:tr></w:tbl><w:p/></w:txbxContent>' % (who, who))
    body = (
        '<w:p><w:r><w:t>before </w:t></w:r><w:r><w:rPr><w:b/></w:rPr><m:AlternateContent xmlns:m="m"><m:Choice><w:drawing>%s</w:drawing></m:Choice>'
        "<m:Fallback><w:pict>%s</w:pict></m:Fallback></m:AlternateContent><w:t>behind it</w:t></w:r>"
        '<w:ins w:id="3" %s><w:r><w:t>, and after</w:t></w:r></w:ins></w:p><w:p/>' % (box, box, who))
    file = os.path.join(driven.folder, "forms.xml")
    with open(file, "w", newline="", encoding="utf-8") as out:
        out.write(in_package(body))
    seen = Seen(driven, page_of(file))
    same("all stays in its paragraph", seen.run("return [...document.querySelectorAll('section > *')].map((it) => it.className)"), ["p", ""])
    words = seen.run("return document.querySelector('.p').textContent.replace(/\\s+/g, ' ')")
    same("in its order", words, "before picturebox new row kept in another formpicturebox new row behind it, and after")
    inside = seen.run("return [...document.querySelectorAll('section > .p [data-revision]')].map((it) => it.dataset.revision)")
    same("with its changes", inside, ["1", "2", "3", "4", "5"])
    same("the other form is closed", seen.run("return document.querySelector('main details').open"), False)
    driven.keys("jjj")
    same("its words are in the list", seen.run("return document.querySelector('#revision-3 .words').textContent"), "box new")
    told("the list opens it", seen.run("return document.querySelector('main details').open"))


CONTRAST = """
const ctx = new OffscreenCanvas(1, 1).getContext("2d", { willReadFrequently: true });
const rgb = (...layers) => {
  ctx.clearRect(0, 0, 1, 1);
  for (const it of layers) { ctx.fillStyle = it; ctx.fillRect(0, 0, 1, 1); }
  return ctx.getImageData(0, 0, 1, 1).data;
};
const light = (it) => [0.2126, 0.7152, 0.0722].reduce((sum, part, at) => {
  const value = it[at] / 255;
  return sum + part * (value <= 0.04045 ? value / 12.92 : ((value + 0.055) / 1.055) ** 2.4);
}, 0);
const found = [];
const walker = document.createTreeWalker(document.body, NodeFilter.SHOW_TEXT);
for (let node = walker.nextNode(); node; node = walker.nextNode()) {
  const at = node.parentElement, style = getComputedStyle(at);
  if (!node.data.trim() || !at.getClientRects().length || parseFloat(style.fontSize) === 0 || at.disabled || at.closest("script, option")) continue;
  const layers = [];
  for (let up = at; up; up = up.parentElement) layers.unshift(getComputedStyle(up).backgroundColor);
  const under = light(rgb("white", ...layers)), over = light(rgb("white", ...layers, style.color));
  const ratio = (Math.max(under, over) + 0.05) / (Math.min(under, over) + 0.05);
  const size = parseFloat(style.fontSize), isLarge = size >= 24 || (size >= 18.66 && Number(style.fontWeight) >= 700);
  if (ratio < (isLarge ? 3 : 4.5)) found.push(at.localName + "." + at.className + " " + ratio.toFixed(2) + " " + node.data.trim().slice(0, 20));
}
return found;
"""


def looks(driven):
    seen = Seen(driven, page_of("contract.xml", REVIEWERS, [LOCK]))
    driven.keys("jajrjw")
    grounds = {}
    for width, height in [(1280, 800), (480, 900)]:
        for scheme in ["light", "dark"]:
            driven.look(width, height, scheme)
            time.sleep(0.2)
            same("contrast, %d wide, %s" % (width, scheme), seen.run(CONTRAST), [])
            wide = seen.run("return [document.documentElement.scrollWidth, innerWidth]")
            told("nothing sticks out, %d wide, %s" % (width, scheme), wide[0] <= wide[1], str(wide))
            grounds[scheme] = seen.run("return getComputedStyle(document.body).backgroundColor")
    told("dark and light follow the system", grounds["dark"] != grounds["light"], str(grounds))
    driven.look(1280, 800, "light", "print")
    shown = lambda selector: bool(seen.run(SHOWN, selector))
    told("print shows the marked document alone", shown("main ins.text") and shown("main del.text") and not shown("header") and not shown("aside"))
    driven.look(1280, 800)


def by_keys_alone(driven):
    seen = Seen(driven, page_of("contract.xml"))
    met = []
    for _ in range(60):
        driven.keys(TAB)
        it = seen.run(
            "const it = document.activeElement; const style = getComputedStyle(it);"
            "return [it.id || (it.closest('main *') && (it.title || it.ariaLabel)) || it.value || it.localName, style.outlineStyle !== 'none' && parseFloat(style.outlineWidth) >= 2]")
        if it in met:
            break
        met.append(it)
    names = [name for name, _ in met]
    told("the Tab key goes to all that can be pressed", {"marks", "main", "person", "save", "author", "kind", "state", "accept-all", "reject-all", "accept"} <= set(names), str(names))
    told("what has the keyboard is seen", all(is_seen for _, is_seen in met), str([name for name, is_seen in met if not is_seen]))
    seen.stay()
    driven.keys("jj" + TAB + TAB + SPACE)
    same("a button is pressed by the space bar", seen.words(), {2: "reject"})
    seen.run("document.querySelector('#person').focus()")
    driven.keys("Raja Wirk" + TAB + ENTER)
    wait(seen.asked)
    told("the summary has the keyboard, and not the button that saves", seen.run("return document.activeElement.matches('.asking')"))
    for _ in range(20):
        driven.keys(TAB)
        if seen.run("return document.activeElement.value === 'save'"):
            break
    driven.keys(ENTER)
    file = os.path.join(driven.folder, "Raja Wirk.journal")
    told("a name may have the letters of the keys", wait(lambda: os.path.exists(file)) and seen.words() == {2: "reject"}, str(seen.words()))


# What a person presses or types into, and what a page is divided into.
CONTROLS = "button, input, select, a, summary, [tabindex], main, aside"
# Signs in the document that stand for a change, and what a screen reader is told of each.
SIGNS = [
    (".props[data-revision='1']", "Change 1: text formatted (hidden: not set \u2192 on) by Cara Lee, 2026-11-04"),
    (".props[data-revision='9']", "Change 9, before 1.1: row formatted (row stays on one page: not set \u2192 on) by Cara Lee, 2026-11-04"),
    (".row[data-revision='13']", "Change 13, before 1.1: row deleted by Bob Hay, 2026-11-03"),
    (".mark[data-revision='14']", "Change 14, before 1.1: paragraph end deleted by Bob Hay, 2026-11-03"),
    (".cell[data-revision='27']", "Change 27, before 1.1: cell deleted by Bob Hay, 2026-11-03"),
]
# The changes in the text: whether each can have the keyboard, and what is told of it.
REACHED = "return [...document.querySelectorAll('main :is(ins, del).text')].map((it) => (it.focus(), [document.activeElement === it, it.title]))"


def for_readers(driven):
    """What a screen reader is told: each control has a name, the parts of the page their roles, and each change its author."""
    seen = Seen(driven, page_of("contract.xml", REVIEWERS))
    driven.keys("jj")
    first = lambda selector: driven.spoken(selector)[0][0]
    for selector, role in [
        ("main", "main"), ("header", "banner"), ("aside", "complementary"), ("h1", "heading"), ("#line", "status"), ("aside > ol", "list"),
        ("aside > ol > li", "listitem"), ("main ins", "insertion"), ("main del", "deletion"), ("main table", "table"), ("main tr", "row"),
        ("input[name=view]", "radio"), ("#person", "combobox"), ("#author", "combobox"),
    ]:
        same("role of " + selector, first(selector), role)
    for selector, name in SIGNS:
        [(role, told_name)] = driven.spoken("main " + selector)
        same("what is told of %s" % selector, [role in ("img", "image"), told_name], [True, name])
    same("no sign at the edge of a row is a cell", seen.run("return document.querySelectorAll('main td.edge').length"), 0)
    reached = seen.run(REACHED)
    told("a change in the text can have the keyboard, and has its author", len(reached) > 20 and all(has and re.match(r"Change \d+(, [^:]+)?: .* by \w", title) for has, title in reached), str(reached))
    nameless = [role for role, name in driven.spoken(CONTROLS) if not name.strip()]
    same("each control has a name", [role for role in nameless if role not in ("none", "listitem")], [])


def saved_copy(driven):
    """A page that a browser saved as it is seen says that it is a copy, and has nothing twice."""
    seen = Seen(driven, page_of("contract.xml", REVIEWERS))
    seen.press(2, "reject")
    whole = seen.run("return '<!DOCTYPE html>' + document.documentElement.outerHTML")
    driven.complaints()
    copy = Seen(driven, whole.encode())
    same("one header, one list, one of each control", copy.run("return ['header', 'aside > ol', '#save', '#person', 'dialog'].map((it) => document.querySelectorAll(it).length)"), [1, 1, 1, 1, 0])
    same("each change is there once", copy.run("return document.querySelectorAll('aside > ol > li').length"), 49)
    told("it says what it is", "This is a copy" in copy.run("return document.querySelector('main .copy').textContent"))
    told("nothing can be pressed", copy.run("return document.querySelector('aside').inert && document.querySelector('header').inert"))
    driven.keys("jja")
    same("nor decided by key", copy.run("return [...document.querySelectorAll('li[data-say]')].map((it) => it.id + it.dataset.say)"), ["revision-2reject"])
    same("no complaint", driven.complaints(), [])


# A page in which this one stands, with no script of it run. What is seen of it: what it says, a row of its list, and its last paragraph.
FRAME = '<!DOCTYPE html><iframe sandbox="allow-same-origin" width="1200" height="700" srcdoc="%s"></iframe>'
SEEN_THERE = """
const there = document.querySelector("iframe").contentDocument;
const seen = (it) => (it && it.getClientRects().length ? it.innerText.replace(/\\s+/g, " ").trim() : "");
return [seen(there.querySelector("noscript p")), seen(there.querySelector("#revision-33")), Boolean(seen([...there.querySelectorAll("section > p")].at(-1)))];
"""


def without_scripts(driven):
    """Where no script runs the page says so, and shows the whole document, and in the list each word with its reviewer."""
    body = "<w:p><w:r><w:t>one of many</w:t></w:r></w:p>" * 500
    long = os.path.join(driven.folder, "long.xml")
    with open(long, "w", encoding="utf-8") as out:
        out.write(in_package(body))
    for name, journals, words in [("contract.xml", REVIEWERS, "3.1 Ann Gray: accepted Bob Hay: rejected"), (long, [], "")]:
        whole = page_of(name, journals).decode().replace("&", "&amp;").replace('"', "&quot;")
        seen = Seen(driven, (FRAME % whole).encode())
        said, row, has_end = seen.run(SEEN_THERE)
        told("without scripts it says so", "which does not run here" in said, said)
        same("the words have names", row, words)
        told("and the document is whole", has_end)


def smaller_forms(driven):
    """Text from right to left, merged cells, symbols, carriage returns, and headings in words."""
    cell = "<w:tc><w:tcPr>%s</w:tcPr><w:p><w:r><w:t>c</w:t></w:r></w:p></w:tc>"
    rows = [['<w:gridSpan w:val="2"/>', '<w:vMerge w:val="restart"/>'], ["", "", "<w:vMerge/>"]]
    body = (
        "<w:p><w:pPr><w:bidi/></w:pPr><w:r><w:t>\u05e9\u05dc\u05d5\u05dd 12</w:t></w:r></w:p>"
        '<w:p><w:r><w:sym w:font="Wingdings" w:char="F0FC"/><w:sym w:font="Symbol" w:char="263A"/><w:t>a&#xD;b</w:t></w:r></w:p>'
        "<w:tbl>%s</w:tbl><w:p/>" % "".join("<w:tr>%s</w:tr>" % "".join(cell % it for it in row) for row in rows))
    note = '<w:footnote w:id="1"><w:p><w:r><w:t>a note</w:t></w:r></w:p></w:footnote>'
    more = [("/word/footnotes.xml", "footnotes", note), ("/word/header1.xml", "hdr", "<w:p/>"), ("/word/header2.xml", "hdr", "<w:p/>")]
    file = os.path.join(driven.folder, "forms.xml")
    with open(file, "w", newline="", encoding="utf-8") as out:
        out.write(in_package(body, more))
    seen = Seen(driven, page_of(file))
    same("a paragraph from right to left", seen.run("return getComputedStyle(document.querySelector('main p')).direction"), "rtl")
    same("symbols", seen.run("return [...document.querySelectorAll('main .symbol')].map((it) => it.textContent)"), ["\u25a1", "\u263a"])
    told("a carriage return stays one", seen.run("return document.querySelectorAll('main p')[1].textContent").endswith("a\rb"))
    same("cells side by side are one", seen.run("return [...document.querySelectorAll('main tr')].map((it) => [...it.cells].map((cell) => cell.colSpan))"), [[2, 1], [1, 1, 1]])
    top = "const it = getComputedStyle(document.querySelector('main tr:last-child td:last-child')); return it.borderTopStyle"
    same("and one below the other have no line between them", seen.run(top), "hidden")
    headings = seen.run("return [...document.querySelectorAll('main h2')].map((it) => [it.textContent, it.title])")
    same("what a part is stands in words", headings, [["Footnotes", "/word/footnotes.xml"], ["Header 1", "/word/header1.xml"], ["Header 2", "/word/header2.xml"]])


MATH = 'xmlns:m="http://schemas.openxmlformats.org/officeDocument/2006/math"'
LETTERS = "<m:r><m:t>%s</m:t></m:r>"
HALF = "<m:f><m:num>%s</m:num><m:den>%s</m:den></m:f>" % (LETTERS % "a &lt; b", LETTERS % "2")
BARS = '<m:d><m:dPr><m:begChr m:val="|"/><m:endChr m:val="|"/></m:dPr><m:e>%s</m:e></m:d>' % (LETTERS % "x")
SUM = '<m:nary><m:naryPr><m:chr m:val="\u2211"/></m:naryPr><m:sub>%s</m:sub><m:sup/><m:e>%s</m:e></m:nary>' % (LETTERS % "i", LETTERS % "i")
DRAWING = '<w:r><w:drawing><d:inline xmlns:d="x"><d:docPr descr="%s"/></d:inline></w:drawing></w:r>'
HIDDEN = '<w:r><w:rPr><w:i/><w:vanish/></w:rPr><w:t>%s</w:t></w:r>'
LABEL = "return [...document.querySelectorAll(arguments[0])].map((it) => [it.textContent, getComputedStyle(it, '::before').content])"


def plain_and_hidden(driven):
    """Hidden text, ends of pages, soft hyphens, equations and words for pictures; and the document comes before its headers."""
    body = (
        "<w:p>%s%s<w:r><w:rPr><w:vanish w:val=\"0\"/></w:rPr><w:t>seen</w:t></w:r></w:p>" % (HIDDEN % "not ", HIDDEN % "this"),
        '<w:p><w:r><w:br w:type="page"/><w:t>co</w:t><w:softHyphen/><w:t>op</w:t><w:br w:type="column"/><w:br/></w:r></w:p>',
        "<w:p><m:oMath %s>%s</m:oMath></w:p>" % (MATH, HALF + SUM + BARS),
        "<w:p>%s%s</w:p>" % (DRAWING % "A &lt;b&gt; sign", DRAWING % ""),
        '<w:p><w:ins w:id="1" w:author="Ann" w:date="2026-11-03T14:30:00Z">%s</w:ins></w:p><w:p/>' % (HIDDEN % "new"),
    )
    header = ("/word/header1.xml", "hdr", "<w:p><w:r><w:t>above</w:t></w:r></w:p>")
    file = os.path.join(driven.folder, "hidden.xml")
    with open(file, "w", newline="", encoding="utf-8") as out:
        out.write(in_package("".join(body), [header], is_last=True))
    whole = page_of(file)
    if IS_OWN:
        told("both writers make one page of it", whole == second_page(file))
    seen = Seen(driven, whole)
    same("hidden text says so", seen.run(LABEL, "main .hidden"), [["not ", '"hidden: "'], ["this", '"hidden: "'], ["new", '"hidden: "']])
    same("and in the list", seen.run(LABEL, "aside .hidden"), [["new", '"hidden: "']])
    same("pages and columns end", seen.run(LABEL, ".page-end, .column-end"), [["", '"page break"'], ["", '"column break"']])
    told("a soft hyphen is one", "co\u00adop" in seen.run("return document.querySelector('main').textContent"))
    same("an equation is its linear text", seen.run(LABEL, ".equation"), [["(a < b)/(2)\u2211_(i)^()(i)|(x)|", "none"]])
    same("a picture says what it shows", seen.run(LABEL, ".picture"), [["picture: A <b> sign", "none"], ["picture", "none"]])
    stories = "return [...document.querySelectorAll('main > section')].map((it) => [it.dataset.story, it.querySelector('h2')?.textContent || ''])"
    same("the document comes first", seen.run(stories), [["document", ""], ["hdr", "Header"]])


def pictured(driven, file):
    """The picture of a page for the manual."""
    driven.look(1120, 700)
    seen = Seen(driven, page_of("contract.xml", REVIEWERS), has_edits=True)
    seen.name("Eve Stone")
    driven.keys("jaaja")
    seen.run("document.querySelector('main').scrollTop = 0; document.querySelector('aside > ol').scrollTop = 105")
    time.sleep(0.3)
    driven.picture(file)
    driven.look(1280, 800)


def papers_picture(driven):
    """The manual shows the page as it is."""
    if driven.name != "chromium":
        return
    made = os.path.join(driven.folder, "page.png")
    pictured(driven, made)
    pictures.is_of_now(driven, "page.png", made)


CASES = [views, read_whole, two_forms, looks, by_keys_alone, for_readers, saved_copy, without_scripts, smaller_forms, plain_and_hidden, papers_picture]
