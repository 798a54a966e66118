"""Documents whose texts, authors and names try to be markup, style or script."""
import os
import time

from page_seen import Seen, in_package, page_of, reading, same, told


EVIL = [
    "</p></section></main><script>window.ran=1</script>",
    "<img src=x onerror=window.ran=2>",
    "\" onmouseover=\"window.ran=3\" x=\"",
    "' onfocus='window.ran=4' autofocus tabindex='0",
    "</title></style></script><script>window.ran=5</script>",
    "--><svg onload=window.ran=6>",
    "]]><iframe srcdoc='<script>parent.ran=7</script>'>",
    "javascript:window.ran=8",
    "&lt;script&gt;window.ran=9&lt;/script&gt;",
    "\u2028</textarea><base href='//evil.example/'>",
    "{{constructor.constructor('window.ran=10')()}}",
    "</ol><li id=\"revision-1\" data-locked=\"no\">",
    "url(//evil.example/x)}*{background:url(//evil.example/y)",
    "\"]{}*{color:red}",
]
# Control characters: what HTML can't hold is shown as U+FFFD, the others have a sign.
CONTROLS, CONTROLS_SHOWN = "a\x7fb\u0085c\u009fd", ["a\ufffdb\u0085c\u009fd", 2]
NAMES = {"class", "data-revision", "data-author", "data-style", "id", "href", "data-say", "aria-current", "lang", "role", "aria-level", "aria-label", "tabindex", "title", "data-sign", "data-story", "data-part"}


def quoted(text):
    for sign, reference in [("&", "&amp;"), ("<", "&lt;"), (">", "&gt;"), ('"', "&quot;"), ("'", "&apos;")]:
        text = text.replace(sign, reference)
    return text


def hostile_package():
    body = ""
    for place, evil in enumerate(EVIL):
        it = quoted(evil)
        who = 'w:id="%d" w:author="%s" w:date="2026-11-03T14:30:00Z"' % (place, it)
        body += '<w:p><w:pPr><w:pStyle w:val="%s"/><w:rPr><w:ins %s/></w:rPr></w:pPr>' % (it, who)
        body += '<w:r><w:t xml:space="preserve">%s</w:t></w:r><w:ins %s><w:r><w:t>%s</w:t></w:r></w:ins>' % (it, who, it)
        body += '<w:del %s><w:r><w:delText>%s</w:delText><w:footnoteReference w:id="%s"/></w:r></w:del>' % (who, it, it)
        body += "<w:r><w:t><![CDATA[%s]]></w:t></w:r></w:p>" % evil.replace("]]>", "]]]]><![CDATA[>")
        body += "<w:tbl><w:tr><w:trPr><w:del %s/></w:trPr><w:tc><w:p><w:r><w:t>%s</w:t></w:r></w:p></w:tc></w:tr></w:tbl>" % (who, it)
    body += "<w:p><w:r><w:t>%s</w:t></w:r></w:p>" % CONTROLS
    headers = [(quoted(evil), "hdr", "<w:p><w:r><w:t>%s</w:t></w:r></w:p>" % quoted(evil)) for evil in EVIL]
    return in_package(body + "<w:p/>", headers)


def hostile(driven):
    whole = hostile_package()
    package = reading.Package(whole)
    file = os.path.join(driven.folder, "hostile.xml")
    with open(file, "w", newline="", encoding="utf-8") as out:
        out.write(whole)
    journal = os.path.join(driven.folder, "hostile.journal")
    entries = [(evil, 1, number, "accept") for number, evil in enumerate(EVIL, 1)]
    with open(journal, "w", newline="", encoding="utf-8") as out:
        out.write(reading.journal(package, entries))
    driven.complaints()
    seen = Seen(driven, page_of(file, [journal]))
    driven.keys("jajrjw")
    seen.run("document.querySelectorAll('aside > ol > li').forEach((it) => it.scrollIntoView())")
    for event in ["mouseover", "focus", "click"]:
        seen.run("document.querySelectorAll('main *').forEach((it) => it.dispatchEvent(new Event(arguments[0])))", event)
    time.sleep(0.5)
    same("nothing hostile ran", seen.run("return window.ran ?? null"), None)
    same("one script and one style", seen.run("return [document.scripts.length, document.querySelectorAll('style, link, base, iframe, img, svg').length]"), [1, 1])
    same("nothing is fetched", seen.run("return performance.getEntriesByType('resource').length"), 0)
    same("no complaint of the browser", driven.complaints(), [])
    strange = seen.run("return [...new Set([...document.querySelectorAll('main, main *')].flatMap((it) => it.getAttributeNames()))]")
    same("no strange attribute", [it for it in strange if it not in NAMES], [])
    elements = set(seen.run("return [...new Set([...document.querySelectorAll('main *')].map((it) => it.localName))]"))
    same("no strange element", elements - {"section", "h2", "p", "ins", "del", "sup", "table", "tbody", "tr", "td", "span"}, set())
    texts = seen.run("return [...document.querySelectorAll('main ins.text')].map((it) => it.textContent)")
    same("hostile texts are texts", texts, EVIL)
    texts = seen.run("return [...document.querySelectorAll('main p')].map((it) => [it.textContent, it.querySelectorAll('.unseen').length])")
    told("control characters are seen as such", CONTROLS_SHOWN in texts)
    texts = seen.run("return [...document.querySelectorAll('h2')].map((it) => [it.textContent, it.title])")
    same("hostile names of parts are texts", texts, [["Header %d" % number, evil] for number, evil in enumerate(EVIL, 1)])
    styles = seen.run("return [...document.querySelectorAll('main [data-style]')].map((it) => it.dataset.style)")
    same("hostile styles are texts", styles, EVIL)
    authors = seen.run("return [...new Set([...document.querySelectorAll('aside > ol > li')].map((it) => it.dataset.author))]")
    same("hostile authors are texts", authors, EVIL)
    reviewers = seen.run("return [...document.querySelectorAll('aside > ul > li')].map((it) => it.textContent)")
    same("hostile reviewers are texts", sorted(reviewers), sorted(EVIL))
    told("the policy lets nothing run", seen.run(
        "const it = document.createElement('div'); try { it.innerHTML = '<img src=x onerror=ran=1>'; } catch { return true; } return false"))


CASES = [hostile]
