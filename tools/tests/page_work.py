"""How a reviewer works in a page: many at once, undo, keys, search, names, the summary, and the file that is saved."""
import os
import time

from page_seen import (
    ENTER, IS_OWN, LOCK, REDLINE, REVIEWERS, Seen, call, example, in_numbered, in_package, page, page_of, reading, same, told, wait, written,
)

SHOWN_ROWS = "return [...document.querySelectorAll('aside > ol > li:not([hidden])')].map((it) => Number(it.id.slice(9)))"
DOWN = (
    "const it = new KeyboardEvent('keydown', { key: arguments[0], repeat: arguments[1], bubbles: true, cancelable: true });"
    "(document.activeElement || document.body).dispatchEvent(it)")


def with_title(whole, title="", rank=""):
    """The page with the document's name and with a rank, as the program writes them."""
    words = (' data-title="%s"' % title if title else "") + (' data-rank="%s"' % rank if rank else "")
    return whole.replace(b"<body ", b"<body" + words.encode() + b" ", 1)


def many_at_once(driven):
    """A button for all decides what the filter leaves now, and asks before it replaces a word."""
    seen = Seen(driven, page_of("contract.xml"))
    seen.pick("#state", "s:")
    seen.press(2, "reject")
    same("the button counts what is left now", seen.run("return document.querySelector('#accept-all').textContent"), "Accept these 48")
    driven.click("#accept-all")
    same("a decision just made stands", seen.words(), {it: "reject" if it == 2 else "accept" for it in range(1, 50)})
    seen.pick("#state", "")
    driven.click("#reject-all")
    wait(seen.asked)
    told("a question says how many words are replaced", "Replace 48 words" in seen.asked() and "48 accepted" in seen.asked(), seen.asked())
    seen.answer("")
    same("nothing is replaced without an answer", len([it for it in seen.words().values() if it == "accept"]), 48)
    for number in [3, 4]:
        seen.press(number, "accept")
    driven.click("#reject-all")
    seen.answer("rest")
    same("the others alone", [number for number, it in seen.words().items() if it == "reject"], [2, 3, 4])
    driven.click("#reject-all")
    seen.answer("all")
    same("all of them", set(seen.words().values()), {"reject"})


def undoes(driven):
    """Undo is a stack of all that was done, with its words."""
    seen = Seen(driven, page_of("contract.xml"))
    label = lambda: seen.run("return document.querySelector('#undo').textContent")
    seen.press(2, "reject")
    seen.press(2, "accept")
    same("what it undoes is said", label(), "Undo: change 2 accepted")
    seen.pick("#author", "=Bob Hay")
    driven.click("#reject-all")
    seen.answer("all")
    came = [seen.words()]
    for _ in range(4):
        driven.click("#undo") if seen.run("return !document.querySelector('#undo').disabled") else None
        came.append(seen.words())
    told("all are undone, one after the other", len(came[0]) > 5 and came[1:] == [{2: "accept"}, {2: "reject"}, {}, {}], str(came))
    same("and then there is nothing to undo", label(), "Undo")


def goes_on(driven):
    """After a decision the next undecided change is chosen, and keys lead to those that matter."""
    seen = Seen(driven, page_of("contract.xml", REVIEWERS, [LOCK]))
    seen.press(2, "accept")
    driven.keys("kk")
    driven.keys("a")
    same("the next undecided change is chosen", seen.chosen(), 3)
    driven.keys("d")
    same("the next disputed one", seen.chosen(), 32)
    driven.keys("r")
    same("which is decided", [seen.chosen(), seen.words()[32]], [33, "reject"])
    driven.keys("o")
    told("where others differ", seen.chosen() == 32 and "others differ" in seen.line(), str(seen.chosen()))
    driven.keys("n")
    same("the next undecided one", seen.chosen(), 33)
    driven.keys("N")
    same("and back", seen.chosen(), 31)
    seen.stay()
    driven.keys("a")
    same("it is switched off", seen.chosen(), 31)
    time.sleep(0.8)
    driven.open(seen.file)
    seen.answer("use")
    same("and stays so", seen.run("return document.querySelector('#advance').checked"), False)
    told("help says all keys", seen.run("document.querySelector('#help').click()") is None and wait(lambda: "next disputed one" in seen.asked()), seen.asked())
    driven.keys("a")
    same("a key decides nothing behind a dialog", len(seen.words()), 4)


def holds_keys(driven):
    """A key that is held down decides once, and no key decides a change that the filter hides."""
    seen = Seen(driven, page_of("contract.xml"))
    seen.stay()
    driven.keys("j")
    for is_repeat in [False, True, True]:
        seen.run(DOWN, "a", is_repeat)
    same("a held key decides once", seen.words(), {1: "accept"})
    held = "const it = new KeyboardEvent('keydown', { key: 'Enter', repeat: true, bubbles: true, cancelable: true }); return !document.querySelector('#revision-1 button').dispatchEvent(it)"
    same("a held key presses no button again", seen.run(held), True)
    seen.run("document.querySelector('#revision-1 button').dispatchEvent(new MouseEvent('click', { detail: 2, bubbles: true }))")
    same("a double click decides once", seen.words(), {1: "accept"})
    seen.pick("#author", "=Bob Hay")
    driven.keys("r")
    told("a hidden change isn't decided", seen.words() == {1: "accept"} and "hidden by the filter" in seen.line(), seen.line())
    driven.keys("w")
    seen.pick("#author", "")
    driven.keys("w")
    told("there is nothing to withdraw", seen.words() == {1: "accept"} and "no earlier word" in seen.line(), seen.line())
    same("its button is off", seen.run("return document.querySelector('#revision-1 [value=withdraw]').disabled"), True)
    seen = Seen(driven, page_of("contract.xml", REVIEWERS))
    seen.answer("anew")
    seen.name("Bob Hay")
    seen.press(32, "withdraw")
    same("an earlier word is withdrawn", seen.words(), {32: "withdraw"})


def searches(driven):
    seen = Seen(driven, page_of("contract.xml", REVIEWERS))
    for text, wanted in [("FOURTEEN  days", [32, 33, 34, 35]), ("42", [42]), ("nothing like it", [])]:
        seen.pick("#search", text)
        same("searched for " + text, seen.run(SHOWN_ROWS), wanted)
    seen.pick("#search", "title to the goods")
    told("both ends of a move", seen.run(SHOWN_ROWS) != [] and 31 in seen.run(SHOWN_ROWS), str(seen.run(SHOWN_ROWS)))
    seen.run("document.querySelector('#search').value = ''; document.querySelector('#accept-all').click()")
    told("nothing is decided by a filter that wasn't seen", seen.words() == {} and "press again" in seen.line(), seen.line())
    seen.pick("#search", "")
    same("all again", len(seen.run(SHOWN_ROWS)), 49)


# A run that is made hidden, one of which the language alone changes, one whose lists agree, and an insertion.
FORMATS = "".join("<w:p>%s</w:p>" % it for it in [
    '<w:r><w:rPr><w:vanish/><w:rPrChange w:author="Ann"><w:rPr/></w:rPrChange></w:rPr><w:t>secret</w:t></w:r>',
    '<w:r><w:rPr><w:lang w:val="de-DE"/><w:rPrChange w:author="Ann"><w:rPr/></w:rPrChange></w:rPr><w:t>Recht</w:t></w:r>',
    '<w:r><w:rPr><w:b/><w:rPrChange w:author="Ann"><w:rPr><w:b w:val="1"/></w:rPr></w:rPrChange></w:rPr><w:t>bold</w:t></w:r>',
    '<w:ins w:author="Ann"><w:r><w:t>hiding</w:t></w:r></w:ins>',
])
SAID = "return [...document.querySelectorAll('aside > ol > li')].map((it) => it.querySelector('.changed')?.textContent ?? null)"


def says_formats(driven):
    """A change of format says what it changes, is found by that, and changes of language only can be left out."""
    file = os.path.join(driven.folder, "formats.xml")
    with open(file, "w", newline="", encoding="utf-8") as out:
        out.write(in_package(FORMATS))
    seen = Seen(driven, page_of(file))
    same("each change of format says what it changes", seen.run(SAID), ["hidden: not set \u2192 on", "language only", "no property differs", None])
    heard = seen.run("return [0, 3].map(wordsOfChange)")
    told("a screen reader hears it too", "(hidden: not set \u2192 on)" in heard[0] and "(" not in heard[1], str(heard))
    for text, wanted in [("hidden", [1]), ("not set", [1]), ("no property", [3]), ("", [1, 2, 3, 4])]:
        seen.pick("#search", text)
        same("formats searched for " + (text or "nothing"), seen.run(SHOWN_ROWS), wanted)
    for kind, wanted in [("f:other", [1, 3]), ("f:language", [2]), ("run-props", [1, 2, 3]), ("ins", [4])]:
        seen.pick("#kind", kind)
        same("formats of the kind " + kind, seen.run(SHOWN_ROWS), wanted)
    seen.pick("#kind", "f:language")
    driven.click("#accept-all")
    same("those of language only are decided at once", seen.words(), {2: "accept"})
    seen = Seen(driven, page_of("contract.xml"))
    same("without a change of language only there is no filter for it", seen.run("return document.querySelector('#kind option[value^=\"f:\"]') === null"), True)


INS = '<w:ins w:author="Ann"><w:r><w:t>%s</w:t></w:r></w:ins>'
NUMBERED = '<w:p><w:pPr><w:numPr><w:ilvl w:val="%d"/><w:numId w:val="1"/></w:numPr></w:pPr>%s</w:p>'
WHERE = """return [...document.querySelectorAll('aside > ol > li')].map((row) => {
  const before = [...row.children].slice(0, [...row.children].findIndex((it) => it.className === 'words'));
  return ['clause', 'place'].map((name) => before.find((it) => it.className === name)?.textContent ?? null);
})"""


def says_clauses(driven):
    """A change says its clause and its place before its words, and is found by both."""
    file = os.path.join(driven.folder, "clauses.xml")
    body = NUMBERED % (0, INS % "one") + NUMBERED % (1, INS % "two") + "<w:p>%s</w:p>" % INS % "three"
    with open(file, "w", newline="", encoding="utf-8") as out:
        out.write(in_numbered(body, [("/word/header1.xml", "hdr", "<w:p>%s</w:p>" % INS % "four")]))
    seen = Seen(driven, page_of(file))
    same("clauses and places stand before the words", seen.run(WHERE), [["1.", None], ["1.1", None], ["before 1.1", None], [None, "header"]])
    heard = seen.run("return [1, 3].map(wordsOfChange)")
    same("a screen reader hears them too", heard, ["Change 2, 1.1: inserted by Ann", "Change 4, header: inserted by Ann"])
    for text, wanted in [("1.1", [2, 3]), ("header", [4]), ("before", [3]), ("", [1, 2, 3, 4])]:
        seen.pick("#search", text)
        same("clauses searched for " + (text or "nothing"), seen.run(SHOWN_ROWS), wanted)


NEAR = [("another case", "ann gray"), ("two spaces", "Ann  Gray"), ("a no-break space", "Ann\u00a0Gray"), ("a zero-width space", "Ann\u200b Gray")]


def asks_about_names(driven):
    """A name that is nearly a known one is asked about, and known names are offered."""
    whole = page_of("plain.xml", ["ann.journal", "bob.journal"]).replace(b"Bob Hay", "Ren\u00e9 Hay".encode())
    seen = Seen(driven, whole)
    offered = seen.run("return [...document.querySelector('#person').list.options].map((it) => it.value)")
    same("known names are offered", offered, ["Ann Gray", "Ren\u00e9 Hay"])
    put = "const it = document.querySelector('#person'); it.value = arguments[0]; it.dispatchEvent(new Event('change'))"
    for case, name in NEAR + [("letters composed otherwise", "Rene\u0301 Hay")]:
        seen.run(put, name)
        told("a near miss: " + case, wait(lambda: "Is this your name?" in seen.asked(), 3), seen.asked())
        seen.answer("0")
        wanted = "Ren\u00e9 Hay" if "Hay" in name else "Ann Gray"
        same("the known name, not " + case, seen.run("return document.querySelector('#person').value"), wanted)
    seen.press(5, "reject")
    journal = seen.saved("Ren\u00e9 Hay")
    told("its number is one above", journal.endswith("\n3\t5\treject\tRen\u00e9 Hay\n"), journal)
    seen.run(put, "ann gray")
    seen.answer("typed")
    seen.answer("anew")
    same("a name that was meant as typed", seen.run("return document.querySelector('#person').value"), "ann gray")


def keeps_controls_in_names(driven):
    """A name with one of the characters from U+0080 to U+009F is the same reviewer's, with the next number."""
    seen = Seen(driven, page_of("plain.xml", ["ann.journal", "bob.journal"]).replace(b"Bob Hay", "Bob\u0085Hay".encode()))
    put = "const it = document.querySelector('#person'); it.value = arguments[0]; it.dispatchEvent(new Event('change'))"
    seen.press(5, "accept")
    seen.run(put, "Bob Hay")
    told("a near miss of it is asked about", wait(lambda: "Bob[U+0085]Hay" in seen.asked(), 3), seen.asked())
    seen.answer("0")
    journal = seen.saved("Bob_Hay")
    told("its number is one above", journal.endswith("\n3\t5\taccept\tBob\u0085Hay\n"), journal)


def sums_up(driven):
    """A summary comes before saving: counts, what goes against others, what was changed, and all in words."""
    seen = Seen(driven, with_title(page_of("contract.xml", REVIEWERS, [LOCK]), "Supply <b>.docx"))
    same("the heading has the document's name", seen.run("return document.querySelector('h1').textContent"), "Supply <b>.docx: changes to decide")
    seen.name("Bob Hay")
    seen.press(32, "accept")
    seen.press(1, "reject")
    seen.press(33, "withdraw")
    driven.click("#save")
    wait(seen.asked)
    text = seen.asked()
    same("a screen reader is told its name", driven.spoken("dialog[open]"), [("dialog", "Before you save")])
    same("how many", seen.run("return [...document.querySelectorAll('.counts div')].map((it) => it.children[1].textContent + ' ' + it.children[0].textContent)"),
         ["1 accepted", "1 rejected", "1 withdrawn", "41 not decided", "5 locked"])
    told("against another reviewer", "Against another reviewer: 1" in text and "you rejected, Cara Lee accepted" in text, text)
    told("changed since an earlier round", "rejected before, now accepted" in text and "rejected before, now withdrawn" in text, text)
    folder = os.listdir(driven.folder)
    seen.answer("")
    time.sleep(0.3)
    same("nothing is saved without it", os.listdir(driven.folder), folder)
    journal = seen.saved("Supply _b_.Bob Hay")
    told("saved from there", [line.split("\t")[1:] for line in journal.split("\n")[3:-1]] == [["1", "reject", "Bob Hay"], ["32", "accept", "Bob Hay"], ["33", "withdraw", "Bob Hay"]], journal)
    told("it says what was done", "The browser was given Supply _b_.Bob Hay.journal" in seen.line(), seen.line())
    seen.pick("#author", "=Ann Gray")
    seen.run("document.querySelector('#save').click()")
    wait(seen.asked)
    seen.run("[...document.querySelectorAll('.part')].forEach((it) => (it.open = true))")
    time.sleep(0.3)
    seen.run("[...document.querySelectorAll('dialog .number')].find((it) => it.textContent === '32').click()")
    told("a number leads to its change", wait(lambda: not seen.asked()) and seen.chosen() == 32, str(seen.chosen()))


def names_files(driven):
    """The file has a name that every system takes, of at most 200 bytes."""
    whole = page_of("plain.xml")
    for case, title, name, wanted in [
        ("the document's name", "CONTRACT", "Ann Gray", "CONTRACT.Ann Gray.journal"),
        ("a name that Windows reserves", "", "con", "_con.journal"),
        ("a title that it reserves", "Aux.docx", "Ann", "_Aux.Ann.journal"),
        ("signs that it forbids", "a/b:c", 'A"<n>|n?*\\', "a_b_c.A__n__n___.journal"),
        ("a long name", "", "\u00fc" * 120, "\u00fc" * 95 + ".journal"),
        ("a long title", "x" * 300, "Ann", "x" * 80 + ".Ann.journal"),
    ]:
        seen = Seen(driven, with_title(whole, title))
        seen.run("document.querySelectorAll('dialog[open]').forEach((it) => it.close(''))")
        came = seen.run("document.querySelector('#person').value = arguments[0]; document.querySelector('#save').click()", name)
        wait(seen.asked)
        came = seen.run("return document.querySelector('dialog .answer').textContent")
        same("an empty journal says so: " + case, came, "Save an empty journal")
        seen.answer("save")
        told(case, wait(lambda: os.path.exists(os.path.join(driven.folder, wanted)), 5), str(sorted(os.listdir(driven.folder))))
        told("what is empty isn't sent back: " + case, "It is empty" in seen.line() and "Send" not in seen.line(), seen.line())
        seen.run("localStorage.clear()")


def ranked(driven):
    """Where the sender gave a rank, the journal is of version 2 and has it."""
    seen = Seen(driven, with_title(page_of("contract.xml"), "", "3"))
    seen.name("Eve Stone")
    seen.press(2, "reject")
    journal = seen.saved("Eve Stone")
    told("a journal with a rank", journal.startswith("redline-journal 2\n") and journal.endswith("\n1\t2\treject\t3\tEve Stone\n"), journal)
    if REDLINE:
        same("as the program decides", journal, call("decide", "contract.xml", "Eve Stone", "--rank", "3", "--reject", "numbers:2").stdout.decode())


def in_a_frame(driven):
    """A page around this one can take the journal, and put back what was decided."""
    seen = Seen(driven, page_of("plain.xml"))
    seen.name("Eve Stone")
    seen.press(2, "reject")
    seen.run("const it = document.createElement('p'); it.id = 'taken'; document.body.append(it); document.addEventListener('redline-save', (event) => { event.preventDefault(); it.textContent = event.detail.name + '\\n' + event.detail.text })")
    driven.click("#save")
    seen.answer("save")
    taken = seen.run("return document.querySelector('#taken').textContent")
    same("the journal goes to the page around", taken.split("\n")[0], "Eve Stone.journal")
    told("with its text", taken.endswith("1\t2\treject\tEve Stone\n"), taken)
    told("and no file is saved", not os.path.exists(os.path.join(driven.folder, "Eve Stone.journal")))
    seen.press(4, "accept")
    state = seen.outside("JSON.stringify(redline.state())")
    seen.run("localStorage.clear()")
    seen = Seen(driven, page_of("plain.xml", ["ann.journal"]))
    seen.outside("redline.restore(JSON.parse(given))", state)
    same("a page that is made anew has the words again", [seen.words(), seen.run("return document.querySelector('#person').value")], [{2: "reject", 4: "accept"}, "Eve Stone"])
    driven.click("#undo")
    same("with what can be undone", seen.words(), {2: "reject"})
    told("and the number of the next journal", "\n2\t2\treject\tEve Stone\n" in seen.outside("redline.journal()"), seen.outside("redline.journal()"))


def prints(driven):
    """On paper stands which view was printed."""
    seen = Seen(driven, page_of("contract.xml"))
    driven.click("input[value=final]")
    seen.run("window.dispatchEvent(new Event('beforeprint'))")
    driven.look(1280, 800, "light", "print")
    text = seen.run("const it = document.querySelector('#printed'); return it.getClientRects().length ? it.textContent : ''")
    told("a print says its view", 'view "final"' in text and "0 of 49 decided" in text, text)
    driven.look(1280, 800)


def keeps_policy(driven):
    """No string becomes markup: the policy lets no policy of trusted types be made."""
    whole = page_of("plain.xml")
    told("the policy says so", b"require-trusted-types-for 'script'; trusted-types 'none'" in whole)
    seen = Seen(driven, whole)
    made = seen.run("if (!window.trustedTypes) return 'none'; try { trustedTypes.createPolicy('it', {}); return 'made' } catch { return 'refused' }")
    told("and the browser keeps it", made in ("refused", "none"), made)
    seen.press(2, "reject")
    same("no complaint", [it for it in driven.complaints() if "trusted" not in it.lower()], [])


CASES = [many_at_once, undoes, goes_on, holds_keys, searches, says_formats, says_clauses, asks_about_names, keeps_controls_in_names, sums_up, names_files, ranked, in_a_frame, prints, keeps_policy]
