#!/usr/bin/env python3
"""Decides changes of .docx in LibreOffice, as a reviewer does there, and stores each result.

    office.py FOLDER IN.docx PLAN .. [IN.docx PLAN ..] ..

PLAN is OUT=WORD:CHOICE, with the words accept and reject and the choices none, all, author:NAME and number:N (LibreOffice's own
count of its changes, from 1, which begins again where there are fewer). Each result is FOLDER/OUT.docx. Needs soffice and the module
uno; the profile is a folder of its own in FOLDER. On standard output it says for each result how many changes LibreOffice had before
and after. The status is 1 where a result was not stored.
"""
import os
import subprocess
import sys
import time

import uno
from com.sun.star.beans import PropertyValue
from com.sun.star.connection import NoConnectException
from com.sun.star.lang import DisposedException
from com.sun.star.uno import Exception as Refusal

FILTER = "MS Word 2007 XML"


def value(name, what):
    made = PropertyValue()
    made.Name, made.Value = name, what
    return made


class Office:
    def __init__(self, folder):
        self.folder = folder
        self.start()

    def start(self):
        pipe = "redline%d" % os.getpid()
        profile = "-env:UserInstallation=file://" + os.path.abspath(os.path.join(self.folder, "profile"))
        words = ["soffice", profile, "--headless", "--norestore", "--nologo", "--accept=pipe,name=%s;urp" % pipe]
        self.process = subprocess.Popen(words, stdin=subprocess.DEVNULL, stdout=subprocess.DEVNULL, stderr=subprocess.DEVNULL)
        local = uno.getComponentContext()
        resolver = local.ServiceManager.createInstanceWithContext("com.sun.star.bridge.UnoUrlResolver", local)
        for _ in range(600):
            try:
                self.context = resolver.resolve("uno:pipe,name=%s;urp;StarOffice.ComponentContext" % pipe)
                break
            except NoConnectException:
                time.sleep(0.1)
        services = self.context.ServiceManager
        self.desktop = services.createInstanceWithContext("com.sun.star.frame.Desktop", self.context)
        self.dispatcher = services.createInstanceWithContext("com.sun.star.frame.DispatchHelper", self.context)

    def close(self):
        try:
            self.desktop.terminate()
        except Exception:  # (the bridge goes down with the program)
            pass
        self.process.wait(30)

    def open(self, path):
        return self.desktop.loadComponentFromURL("file://" + os.path.abspath(path), "_blank", 0, (value("Hidden", True),))

    def say(self, document, command):
        self.dispatcher.executeDispatch(document.CurrentController.Frame, ".uno:" + command, "", 0, ())


def changes_of(document):
    changes, found = document.Redlines.createEnumeration(), []
    while changes.hasMoreElements():
        found.append(changes.nextElement())
    return found


def decide_one(office, document, change, word):
    """Says the word at a change, and whether that took it away."""
    before = len(changes_of(document))
    cursor = document.CurrentController.ViewCursor
    cursor.gotoRange(change.RedlineStart, False)
    cursor.gotoRange(change.RedlineEnd, True)
    office.say(document, {"accept": "AcceptTrackedChange", "reject": "RejectTrackedChange"}[word])
    return len(changes_of(document)) < before


def decide(office, document, word, choice):
    if choice == "all":
        office.say(document, {"accept": "AcceptAllTrackedChanges", "reject": "RejectAllTrackedChanges"}[word])
    elif choice.startswith("number:"):
        changes = changes_of(document)
        if changes:
            decide_one(office, document, changes[(int(choice[7:]) - 1) % len(changes)], word)
    elif choice.startswith("author:"):
        passed = 0
        while True:
            theirs = [one for one in changes_of(document) if one.RedlineAuthor == choice[7:]][passed:]
            if not theirs:
                break
            if not decide_one(office, document, theirs[0], word):
                passed += 1


def carry_out(office, folder, source, plan):
    """Decides and stores one document, and tells what was done: whether it is stored."""
    out, _, what = plan.partition("=")
    word, _, choice = what.partition(":")
    document = office.open(source)
    if document is None:
        return False
    before = len(changes_of(document))
    decide(office, document, word, choice)
    after = len(changes_of(document))
    path = os.path.abspath(os.path.join(folder, out + ".docx"))
    document.storeToURL("file://" + path, (value("FilterName", FILTER),))
    document.close(True)
    print("%s\t%s\t%d\t%d" % (out, what, before, after), flush=True)
    return True


def is_stored(office, folder, source, plan):
    """Whether a document is stored. (LibreOffice goes down at times: then once more with a new one.)"""
    for _ in range(2):
        try:
            return carry_out(office, folder, source, plan)
        except DisposedException:
            office.close()
            office.start()
        except Refusal as error:
            print("%s\t%s" % (plan, error), flush=True)
            return False
    return False


def main(folder, *words):
    office, source, status = Office(folder), None, 0
    try:
        for word in words:
            if word.endswith(".docx"):
                source = word
            elif not is_stored(office, folder, source, word):
                status = 1
    finally:
        office.close()
    return status


if __name__ == "__main__":
    sys.exit(main(*sys.argv[1:]))
