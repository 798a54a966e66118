#!/usr/bin/env python3
"""Calls the desk's program in node and the program itself with the same words and files: status, output and lines have to be equal.

    desk_calls.py NODE REDLINE.WASM WHAT [N [SECONDS]]

WHAT is `rows` (crates/redl_rows), `random` (N cases of bench/fuzz, at most so many seconds), `deep` (documents 512 deep), `faults`
(little memory, missing files, words that are no UTF-8) or `speed` (N calls each: processor time and memory). REDLINE names the
program. The last line counts, and the status is 1 where something differs.
"""
import base64
import importlib.machinery
import json
import os
import subprocess
import sys
import tempfile
import time
import types

HERE = os.path.dirname(os.path.abspath(__file__))
TOP = os.path.dirname(os.path.dirname(HERE))
sys.dont_write_bytecode = True
sys.path[:0] = [HERE, os.path.join(TOP, "bench"), os.path.join(TOP, "examples")]
import desk_rows
import make

PROGRAM = os.path.abspath(os.environ["REDLINE"])
DEEP_COMMANDS = ["check P", "settle accept P", "settle reject P", "text P", "text P --view marked", "page P", "list P", "list P --format words"]
DEEP_COMMANDS += ["list P --format full", "write P", "decide P Ann --accept all", "report P"]


class Served:
    """The desk's program, in a process of node that answers call after call."""

    def __init__(self, node, program):
        words = [node, "--expose-gc", os.path.join(HERE, "desk", "serve.js"), program]
        self.process = subprocess.Popen(words, stdin=subprocess.PIPE, stdout=subprocess.PIPE)

    def call(self, folder, words, pages=None):
        given = [base64.b64encode(os.fsencode(word)).decode() for word in words]
        self.process.stdin.write(json.dumps({"folder": folder, "words": given, "pages": pages}).encode() + b"\n")
        self.process.stdin.flush()
        answer = json.loads(self.process.stdout.readline())
        for name in ("out", "lines"):
            if name in answer:
                answer[name] = base64.b64decode(answer[name])
        return answer


class Pair:
    """Both programs over the files of a folder."""

    def __init__(self, served, folder):
        self.served, self.folder, self.calls, self.differ = served, folder, 0, []

    def put(self, **files):
        for name, data in files.items():
            with open(os.path.join(self.folder, name), "wb") as file:
                file.write(data)

    def native(self, words):
        ended = subprocess.run([PROGRAM, *words], cwd=self.folder, stdin=subprocess.DEVNULL, capture_output=True, timeout=600, check=False)
        return ended.returncode, ended.stdout, ended.stderr

    def compare(self, name, words, wanted=None):
        """What the program itself comes to, after both came to the same."""
        wanted = wanted or self.native(words)
        answer = self.served.call(self.folder, words)
        self.calls += 1
        got = (answer.get("status"), answer.get("out"), answer.get("lines"))
        if got != wanted:
            shown = lambda it: (it[0], it[1] and (len(it[1]), it[1][:100]), it[2] and it[2][:200])
            self.differ.append("%s: %s: %s and not %s" % (name, words, answer.get("fault") or shown(got), shown(wanted)))
        return wanted


def compare_rows(pair):
    def count(package):
        pair.put(counted=package)
        return (pair.native(["check", "counted"])[1].split() + [b"0", b"0"])[1].decode()

    for row in desk_rows.rows(count):
        pair.put(**row.files())
        _, written, _ = pair.compare(row.title, desk_rows.words_of(row.words))
        if row.again is not None:
            pair.put(P=written)
            pair.compare(row.title + ", again", desk_rows.words_of(row.again))


def load_fuzz():
    fuzz = types.ModuleType("fuzz")
    fuzz.__file__ = os.path.join(TOP, "bench", "fuzz")
    importlib.machinery.SourceFileLoader("fuzz", fuzz.__file__).exec_module(fuzz)
    return fuzz


def compare_random(pair, count, seconds):
    """The calls that bench/fuzz makes of a case, each by both programs."""
    fuzz = load_fuzz()

    class Desk(fuzz.Desk):
        def call(self, *words):
            status, data = super().call(*words)
            pair.compare("case", words, (status, data, self.told))
            return status, data

    desk = Desk(PROGRAM, pair.folder, 20, 64)
    names = sorted(os.listdir(fuzz.EXAMPLES))
    journals = [fuzz.file_of("examples", name) for name in names if name.endswith(".journal")]
    known, end = fuzz.known_packages(), time.monotonic() + seconds
    for seed in range(count):
        if time.monotonic() > end or len(pair.differ) > 20:
            break
        # (what a case breaks beside is what bench/fuzz tells)
        fuzz.fault_of(desk, fuzz.case_of(seed, known, journals), seed)


def compare_deep(pair):
    for name in make.DEEP:
        pair.put(P=(make.FRONT + make.DEEP[name]() + make.BACK).encode())
        for line in DEEP_COMMANDS:
            pair.compare(name, line.split())


def little_memory(pair, words, least):
    """Calls with ever more memory: each ends with status 8 and its line and writes nothing, or as with enough."""
    wanted, pages, refused = pair.native(words), least, 0
    while True:
        answer = pair.served.call(pair.folder, words, pages)
        pair.calls += 1
        if answer.get("status") != 8:
            break
        refused += 1
        if answer["out"] or not answer["lines"].startswith(b"redline: no memory\n"):
            pair.differ.append("%s with %d pages: %r" % (words, pages, answer))
        pages += max(1, pages // 8)
    if (answer.get("status"), answer.get("out"), answer.get("lines")) != wanted or not refused:
        pair.differ.append("%s with %d pages, after %d that were too few: %r" % (words, pages, refused, str(answer)[:300]))


def compare_faults(pair):
    pair.put(P=make.reviewed_package(100000).encode(), J=b"redline-journal 1\n", K="redline-journal 1\n".encode("utf-16"))
    for words in (["check", "P"], ["settle", "accept", "P"], ["page", "P"], ["list", "P", "--format", "full"], ["decide", "P", "Ann", "--accept", "all"]):
        little_memory(pair, words, 24)
    os.makedirs(os.path.join(pair.folder, "folder"), exist_ok=True)
    lines = [["write", "P", "J"], ["write", "P", "K"], ["check", "none"], ["check", "folder"], ["write", "P", "none"], ["check", ""], ["join", "J", "folder"]]
    lines += [[], ["nothing"], ["check", b"P\xff"], ["check", "P", "P"], ["--help"], ["--version"], ["list", "P", "--format", "pdf"]]
    for words in lines:
        pair.compare("faults", words)
    # 500 journals, and one that is too many bytes for all together
    names = ["J%d" % it for it in range(500)]
    journal = pair.native(["decide", "P", "Ann", "--accept", "all"])[1]
    pair.put(**{name: journal.replace(b"\tAnn\n", b"\tAnn %s\n" % name.encode()) for name in names})
    pair.compare("500 journals", ["write", "P", *names])
    pair.compare("500 journals", ["report", "P", *names])


def used_by(words, folder):
    """Processor seconds and the most memory of the program itself. (A child of this process would be told to have its memory.)"""
    told = os.path.join(folder, "told")
    with open(os.devnull, "wb") as out:
        child = subprocess.Popen(["/usr/bin/time", "-f", "%M", "-o", told, PROGRAM, *words], cwd=folder, stdin=subprocess.DEVNULL, stdout=out)
        _, _, used = os.wait4(child.pid, 0)
    with open(told, encoding="utf-8") as file:
        return used.ru_utime + used.ru_stime, int(file.read().split()[-1]) * 1024


def compare_speed(pair, count):
    """The least of some calls each: what they take in both programs. Where a call takes more than 2.5 times, that differs."""
    for size, made in ((5_000_000, make.reviewed_package), (20_000_000, make.reviewed_package), (5_000_000, make.package), (60_000_000, make.package)):
        pair.put(P=made(size).encode())
        for line in ("check P", "write P", "settle accept P", "list P", "page P"):
            words = line.split()
            native = [used_by(words, pair.folder) for _ in range(count)]
            answers = [pair.served.call(pair.folder, words) for _ in range(count + 2)]
            times = min(it[0] for it in native), min(it["ms"] for it in answers) / 1000
            memory = min(it[1] for it in native), answers[0]["held"]
            print("| %d MB | %s | %.0f | %.0f | %.2f | %.0f | %.0f | %.2f |" % (size // 10**6, line, *[it * 1000 for it in times], times[1] / times[0], *[it / 1e6 for it in memory], memory[1] / memory[0]), flush=True)
            pair.calls += 1
            if times[1] > 2.5 * times[0] + 0.02 or memory[1] > 1.3 * memory[0]:
                pair.differ.append("%s at %d bytes takes too much" % (line, size))


def main(node, program, what, count="0", seconds="600"):
    served = Served(node, program)
    with tempfile.TemporaryDirectory() as folder:
        pair = Pair(served, folder)
        if what == "rows":
            compare_rows(pair)
        elif what == "random":
            compare_random(pair, int(count), float(seconds))
        elif what == "deep":
            compare_deep(pair)
        elif what == "faults":
            compare_faults(pair)
        else:
            compare_speed(pair, int(count))
    for line in pair.differ[:20]:
        print(line[:600])
    print("%d calls, %d differ" % (pair.calls, len(pair.differ)))
    return 1 if pair.differ else 0


if __name__ == "__main__":
    sys.exit(main(*sys.argv[1:]))
