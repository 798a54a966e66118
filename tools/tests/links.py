#!/usr/bin/env python3
"""Finds links of the papers in a folder that lead to no file or to no heading.

    links.py FOLDER
"""
import glob
import os
import re
import sys


def anchors(path):
    """The names that a reader of the paper can jump to."""
    found, fenced = set(), False
    for line in open(path, encoding="utf-8"):
        fenced ^= line.startswith("```")
        heading = re.match(r"#+ (.*)", line)
        if heading and not fenced:
            text = re.sub(r"\[([^\]]*)\]\([^)]*\)", r"\1", heading.group(1)).lower()
            name = re.sub(r"[^\w\- ]", "", text).strip().replace(" ", "-")
            found.add(name)
    return found


def main():
    top, dead = sys.argv[1], 0
    papers = [path for path in glob.glob(top + "/**/*.md", recursive=True) if "/out/" not in path]
    for paper in sorted(papers):
        fenced = False
        for number, line in enumerate(open(paper, encoding="utf-8"), 1):
            fenced ^= line.lstrip().startswith("```")
            for target in [] if fenced else re.findall(r"\]\(([^)\s]+)\)", re.sub(r"`[^`]*`", "", line)):
                if re.match(r"[a-z]+:", target):
                    continue
                name, _, heading = target.partition("#")
                path = os.path.join(os.path.dirname(paper), name) if name else paper
                if not os.path.exists(path) or heading and path.endswith(".md") and heading not in anchors(path):
                    print("%s:%d: no %s" % (os.path.relpath(paper, top), number, target))
                    dead += 1
    return 1 if dead else 0


sys.exit(main())
