"""Accepts insertions and deletions of text alone, as a short script with lxml does: what bench/plot measures beside the program.

    python3 accept_lxml.py FILE
"""
import sys

from lxml import etree

W = "{http://schemas.openxmlformats.org/wordprocessingml/2006/main}"
tree = etree.parse(sys.argv[1], etree.XMLParser(huge_tree=True))
for deleted in list(tree.iter(W + "del")):
    deleted.getparent().remove(deleted)
for inserted in list(tree.iter(W + "ins")):
    parent = inserted.getparent()
    at = parent.index(inserted)
    parent[at : at + 1] = list(inserted)
tree.write(sys.stdout.buffer, encoding="UTF-8", xml_declaration=True)
