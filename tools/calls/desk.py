"""The desk, the program in a page, with a document and journals in it."""
import base64
import gzip
import json
import os

from opc import files

# The line of the desk that says which files it opens with.
NOTHING_GIVEN = '<script type="application/json" id="given"></script>'


def packed(name):
    """A file as an entry of what is given."""
    data = gzip.compress(files.read(name), 9, mtime=0)
    return {"name": os.path.basename(name), "bytes": base64.b64encode(data).decode()}


def with_files(desk, document, journals, tidy):
    """A desk that opens with these files."""
    given = {"document": {**packed(document), "tidy": tidy}, "journals": [packed(name) for name in journals]}
    text = json.dumps(given).replace("<", "\\u003c")
    return desk.replace(NOTHING_GIVEN, NOTHING_GIVEN.replace("></", ">%s</" % text), 1)
