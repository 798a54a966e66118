"""Makes a reviewer's journal of a document that came back from a word processor.

`command` answers the call. `reader` reads a package into `streams`, `find` searches for what became of each change, and `check`
asks the program whether what was found gives the document that came back. The search is not trusted: what it finds counts only
where the program agrees.
"""
