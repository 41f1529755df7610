"""Runs what the pages let a reader paste:

    pytest tests/pages --release FILE.tar.gz
    pytest tests/pages -k TUTORIAL    with rt and what is proved in this clone

The sh blocks of a page run in one shell, in the order in which they stand, in a folder
with the archive and its SHA256SUMS; `/usr/local` and `/srv/git` are folders of the test.
A block of another language is saved under the name that "Save this as" or "Write" gives
it, or else built and run, but not a quote "From" a file. The lines of a text block after
the word "print" have to be the last that the commands before it in its section printed.

An HTML comment on the line before a block can say `not run: WHY`, or `in a clone`: then
it is run at the root of this one.
"""
