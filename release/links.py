"""The links of the pages that a release has at other paths than the repository.

In share/doc/gix-validate each page is at its path in the repository, so its links work there.
Some READMEs are also next to what they describe, such as c/README.md. npm's package and
Python's have a README without the other pages.
"""

import posixpath
import re

DOC = "share/doc/gix-validate"
# The path of a link that isn't one to the web, or within the page.
PATH = re.compile(r"(?<=\]\()(?!\w+:|#)[^)#\s]+")
# A link with such a path, and its text.
LINK = re.compile(rf"\[([^\]]*)\]\(({PATH.pattern})[^)\s]*\)")


def places(contents):
    """Where the release has READMEs besides share/doc, by their paths in the repository, as
    release/contents lists them."""
    found = {}
    for line in contents.splitlines():
        folder, source, *files = line.split()
        top, _, to = folder.partition("/")
        if top == "tree" and "README.md" in files and to != DOC:
            found[f"{source}/README.md"] = posixpath.join(to, "README.md")
    return found


def rewritten(text, page, places):
    """The text of a page of the repository, whose links work where the release has it."""

    def in_the_release(link):
        path = posixpath.normpath(posixpath.join(posixpath.dirname(page), link[0]))
        to = places.get(path, f"{DOC}/{path}")
        return posixpath.relpath(to, posixpath.dirname(places[page]) or ".")

    return PATH.sub(in_the_release, text)


def alone(text, page):
    """The text of a page of the repository for a package that has no other page: instead of
    a link it names the page."""

    def named(link):
        path = posixpath.normpath(posixpath.join(posixpath.dirname(page), link[2]))
        return f"{link[1]} (`{path}`)"

    text, links = LINK.subn(named, text)
    where = f"\nThe pages in parentheses are in `{DOC}` of a release.\n"
    return text + where if links else text
