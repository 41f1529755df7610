"""A built site: its pages, and where their links lead."""

import re
from functools import cached_property
from html.parser import HTMLParser
from urllib.parse import unquote, urldefrag

# What makes a browser load something.
LOADED = {"src", "srcset", "poster", "data"}


class Read(HTMLParser):
    """A page: its ids, where its links lead, and what it loads."""

    def __init__(self, path):
        super().__init__()
        self.ids, self.links, self.loaded = set(), [], []
        self.feed(path.read_text("utf-8"))

    def handle_starttag(self, tag, attributes):
        given = dict(attributes)
        self.ids |= {given[it] for it in ("id", "name") if given.get(it)}
        self.loaded += [given[it] for it in LOADED if given.get(it)]
        if "href" in given:
            (self.links if tag == "a" else self.loaded).append(given["href"])


class Site:
    def __init__(self, path):
        self.path = path.resolve()

    @cached_property
    def pages(self):
        """Each page by its path, but 404.html, which has the paths of no place."""
        found = sorted(self.path.glob("**/*.html"))
        names = (it.relative_to(self.path).as_posix() for it in found)
        return {it: Read(self.path / it) for it in names if it != "404.html"}

    def target(self, page, link):
        """What a link leads to, and the anchor. (From a disk a directory is no page.)"""
        path, anchor = urldefrag(link)
        to = (self.path / page).parent / unquote(path) if path else self.path / page
        return to.resolve(), unquote(anchor)

    def loaded(self):
        """Each thing that the pages load, with its page, but what is in the page itself."""
        for name, page in self.pages.items():
            yield from ((name, it) for it in page.loaded if not it.startswith("data:"))

    def links(self):
        """Each link between the pages, with its page."""
        for name, page in self.pages.items():
            yield from ((name, it) for it in page.links if not is_elsewhere(it))

    def leads_somewhere(self, page, link):
        """Whether a link leads to a file of the site, and to an anchor of it."""
        file, anchor = self.target(page, link)
        if not file.is_file() or self.path not in file.parents:
            return False
        other = self.pages.get(file.relative_to(self.path).as_posix())
        return not anchor or other is None or anchor in other.ids


def is_elsewhere(link):
    return re.match(r"(?:\w+:)?//|\w+:", link)
