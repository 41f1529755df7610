"""Hints at phrases on pages and in documentation comments that read as foreign.

It looks for words such as 'whoever', and for sentences in a row that begin with 'It', but
not in code. These are hints: the command prints them, and never fails.
"""

import re
from itertools import groupby
from pathlib import Path
from typing import NamedTuple

from scripts.checks.check_quotes import pages
from scripts.sources import read

# The sources whose documentation comments are read, besides the pages.
SOURCES = ("crates/*/src/**/*.rt", "hook/src/**/*.rs", "bindings/rust/src/**/*.rs")

# What is found, and what an engineer would write.
HABITS = {
    r"who(?:m|so)?ever": "name the person: anyone who, the author, you",
    r"of other people": "other people's, or: that you didn't create",
    r"even so": "still",
    r"mend(?:s|ed|ing)?": "fix, repair",
    r"folders?": "directory",
}
WORDS = re.compile(rf"\b(?:{'|'.join(HABITS)})\b", re.IGNORECASE)
# So many sentences in a row that begin with 'It' are a chain, or two of so few words.
CHAIN, SHORT = 3, 8
IT = "it: join these sentences by their logic: because, so, although, unless"
# Blocks of code, code, and what links lead to, in place of which are as many lines.
NO_PROSE = re.compile(
    r"(?ms)^ *```.*?^ *```$|^<!--.*?-->$|`[^`\n]+`|(?<=\])\([^)\n]*\)"
)
COMMENT = re.compile(r"^ *//[/!] ?")
SENTENCE = re.compile(r"(?:[^.!?]|[.!?](?!\s|$))+(?:[.!?](?=\s|$))?")


class Line(NamedTuple):
    number: int
    text: str


def files():
    """The pages and the sources."""
    sources = {file for pattern in SOURCES for file in Path().glob(pattern)}
    return [*pages(Path()), *sorted(sources)]


def prose_of(file):
    """The lines of a page, or of a source's documentation, without code."""
    text = read(file)
    if file.suffix != ".md":
        lines = text.splitlines()
        text = "\n".join(
            COMMENT.sub("", it) if COMMENT.match(it) else "" for it in lines
        )
    text = NO_PROSE.sub(lambda it: "`" + "\n" * it[0].count("\n"), text)
    return [Line(at, it) for at, it in enumerate(text.splitlines(), start=1)]


def paragraphs(lines):
    """Lines that belong together: an item of a list and a row of a table are their own."""
    together = []
    for line in lines:
        if not line.text.strip() or re.match(r" *(?:[-*|#>]|\d+\.) ?", line.text):
            yield together
            together = []
        together = [*together, line] if line.text.strip() else []
    yield together


def sentences(paragraph):
    """The sentences of a paragraph, each with the line on which it begins."""
    text = "\n".join(it.text for it in paragraph)
    for found in SENTENCE.finditer(text):
        begin = found.start() + len(found[0]) - len(found[0].lstrip())
        yield Line(paragraph[0].number + text.count("\n", 0, begin), found[0].strip())


def begins_with_it(sentence):
    return re.match(r"It\b", sentence.text) is not None


def chains(paragraph):
    """The lines on which too many sentences in a row begin with 'It'."""
    for is_chain, row in groupby(sentences(paragraph), begins_with_it):
        row = [*row]
        are_short = all(len(it.text.split()) <= SHORT for it in row)
        if is_chain and len(row) >= (2 if are_short else CHAIN):
            yield row[0].number


def advice_for(word):
    return next(it for habit, it in HABITS.items() if re.fullmatch(habit, word))


def hints(file):
    """What to look at in a file, in the order of its lines."""
    lines = prose_of(file)
    found = [
        (line.number, f"{it[0].lower()}: {advice_for(it[0].lower())}")
        for line in lines
        for it in WORDS.finditer(line.text)
    ]
    found += [(at, IT) for together in paragraphs(lines) for at in chains(together)]
    return [f"{file}:{at}: {what}" for at, what in sorted(found)]


def run(_):
    """Prints the hints of all files, and how many there are. Returns that all is well."""
    found = [it for file in files() for it in hints(file)]
    print(*found, sep="\n", end="\n" * bool(found))
    print(f"{len(found)} hints about words (scripts/dev check-words)")
    return True
