"""Checks that pages quote what the sources have, and that their links lead somewhere.

The code on the pages that teach is code of the sources: the line before a block of Rattle
or antt ends with 'From `FILE`:', and the lines between two lines `...` are together in
that file, in any order of the parts. (Code below 'Write `FILE`:' is the reader's.)
docs/CONTRACTS.md has each word of the kit that the definitions of the libraries import.
The names in the table of docs/BINDINGS.md are names of each language, and it has each
function that a language exports. A link between pages leads to a file and to a heading of
it.
"""

import os
import re
from glob import glob
from pathlib import Path

from scripts.sources import read

CONTRACTS = "docs/CONTRACTS.md"
PAGES = ("docs/TUTORIAL.md", CONTRACTS)
# The libraries whose definitions an auditor reads, and their imports from the kit.
LIBRARIES = ("gix_validate", "typed_names", "git_names", "gitmodules")
OF_THE_KIT = re.compile(
    r"(?m)^(?:pub )?use Rattle\.(?:std|bstr)\.specs\.(?!declared)[\w.]+\.\{(.*)\}"
)
BLOCK = re.compile(r"(?ms)^([^\n]*)\n+```(?:rust|antt)\n(.*?)^```$")
BINDINGS = "docs/BINDINGS.md"
# Of each column of its table: the files, what is in one of them, and what they export. (In C
# each kind has a form for C strings, too.)
LANGUAGES = (
    ("crates/git_check_names/src/*.rt", r"\"{}\"", "(?!)"),
    (
        "bindings/c/gix_validate.h",
        r"\bgix_validate_{}\(",
        r"\bgix_validate_(\w+)(?<!_str)\(",
    ),
    ("bindings/cpp/gix_validate.hpp", r"\b{}\b", r"\b(check_\w+)\("),
    ("bindings/rust/src/*.rs", r"\b{}\b", r"(?m)^pub fn (\w+)"),
    ("bindings/python/gix_validate.py", r"\b{}\b", r'(?m)^    "(\w+)",$'),
    ("bindings/js/gix_validate.d.ts", r"\b{}\b", r"(?m)^export function (\w+)"),
    (
        "bindings/go/*.go",
        r"(?m)^(?:func (?:\([^)]*\) )?|type |\t){}\b",
        r"(?m)^func (?!Test|Benchmark|Example|Fuzz)([A-Z]\w+)",
    ),
)
TRIED = re.compile(r"\bWrite `[\w./]+`:$")  # (tests/pages tries it)


def stripped(text):
    """The lines without the white space around them, each between two newlines."""
    return "\n".join(["", *map(str.strip, text.splitlines()), ""])


def without_code(page):
    return re.sub(r"(?ms)^```.*?^```$", "", read(page))


def pages(root):
    """The pages of the repository, without those that a tool has left. (release/ has pages
    for the places of a release.)"""
    is_left_out = re.compile(r"\..*|out|release|target").fullmatch
    found = []
    for folder, folders, files in os.walk(root):
        # (what is left out isn't entered: builds and edits make and remove folders there)
        folders[:] = [it for it in folders if not is_left_out(it)]
        found += [Path(folder, it) for it in files if it.endswith(".md")]
    return sorted(found)


def slug(heading):
    """The anchor that Git hosts give a heading."""
    return re.sub(r"[^\w\- ]", "", heading.lower()).replace(" ", "-")


def anchors(page):
    """What can follow a `#` in a link to this page: its headings as hosts write them, and
    its anchors."""
    headings = re.findall(r"(?m)^#+ (.*)$", without_code(page))
    return {*map(slug, headings), *re.findall('<a id="(.*?)"', read(page))}


def unexplained_words():
    """The words of the kit that the definitions of the libraries import, and that the page
    about contracts doesn't have in code. (Those of private definitions need no reader.)
    """
    code = re.findall(r"(?ms)^```.*?^```$|`[^`\n]+`", read(CONTRACTS))
    explained = {*re.findall(r"\w+", " ".join(code))}
    for crate in LIBRARIES:
        for file in Path("crates", crate, "specs").glob("**/*.antt"):
            imports = [] if "Private" in file.parts else OF_THE_KIT.findall(read(file))
            words = {it.strip() for names in imports for it in names.split(",")}
            for word in sorted(filter(str.isidentifier, words - explained)):
                yield f"{CONTRACTS} doesn't explain a word of the kit: {word} ({file})"


def wrong_names():
    """The names in the table of bindings that a language lacks, and those that it has and the
    table lacks."""
    table = read(BINDINGS).partition("\n## With")[0]
    rows = re.findall(r"(?m)^\| (?!---).*`.*$", table)
    columns = [*zip(*(row.split("|")[2:-1] for row in rows if row.count("|") == 9))]
    for (file, form, exported), cells in zip(LANGUAGES, columns, strict=True):
        text = "\n".join(map(read, sorted(glob(file))))
        names = re.findall(r"`(\w[\w-]*)`", " ".join(cells))
        for name in names:
            if not re.search(form.format(name), text):
                yield f"{BINDINGS} has a name that isn't in {file}: {name}"
        for name in sorted({*re.findall(exported, text)} - {*names}):
            yield f"{BINDINGS} lacks a name of {file}: {name}"


def derived():
    """What is wrong on the pages."""
    yield from unexplained_words()
    for page in pages(Path()):
        for target in re.findall(r"\]\((?!https?:)([^)\s]*)\)", without_code(page)):
            path, _, anchor = target.partition("#")
            to = page.parent / path if path else page
            if (
                not to.exists()
                or anchor
                and to.suffix == ".md"
                and anchor not in anchors(to)
            ):
                yield f"{page} has a link that leads nowhere: {target}"
    yield from wrong_names()
    for page, (before, code) in (
        (page, block) for page in PAGES for block in BLOCK.findall(read(page))
    ):
        file = re.search(r"\bFrom `([\w./]+)`:$", before)
        if not file and not TRIED.search(before):
            yield f"{page} doesn't say where this is from: {code}"
        for part in re.split(r"(?m)^ *\.\.\.\n", code) if file else []:
            if stripped(part) not in stripped(read(file[1])):
                yield f"{page} quotes from {file[1]} what it doesn't have: {part}"
