"""Writes what docs/PROMISES.md has from the sources.

That is in which files the clauses and definitions of its claims are, the files of
definitions with their lines, and how many public clauses have a must-fail edit. It
fails if the page or an edit names what isn't in the sources, or isn't public, if a
public clause has neither an edit nor a reason, or has both, and if a reason names a
function without an edit.
"""

import fnmatch
import re
from pathlib import Path

from scripts.sources import edits, items, read

PAGE = "docs/PROMISES.md"
CLAIMS, DEFINITIONS = "\n## The claims\n", "\n## The definitions\n"
WITHOUT = "\n## Clauses without a must-fail edit\n"
LINK = re.compile(r"\[`([\w:]+)`(?: `(\w+)`)?\]\([^)]*\)")
ROW = re.compile(r"(?m)^((?:`[\w:*]+`(?:, )?)+): ((?:`\w+` )+)\| (.+)$")
# An import, with its crate and what it has of the definitions there, a file or a group
# of them.
IMPORT = re.compile(r"(?m)^(?:pub )?use (?:Rattle\.(\w+)\.specs\.\{?)?(.*(?:\n .*)*)")
# What may refuse an edit of any function, and has no name in the sources.
UNNAMED = dict.fromkeys(["loop", "invariant", "unwrap", "requires", None])


def shown(known):
    """The clauses that an edit names, by 'FUNCTION CLAUSE'."""
    found, faults = set(), []
    for edit in edits():
        function, owner = edit.function, edit.function.rpartition("::")[0]
        for clause in edit.clauses:
            # (The clauses of a method of an impl are those of its type, or of a trait
            # elsewhere.)
            paths = [it for it in (function, owner) if clause in known.get(it, ())]
            if not paths and known[function].keys() != UNNAMED.keys():
                faults.append(
                    f"{edit.file} is refused by {clause} of {function}, "
                    "which the sources don't have"
                )
            found.add(f"{(paths or [function])[0]} {clause}")
    return found, faults


def linked(link, files):
    """A link to the file of a clause or a definition."""
    file = files[" ".join(filter(None, link.groups()))]
    return f"{link[0].partition('(')[0]}(../{file})"


def parts_of(file):
    """The name of a file of definitions in its crate, such as Trees and Report."""
    return file.with_suffix("").parts[3:]


def in_order(file):
    """A file of definitions, after those that it imports, each in a line or in a
    group."""
    for crate, imported in IMPORT.findall(read(file)):
        if crate == file.parts[1]:
            outside_groups = re.sub(r"\{[^{}]*\}", "", imported)
            for name in re.findall(r"(?:^|,)\s*(\w+(?:\.\w+)*)", outside_groups):
                specs = Path("crates", crate, "specs")
                path = specs.joinpath(*name.split(".")).with_suffix(".antt")
                if path.exists():
                    yield from in_order(path)
    yield file


def definitions():
    """A row for each crate that has definitions. Its lines are those that define."""
    table = ""
    for crate in re.findall(r"(?m)^([a-z]\w*)", read("crates.txt")):
        listed = sorted(Path("crates", crate, "specs").glob("**/*.antt"))
        # (A file next to a folder of its name says what is in that.)
        public = [
            it
            for it in listed
            if not {"Lib", "Private"} & {*parts_of(it)}
            and not it.with_suffix("").is_dir()
        ]
        files = dict.fromkeys(it for file in public for it in in_order(file))
        text = "".join(IMPORT.sub("", read(it)) for it in files)
        defining = len(re.findall("(?m)^(?! *--).", text))
        links = " ".join(f"[{'/'.join(parts_of(it))}](../{it})" for it in files)
        table += f"`{crate}` | {defining} | {links}\n" if links else ""
    return table


def reasons_of(rows, bare):
    """What the rows of the page say of these clauses. A `*` stands for any part of a
    path."""
    reasons = {}
    for functions, clauses, said in ROW.findall(rows):
        for function in re.findall(r"[\w:*]+", functions):
            for clause in re.findall(r"\w+", clauses):
                what = f"{function} {clause}"
                reasons |= dict.fromkeys(fnmatch.filter(bare, what) or [what], said)
    return reasons


def faults_of(reasons, public, named):
    """What is wrong with the reasons why a public clause has no must-fail edit."""
    bare = public.keys() - named
    cited = set(re.findall(r"`(\w+::[\w:]+)`", " ".join(reasons.values())))
    with_edit = {it.split()[0] for it in named}
    alike = {
        it
        for it, said in reasons.items()
        for path in re.findall(r"^as `(.*)`$", said)
        if f"{path} {it.split()[1]}" not in named
    }
    return {
        "has no must-fail edit and no reason": bare - reasons.keys(),
        "has a reason, but is no public clause without an edit": reasons.keys() - bare,
        "has no must-fail edit, but a reason names it": cited - with_edit,
        "is said to be as one without a must-fail edit": alike,
    }


def derived():
    known = {}
    for it in items():
        known.setdefault(it.path, {**UNNAMED})[it.clause] = it.is_public
    # The files of the public clauses, and those of the definitions.
    public = {f"{it.path} {it.clause}": it.file for it in items() if it.is_public}
    defined = {
        "::".join([file.parts[1], *parts_of(file), name]): file
        for file in Path("crates").glob("*/specs/**/*.antt")
        for name in re.findall(r"(?m)^(?:\w+ )*pub (?:\w+ )?(\w+) ", read(file))
    }
    named, faults = shown(known)
    _, claims, _, without = re.split("(?m)^## .*", read(PAGE))
    clauses = {f"{path} {clause}" for path, clause in LINK.findall(claims) if clause}
    links = {path for path, clause in LINK.findall(claims) if not clause}
    wrong = {
        "is no public clause": clauses - public.keys(),
        "is no definition": links - defined.keys(),
        **faults_of(reasons_of(without, public.keys() - named), public, named),
    }
    for what, found in wrong.items():
        faults += [f"{PAGE}: {it} {what}" for it in sorted(found)]
    if faults:
        return faults
    claims = LINK.sub(lambda it: linked(it, public | defined), claims[1:-1])
    counted = f"{len(public)} public clauses, {len(public.keys() & named)}"
    return [
        (PAGE, CLAIMS, DEFINITIONS, claims),
        (PAGE, "\nCrate | Lines | Files\n---|---|---\n", WITHOUT, definitions()),
        (PAGE, "\nOf the project's ", " have a must-fail edit.", counted),
    ]
