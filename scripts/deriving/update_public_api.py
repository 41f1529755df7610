"""Writes docs/PUBLIC_API.md, what others can depend on, on one page that a diff shows.

It has each public item of the libraries and of the functions for C, with its signature and
its clauses as they are in the source, and the definitions that these clauses cite, and that
those cite in turn. So a promise can't change, and no definition that one rests on, without
a changed line on that page. Of a program it has the clauses of `run` alone.
"""

import re
from pathlib import Path

from scripts.deriving.declarations import (
    chunks,
    cites,
    declared,
    defined,
    imported,
    sources,
    specs,
)
from scripts.sources import read

PAGE = "docs/PUBLIC_API.md"
# What others can depend on: four crates for Rattle, and the functions for C. (The other
# libraries serve the programs and the tests of this repository.)
LIBRARIES = ("gix_validate", "typed_names", "git_names", "gitmodules", "gix_validate_c")
HEAD = """\
# Public API

What others can depend on, without comments and bodies: the public items of the libraries
and of the functions for C with their clauses, where their names come from, and the
definitions that they cite, down to those of the kit. Of each program, it has the clauses of
`run`. `scripts/dev update-public-api` writes this page from the sources, so a changed
promise is a changed line here. [CONTRACTS.md](CONTRACTS.md) says how to read a clause,
[PROMISES.md](PROMISES.md) which clauses the claims rest on.

"""


def crates():
    return re.findall(r"(?m)^([a-z]\w*)", read("crates.txt"))


def public_of(file, types):
    """The public declarations of a source. An impl is public if its type and its trait
    are, or are those of another crate."""
    return [
        it
        for it in declared(file)
        if it.is_public
        and all(types.get(name.rpartition("::")[2], True) for name in it.depends)
    ]


def types_of(crate):
    """Whether each type of a crate is public, by its name."""
    found = {}
    for file in sources(crate):
        for it in declared(file):
            if it.name:
                found[it.name] = found.get(it.name, False) or it.is_public
    return found


def places(module):
    """The files in which what a module of definitions has may be, and the name of the
    type of the code if it is one."""
    crate, _, *parts = module.split(".")
    if parts[:1] != ["declared"]:
        return [Path("crates", crate, "specs", *parts).with_suffix(".antt")], None
    folder = Path("crates", crate, "src")
    parts = [it for it in parts[1:] if it not in ("TheVariants", "TheConstants")]
    for length in range(len(parts), 0, -1):
        file = folder.joinpath(*parts[:length]).with_suffix(".rt")
        if file.exists():
            return [file], (parts[length:] or [None])[0]
    return [folder / "lib.rt", folder / "main.rt"], (parts or [None])[0]


def cited_by(text, file):
    """The declarations elsewhere that a text of this file cites: a file and a name."""
    for it in imported(file):
        if not cites(text, it.local):
            continue
        files, type_name = places(it.module)
        names = [type_name or it.name]
        if it.name is None and type_name is None:
            names = re.findall(rf"\b{it.local}\.(\w+)", text)
        for path in files:
            for name in names:
                if path.exists():
                    yield path, name


def in_file(file, name):
    """The declaration of this name in a file, or of this variant."""
    of_file = declared if file.suffix == ".rt" else defined
    for it in of_file(file):
        if it.name and (it.name == name or name in it.variants):
            return it
    return None


def cited(public):
    """The definitions that public declarations cite, and that those cite in turn, each
    by its file."""
    found, left = {}, [(it.text, file) for file, its in public.items() for it in its]
    while left:
        text, file = left.pop()
        near = []
        if file.suffix == ".antt":
            near = [(file, it.name) for it in defined(file)]
            near = [(path, name) for path, name in near if cites(text, name)]
            for it in defined(file):
                near += [(file, name) for name in it.variants if cites(text, name)]
        for path, name in [*near, *cited_by(text, file)]:
            it = in_file(path, name)
            shown = found.setdefault(path, [])
            if it and it not in shown and it not in public.get(path, ()):
                shown.append(it)
                left.append((it.text, path))
    return found


def imports(file, text):
    """The lines that say where the names in a text come from."""
    by_module = {}
    for it in imported(file):
        if cites(text, it.local) and it.name:
            name = it.name if it.local == it.name else f"{it.name} as {it.local}"
            by_module.setdefault(it.module, set()).add(name)
        elif cites(text, it.local):
            by_module[f"{it.module} as {it.local}"] = ()
    for module, names in sorted(by_module.items()):
        yield f"use {module}{': ' * bool(names)}{', '.join(sorted(names))}\n"
    if file.suffix == ".rt":
        for use in re.findall(r"(?m)^use (?:[^;]|\n)*;\n", read(file)):
            names = re.findall(r"\w+", use)
            if any(cites(text, name) for name in names if name not in ("use", "self")):
                yield re.sub(r"\s+", " ", use).strip() + "\n"


def section(file, shown):
    """What a file declares, after where its names come from."""
    is_code = file.suffix == ".rt"
    order = declared(file) if is_code else defined(file)
    language = "rust" if is_code else "antt"
    text = "\n".join(it.text for it in order if it in shown)
    head = "".join(imports(file, text))
    blank = "\n" if head else ""
    return f"\n### {file}\n\n```{language}\n{head}{blank}{text}```\n"


def runs_of(file):
    """The function `run` of a source, alone, or as the one that an impl has."""
    for it in declared(file):
        head, _, inside = it.text.partition("{\n")
        runs = [of for of in chunks(inside, 4) if re.match(r" *fn run\b", of)]
        if it.name == "run" and it.is_public:
            yield it
        elif runs and it.name is None:
            yield it._replace(text=f"{head}{{\n{''.join(runs)}}}\n")


def program_sections(crate):
    """What is shown of a program: a section for each source that has a `run`."""
    for file in sources(crate):
        if runs := [*runs_of(file)]:
            text = "\n".join(it.text for it in runs)
            head = "".join(imports(file, text))
            yield f"\n### {file}\n\n```rust\n{head}\n{text}```\n"


def is_program(crate):
    return Path("crates", crate, "src/main.rt").exists()


def derived():
    public = {}
    libraries = [it for it in crates() if it in LIBRARIES]
    for crate in libraries:
        types = types_of(crate)
        for file in sources(crate):
            if shown := public_of(file, types):
                public[file] = shown
    definitions, sections = cited(public), {}
    for crate in libraries:
        for file in [*sources(crate), *specs(crate)]:
            if shown := [*public.get(file, ()), *definitions.get(file, ())]:
                sections.setdefault(crate, []).append(section(file, shown))
    for crate in filter(is_program, crates()):
        if shown := [*program_sections(crate)]:
            sections[crate] = shown
    contents = "".join(f"- [{crate}](#{crate})\n" for crate in sections)
    texts = (f"\n## {crate}\n{''.join(its)}" for crate, its in sections.items())
    yield PAGE, HEAD + contents + "".join(texts)
