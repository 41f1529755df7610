"""Writes the faults of docs/RULES.md, and those of C, C++, Rust, Python, JavaScript and Go.

Their numbers and texts are those of the definitions. What each means is the
documentation of its variant in gix_validate or git_names, of which C, C++, Python and
Go have the first sentence. It fails if a fault is in no rule of that page, or in no row of
tests/rows.
"""

import json
import re
from collections import namedtuple
from textwrap import wrap

from scripts.sources import Wrong, read

NUMBERS = "crates/gix_validate_c/specs/Numbers.antt"
# The types of faults, each with the name that its numbers and its spec have.
TYPES = {
    "tag::NameError": "tag",
    "reference::NameError": "reference",
    "submodule::NameError": "submodule",
    "path::ComponentError": "component",
}
# Types whose other errors are those of one above: the module and the spec of each, and the
# name that its numbers have.
WRAPPERS = {
    "git_names::ShortNameError": ("branches", "ShortNames", "short_name"),
    "git_names::PathError": ("paths", "Paths", "path"),
    "git_names::SafeRefError": ("references", "SafeRefs", "safe_ref"),
    "git_names::SubmoduleError": ("submodules", "Submodules", "protected_submodule"),
}
# What the documentation of each error of gix-validate for Rust says.
RUST_ERRORS = {
    "tag": "is not the name of a tag",
    "reference": "is not the name of a reference",
    "submodule": "is not the name of a submodule",
    "path": "may not be a component of a path",
}
Fault = namedtuple("Fault", "number name field text why")


def faults_of(type):
    """The faults of a type, by their numbers. In a text Q is the quoted byte or name."""
    module, enum = type.split("::")
    spec, source = (
        f"crates/gix_validate/specs/{TYPES[type].title()}.antt",
        f"crates/gix_validate/src/{module}.rt",
    )
    numbers = dict(
        re.findall(
            rf"(?m)^{TYPES[type]}_number \(?\w+\.(\w+)(?: \w+\))? = (\d+)$",
            read(NUMBERS),
        )
    )
    texts = {
        name: json.loads(text) + "Q" * bool(quoted)
        for name, text, quoted in re.findall(
            r'(?m)^text_of \(?(\w+)(?: \w+\))? =\s+codes (".*?[^\\]")( \+\+ quoted .*)?$',
            read(spec),
        )
    }
    body = re.search(rf"(?ms)^pub enum {enum} \{{\n(.*?)^\}}$", read(source))[1]
    variants = re.findall(
        r"(?m)^((?:    /// .*\n)*)    (\w+)(?: \{ (\w+): .* \})?,$", body
    )
    for file, found in (NUMBERS, numbers), (spec, texts):
        if differ := {name for _, name, _ in variants} ^ {*found}:
            raise Wrong(
                f"{file} and {source} don't have the same faults: {', '.join(sorted(differ))}"
            )
    return sorted(
        Fault(
            int(numbers[name]),
            name,
            field,
            texts[name],
            re.sub(r"\s*/// ", " ", why).strip(),
        )
        for why, name, field in variants
    )


def own_faults_of(type):
    """The faults that a type has besides those of the one that it wraps."""
    module, spec, name = WRAPPERS[type]
    path = f"crates/git_names/specs/{spec}.antt"
    source = read(f"crates/git_names/src/{module}.rt")
    numbers = re.findall(
        rf"(?m)^{name}_number \(?\w+\.(\w+)(?: \w+)?\)? = (\d+)$", read(NUMBERS)
    )
    for fault, number in numbers:
        text = re.search(
            rf'(?m)^text_of \(?{fault}(?: \w+)?\)? = codes (".*")$', read(path)
        )
        why = re.search(rf"(?m)^((?:    /// .*\n)+)    {fault}\b", source)
        if not text or not why:
            raise Wrong(
                f"{path} has no text of {fault}, or its source does not say why"
            )
        said = re.sub(r"\s*/// ", " ", why[1]).strip()
        yield Fault(int(number), fault, "", json.loads(text[1]), said)


def table(faults):
    """The lines of the printed texts. A fault of tags is one of references too, and has two."""
    tags, references, *others = faults
    second = {it.name: it.text for it in faults[references]}
    alone = [
        it
        for it in faults[references]
        if it.name not in {tag.name for tag in faults[tags]}
    ]
    for title, listed in (
        (f"{tags}, and below it {references}", faults[tags]),
        (f"{references} alone", alone),
        *((f"{it} alone" if it in WRAPPERS else it, faults[it]) for it in others),
    ):
        width = max(15, *(len(it.name) for it in listed))
        yield f"\n{title}"
        for it in listed:
            yield f"{it.number:2} {it.name:{width}}  {it.text}"
            if listed is faults[tags]:
                yield f"{'':{width + 5}}{second[it.name]}"


def rust_errors(faults, whys):
    """The file of the Rust crate that lists the faults of each error, of which its macro
    `faults` makes a type."""
    yield "//! The errors. `scripts/dev update-fault-tables` writes this file."
    for type in TYPES:
        module, listed = type.partition("::")[0], faults[type]
        yield f"\npub mod {module} {{\n    crate::fault::faults! {{"
        yield f'        "Why a text {RUST_ERRORS[module]}.":'
        yield from rust_faults(listed, whys)
        yield "    }\n}"


def rust_faults(faults, whys):
    """The lines of the faults of one error."""
    for it in faults:
        yield from (f"        /// {line}" for line in wrap(whys[it.name], 88))
        text = it.text.replace("{", "{{").replace("}", "}}")
        field = ""
        if it.field:
            text = f"{text[:-1]}{{{it.field}:?}}"
            field = f" {{ {it.field} }}"
        yield f"        {it.name}{field}: {json.dumps(text)},"


def names_of(faults, whys):
    """The names of all faults, by their numbers."""
    every = [it for listed in faults.values() for it in listed]
    names = dict(sorted((it.number, it.name) for it in every))
    if {*names.values()} != {it.name for it in every} or [*names] != [
        *range(1, len(names) + 1)
    ]:
        raise Wrong(f"{NUMBERS} doesn't number the faults from 1 on")
    if without := {*names.values()} - {*whys}:
        raise Wrong(f"no documentation in its source: {', '.join(sorted(without))}")
    return names


def lacking(names):
    """Sentences about faults that are in no rule, or in no row."""
    for file, before in ("docs/RULES.md", "`"), ("tests/rows", " "):
        for name in names.values():
            if f"{before}{name}" not in read(file):
                yield f"{file} lacks {name}"


def constant(name):
    return re.sub("(?<!^)(?=[A-Z])", "_", name).upper()


def brief(why):
    """The first sentence of a documentation, as a part of one."""
    return re.sub(r"`|\.$|(?<=[^.])\. .*", "", why[0].lower() + why[1:])


def filled(words, separator, width, margin):
    """Words in lines that aren't wider than this."""
    text = separator.join(word.replace(" ", "\0") for word in words)
    lines = wrap(text, width, break_long_words=False, break_on_hyphens=False)
    return "\n".join(" " * margin + line for line in lines).replace("\0", " ")


def parts_of_c(names, whys, longest):
    header = "bindings/c/gix_validate.h"
    constants = "\n".join(
        f"    {f'GIX_VALIDATE_{constant(name)} = {number},':44} /* {brief(whys[name])} */"
        for number, name in names.items()
    )
    listed = filled([f'"{name}"' for name in names.values()], ", ", 116, 8)
    texts = (json.dumps(brief(whys[name])) for name in names.values())
    texts = ",\n".join(f"        {text}" for text in texts)
    unknown = "\n    GIX_VALIDATE_UNKNOWN_KIND"
    yield header, "/* not a fault: the name is valid */\n", unknown, constants
    yield header, 'names[] = {\n        "Ok",\n', "\n    };", listed
    yield header, 'texts[] = {\n        "it is valid",\n', "\n    };", texts
    yield header, "#define GIX_VALIDATE_TEXT_MAX ", "u\n", longest


def part_of_cpp(names, whys):
    header = "bindings/cpp/gix_validate.hpp"
    constants = "\n".join(
        f"  {f'{constant(name).lower()} = {number},':31} // {brief(whys[name])}"
        for number, name in names.items()
    )
    before = "// not a fault: the name is valid\n"
    return header, before, "\n  unknown_kind", constants


def parts_of_python(names, whys, longest):
    module = "bindings/python/gix_validate.py"
    mark = "# `scripts/dev update-fault-tables` writes these.\n"
    members = "\n".join(
        f"    {constant(name)} = {number}, {json.dumps(brief(whys[name]))}"
        for number, name in names.items()
    )
    yield module, mark, "\n\n    text: str", members
    yield module, "\n_TEXT_MAX = ", "\n", longest


def parts_of_go(names, whys):
    file = "bindings/go/fault.go"
    width = max(map(len, names.values()))
    constants = "\n".join(
        f"\t{name:{width}} Fault = {number:<2} // {brief(whys[name])}"
        for number, name in names.items()
    )
    listed = filled([f'"{name}"' for name in names.values()], ", ", 116, 0)
    listed = "\n".join(f"\t{line}" for line in listed.splitlines())
    yield file, "// The faults.\nconst (\n", "\n)", constants
    errors = "\n".join(
        f"\t{f'Err{name}':{width + 3}} error = faultError({name})"
        for name in names.values()
    )
    yield file, '\t"Valid",\n', ",\n}", listed
    yield file, "one for each fault.\nvar (\n", "\n)", errors


def parts_of_javascript(names, longest):
    module, types = "bindings/js/gix_validate.mjs", "bindings/js/gix_validate.d.ts"
    listed = filled([f'"{name}"' for name in names.values()], ", ", 116, 4)
    union = filled([f'| "{name}"' for name in names.values()], " ", 120, 4)
    yield module, "FAULTS = /* @__PURE__ */ Object.freeze([null,\n", "\n]);", listed
    yield module, "const TEXT_MAX = ", ";\n", longest
    yield types, "export type NumberedFault =\n", ";\n\n", union


def parts_of_rust(names, whys):
    file = "bindings/rust/src/fault.rs"
    variants, numbers = [], []
    for number, name in names.items():
        why = whys[name].replace(" The first is `byte`.", "")
        # (`Protections` has NTFS in Windows, unlike the options of the crate.)
        why = why.replace("Windows and NTFS protection", "Windows protection")
        variants += (f"    /// {line}" for line in wrap(why, 110))
        variants.append(f"    {name} = {number},")
        numbers.append(f"            {number} => Fault::{name},")
    yield file, "pub enum Fault {\n", "\n}\n\nimpl", "\n".join(variants)
    yield file, "match number {\n", "\n            _ =>", "\n".join(numbers)


def derived():
    faults = {type: faults_of(type) for type in TYPES}
    faults |= {type: [*own_faults_of(type)] for type in WRAPPERS}
    whys = {it.name: it.why for listed in faults.values() for it in listed if it.why}
    names = names_of(faults, whys)
    text = read("crates/gix_validate/src/text.rt")
    longest = re.search(r"MAX_TEXT: usize = (\d+);", text)[1]
    head = "Q is the quoted byte or name.\n\n```text\n"
    yield from lacking(names)
    yield "docs/RULES.md", head, "\n```\n", "\n".join(table(faults))[1:]
    yield from parts_of_c(names, whys, longest)
    yield part_of_cpp(names, whys)
    yield from parts_of_python(names, whys, longest)
    yield from parts_of_javascript(names, longest)
    yield from parts_of_go(names, whys)
    yield from parts_of_rust(names, whys)
    errors = "\n".join(rust_errors(faults, whys))
    yield "bindings/rust/gix-validate/src/errors.rs", f"{errors}\n"
