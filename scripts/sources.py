"""What the sources of the crates have: functions and types, their clauses, and must-fail
edits."""

import re
from collections import namedtuple
from functools import lru_cache
from pathlib import Path

EDIT = re.compile(
    r"file: (.*)\n((?:old: .*\nnew: ?.*\n)+|(?:old: .*\nnew: ?.*\nright: ?.*\n)+)"
    r"(?:hollow: (.*)\n)?refused: ([\w:]+)((?: \w+)+)\n"
)
PAIR = re.compile(r"old: (.*)\nnew: ?(.*)\n(?:right: ?(.*)\n)?")
# What begins a function, a type or the like, or one of their clauses.
BEGIN = re.compile(
    r"""(?mx)^(?P<margin>[ ]{4})?
    (?P<pub>pub[ ])? (?:pub\([\w ]+\)[ ])? (?:const[ ]|extern[ ]"C"[ ])* (?:
    (?P<kind>fn|struct|enum|trait|type|const|static|impl)\b
    (?:<[^>]*>)?[ ] (?:.*[ ]for[ ]&?)? (?P<name>[\w:]*\w)
    |[ ]*(?P<member>ghost|ensures)(?:[ ](?P<clause>\w+))?(?::|[ ]=)?[ ]\{)"""
)
Item = namedtuple("Item", "file offset path clause is_public")
Edit = namedtuple("Edit", "file crate source pairs function clauses control hollow")


class Wrong(Exception):
    """What is wrong, a sentence on each line, for the person who runs a command."""


def read(path):
    return Path(path).read_text("utf-8")


def items_of(file):
    """What begins in a source, in order."""
    text = read(file)
    _, crate, _, *modules = file.with_suffix("").parts
    for it in BEGIN.finditer(text):
        kind, name = it["kind"] or it["member"], it["name"]
        if it["kind"] and not it["margin"]:
            # (What comes next, with a margin, is a member of this.)
            top, owner = kind, ""
            if kind != "fn":
                words = name.split("::")
                owner = "".join(word[0].upper() + word[1:] for word in words)
            # (`main` calls the functions beside it.)
            is_called = kind == "fn" and file.name == "main.rt"
            is_shown = is_called or re.search(rf"(?m)^pub \w+ {name}\b", text)
            # (What an impl says of a trait's method stands for what the trait says.)
            is_of_trait = kind == "trait" and is_shown or " for " in it[0]
        if kind == "fn":
            names = (owner, name)
            is_public = it["pub"] or is_of_trait or is_shown and top == "fn"
        elif kind != "ensures":
            names = (owner,)
            is_public = is_shown and top != "trait"
        parts = (crate, *modules, *names)
        path = "::".join(part for part in parts if part not in ("lib", "main", ""))
        clause = it["member"] and (it["clause"] or "answer")
        yield Item(file, it.start(), path, clause, bool(clause and is_public))


@lru_cache(None)
def items():
    """What begins in sources: where, the path of its function or type (a ghost member
    of an impl is one of its type), and for a clause its name and whether it is public.
    """
    files = sorted(Path("crates").glob("*/src/**/*.rt"))
    return [it for file in files for it in items_of(file)]


@lru_cache(None)
def bodies(file):
    """The functions of a source, each with the range of its body: what is between its
    braces, which hold no statement."""
    text, found = read(file), []
    begun = [it for it in items() if it.file == file and it.clause is None]
    for it, end in zip(begun, [*(it.offset for it in begun[1:]), len(text)]):
        margin, head = re.match(r"( *)(.*)", text[it.offset : end]).groups()
        # (A line that is a brace alone, or ends a signature without clauses.)
        opening = re.compile(r"(?m)(?:^ *| )\{$").search(text, it.offset, end)
        if opening and re.search(r"\bfn ", head):
            first = opening.end()
            last = text.index(f"\n{margin}}}\n", first - 1)
            found.append((it.path, first, last))
    return found


def replaced(text, pairs):
    """The text with the first of each pair, which it has once then, replaced by the
    second."""
    for old, new in pairs:
        if text.count(old) != 1:
            raise Wrong(f"does not have this once: {old}")
        text = text.replace(old, new)
    return text


def edit_of(file):
    """A must-fail edit. It replaces one text, or several one after the other, in the body
    of its function. Its control, if it has one, replaces the same texts by right ones.
    """
    parts = EDIT.fullmatch(read(file))
    if not parts:
        raise Wrong(
            f"{file} is no edit: its lines are 'file:', 'old:', 'new:', perhaps 'right:', "
            "perhaps more of these, perhaps 'hollow:', and 'refused: FUNCTION CLAUSE..'"
        )
    name, lines, hollow, function, clauses = parts.groups()
    crate, source = file.parts[1], file.parent.parent / name
    path, found = f"{crate}::{function}", PAIR.findall(lines)
    pairs = [(old, new) for old, new, _ in found]
    control = [(old, right) for old, _, right in found] if "\nright:" in lines else None
    if control and hollow:
        raise Wrong(f"{file} has a control, and says why it has none")
    for changes in [pairs, control] if control else [pairs]:
        try:
            changed = replaced(read(source), changes)
        except Wrong as wrong:
            raise Wrong(f"{file} no longer applies: {name} {wrong}") from wrong
        if not is_in_body(changed, source, path):
            raise Wrong(f"{file} changes something else than the body of {function}")
    return Edit(file, crate, source, pairs, path, clauses.split(), control, hollow)


def is_in_body(changed, source, path):
    """Whether this is the source with nothing changed but the body of a function."""
    text = read(source)
    return any(
        changed.startswith(text[:first]) and changed.endswith(text[last:])
        for it, first, last in bodies(source)
        if it == path
    )


def edits():
    """The must-fail edits: what each replaces in the body of a function, which refuses
    it, with its clauses, and whether only a search that gave up says so. No two leave
    the same source, white space aside."""
    found = {}
    for file in sorted(Path("crates").glob("*/*/*.edit")):
        edit = edit_of(file)
        effect = (edit.source, *replaced(read(edit.source), edit.pairs).split())
        if effect in found:
            raise Wrong(f"{found[effect].file} and {file} have the same effect")
        found[effect] = edit
    return [*found.values()]
