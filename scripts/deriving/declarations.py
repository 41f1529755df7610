"""What sources and definitions declare, as text: without comments, without bodies of
functions, and without what only helps a proof or the compiler."""

import re
from collections import namedtuple
from functools import lru_cache
from pathlib import Path

from scripts.sources import Wrong, read

# A declaration: its name, its text, the names of its variants in definitions, whether it
# is public, and for an `impl` the names on which that depends: its type and its trait.
Declared = namedtuple("Declared", "name text variants is_public depends")
# A name that a file imports: what it is called there, and the module and the name that it
# has; no name for a module.
Imported = namedtuple("Imported", "local module name")

# What says nothing about results.
HELPS = re.compile(
    r"(?m)^ *#!?\[(?:tactic|inline|cold|rattlefmt::skip|allow|expect|must_use)\b.*\]\n"
)
COMMENT = re.compile(r"(?m)^ *//.*\n")
ATTRIBUTES = re.compile(r"\A(?: *#!?\[.*\n)*")
# The end of a signature: a line that is a brace alone, or ends with one. (Or an empty body.)
BODY = re.compile(r"(?m)(?:^ *| )\{\}?$")
PUB = r"(?:pub(?:\([\w ]+\))? )?"
FUNCTION = re.compile(rf'{PUB}(?:const |extern "C" )*fn (\w+)')
TYPE = re.compile(rf"{PUB}(struct|enum|trait|type|const|static) (\w+)")
IMPL = re.compile(
    r"impl(?:<.*?>)? (?:(?P<trait>[\w:]+)(?:<.*?>)? for &?)?(?P<type>[\w:]+)"
)
EXPORT = re.compile(r"macro_rules! |pub (?:use|mod) ")
# What a source has beside declarations.
OTHERS = re.compile(r"(?:ghost |pub\(crate\) )?use |mod |\Z")
# What begins a definition.
HEAD = re.compile(r"(?:abbrev |unfoldable |pub |data |record )+(\S+)|(\w+) : ")


def chunks(text, margin=0):
    """The parts of a text that begin at this margin, each with the attributes above it.
    A string that begins at the end of a line goes on to its closing quote."""
    begin = re.compile(rf"^ {{{margin}}}(?!where$)[^\s)\]}}{{]")
    found, is_open, in_string = [], False, False
    for line in text.splitlines(keepends=True):
        begins = bool(begin.match(line)) and not in_string
        if begins and not is_open:
            found.append("")
        if found:
            found[-1] += line
        if in_string:
            in_string = not re.search(r'(?<!\\)";?$', line)
        else:
            in_string = line.endswith('= "\\\n')
        is_open = begins and line.lstrip().startswith("#[") if begins else is_open
    return [re.sub(r"\n\s*\Z", "\n", it) for it in found]


def signature(text):
    """A function without its body."""
    body = BODY.search(text)
    if body:
        return text[: body.start()].rstrip() + "\n"
    if not text.rstrip().endswith(";"):
        raise Wrong(f"this function has no body at the end of a line: {text}")
    return text


def members(text, keeps):
    """What a trait, an impl or a struct has, with the members that are kept, functions
    without bodies."""
    head, brace, inside = text.partition("{\n")
    if not brace:
        return text
    kept = ""
    for member in chunks(inside.removesuffix("}\n"), 4):
        line = ATTRIBUTES.sub("", member).strip()
        if keeps(line) and not line.startswith("ghost use "):
            kept += signature(member) if FUNCTION.match(line) else member
    return f"{head}{brace}{kept}}}\n" if kept else f"{head}{{}}\n"


def is_public(line):
    return line.startswith(("pub ", "ghost "))


def is_any(line):
    return True


@lru_cache(None)
def declared(file):
    """What a source declares, in order."""
    text = HELPS.sub("", COMMENT.sub("", read(file)))
    return [it for chunk in chunks(text) for it in declared_by(chunk, file)]


def declared_by(chunk, file):
    """The declaration that a chunk of a source is, if it is one."""
    line = ATTRIBUTES.sub("", chunk)
    pub, depends = line.startswith("pub "), ()
    if it := FUNCTION.match(line):
        name, text = it[1], signature(chunk)
        # (`main` calls the functions beside it.)
        shown = pub or file.name == "main.rt" and " ensures " in text
    elif it := IMPL.match(line):
        name, text, shown = (
            None,
            members(chunk, is_any if it["trait"] else is_public),
            True,
        )
        depends = tuple(filter(None, it.group("type", "trait")))
    elif it := TYPE.match(line):
        name, text, shown = it[2], chunk, pub
        if it[1] == "trait" or it[1] == "struct" and pub:
            text = members(chunk, is_public if it[1] == "struct" else is_any)
    elif EXPORT.match(line):
        name, text, shown = None, chunk, pub or "#[macro_export]" in chunk
    elif OTHERS.match(line):
        return
    else:
        raise Wrong(f"{file} has what isn't read here: {line.splitlines()[0]}")
    yield Declared(name, text, (), shown, depends)


@lru_cache(None)
def defined(file):
    """What a file of definitions or the like defines, in order."""
    text = re.sub(r"(?m)^ *--.*\n", "", read(file))
    found, infix = [], ""
    for chunk in chunks(text):
        if re.match("(?:pub )?(?:use|mod) ", chunk):
            continue
        if chunk.startswith("infix"):
            infix = chunk
        elif head := HEAD.match(chunk):
            name = head[1] or head[2]
            variants = re.findall(r"(?m)^  (?:pub )?(\w+) : ", chunk)
            of_data = variants if re.match(r"(?:pub )?data ", chunk) else ()
            found.append(Declared(name, infix + chunk, tuple(of_data), True, ()))
            infix = ""
        elif found:
            # (an equation of what was declared above)
            last = found.pop()
            found.append(last._replace(text=last.text + chunk))
    return found


@lru_cache(None)
def imported(file):
    """The names that a file imports from definitions, of the kit's libraries, too."""
    found = []
    uses = r"(?m)^ *(?:pub |ghost )?use Rattle\.([\w.]+?)(?:\.\{([^}]*)\}| as (\w+));?$"
    for module, names, alias in re.findall(uses, read(file)):
        if alias:
            found.append(Imported(alias, module, None))
        for name in filter(None, re.split(r",\s*", names.strip())):
            name, _, local = name.partition(" as ")
            found.append(Imported(local or name, module, name))
    return found


@lru_cache(None)
def words(text):
    """The words of a text, but those that follow a dot."""
    return {*re.findall(r"(?<![\w.])\w+", text)}


def cites(text, name):
    """Whether a text has a name, or of an operator a part that isn't an argument."""
    parts = [it for it in name.split("◌") if it]
    return any(it in words(text) if it.isidentifier() else it in text for it in parts)


def sources(crate):
    """The files of a crate that are no modules of tests."""
    files = sorted(Path("crates", crate, "src").glob("**/*.rt"))
    roots = [it for it in files if it.name in ("lib.rt", "main.rt")]
    tests = r"(?m)^#\[cfg\(test\)\]\nmod (\w+);$"
    modules = {name for it in roots for name in re.findall(tests, read(it))}
    return [it for it in files if it.parent.name != "src" or it.stem not in modules]


def specs(crate):
    files = sorted(Path("crates", crate, "specs").glob("**/*.antt"))
    return [it for it in files if it.stem != "Lib"]
