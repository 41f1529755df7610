"""Checks that each test in Rattle and Rust asserts something.

A function with the attribute `#[test]` has to have `assert!`, `assert_eq!`, `assert_ne!` or
`panic!`, or has to call a function of its crate that does. So a test whose body was emptied is
found. (The formatters put the end of a function below its beginning, by which this finds it.)
"""

import re
from collections import defaultdict, namedtuple

from scripts.checks.check_unsafe import FOLDERS, files_below

# What is no code: comments, texts and characters. (A lifetime has no quote at its end.)
NO_CODE = re.compile(
    r"""(?xs) //[^\n]* | /\*.*?\*/
    | r(\#*)".*?"\1 | "(?:\\.|[^"\\])*" | '(?:\\[^\n]*?|[^'\\\n])'"""
)
FUNCTION = re.compile(r"(?m)^( *)(?:.*\s)?fn (\w+)")
TEST = re.compile(r"#\[test\]\s*(?:#\[[^\n]*\]\s*)*fn (\w+)")
ASSERTS = re.compile(r"\b(?:assert|assert_eq|assert_ne|panic)!\s*[(\[{]")
CALL = re.compile(r"(?<![.\w])(\w+)(?:::<[^()]*>)?\(")
Function = namedtuple("Function", "file name code")


def code_of(text):
    """A source with blanks in place of what is no code, and as many lines."""
    return NO_CODE.sub(lambda it: '""' + "\n" * it[0].count("\n"), text)


def functions_of(file, code):
    """The functions of a source, each from its name to its end."""
    for it in FUNCTION.finditer(code):
        # (The end is in the first line, or below.)
        end = re.compile(rf".*\}}$|(?s:.*?)^{it[1]}\}}", re.MULTILINE)
        body = end.match(code, it.end())
        yield Function(file, it[2], body[0] if body else "")


def asserting(functions):
    """The functions that assert something, or call one of these that does: the one of their own
    file, if there is one of this name."""
    by_name = defaultdict(list)
    for it in functions:
        by_name[it.name].append(it)

    def called(caller):
        for name in {*CALL.findall(caller.code)} & by_name.keys():
            own = [it for it in by_name[name] if it.file == caller.file]
            yield from own or by_name[name]

    found = {it for it in functions if ASSERTS.search(it.code)}
    size = 0
    while size < len(found):
        size = len(found)
        found |= {it for it in functions if not found.isdisjoint(called(it))}
    return found


def crates():
    """The sources of each crate, without what is no code."""
    sources = defaultdict(dict)
    for folder in FOLDERS:
        for file in files_below(folder):
            if file.suffix in (".rt", ".rs") and not file.is_symlink():
                crate = file.parts[: 1 + (file.parts[0] != "hook")]
                sources[crate][file] = code_of(file.read_text("utf-8"))
    return sources.values()


def derived():
    for crate in crates():
        functions = [
            it for file, code in crate.items() for it in functions_of(file, code)
        ]
        good = asserting(functions)
        for file, code in crate.items():
            names = TEST.findall(code)
            if len(names) != code.count("#[test]"):
                yield f"{file}: has `#[test]` before what is no function"
            for name in names:
                those = [it for it in functions if it[:2] == (file, name)]
                if not good.issuperset(those):
                    yield f"{file}: the test {name} asserts nothing"
