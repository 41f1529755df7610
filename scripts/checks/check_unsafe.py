"""Checks that no unsafe code is in the crates, the crate for Rust, Go's module, or the hook.

It looks for words in all files there, whatever their names, in comments and tests too:
`unsafe`, and what brings in code or text from elsewhere. A file has such a word only if
it is listed here. In crates/gix_validate_c, where C linkage needs it, `unsafe` may be in
a line `#[unsafe(no_mangle)]` right above a `pub extern "C" fn`. (The toolchain reads
`forbid(unsafe_code)` and does not enforce it.) In Go's module it also looks for packages
that call other code, and for files that aren't Go's, such as assembler.
"""

import os
import re
from pathlib import Path

GO = "bindings/go"
FOLDERS = ("crates", "bindings/rust", GO, "hook")
# What is built there. No module of a crate can be in it without `#[path]`. (bindings/go/make
# writes those files anew.)
BUILT = (
    "crates/*/out",
    "bindings/rust/native",
    "bindings/rust/target",
    "bindings/rust/gix-validate/target",
    "bindings/rust/gix-validate/drop_in/target",
    "bindings/go/block_amd64.go",
    "bindings/go/block_amd64.s",
    "bindings/go/block_arm64.go",
    "bindings/go/block_arm64.s",
    "bindings/go/portable.go",
    "hook/out",
    "hook/target",
)
# The words that a file may have.
ALLOWED = {
    "bindings/rust/src/block.rs": {"unsafe", "global_asm", "include_str", "include"},
    "hook/src/limits.rs": {"unsafe"},
    # Texts that tests compare with.
    "bindings/rust/gix-validate/tests/recorded.rs": {"include_str"},
    "bindings/rust/tests/rows.rs": {"include_str"},
    # The code that replays rows, which the tests share.
    "bindings/rust/examples/replay_rows.rs": {"path"},
    # Prose, the list of files of a package, and a folder for Cargo.
    "bindings/rust/README.md": {"unsafe", "path"},
    "bindings/rust/Cargo.toml": {"include"},
    "bindings/rust/gix-validate/README.md": {"path"},
    "bindings/rust/gix-validate/Cargo.toml": {"include", "path"},
    "bindings/rust/gix-validate/drop_in/Cargo.toml": {"path"},
    # The calls of the block, by Go's assembler. Strings and slices of bytes are read as one
    # type, and so are faults and bytes.
    "bindings/go/calls_block.go": {"unsafe"},
    "bindings/go/calls_amd64.s": {"unsafe", "include"},
    "bindings/go/calls_arm64.s": {"unsafe", "include"},
    "bindings/go/gitnames.go": {"unsafe"},
    # What writes the block.
    "bindings/go/make": {"include"},
    # The shared object, with which a test compares.
    "bindings/go/internal/clibrary/clibrary.go": {"unsafe", "include", "C"},
}
EXPORTS = "crates/gix_validate_c/src/"
EXPORT = re.compile(r'(?m)^#\[unsafe\(no_mangle\)\]\n(?=pub extern "C" fn \w)')
# `path` counts if it is given a string or a macro's argument, or is in an attribute.
GAP = r"(?:\s|//[^\n]*\n|/\*.*?\*/)*"
WORDS = re.compile(
    rf"""(?xs)
    \b(?: unsafe | include | include_str | include_bytes
        | asm | global_asm | naked_asm | no_mangle | export_name | link_section )\b
    | \bpath\b (?={GAP} = {GAP} (?: r?\#*" | \$ ))
    | (?<=\#\[) [^\]]*? \bpath\b
    | (?<=\#!\[) [^\]]*? \bpath\b"""
)
# Packages that call or load other code, and words of Go that bring it in.
GO_WORDS = re.compile(
    r"""(?xm) ["`](?:C|plugin|syscall)(?=["`]) | (?<=//go:)linkname | ^\s*(?:replace|require)\b"""
)
# What a file of Go's module that isn't listed may be. (Go compiles and links others, too.)
GO_FILES = (".go", ".md", ".mod")


def files_below(folder):
    """All files of a folder but what is built, and links as they are."""
    for place, folders, names in os.walk(folder, onerror=fail):
        paths = [Path(place, name) for name in [*folders, *names]]
        files = [it for it in paths if it.is_file() and not is_built(it)]
        yield from (it for it in paths if it.is_symlink() or it in files)
        folders[:] = [it for it in sorted(folders) if not is_built(Path(place, it))]


def is_built(path):
    """Whether a path is one of those that a build fills, from the root on."""
    depths = {built: built.count("/") + 1 for built in BUILT}
    return any(
        len(path.parts) == depth and path.match(built)
        for built, depth in depths.items()
    )


def fail(error):
    raise error


def found_in(path):
    """The words of a file that it may not have, each with its line."""
    text = path.read_bytes().decode("latin-1")
    if str(path).startswith(EXPORTS):
        text = EXPORT.sub("\n", text)
    words = [*WORDS.finditer(text)]
    if path.is_relative_to(GO):
        words += GO_WORDS.finditer(text)
    for it in words:
        word = re.search(r"\w+\Z", it[0])[0]
        if word not in ALLOWED.get(str(path), ()):
            yield word, text.count("\n", 0, it.end()) + 1


def is_foreign(path):
    """Whether a file in Go's module isn't Go's, and may not be there."""
    is_listed = str(path) in ALLOWED or path.suffix in GO_FILES
    return path.is_relative_to(GO) and not is_listed


def derived():
    for folder in FOLDERS:
        for path in files_below(folder):
            if path.is_symlink():
                yield f"{path} is a link, and what it leads to isn't read"
                continue
            if is_foreign(path):
                yield f"{path} is no file of Go's, and may not be there"
            for word, line in found_in(path):
                yield f"{path}:{line}: has `{word}`, and may not"
