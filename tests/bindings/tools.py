"""What the tests of the bindings share: where things are, and how programs are run."""
import os
import re
import shlex
import shutil
import subprocess
from pathlib import Path

import pytest

ROOT = Path(__file__).resolve().parents[2]
BINDINGS = ROOT / "bindings"
OUT = BINDINGS / "out"
ARCHIVE = OUT / "libgix_validate_c.a"
# The same functions, built by Rattle's own compiler, and as one block of code.
RATTLE_ARCHIVE = OUT / "rattle/libgix_validate_c.a"
BLOCK = BINDINGS / "rust/native/x86_64.s"
AARCH64_BLOCK = BINDINGS / "rust/native/aarch64.s"
AARCH64_ARCHIVE = OUT / "aarch64/libgix_validate_c.a"
# The same functions, translated from WebAssembly.
PORTABLE = BINDINGS / "c/gix_validate.c"
PORTABLE_GO = BINDINGS / "go/portable.go"
PORTABLE_RUST = BINDINGS / "rust/native/portable.rs"
PORTABLE_MODULE = OUT / "portable.wat"
HEADER = BINDINGS / "c/gix_validate.h"
WASM = OUT / "gix_validate.wasm"
ROWS = ROOT / "tests/rows"
# That of the functions, as 3.0.0.
VERSION = (ROOT / "VERSION").read_text().strip().removesuffix("-dev")

CC = os.environ.get("CC", "cc")
CXX = os.environ.get("CXX", "c++")
STRICT = "-Wall -Wextra -Wpedantic -Wconversion -Werror".split() + [
    f"-I{HEADER.parent}"
]
SANITIZED = ["-fsanitize=address,undefined", "-fno-sanitize-recover"]


def as_msvc(processor, *words):
    """The command by which clang compiles as MSVC's compiler does. It stands in for that
    compiler, and has none of its headers. (A source comes after `--`, because a path that
    begins with /wo is also one of its options.)"""
    return [
        *["clang", "--driver-mode=cl", f"--target={processor}-pc-windows-msvc"],
        *["/W4", "/WX", "-fmsc-version=1937", f"/I{HEADER.parent}", *words],
    ]


def need(*things):
    """Skips the test if a command, or a file, isn't there."""
    missing = [
        str(it)
        for it in things
        if not (Path(it).exists() if "/" in str(it) else shutil.which(it))
    ]
    if missing:
        pytest.skip(f"needs {', '.join(missing)}")


def run(*command, status=0, **options):
    """Runs a command, which has to end with this status; otherwise the test fails and
    shows all that the command said."""
    command = [str(it) for it in command]
    done = subprocess.run(
        command,
        stdin=subprocess.DEVNULL,
        capture_output=True,
        encoding="utf-8",
        errors="surrogateescape",
        **options,
    )
    if done.returncode != status:
        pytest.fail(
            f"{shlex.join(command)}\nended with status {done.returncode}\n"
            f"{done.stdout}{done.stderr}",
            pytrace=False,
        )
    return done


def output(*command, **options):
    """What a command prints, which has to succeed."""
    return run(*command, **options).stdout


def declared():
    """The functions of the library that the header declares, sorted."""
    return sorted(re.findall(r"(?m)^\w+ (gix_validate_\w+)\(", HEADER.read_text()))


def rows():
    """The worked rows, as lines."""
    return re.findall("(?m)^[^#\n].*", ROWS.read_text("ascii"))
