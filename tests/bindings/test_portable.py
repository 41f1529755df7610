"""The functions as they are translated to C for other targets."""
import os
import random
import re

import pytest

from . import comparing, other_translator
from .tools import (
    BINDINGS,
    CC,
    HEADER,
    OUT,
    PORTABLE,
    PORTABLE_MODULE,
    ROWS,
    SANITIZED,
    STRICT,
    as_msvc,
    need,
    output,
    rows,
    run,
)

SOURCE = BINDINGS / "c/rows.c"
ALL_HOLD = f"{len(rows())} rows, 0 wrong\n"
# The tests of a processor run where its compiler is, and the name of qemu's program.
PROCESSORS = {
    "aarch64": "qemu-aarch64",
    "i686": "qemu-i386",
    "riscv64": "qemu-riscv64",
    "s390x": "qemu-s390x",
}
# What C's library has for these functions on systems that aren't here.
HEADERS = {
    "string.h": "#include <stddef.h>\n"
    "size_t strlen(const char *); void *memmove(void *, const void *, size_t); void *memset(void *, int, size_t);\n",
    "stdlib.h": "__declspec(noreturn) void abort(void);\n",
}


@pytest.fixture(autouse=True)
def it_is_translated():
    need(PORTABLE)


def replayed(tmp_path, compiler, *flags, by=(), env=None):
    """What the program for the rows says, as this compiler builds it with the functions."""
    program, functions = tmp_path / "rows.exe", tmp_path / "functions.o"
    run(*compiler, "-std=c99", "-c", *STRICT, "-o", functions, PORTABLE)
    words = ["-std=gnu11", f"-I{HEADER.parent}", "-o", program, *flags]
    run(*compiler, *words, SOURCE, functions)
    return output(*by, program, ROWS, env=env and {**os.environ, **env})


def test_the_rows_hold_as_clang_builds_the_functions(tmp_path):
    need("clang")
    assert replayed(tmp_path, ["clang", "-O1"]) == ALL_HOLD


@pytest.mark.parametrize("processor", PROCESSORS)
def test_the_rows_hold_on_another_processor(processor, tmp_path):
    compiler, emulator = f"{processor}-linux-gnu-gcc", PROCESSORS[processor]
    need(compiler, emulator)
    assert replayed(tmp_path, [compiler, "-O1"], "-static", by=[emulator]) == ALL_HOLD


def test_the_rows_hold_on_windows(tmp_path, wine):
    compiler = ["x86_64-w64-mingw32-gcc", "-O1", f"-I{SOURCE.parent}/windows"]
    assert replayed(tmp_path, compiler, by=["wine"], env=wine) == ALL_HOLD


with_sanitizers = pytest.mark.xdist_group("sanitizers")


@with_sanitizers
def test_the_rows_hold_with_sanitizers(sanitized_functions, tmp_path):
    program = tmp_path / "rows"
    words = ["-std=gnu11", *SANITIZED, f"-I{HEADER.parent}", "-o", program]
    run(CC, *words, SOURCE, sanitized_functions)
    assert output(program, ROWS) == ALL_HOLD


# Says that a name is longer than its memory.
OVERREAD = """#include "gix_validate.h"
#include <stdlib.h>
int main(void) {
  char *name = (char *)malloc(5);
  memcpy(name, "a/b/c", 5);
  return (int)gix_validate_tag(name, 64);
}
"""


@with_sanitizers
def test_address_sanitizer_sees_what_the_functions_read(sanitized_functions, tmp_path):
    source, program = tmp_path / "overread.c", tmp_path / "overread"
    source.write_text(OVERREAD)
    run(CC, *SANITIZED, *STRICT, "-o", program, source, sanitized_functions)
    said = run(program, status=1).stderr
    assert "AddressSanitizer: heap-buffer-overflow" in said


@pytest.mark.parametrize("processor", ["x86_64", "i686", "aarch64"])
@pytest.mark.parametrize("version", [[], ["/std:c11"]], ids=["default", "c11"])
def test_the_compiler_of_msvc_takes_the_functions_and_warns_of_nothing(
    version, processor, tmp_path
):
    need("clang")
    for name, text in HEADERS.items():
        (tmp_path / name).write_text(text)
    words = ["/c", *version, "/clang:-ffreestanding", f"/I{tmp_path}"]
    words.append(f"/Fo{tmp_path}/functions.obj")
    run(*as_msvc(processor, *words, "--", PORTABLE))
    assert (tmp_path / "functions.obj").stat().st_size > 10_000


@pytest.mark.parametrize("processor", ["arm64", "x86_64"])
def test_clang_takes_the_functions_for_macos_and_warns_of_nothing(processor, tmp_path):
    need("clang")
    for name, text in HEADERS.items():
        (tmp_path / name).write_text(text)
    words = ["clang", f"--target={processor}-apple-macos11", "-ffreestanding"]
    words += ["-std=c99", "-Wall", "-Wextra", "-Werror", "-O1", "-c", f"-I{tmp_path}"]
    run(*words, f"-I{HEADER.parent}", PORTABLE, "-o", tmp_path / "functions.o")
    magic = (tmp_path / "functions.o").read_bytes()[:4]
    assert magic == bytes.fromhex("cffaedfe")  # (Mach-O of 64 bits)


@pytest.fixture(scope="module")
def libraries(tmp_path_factory):
    """The functions as shared objects: as machine code, translated, and by wasm2c."""
    need("wasm2c", "wat2wasm", PORTABLE_MODULE)
    folder = tmp_path_factory.mktemp("libraries")
    shared = [CC, "-O1", f"-I{HEADER.parent}", "-shared", "-fPIC", "-o"]
    run(*shared, folder / "translated.so", PORTABLE)
    other = other_translator.write(PORTABLE_MODULE, folder)
    run(*shared, folder / "by_wasm2c.so", f"-I{folder}", other)
    names = ["translated.so", "by_wasm2c.so"]
    return [OUT / "libgix_validate_c.so", *(folder / it for it in names)]


# (One process builds the libraries for both tests.)
of_libraries = pytest.mark.xdist_group("translated libraries")


@of_libraries
@pytest.mark.parametrize("library", [1, 2], ids=["translated", "by wasm2c"])
def test_the_rows_hold_as_either_translator_has_the_functions(
    library, libraries, tmp_path
):
    file = libraries[library]
    program, path = tmp_path / "rows", f"-Wl,-rpath,{file.parent}"
    run(CC, "-std=gnu11", *STRICT, "-o", program, SOURCE, file, path)
    assert output(program, ROWS) == ALL_HOLD


@of_libraries
def test_300_000_names_have_the_results_of_machine_code_and_of_another_translator(
    libraries, tmp_path
):
    (tmp_path / "compare.c").write_text(comparing.program())
    program = tmp_path / "compare"
    words = ["-O2", f"-I{HEADER.parent}", "-o", program, tmp_path / "compare.c", "-ldl"]
    run(CC, *words)
    seed = random.getrandbits(63)
    faults = re.search(r"(?s)enum gix_validate_fault \{(.*?)\n\};", HEADER.read_text())
    said = output(program, 300_000, seed, *libraries)
    assert said == f"0 differ, {faults[1].count(' = ') - 2} faults\n"
