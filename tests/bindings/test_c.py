"""The functions for C, by the libraries and the block that are built."""
import os
import re

import pytest

from .tools import (
    AARCH64_BLOCK,
    ARCHIVE,
    BINDINGS,
    BLOCK,
    CC,
    CXX,
    PORTABLE,
    RATTLE_ARCHIVE,
    ROOT,
    ROWS,
    STRICT,
    declared,
    need,
    output,
    rows,
    run,
)

# What compiles the block of a processor, which it looks for in a directory.
MACHINE_CODE = BINDINGS / "c/gix_validate.S"
OF_BLOCKS = f"-I{BLOCK.parent}"
LIBRARIES = [RATTLE_ARCHIVE, ARCHIVE, MACHINE_CODE]
VALGRIND = ["valgrind", "--quiet", "--error-exitcode=1", "--leak-check=full"]
SOURCE = BINDINGS / "c/rows.c"
ALL_HOLD = f"{len(rows())} rows, 0 wrong\n"

libraries = pytest.mark.parametrize(
    "library", LIBRARIES, ids=lambda it: str(it.relative_to(ROOT))
)


def replayed(tmp_path, compiler, *flags, by=(), env=None):
    """What the program for the rows says, as it is built by this compiler, and run by
    this program."""
    program = tmp_path / "rows.exe"
    run(*compiler, *STRICT, "-o", program, *flags)
    return output(*by, program, ROWS, env=env and {**os.environ, **env})


def exported(library, tmp_path):
    """The functions that a library exports, sorted. (The block also has each with a
    line before its name, for macOS.)"""
    if library == MACHINE_CODE:
        block = tmp_path / "block.o"
        run(CC, "-c", OF_BLOCKS, "-o", block, library)
        run("objcopy", "--wildcard", "--strip-symbol", "_*", block)
        library = block
    names = output("nm", "--extern-only", "--defined-only", library)
    return sorted(re.findall(r"(?m)^\w+ \w (.*)$", names))


@libraries
def test_a_library_exports_what_the_header_declares(library, tmp_path):
    assert len(declared()) == 9
    assert exported(library, tmp_path) == declared()


def test_the_code_uses_no_memory_below_the_stack_pointer():
    # (Windows may overwrite it.)
    code = output("objdump", "-d", ARCHIVE)
    assert "(%rsp" in code
    assert re.findall(r"-0x[0-9a-f]+\(%rsp", code) == []


@libraries
def test_the_rows_hold(library, tmp_path):
    flags = ["-O2", OF_BLOCKS, SOURCE, library]
    assert replayed(tmp_path, [CC, "-std=c11"], *flags) == ALL_HOLD


@libraries
def test_the_rows_hold_under_valgrind(library, tmp_path):
    need("valgrind")
    flags = ["-gdwarf-4", "-O2", OF_BLOCKS, SOURCE, library]
    assert replayed(tmp_path, [CC, "-std=c11"], *flags, by=VALGRIND) == ALL_HOLD


@libraries
def test_a_program_with_the_functions_has_no_executable_stack(library, tmp_path):
    program = tmp_path / "rows"
    run(CC, *STRICT, OF_BLOCKS, "-o", program, SOURCE, library)
    segments = output("readelf", "--segments", "--wide", program)
    assert re.findall(r"GNU_STACK .* (\w+) +0x", segments) == ["RW"]


def test_the_rows_hold_with_sanitizers(tmp_path):
    flags = ["-gdwarf-4", "-fsanitize=address,undefined", "-fno-sanitize-recover"]
    said = replayed(tmp_path, [CC, "-std=c11"], *flags, SOURCE, ARCHIVE)
    assert said == ALL_HOLD


def test_the_rows_hold_as_cplusplus(tmp_path):
    need(CXX)
    flags = ["-x", "c++", SOURCE, "-x", "none", ARCHIVE]
    assert replayed(tmp_path, [CXX, "-std=c++11"], *flags) == ALL_HOLD


@pytest.mark.parametrize("version", ["c89", "iso9899:199409"])
def test_a_compiler_of_an_older_version_says_what_the_header_needs(version, tmp_path):
    source = tmp_path / "old.c"
    source.write_text('#include "gix_validate.h"\n')
    words = [f"-std={version}", *STRICT, "-fsyntax-only", source]
    said = run(CC, *words, status=1).stderr
    assert "gix_validate.h needs C99 or later" in said


# Gives the functions buffers of each type that a text may have.
BUFFERS = """
#include "gix_validate.h"
int main(void) {
  char name[] = "a..b", text[GIX_VALIDATE_TEXT_MAX];
  uint8_t bytes[GIX_VALIDATE_TEXT_MAX];
  size_t length =
      gix_validate_text_of(name, 4, 0, GIX_VALIDATE_KIND_TAG, text, sizeof text);
  bool is_same = length == gix_validate_text_of(name, 4, 0, GIX_VALIDATE_KIND_TAG,
                                                bytes, sizeof bytes) &&
                 memcmp(text, bytes, length) == 0;
  bool is_repaired = gix_validate_suggest(name, 4, text, sizeof text) == 3 &&
                     memcmp(text, "a.b", 3) == 0 &&
                     gix_validate_sanitize(name, 4, text, sizeof text) == 3 &&
                     gix_validate_sanitize_in_place(name, 4, 4) == 3 &&
                     memcmp(text, name, 3) == 0;
  return is_same && is_repaired ? 0 : 1;
}
"""


@pytest.mark.parametrize("compiler", [[CC, "-std=c99"], [CXX, "-x", "c++"]])
def test_a_buffer_for_a_text_may_be_of_char_without_a_warning(compiler, tmp_path):
    need(compiler[0])
    source, program = tmp_path / "buffers.c", tmp_path / "buffers"
    source.write_text(BUFFERS)
    run(*compiler, *STRICT, "-o", program, source, "-x", "none", ARCHIVE)
    assert run(program).stderr == ""


# Writes to memory that has no value yet, and then reads what was written.
UNINITIALISED = """
#include "gix_validate.h"
int main(int count, char **arguments) {
  uint8_t faults[4], text[GIX_VALIDATE_TEXT_MAX], each[2];
  char suggested[64];
  gix_validate_result result;
  gix_validate_name names[] = {{"a", 1}, {"a..b", 4}};
  const char *joined = count > 0 ? "a\\na..b\\n" : arguments[0];
  gix_validate_faults_of(joined, 7, 0, GIX_VALIDATE_KIND_TAG, '\\n', faults, 4);
  gix_validate_text_of("a..b", 4, 0, GIX_VALIDATE_KIND_TAG, text, sizeof text);
  gix_validate_suggest_str("a..b", suggested, sizeof suggested);
  gix_validate_check(GIX_VALIDATE_KIND_TAG, "a..b", 4, 0, &result);
  gix_validate_check_array(GIX_VALIDATE_KIND_TAG, names, 2, 0, each);
#ifdef TOLD
  GIX_VALIDATE_UNPOISON(faults, 2);
  GIX_VALIDATE_UNPOISON(text, 1);
#endif
  bool is_right = result.offset == 2 && each[1] == 4 && suggested[1] == '.';
  return is_right && faults[1] == 4 && text[0] == 'R' ? 0 : 1;
}
"""


def test_memory_sanitizer_knows_what_is_written_if_the_macro_or_the_source_tells_it(
    tmp_path,
):
    need("clang", PORTABLE)
    source, program = tmp_path / "uninitialised.c", tmp_path / "uninitialised"
    source.write_text(UNINITIALISED)
    words = ["clang", "-std=c11", *STRICT, "-fsanitize=memory", "-o", program]
    run(*words, source, ARCHIVE)
    said = run(program, status=1).stderr
    assert "MemorySanitizer: use-of-uninitialized-value" in said
    for told in (["-DTOLD", ARCHIVE], [PORTABLE]):
        run(*words, source, *told)
        assert run(program).stderr == ""


def test_the_rows_hold_with_memory_sanitizer(tmp_path):
    need("clang")
    flags = ["-fsanitize=memory", SOURCE, ARCHIVE]
    assert replayed(tmp_path, ["clang", "-std=c11"], *flags) == ALL_HOLD


def test_the_rows_hold_on_aarch64(tmp_path):
    need("aarch64-linux-gnu-gcc", "qemu-aarch64", AARCH64_BLOCK)
    compiler = ["aarch64-linux-gnu-gcc", "-std=c11", "-O2", "-static"]
    code = [OF_BLOCKS, MACHINE_CODE]
    said = replayed(tmp_path, compiler, SOURCE, *code, by=["qemu-aarch64"])
    assert said == ALL_HOLD


def test_the_functions_of_memory_that_the_block_has_do_what_the_standard_says(tmp_path):
    program = tmp_path / "memory"
    source = BINDINGS / "block/memory_test.c"
    run(CC, "-std=c11", *STRICT, "-O2", "-fno-builtin", "-o", program, source)
    assert output(program) == "0 wrong\n"


@pytest.mark.parametrize(
    "system", ["apple-macos", "unknown-freebsd", "pc-windows-msvc"]
)
def test_the_block_can_be_assembled_for_systems_where_nothing_is_run(system, tmp_path):
    need("clang")
    block = tmp_path / "block.o"
    # (For Windows only Rust has it, and calls it as on Unix.)
    target = [f"--target=x86_64-{system}", "-U_WIN32"]
    run("clang", *target, "-c", OF_BLOCKS, "-o", block, MACHINE_CODE)
    assert block.stat().st_size > BLOCK.stat().st_size / 10


def test_the_block_alone_which_would_make_the_stack_executable_is_refused(tmp_path):
    refused = run(CC, "-c", "-o", tmp_path / "block.o", BLOCK, status=1)
    assert "gix_validate_function" in refused.stderr


def test_the_machine_code_for_windows_on_x86_64_is_refused(tmp_path):
    need("x86_64-w64-mingw32-gcc")
    words = ["-c", OF_BLOCKS, "-o", tmp_path / "block.o", MACHINE_CODE]
    refused = run("x86_64-w64-mingw32-gcc", *words, status=1)
    assert "here compile gix_validate.c" in refused.stderr


def test_the_example_built_by_pkg_config_says_why_a_name_is_refused(tmp_path):
    need("pkg-config")
    source = BINDINGS / "c"
    environment = {**os.environ, "PKG_CONFIG_PATH": str(source)}
    asked = ["pkg-config", "--cflags", "--libs", "gix_validate"]
    flags = output(*asked, env=environment).split()
    program = tmp_path / "example"
    run(CC, "-std=c11", *STRICT, "-o", program, source / "example.c", *flags)
    assert run(program, "main", "a..b", "...", status=1).stdout == (
        "main: ok\n"
        "a..b: it has two dots in a row (RepeatedDot at byte 2)\n"
        "    try a.b\n"
        "...: it has two dots in a row (RepeatedDot at byte 1)\n"
    )
