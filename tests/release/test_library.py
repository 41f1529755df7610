"""The library for C and the sources of the Rust crate, which tests/bindings tests."""

import re
import shutil

import pytest

from tests.pages.blocks import blocks_of
from tests.release.commands import (
    COMPILER,
    MAJOR,
    NUMBERS,
    ROOT,
    built_by_cmake,
    built_project,
    differences,
    need,
    run,
)
from tests.release.elf import faults_of

LIBRARY = f"libgix_validate_c.so.{MAJOR}"
ROWS = ROOT / "tests/rows"


@pytest.fixture(scope="module")
def declared(prefix):
    """The functions that the header declares."""
    header = (prefix / "include/gix_validate.h").read_text()
    found = re.findall(r"(?m)^[a-z0-9_]* (gix_validate_[a-z_]*)\(", header)
    assert found
    return sorted(found)


@pytest.fixture(scope="module")
def native(tree):
    """The folder with the blocks of code of the Rust crate."""
    return tree / "rust/git-names/native"


def test_the_shared_object_is_hardened_and_needs_no_library(prefix):
    faults, said = faults_of(prefix / "lib" / LIBRARY)
    assert faults == []
    assert "BIND_NOW" in said
    assert f"Library soname: [{LIBRARY}]\n" in said


def test_the_shared_object_exports_what_the_header_declares(prefix, declared):
    library = prefix / "lib" / LIBRARY
    status, said = run("nm", "-D", "--defined-only", library)
    assert status == 0
    exported = re.findall(r"(?m)^\w+ T ([^@\n]*)", said)
    assert sorted(exported) == declared


# The forms that a program is compiled with, and the ends of their names.
FORMS = {"machine code": "S", "C99": "c"}


@pytest.mark.parametrize("linked", [*FORMS, "libgix_validate_c.a", LIBRARY])
def test_the_rows_pass_with_each_form_of_the_library(tree, prefix, room, linked):
    files = {name: tree / f"c/gix_validate.{end}" for name, end in FORMS.items()}
    library = files.get(linked, prefix / "lib" / linked)
    source, path = "bindings/c/rows.c", f"-Wl,-rpath,{prefix}/lib"
    flags = [f"-I{prefix}/include"]
    built = run(COMPILER, *flags, "-o", room / "rows", source, library, path)
    assert built == (0, "")
    status, said = run(room / "rows", ROWS)
    assert status == 0, said


def test_each_function_has_a_manual(prefix, declared):
    manuals = prefix / "share/man/man3"
    assert [it for it in declared if not (manuals / f"{it}.3").exists()] == []


@pytest.mark.parametrize("crate", [".", "gix-validate"])
def test_the_sources_of_the_crates_are_those_of_the_repository(native, crate):
    ours, theirs = ROOT / "bindings/rust" / crate, native.parent / crate
    assert differences(ours / "src", theirs / "src") == (0, "")
    assert (theirs / "Cargo.toml").read_text() == (ours / "Cargo.toml").read_text()


@need("cargo")
def test_cargo_packs_the_licences_the_page_the_blocks_and_the_sources(native, room):
    crate = shutil.copytree(native.parent, room / "crate")  # (cargo writes into it)
    words = ["package", "--list", "--allow-dirty", "--offline"]
    status, said = run("cargo", *words, cwd=crate)
    assert status == 0, said
    packed = {
        *["LICENSE-APACHE", "LICENSE-MIT", "README.md", "src/lib.rs"],
        *["native/aarch64.s", "native/portable.rs", "native/x86_64.s"],
    }
    assert packed <= set(said.splitlines())


@need("pkg-config")
def test_the_example_for_c_is_built_as_pkg_config_says(prefix, tree, room):
    # (in a folder without a space: pkg-config escapes it, and the shell doesn't undo that)
    words = ["--cflags", "--libs", f"gix_validate = {NUMBERS}"]
    path = tree / "lib/pkgconfig"
    status, flags = run("pkg-config", *words, PKG_CONFIG_PATH=path)
    assert status == 0, flags
    example, library = room / "example", f"-Wl,-rpath,{prefix}/lib"
    words = ["-o", example, "bindings/c/example.c", *flags.split(), library]
    assert run(COMPILER, *words) == (0, "")
    status, said = run(example, "main", "a..b")
    assert status == 1
    assert "a..b: it has two dots in a row (RepeatedDot at byte 2)\n" in said


@need("pkg-config")
@pytest.mark.parametrize(
    "wanted, is_there",
    [(f">= {NUMBERS}", True), (f"< {int(MAJOR) + 1}", True), (f"> {NUMBERS}", False)],
)
def test_pkg_config_takes_a_release_to_come_for_that_release(tree, wanted, is_there):
    path = tree / "lib/pkgconfig"
    ran = run("pkg-config", "--exists", f"gix_validate {wanted}", PKG_CONFIG_PATH=path)
    assert (ran.status == 0) == is_there


@need("pkg-config")
def test_pkg_config_names_the_static_library(tree, room):
    words = ["--cflags", "--variable=archive", "gix_validate"]
    path = tree / "lib/pkgconfig"
    status, flags = run("pkg-config", *words, PKG_CONFIG_PATH=path)
    assert status == 0, flags
    built = run(COMPILER, "-o", room / "a", "bindings/c/example.c", *flags.split())
    assert built == (0, "")
    assert LIBRARY not in needed_by(room / "a")


@need("pkg-config")
def test_a_static_program_is_built_as_pkg_config_says(tree, room):
    words = ["--static", "--cflags", "--libs", "gix_validate"]
    path = tree / "lib/pkgconfig"
    status, flags = run("pkg-config", *words, PKG_CONFIG_PATH=path)
    assert status == 0, flags
    words = ["-static", "-o", room / "a", "bindings/c/example.c", *flags.split()]
    assert run(COMPILER, *words) == (0, "")


@need("cmake")
@pytest.mark.parametrize("is_shared", ["ON", "OFF"])
def test_cmake_links_the_kind_of_library_that_build_shared_libs_says(
    prefix, room, is_shared
):
    option = f"-DBUILD_SHARED_LIBS={is_shared}"
    example = built_by_cmake(room, prefix, "gix_validate", option)
    assert (LIBRARY in needed_by(example)) == (is_shared == "ON")


@need("cmake")
def test_cmake_compiles_the_source_of_an_unpacked_release(tree, room):
    assert_is_compiled(room, [built_by_cmake(room, tree, "source")])


AARCH64 = ["-DCMAKE_SYSTEM_NAME=Linux", "-DCMAKE_SYSTEM_PROCESSOR=aarch64"]


@need("cmake", "aarch64-linux-gnu-gcc", "qemu-aarch64")
def test_cmake_compiles_the_source_where_there_is_no_library(tree, room):
    options = [
        "-DCMAKE_C_COMPILER=aarch64-linux-gnu-gcc",
        "-DCMAKE_EXE_LINKER_FLAGS=-static",
    ]
    example = built_by_cmake(room, tree, "gix_validate", *AARCH64, *options)
    assert_is_compiled(room, ["qemu-aarch64", example])


def assert_is_compiled(room, example):
    """That the source was compiled with the example for C, which works."""
    assert [it.name for it in room.rglob("gix_validate.c.o")] == ["gix_validate.c.o"]
    status, said = run(*example, "main", "a..b")
    assert status == 1
    assert "a..b: it has two dots in a row (RepeatedDot at byte 2)\n" in said


FINDING = """cmake_minimum_required(VERSION 3.10)
project(example {})
find_package(gix_validate)
message("found: ${{gix_validate_FOUND}}")
"""


@need("cmake")
@pytest.mark.parametrize("language, place", [("CXX", "tree"), ("C", "prefix")])
def test_cmake_says_what_is_missing_where_there_is_no_library(
    request, room, language, place
):
    (room / "CMakeLists.txt").write_text(FINDING.format(language))
    found = f"-DCMAKE_PREFIX_PATH={request.getfixturevalue(place)}"
    words = ["-S", room, "-B", room / "built", found, *AARCH64]
    status, said = run("cmake", *words)
    assert status == 0, said
    assert "found: 0\n" in said
    said = " ".join(said.split())  # (CMake breaks lines)
    assert "This system has no libraries. Find an unpacked release, and" in said


# (Clang 14 chooses C++14 by itself.)
@need("cmake", "clang++")
def test_cmake_builds_the_example_of_the_page_for_cplusplus_with_clang(prefix, room):
    page = (ROOT / "bindings/cpp/README.md").read_text("utf-8")
    code = {it.language: it.code for it in blocks_of(page)}
    (room / "example.cpp").write_text(code["cpp"], "utf-8")
    (room / "CMakeLists.txt").write_text(code["cmake"], "utf-8")
    example = built_project(room, prefix, "-DCMAKE_CXX_COMPILER=clang++")
    assert run(example) == (0, code["text"])


def needed_by(program):
    """The libraries that a program needs."""
    return re.findall(r"\(NEEDED\).*\[(.*)\]", run("readelf", "-d", program).said)


@need("aarch64-linux-gnu-gcc", "qemu-aarch64")
def test_the_rows_pass_with_the_block_for_aarch64(prefix, tree, room):
    words = [f"-I{prefix}/include", "-static", "-o", room / "rows"]
    code = ["bindings/c/rows.c", tree / "c/gix_validate.S"]
    assert run("aarch64-linux-gnu-gcc", *words, *code) == (0, "")
    status, said = run("qemu-aarch64", room / "rows", ROWS)
    assert status == 0, said


SYSTEMS = [
    "apple-macos",
    "apple-ios",
    "pc-windows-msvc",
    "linux-android",
    "unknown-freebsd",
]


@need("clang")
@pytest.mark.parametrize("system", SYSTEMS)
def test_the_block_for_aarch64_is_code_of_other_systems(tree, room, system):
    block, code = room / "block.o", tree / "c/gix_validate.S"
    words = [f"--target=aarch64-{system}", "-c", "-o", block, code]
    assert run("clang", *words) == (0, "")
    assert block.stat().st_size > 0
