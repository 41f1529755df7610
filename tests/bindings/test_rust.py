"""The Rust crates: git-names, and gix-validate over it, under a program that was written for
gix-validate 0.13.1."""
import re
from pathlib import Path

import pytest

from .cargo import DEBIAN, SID, program, registry
from .tools import ARCHIVE, BINDINGS, CC, HEADER, PORTABLE_RUST, need, output, run

# (`--dist loadgroup` has one process run them all, which builds once.)
pytestmark = pytest.mark.xdist_group("rust")
EXPECTED = (BINDINGS / "rust/gix-validate/drop_in/expected").read_text()
STANDARD_LIBRARY = "/usr/lib/rustlib"
WASI = Path(__file__).parent / "wasi.mjs"


# What of the crate calls machine code: prints the calls that don't panic.
CALLS = """use git_names::*;
fn main() {
    let calls: [(&str, fn()); 6] = [
        ("check", || drop(branch("main"))),
        ("typed", || drop(Branch::try_from(&b"main"[..]))),
        ("suggest", || drop(suggest_branch("a b"))),
        ("sanitize", || drop(sanitize("a b"))),
        ("in place", || drop(sanitize_in_place(&mut [b'a'], 1))),
        ("device", || drop(is_windows_device("nul"))),
    ];
    for (name, call) in calls {
        if std::panic::catch_unwind(call).is_ok() {
            println!("{name}");
        }
    }
}
"""
# A library in Rust, and a program that calls it and the library for C.
IN_RUST = """#[no_mangle]
pub extern "C" fn is_valid_in_rust() -> bool {
    git_names::tag("v1..2").is_ok()
}
"""
IN_C = """#include "gix_validate.h"
bool is_valid_in_rust(void);
int main(void) { return is_valid_in_rust() || gix_validate_tag("v1..2", 5) != 4; }
"""


@pytest.fixture(scope="module")
def portable_program():
    """A program over the crate with the functions in Rust."""
    need(PORTABLE_RUST)
    return program("portable", default_features=False, features=["portable"])


# The test programs that have a test, in Cargo's order.
TESTS = [True, True, True, False, True, True]
# What passes the tests of both crates.
BOTH = ["test", "--quiet", "--package", "git-names", "--package", "gix-validate"]


def passed(said):
    """How many tests passed in each of the test programs, if none failed or was left out.
    Those of git-names: the sources, the errors, the rows. Of gix-validate: the sources,
    which have none, the front page, the record. At last, unless they were left out, the
    examples in the comments of each."""
    found = re.findall(
        r"(?m)^test result: ok\. (\d+) passed; 0 failed; 0 ignored", said
    )
    assert len(found) == said.count("test result: ")
    return [int(it) for it in found]


def test_the_crate_passes_its_own_tests_without_gix_error(rust_program):
    said = rust_program.cargo(*BOTH).stdout
    assert [it > 0 for it in passed(said)] == TESTS + [True, True]


def test_a_program_for_gix_validate_runs_without_gix_error(rust_program):
    assert rust_program.cargo("run", "--quiet").stdout == EXPECTED


@pytest.mark.may_be_skipped
def test_the_crate_and_a_program_work_with_gix_error():
    need(*list(registry().glob("gix-error-*")) or [SID / "gix-error"])
    with_gix_error = program("with")
    said = with_gix_error.cargo(*BOTH).stdout
    assert [it > 0 for it in passed(said)] == TESTS + [True, True]
    assert with_gix_error.cargo("run", "--quiet").stdout == EXPECTED


def test_an_older_processor_is_told_what_is_needed(rust_program):
    need("qemu-x86_64")
    rust_program.cargo("build", "--quiet")
    built = rust_program.target / "debug/checkout"
    ended = run("qemu-x86_64", "-cpu", "core2duo", built, status=101)
    assert "need a processor with SSE 4.2" in ended.stderr


def test_the_crate_passes_its_own_tests_with_the_functions_in_rust(portable_program):
    said = portable_program.cargo(*BOTH, "--tests").stdout
    assert [it > 0 for it in passed(said)] == TESTS


def test_with_the_functions_in_rust_a_program_runs_on_an_older_processor(
    portable_program,
):
    need("qemu-x86_64")
    portable_program.cargo("build", "--quiet")
    built = portable_program.target / "debug/checkout"
    assert run("qemu-x86_64", "-cpu", "core2duo", built).stdout == EXPECTED


def test_the_crate_and_a_program_work_on_windows(wine):
    need(f"{STANDARD_LIBRARY}/x86_64-pc-windows-gnu", *DEBIAN.glob("bstr-*"))
    wine["CARGO_TARGET_X86_64_PC_WINDOWS_GNU_RUNNER"] = "wine"
    windows = program("windows", default_features=False, by_debian=True, **wine)
    target = ["--quiet", "--target", "x86_64-pc-windows-gnu"]
    said = windows.cargo(*BOTH, *target[1:], "--tests").stdout
    assert [it > 0 for it in passed(said)] == TESTS
    assert windows.cargo("run", *target).stdout == EXPECTED


def test_the_crate_passes_its_own_tests_on_a_target_without_machine_code():
    standard_library = f"{STANDARD_LIBRARY}/wasm32-wasi"
    need("node", "rust-lld", standard_library, PORTABLE_RUST, *DEBIAN.glob("bstr-*"))
    runner = {"CARGO_TARGET_WASM32_WASI_RUNNER": f"node --no-warnings {WASI}"}
    other = program("wasm32", default_features=False, by_debian=True, **runner)
    said = other.cargo(*BOTH, "--target", "wasm32-wasi", "--tests").stdout
    assert [it > 0 for it in passed(said)] == TESTS


def compile_with_crate(folder, text, *words):
    """Compiles a program, or a library, that uses the crate."""
    need("rustc")
    source = folder / "program.rs"
    source.write_text(text)
    compiler = ["rustc", "--edition=2021", "--out-dir", folder, "-L", folder]
    crate = ["--crate-type=rlib", "--crate-name=git_names"]
    run(*compiler, *crate, BINDINGS / "rust/src/lib.rs")
    run(*compiler, "--extern=git_names", *words, source)


def test_on_an_older_processor_each_call_panics(tmp_path):
    need("qemu-x86_64")
    compile_with_crate(tmp_path, CALLS)
    ended = run("qemu-x86_64", "-cpu", "core2duo", tmp_path / "program")
    assert ended.stdout == ""
    assert ended.stderr.count("need a processor with SSE 4.2") == 6


def test_a_program_links_the_crate_and_the_library_for_c(tmp_path):
    compile_with_crate(tmp_path, IN_RUST, "--crate-type=staticlib")
    (tmp_path / "in_c.c").write_text(IN_C)
    whole = ["-Wl,--whole-archive", ARCHIVE, "-Wl,--no-whole-archive"]
    words = [CC, f"-I{HEADER.parent}", "-o", tmp_path / "both", tmp_path / "in_c.c"]
    run(*words, *whole, tmp_path / "libprogram.a", "-lpthread", "-ldl", "-lm")
    assert output(tmp_path / "both") == ""
