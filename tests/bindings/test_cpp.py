"""The header for C++, by each compiler that is there, in each version of C++."""
import re

import pytest

from .tools import (
    ARCHIVE,
    BINDINGS,
    CXX,
    ROWS,
    SANITIZED,
    STRICT,
    as_msvc,
    need,
    output,
    rows,
    run,
)

SOURCE = BINDINGS / "cpp/rows.cpp"
WORDS = [*STRICT, "-Wshadow", f"-I{SOURCE.parent}"]
ALL_HOLD = f"{len(rows())} rows, 0 wrong"
# What each version adds, as the program for the rows says. (Debian 12's Clang lacks what
# std::expected of GCC's library needs.)
ADDED = {
    (CXX, "17"): "",
    (CXX, "20"): ", <=>, span, u8",
    (CXX, "2b"): ", <=>, span, u8, expected",
    ("clang++", "17"): "",
    ("clang++", "20"): ", <=>, span, u8",
    ("clang++", "2b"): ", <=>, span, u8",
}
LINES = {
    "a name that isn't checked": ('gix_validate::branch_name("main");', "private"),
    "a name without a text": ("gix_validate::branch_name name;", "no matching"),
    "a tag for a branch": (
        'gix_validate::branch_name it = *gix_validate::tag_name::parse("a");',
        "conversion",
    ),
    "a branch next to a tag": (
        '(void)(*gix_validate::branch_name::parse("a") == *gix_validate::tag_name::parse("a"));',
        "ambiguous",
    ),
    "a view of a string that is gone": (
        "(void)gix_validate::valid<gix_validate::kind::tag, gix_validate::protect::all,"
        ' std::string_view>::parse(std::string("a"));',
        "a view of a string that is gone after this call",
    ),
    "a result that is ignored": ('gix_validate::check_tag("a");', "nodiscard"),
    "a number for a kind": ('(void)gix_validate::check(2, "a");', "kind"),
}


@pytest.mark.parametrize("compiler, version", ADDED)
def test_the_rows_hold(compiler, version, tmp_path):
    need(compiler)
    program = tmp_path / "rows"
    run(compiler, f"-std=c++{version}", *WORDS, "-o", program, SOURCE, ARCHIVE)
    assert output(program, ROWS).startswith(ALL_HOLD + ADDED[compiler, version])


def test_the_rows_hold_with_sanitizers(tmp_path):
    need(CXX)
    program = tmp_path / "rows"
    run(CXX, "-std=c++17", *SANITIZED, *WORDS, "-o", program, SOURCE, ARCHIVE)
    assert output(program, ROWS) == f"{ALL_HOLD}\n"


# Names that a view makes as it goes: each is too long to be inside its std::string, so it
# is on the heap, and is freed when the loop comes to the next one.
VIEWS = """
#include "gix_validate.hpp"
#include <ranges>
using gix_validate::check_all;
using gix_validate::fault;
int main() {
  const auto name_of = [](int i) {
    return "feature/a-name-that-is-longer-than-a-string-holds" +
           std::string(std::size_t(i), '.');
  };
  const auto is_invalid = [](const std::string &it) { return it.back() == '.'; };
  const auto names = std::views::iota(0, 3) | std::views::transform(name_of);
  auto chosen = names | std::views::filter(is_invalid);
  const std::vector<fault> of_all = {fault::ok, fault::ends_with_dot,
                                     fault::repeated_dot};
  const std::vector<fault> of_chosen = {fault::ends_with_dot,
                                        fault::repeated_dot};
  const bool is_right = check_all(gix_validate::kind::branch, names) == of_all &&
                        check_all(gix_validate::kind::branch, chosen) == of_chosen;
  return is_right ? 0 : 1;
}
"""


@pytest.mark.xdist_group("sanitizers")
def test_check_all_reads_no_freed_memory_of_views_that_make_or_choose_names(
    sanitized_functions, tmp_path
):
    need(CXX)
    source, program = tmp_path / "views.cpp", tmp_path / "views"
    source.write_text(VIEWS, "ascii")
    words = ["-std=c++20", *SANITIZED, *WORDS, "-o", program]
    run(CXX, *words, source, sanitized_functions)
    assert run(program).stderr == ""


@pytest.mark.parametrize("version", ["17", "20"])
def test_the_compiler_of_msvc_takes_the_header_and_warns_of_nothing(version):
    # (with the headers of GCC's library, which expect these macros)
    need(CXX, "clang")
    said = run(CXX, "-E", "-v", "-x", "c++", "/dev/null").stderr
    folders = re.findall(r"(?m)^ (/usr/include.*)$", said)
    own = output("clang", "-print-resource-dir").strip() + "/include"
    words = [f"-imsvc{it}" for it in [own, *folders]]
    words += ["/EHsc", "-D_GNU_SOURCE", "-D__STRICT_ANSI__", f"/I{SOURCE.parent}"]
    words += ["/Zs", f"/std:c++{version}", "--", SOURCE]
    assert run(*as_msvc("x86_64", *words)).stderr == ""


def compiled(tmp_path, line, *words, status=0):
    """What the compiler says of a program that has this line."""
    need(CXX)
    source = tmp_path / "program.cpp"
    source.write_text(
        f'#include "gix_validate.hpp"\nint main() {{\n  {line}\n}}\n', "ascii"
    )
    words = ["-std=c++17", *words, *WORDS, "-fsyntax-only", source]
    return run(CXX, *words, status=status).stderr


@pytest.mark.parametrize("what", LINES)
def test_the_compiler_refuses(what, tmp_path):
    line, why = LINES[what]
    assert why in compiled(tmp_path, line, status=1)


def test_a_compiler_of_an_older_version_says_what_the_header_needs(tmp_path):
    said = compiled(tmp_path, "", "-std=c++14", status=1)
    assert "gix_validate.hpp needs C++17 or later" in said
