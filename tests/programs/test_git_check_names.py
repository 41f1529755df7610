"""git check-names: its kinds, names as arguments and as input, repairs, and Git."""

import os
import subprocess

import pytest

from tests.programs.program import DOT_GIT, ID, Ran, Row, rows

NAMES = "git_check_names"
DASH = (
    "Branch or tag name cannot start with a dash, as it may be mistaken for an option "
    "('-' at byte 0)"
)
SLASHES = "Reference name cannot contain repeated slashes"
DOTS = "Reference name cannot contain repeated dots"
BYTE = "Reference name contains invalid byte: "
SPACE = f'{BYTE}" "'
OUTSIDE = "Reference name must be below 'refs/', or all uppercased, like 'HEAD'"
DISGUISED = "A part of a submodule name must not be taken for '.' or '..'"
LOWERCASE = "Standalone references must be all uppercased, like 'HEAD'"
EMPTY_PART = "A path must not be empty, start or end with a slash, or have two in a row"
DEVICE = "Windows device-names may have side-effects and are not allowed"
FORBIDDEN = (
    "Trailing spaces or dots, and the following characters anywhere, are forbidden in "
    'Windows paths, along with non-printable ones: <>:"|?*'
)
NO_KIND = (
    "the first argument has to be branch, branch-ref, tag, ref, safe-ref, path, "
    "component or submodule, see git-check-names -h"
)
NO_NAME = "no name is given: give names, or --stdin to read them"
TWO_SOURCES = "give names, or --stdin or -z to read them, but not both"
NO_REPAIR = "--repair is for the kinds branch and ref alone"
NO_INPUT = "there is no name in the input"


def row_of(words, status, output="", said="", given="", why=""):
    return Row(NAMES, why or " ".join(words), words, given, status, output, said)


def long_at(number):
    why = "is longer than 65535 bytes, and isn't checked"
    return f"malformed input: name {number} {why}"


def invalid(words, *lines):
    return row_of(words, 1, "".join(f"{it}\n" for it in lines))


# Names of each kind that are valid, and the line of one that isn't.
KINDS = [
    row_of(["branch", "main", "feature/login", "@"], 0),
    invalid(
        ["branch", "main", "feature//login"],
        f"feature//login: {SLASHES} ('/' at byte 8)",
    ),
    invalid(
        ["branch", "HEAD"],
        "HEAD: Reference name is reserved and cannot be used: \"HEAD\" ('H' at byte 0)",
    ),
    invalid(["branch", "--", "main", "-d"], f"-d: {DASH}"),
    row_of(["branch-ref", "refs/heads/main", "HEAD"], 0),
    invalid(
        ["branch-ref", "refs/heads/HEAD"],
        "refs/heads/HEAD: Reference name is reserved and cannot be used: "
        '"refs/heads/HEAD" (\'r\' at byte 0, in "refs")',
    ),
    row_of(["tag", "v1.2.3", "a/b", "@"], 0),
    invalid(["tag", "v1..2"], f"v1..2: {DOTS} ('.' at byte 3)"),
    invalid(["tag", "--", "-d"], f"-d: {DASH}"),
    invalid(
        ["tag", "HEAD"],
        "HEAD: Reference name is reserved and cannot be used: \"HEAD\" ('H' at byte 0)",
    ),
    row_of(["ref", "HEAD", "refs/heads/main", "refs/heads/HEAD"], 0),
    invalid(["ref", "main"], f"main: {LOWERCASE} ('m' at byte 0)"),
    row_of(["safe-ref", "HEAD", "refs/heads/main", "FETCH_HEAD"], 0),
    invalid(
        ["safe-ref", "hooks/update"],
        f"hooks/update: {OUTSIDE} ('h' at byte 0, in \"hooks\")",
    ),
    invalid(
        ["safe-ref", "refs/heads/aux.c"],
        f"refs/heads/aux.c: {DEVICE} ('a' at byte 11, in \"aux.c\")",
    ),
    row_of(["path", "src/main.rs", "a b/c"], 0),
    invalid(["path", "src//main.rs"], f"src//main.rs: {EMPTY_PART} ('/' at byte 4)"),
    invalid(["path", "a/"], f"a/: {EMPTY_PART} (at the end)"),
    invalid(
        ["path", "src/.GIT/x"], f"src/.GIT/x: {DOT_GIT} ('.' at byte 4, in \".GIT\")"
    ),
    # (Git's escapes in the name, and those of every language in the message.)
    invalid(
        ["path", "a/.g\u200cit"],
        f'"a/.g\\342\\200\\214it": {DOT_GIT} '
        "('.' at byte 2, in \".g\\xe2\\x80\\x8cit\")",
    ),
    row_of(["component", "main.rs"], 0),
    invalid(["component", "aux.c"], f"aux.c: {DEVICE} ('a' at byte 0)"),
    invalid(
        ["component", "a/b"],
        "a/b: Path separators like / or \\ are not allowed ('/' at byte 1)",
    ),
    row_of(["submodule", "vendor/package"], 0),
    row_of(["submodule", "--protect=none", "/etc"], 0),
    invalid(
        ["submodule", "a/../b"],
        "a/../b: Submodules names must not contains '..' ('.' at byte 2, in \"..\")",
    ),
    invalid(["submodule", "a//b"], f"a//b: {EMPTY_PART} ('/' at byte 2)"),
]
# A line is printed of each invalid name, in order.
ORDER = [
    invalid(
        ["ref", "b", "HEAD", "a", "b"],
        *(f"{it}: {LOWERCASE} ('{it}' at byte 0)" for it in "bab"),
    ),
]
# A name is quoted only if it has to be, and as Git quotes it.
QUOTED = [
    invalid(["branch", name], f"{shown}: {why}")
    for name, shown, why in [
        ("a b", "a b", f"{SPACE} (' ' at byte 1)"),
        (" a", '" a"', f"{SPACE} (' ' at byte 0)"),
        ("a ", '"a "', f"{SPACE} (' ' at byte 1)"),
        ("a:b", "a:b", f"{BYTE}\":\" (':' at byte 1)"),
        ("a: b", '"a: b"', f"{BYTE}\":\" (':' at byte 1)"),
        ("a:", "a:", f"{BYTE}\":\" (':' at byte 1)"),
        ("", '""', "Reference name cannot be empty"),
        ("a\nb", '"a\\nb"', f"{BYTE}\"\\n\" ('\\n' at byte 1)"),
        ("a\tb", '"a\\tb"', f"{BYTE}\"\\t\" ('\\t' at byte 1)"),
        ("a\\b", '"a\\\\b"', f"{BYTE}\"\\\\\" ('\\\\' at byte 1)"),
        ('"//', '"\\"//"', "Reference name cannot end with a slash ('/' at byte 2)"),
        ("\u00e9//a", '"\\303\\251//a"', f"{SLASHES} ('/' at byte 3)"),
        ("a\x07b", '"a\\ab"', f"{BYTE}\"\\x07\" ('\\x07' at byte 1)"),
        ("a\x1bb", '"a\\033b"', f"{BYTE}\"\\x1b\" ('\\x1b' at byte 1)"),
        ("a\x7fb", '"a\\177b"', f"{BYTE}\"\\x7f\" ('\\x7f' at byte 1)"),
        (
            '\u00e9 /\u00e8 "',
            '"\\303\\251 /\\303\\250 \\""',
            f"{SPACE} (' ' at byte 2, in \"\\xc3\\xa9 \")",
        ),
    ]
]
# The words of a command line.
AT_1 = "(' ' at byte 1) (InvalidByte at 1)"
WORDS = [
    invalid(["branch", "a b", "-v"], f"a b: {SPACE} {AT_1}"),
    invalid(["-v", "branch", "a b"], f"a b: {SPACE} {AT_1}"),
    invalid(["--verbose", "branch", "--", "a b"], f"a b: {SPACE} {AT_1}"),
    invalid(["branch", "--", "-v", "--"], f"-v: {DASH}", f"--: {DASH}"),
    invalid(["branch", "-"], f"-: {DASH}"),
    row_of(["--", "branch", "main"], 0),
    invalid(["tag", "--", "--help"], f"--help: {DASH}"),
    row_of(["tag", "a=b"], 0),
    row_of(["component", "--protect", "none", "aux.c"], 0),
    row_of(["component", "aux.c", "--protect=none"], 0),
    row_of(["component", "--accept", "aux.c", "aux.c"], 0),
]
WRONG = [
    row_of([], 2, said=NO_KIND),
    row_of(["branches", "main"], 2, said=f"unknown kind branches: {NO_KIND}"),
    row_of(["--protect", "hfs", "aux.c"], 2, said=f"unknown kind aux.c: {NO_KIND}"),
    row_of(["", "main"], 2, said=f'unknown kind "": {NO_KIND}'),
    row_of(["\u00e9", "main"], 2, said=f'unknown kind "\\303\\251": {NO_KIND}'),
    row_of(["Branch", "main"], 2, said=f"unknown kind Branch: {NO_KIND}"),
    row_of(["branch"], 2, said=NO_NAME, given="a\n"),
    row_of(["branch", "--"], 2, said=NO_NAME),
    row_of(["branch", "--stdin", "main"], 2, said=TWO_SOURCES, given="a b\n"),
    row_of(["branch", "main", "-z"], 2, said=TWO_SOURCES, given="a b\0"),
    *(
        row_of([kind, "--repair", "a b"], 2, said=NO_REPAIR)
        for kind in (
            *("branch-ref", "tag", "safe-ref", "path", "component", "submodule"),
        )
    ),
]
# The names of errors, and offsets.
VERBOSE = [
    invalid([kind, "-v", *words, "--", name], f"{name}: {why}")
    for kind, words, name, why in [
        (
            *("branch", [], "feature//login"),
            f"{SLASHES} ('/' at byte 8) (RepeatedSlash at 8)",
        ),
        ("branch", [], "-d", f"{DASH} (StartsWithDash at 0)"),
        (
            *("branch", [], "HEAD"),
            'Reference name is reserved and cannot be used: "HEAD" '
            "('H' at byte 0) (Reserved at 0)",
        ),
        (
            "path",
            [],
            "a/.git",
            f"{DOT_GIT} ('.' at byte 2, in \".git\") (DotGitDir at 2)",
        ),
        ("path", [], "a/", f"{EMPTY_PART} (at the end) (EmptyPart at 2)"),
        (
            *("tag", [], "v1."),
            "Reference name cannot end with a dot ('.' at byte 2) (EndsWithDot at 2)",
        ),
        ("ref", [], "HEAd", f"{LOWERCASE} ('d' at byte 3) (SomeLowercase at 3)"),
        (
            *("ref", [], "x.lock/y"),
            "Reference name cannot end with '.lock' "
            "('.' at byte 1, in \"x.lock\") (LockFileSuffix at 1)",
        ),
        (
            *("safe-ref", [], "a/b"),
            f"{OUTSIDE} ('a' at byte 0, in \"a\") (OutsideRefs at 0)",
        ),
        (
            *("submodule", [], "a/.."),
            "Submodules names must not contains '..' "
            "('.' at byte 2, in \"..\") (ParentComponent at 2)",
        ),
        (
            *("submodule", ["--protect=ntfs"], "a/.. /b"),
            f"{DISGUISED} ('.' at byte 2, in \".. \") (Disguised at 2)",
        ),
        (
            *("component", [], "ab. ."),
            f"{FORBIDDEN} ('.' at byte 2) (WindowsIllegalCharacter at 2)",
        ),
    ]
]
# What is read.
LONG, LONGEST = 65536 * "a", 65535 * "a"
INPUT = [
    row_of(["tag", "--stdin"], 0, given="v1\nv2\n"),
    row_of(["tag", "--stdin"], 0, given="v1\nv2", why="no newline at the end"),
    row_of(["tag", "-z"], 0, given="v1\0v2\0"),
    row_of(["tag", "-z"], 0, given="v1\0v2", why="no NUL at the end"),
    row_of(["tag", "-z", "--stdin"], 0, given="v1\0"),
    row_of(
        ["path", "-z"],
        1,
        f"\"a\\nb\": {FORBIDDEN} ('\\n' at byte 1)\n",
        given="a\nb\0c\0",
    ),
    row_of(
        ["tag", "--stdin"],
        1,
        '"": Reference name cannot be empty\n',
        given="v1\n\nv2\n",
        why="an empty line",
    ),
    row_of(
        ["tag", "--stdin"],
        1,
        f'"v1\\r": {BYTE}"\\r" (\'\\r\' at byte 2)\n',
        given="v1\r\n",
        why="a line of Windows",
    ),
    row_of(["tag", "--stdin"], 2, said=NO_INPUT),
    row_of(["tag", "-z"], 2, said=NO_INPUT),
    row_of(
        ["branch", "--stdin"],
        2,
        f"a b: {SPACE} (' ' at byte 1)\n",
        "malformed input: line 2 has a NUL: give -z if each name ends with one",
        given="a b\nc\0d\ne f\n",
    ),
]
# A name of the input that is too long doesn't stop the others.
TOO_LONG = [
    row_of(["tag", "--stdin"], 0, given=f"{LONGEST}\n", why="the longest name"),
    row_of(
        ["tag", "--stdin"],
        2,
        f"a b: {SPACE} (' ' at byte 1)\nc d: {SPACE} (' ' at byte 1)\n",
        long_at(2),
        given=f"a b\n{LONG}\nc d\n",
        why="a line that is too long",
    ),
    row_of(["tag", "--stdin"], 2, "", long_at(1), given=LONG, why="nothing else"),
    row_of(
        ["tag", "-z"],
        2,
        f"a b: {SPACE} (' ' at byte 1)\n",
        f"{long_at(1)}\ngit-check-names: {long_at(3)}",
        given=f"{LONG}\0a b\0{3 * LONG}",
        why="two names that are too long",
    ),
]
# What --repair prints, and what it says of names without a repair.
REPAIRED = [
    row_of(["branch", "--repair", name], 0, f"{repair}\n")
    for name, repair in [
        ("my branch", "my-branch"),
        ("Fix: it's done..", "Fix-it's-done"),
        ("feature/ABC: [x] done?", "feature/ABC-x]-done"),
        (".hidden", "hidden"),
        ("x.lock.", "x"),
        ("  leading and trailing  ", "leading-and-trailing"),
        ("a--b", "a--b"),
        ("main", "main"),
        ("\u00e9 a", "\u00e9-a"),
    ]
]
REPAIRED += [
    row_of(["branch", "--repair", "main", "a..b", "@"], 0, "main\na.b\n@\n"),
    row_of(["ref", "--repair", "refs//heads/a b"], 0, "refs/heads/a-b\n"),
    row_of(["ref", "--repair", "refs/heads/a"], 0, "refs/heads/a\n"),
    row_of(["branch", "--repair", "--stdin"], 0, "a-b\nc\n", given="a b\nc"),
    row_of(["branch", "--repair", "-z"], 0, "a-b\0c\0", given="a\nb\0c"),
]
UNREPAIRED = [
    row_of([kind, "--repair", "--", name], 1, "", f"can't repair {why}")
    for kind, name, why in [
        ("branch", "", '"": Reference name cannot be empty'),
        ("branch", "~", f"~: {BYTE}\"~\" ('~' at byte 0)"),
        ("branch", "...", f"...: {DOTS} ('.' at byte 1)"),
        ("branch", "/", "/: Reference name cannot end with a slash ('/' at byte 0)"),
        (
            *("branch", "HEAD"),
            'HEAD: Reference name is reserved and cannot be used: "HEAD" '
            "('H' at byte 0)",
        ),
        ("branch", "-", f"-: {DASH}"),
        ("ref", "main", f"main: {LOWERCASE} ('m' at byte 0)"),
        ("ref", "", '"": Reference name cannot be empty'),
    ]
]
UNREPAIRED += [
    row_of(
        ["branch", "--repair", "a b", "--", "~", "c", "-"],
        1,
        "a-b\nc\n",
        f"can't repair ~: {BYTE}\"~\" ('~' at byte 0)\n"
        f"git-check-names: can't repair -: {DASH}",
    ),
    row_of(
        ["branch", "--repair", "-v", "-z"],
        1,
        "a-b\0x\0",
        f"can't repair -: {DASH} (StartsWithDash at 0)",
        given="a\nb\0-\0-x\0",
    ),
    row_of(
        ["branch", "--repair", "--stdin"],
        2,
        "b\n",
        f"can't repair -: {DASH}\ngit-check-names: {long_at(2)}",
        given=f"-\n{LONG}\nb\n",
        why="and a line that is too long",
    ),
]


@rows(KINDS + ORDER)
def test_a_line_is_printed_of_each_invalid_name(program, row):
    assert program.run_row(row) == row.expected


@rows(QUOTED)
def test_a_name_is_quoted_only_if_it_has_to_be(program, row):
    assert program.run_row(row) == row.expected


@rows(WORDS)
def test_options_may_be_anywhere_before_the_two_dashes(program, row):
    assert program.run_row(row) == row.expected


@rows(WRONG)
def test_a_wrong_use_is_said_and_nothing_is_checked(program, row):
    assert program.run_row(row) == row.expected


@rows(VERBOSE)
def test_a_verbose_line_has_the_name_of_the_error_and_its_offset(program, row):
    assert program.run_row(row) == row.expected


@rows(INPUT)
def test_the_input_is_read_name_by_name(program, row):
    assert program.run_row(row) == row.expected


@rows(TOO_LONG)
def test_a_name_that_is_too_long_does_not_stop_the_others(program, row):
    assert program.run_row(row) == row.expected


@rows(REPAIRED)
def test_a_repair_is_printed_alone(program, row):
    assert program.run_row(row) == row.expected


@rows(UNREPAIRED)
def test_standard_error_says_why_a_name_has_no_repair(program, row):
    assert program.run_row(row) == row.expected


def test_an_argument_may_be_longer_than_a_name_in_the_input(git_check_names):
    name = 70000 * "a"
    ran = git_check_names.run(b"", "ref", name)
    assert ran == Ran(1, f"{name}: {LOWERCASE} ('a' at byte 0)\n".encode(), "")


def test_a_name_of_a_gigabyte_is_skipped_while_it_comes(git_check_names):
    with subprocess.Popen(
        ["head", "-c", "1G", "/dev/zero"], stdout=subprocess.PIPE
    ) as zeros:
        ran = git_check_names.run(zeros.stdout.fileno(), "path", "--stdin")
    assert ran == git_check_names.fails(long_at(1), status=2)


# What --protect turns on, by the names that RULES.md refuses under NTFS alone, or under
# both NTFS and Windows. Windows has NTFS.
@pytest.mark.parametrize(
    "words, lines",
    [
        ([], ["aux.c", "git~1"]),
        (["--protect=none"], []),
        (["--protect=ntfs"], ["git~1"]),
        (["--protect=windows"], ["aux.c", "git~1"]),
        (["--protect", "ntfs,windows"], ["aux.c", "git~1"]),
        (["--protect=ntfs", "--protect=hfs"], []),
    ],
    ids=lambda it: " ".join(it) or "nothing",
)
@pytest.mark.parametrize("kind", ["path", "component"])
def test_paths_and_components_are_checked_under_the_switches(
    git_check_names, kind, words, lines
):
    texts = {
        "aux.c": f"{DEVICE} ('a' at byte 0)",
        "git~1": f"{DOT_GIT} ('g' at byte 0)",
    }
    output = "".join(f"{it}: {texts[it]}\n" for it in lines)
    ran = git_check_names.run(b"", kind, *words, "aux.c", "git~1", "main.rs")
    assert ran == Ran(1 if lines else 0, output.encode(), "")


# Windows is off for the accepted names alone, and NTFS stays on.
@pytest.mark.parametrize(
    "words, lines",
    [
        (["--accept=aux.c"], ["b/nul", "a/git~1"]),
        (["--accept", "aux.c/nul"], ["a/git~1"]),
        (["--accept=aux.c", "--accept=nul/git~1"], ["a/git~1"]),
        (["--accept=AUX.C/nu"], ["a/aux.c/x", "b/nul", "a/git~1"]),
        (["--accept="], ["a/aux.c/x", "b/nul", "a/git~1"]),
        (["--accept=aux.c", "--protect=none"], []),
        (["--accept=aux.c", "--protect=windows"], ["b/nul", "a/git~1"]),
    ],
    ids=lambda it: " ".join(it) or "nothing",
)
def test_an_accepted_name_is_checked_without_windows(git_check_names, words, lines):
    texts = {
        "a/aux.c/x": f"{DEVICE} ('a' at byte 2, in \"aux.c\")",
        "b/nul": f"{DEVICE} ('n' at byte 2, in \"nul\")",
        "a/git~1": f"{DOT_GIT} ('g' at byte 2, in \"git~1\")",
    }
    output = "".join(f"{it}: {texts[it]}\n" for it in lines)
    ran = git_check_names.run(b"", "path", *words, *texts)
    assert ran == Ran(1 if lines else 0, output.encode(), "")


@pytest.mark.parametrize("name", ["a//b", "/a", "a/", "aux.c/", "a/.git", "a/aux.c/b."])
def test_a_path_with_an_accepted_name_has_the_errors_of_others(git_check_names, name):
    without = git_check_names.run(b"", "path", "-v", "--protect=windows", name)
    ran = git_check_names.run(
        *(b"", "path", "-v", "--protect=windows", "--accept=aux.c", name)
    )
    if "aux.c/b" in name:
        why = f"{FORBIDDEN} ('.' at byte 9, in \"b.\") (WindowsIllegalCharacter at 9)"
        assert ran == Ran(1, f"{name}: {why}\n".encode(), "")
    elif name == "aux.c/":
        why = f"{EMPTY_PART} (at the end) (EmptyPart at 6)"
        assert ran == Ran(1, f"{name}: {why}\n".encode(), "")
    else:
        assert ran == without and ran.status == 1


def test_names_are_accepted_at_most_16_times(git_check_names):
    ran = git_check_names.run(b"", "path", *(17 * ["--accept=aux.c"]), "a")
    why = 'invalid --accept "aux.c": give --accept at most 16 times'
    assert ran == git_check_names.fails(why, status=2)


# Git.
def git(*words, **settings):
    return subprocess.run(
        ["git", *words], stdout=subprocess.PIPE, stderr=subprocess.STDOUT, **settings
    )


def test_git_finds_it_as_a_command(git_check_names, tmp_path):
    (tmp_path / "git-check-names").symlink_to(git_check_names.build)
    path = f"{tmp_path}:{os.environ['PATH']}"
    ran = git(
        *("check-names", "branch", "main", "feature//login"),
        env={**os.environ, "PATH": path},
    )
    assert ran.returncode == 1
    assert ran.stdout.decode() == f"feature//login: {SLASHES} ('/' at byte 8)\n"


def test_a_name_is_quoted_as_git_quotes_it(git_check_names, tmp_path):
    """Each byte that can be in a file's name is in one, and none is a reference."""
    names = [b"a%cb" % byte for byte in range(1, 256) if byte != ord("/")]
    subprocess.run(["git", "init", "-q", tmp_path], check=True)
    entries = b"".join(b"100644 %s\t%s\0" % (ID.encode(), it) for it in names)
    index = ["git", "-C", tmp_path, "update-index", "-z", "--index-info"]
    subprocess.run(index, input=entries, check=True)
    by_git = git("-C", tmp_path, "-c", "core.quotePath=true", "ls-files")
    ran = git_check_names.run(b"\0".join(names), "ref", "-z")
    shown = [line.split(b": ")[0] for line in ran.output.splitlines()]
    assert shown == by_git.stdout.splitlines()
    assert (len(shown), ran.status) == (len(names), 1)


BRANCHES = [
    *(
        "main",
        "feature/login",
        "a",
        "HEAD",
        "@",
        "a@b",
        "-",
        "-d",
        "a-b",
        "refs/heads/a",
    ),
    *("a..b", "a.", ".a", "a/.b", "a.lock", "a.lock/b", "a//b", "/a", "a/", ""),
    *(
        "a b",
        "a~b",
        "a^b",
        "a:b",
        "a?b",
        "a*b",
        "a[b",
        "a\\b",
        "a\tb",
        "a\x7fb",
        "a\nb",
    ),
    *("@{", "a@{b", "\u00e9", "HEAD/a", "a/HEAD", "FETCH_HEAD", ".lock", "a..", "a.b"),
    *(ID, "v1.2.3", "..", ".", "a/./b", '"', "'", "$a", "`", "a;b", "a|b", "a=b"),
]


@pytest.mark.parametrize("name", BRANCHES, ids=ascii)
def test_a_branch_is_valid_as_git_check_ref_format_says(git_check_names, name):
    ran = git_check_names.run(b"", "branch", "--", name)
    by_git = git("check-ref-format", "--branch", name)
    assert (ran.status == 0) == (by_git.returncode == 0)


@pytest.mark.parametrize("name", BRANCHES, ids=ascii)
def test_a_repaired_branch_is_one_for_git(git_check_names, name):
    ran = git_check_names.run(b"", "branch", "--repair", "--", name)
    if ran.status:
        assert (ran.status, ran.output) == (1, b"")
        assert ran.said.startswith("git-check-names: can't repair ")
        return
    repaired = ran.output.decode().removesuffix("\n")
    assert git("check-ref-format", "--branch", repaired).returncode == 0
