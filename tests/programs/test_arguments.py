"""What arguments turn on, what is printed of them, and which are wrong."""

import functools
import itertools
import re
import subprocess

import pytest

from tests.programs.program import DOT_GIT, ID, ROOT, TREE, ZERO, Ran, Row, read, rows

# The kinds of line of check_names, by their definition.
KINDS = re.findall(
    r'\(\s*codes "(\w+)",\s+λ', read("crates/check_names/specs/Answers.antt").decode()
)
# The options, or kinds of line, that the help of a program lists.
OPTIONS = {
    "check_names": KINDS,
    "check_push trees": ["--protect LIST", "--accept NAMES", "--modules", "--end"],
    "check_push submodules": ["--end"],
    "check_push refs": ["--ids", "--replace"],
    "git_check_names": [
        *("branch", "branch-ref", "tag", "ref", "safe-ref", "path", "component"),
        *("submodule", "--stdin", "-z", "--protect LIST", "--accept NAMES"),
        *("--repair", "-v, --verbose", "--"),
    ],
}


# Help and version.
@functools.cache
def help_of(name):
    """The help of the source, which a clone prints."""
    command = [ROOT / "scripts/program", *name.split(), "--help"]
    return subprocess.run(command, stdout=subprocess.PIPE, check=True).stdout


@pytest.fixture
def help_text(program):
    return help_of(program.name)


def test_the_help_lists_every_option_and_fits_a_terminal(program, help_text):
    listed = re.findall(r"(?m)^    (\S.*?)  ", help_text.decode())
    assert sorted(listed) == sorted([*OPTIONS[program.name], "-h, --help", "--version"])
    assert max(map(len, help_text.split(b"\n"))) <= 80
    assert re.search(rb"[^\n]\n\Z", help_text)


@pytest.mark.parametrize("kind", KINDS)
def test_the_golden_input_of_check_names_has_every_kind_of_line(kind):
    assert re.search(f"(?m)^{kind} ".encode(), read("crates/check_names/stdin"))


@pytest.mark.parametrize("word", ["--help", "-h", "--version"])
def test_the_first_of_help_and_version_is_printed_whatever_follows(
    program, help_text, word
):
    version = f"{program.command} ".encode() + read("VERSION")
    printed = program.prints(version if word == "--version" else help_text)
    assert program.run(program.given, *program.words, word, "-x") == printed
    assert program.run(program.given, word, "--version") == printed
    assert program.run(program.given, word, "--help") == printed


# What is no argument.
def test_a_wrong_argument_is_said_even_before_help(program):
    ran = program.run(program.given, *program.words, "-x", "--help")
    assert ran == program.is_wrong_argument("-x")


def test_an_empty_word_is_a_wrong_argument_or_an_operand(program, help_text):
    ran = program.run(program.given, *program.words, "", "--help")
    wrong, printed = program.is_wrong_argument(""), program.prints(help_text)
    assert ran == (printed if program.needed else wrong)


def test_an_argument_that_is_not_utf_8_is_refused_and_named(program):
    """check_names names none, since its arguments are `--help` and `--version` alone."""
    why = {
        "check_names": "the arguments can't be read as UTF-8",
        "check_push": "argument {} isn't UTF-8",
        "git_check_names": "argument {} isn't UTF-8: "
        "use -z to read such names from the input",
    }[program.name.split()[0]]
    words = [*program.words, b"\xff", b"\xfe"]
    number = 1 + len(program.name.split()[1:]) + len(program.words)
    said = why.format(number)
    expected = program.fails(said, status=2, command=program.executable)
    assert program.run(program.given, *words) == expected


def test_a_long_argument_that_is_not_utf_8_is_refused_without_its_number(
    git_check_names,
):
    ran = git_check_names.run(b"", "path", b"\xff" * 4097)
    assert ran == git_check_names.fails("an argument isn't UTF-8", status=2)


@pytest.mark.parametrize(
    "word, quoted", [("\u00e9", "\u00e9"), ("\u200c\u00df", "\\u{200c}\u00df")]
)
def test_a_word_beyond_ascii_is_quoted_as_the_debug_format_of_rust(
    program, word, quoted
):
    """No clause says so."""
    ran = program.run(program.given, f"--{word}")
    assert ran == program.is_wrong_argument(f"--{quoted}")


# Words that are no option of the program.
UNKNOWN_WORDS = {
    "check_names": ["--end", "tag"],
    "check_push trees": [
        "--modules=",
        "--end=x",
        "--ids",
        "--protected=hfs",
        "protect=hfs",
    ],
    "check_push submodules": ["--end=", "--modules", "--protect=hfs", "end"],
    "check_push refs": ["--ids=x", "--replace=", "--end", "ids"],
    "git_check_names": ["--stdin=", "--repair=x", "--null", "-vz", "--modules", "-z="],
}


def test_a_word_that_is_no_option_is_refused(program):
    for word in UNKNOWN_WORDS[program.name]:
        assert program.run(b"", word) == program.is_wrong_argument(word)


@pytest.mark.parametrize(
    "words",
    [
        ["--protect"],
        ["--accept"],
        ["--end", "--protect"],
        ["--protect=none", "--accept"],
    ],
    ids=" ".join,
)
def test_an_option_without_its_value_is_said(check_push_trees, words):
    why = f"{words[-1]} needs a value, see check_push trees --help"
    assert check_push_trees.run(TREE.encode(), *words) == check_push_trees.fails(
        why, status=2
    )


# What RULES.md says of a name that one switch refuses, or two together, and the entries
# of a tree with these names.
PROTECTED = [
    ("a\\b", '"a\\\\b"', {"windows"}, "Path separators like / or \\ are not allowed"),
    (".g\u200cit", '".g\\xe2\\x80\\x8cit"', {"hfs"}, DOT_GIT),
    ("git~1", '"git~1"', {"ntfs"}, DOT_GIT),
    (
        "aux.c",
        '"aux.c"',
        {"windows", "ntfs"},
        "Windows device-names may have side-effects and are not allowed",
    ),
]
PROTECTED_ENTRIES = "".join(
    f"100644 {name}\0{20 * '.'}" for name, *_ in [(".gitmodules",), *PROTECTED]
)
PROTECTED_TREE = f"{ID} tree {len(PROTECTED_ENTRIES.encode())}\n{PROTECTED_ENTRIES}\n"
LISTED_FILE = f'modules {20 * "2e"} {ID} 100644 ".gitmodules"\n'
ALL_SWITCHES = {"windows", "hfs", "ntfs"}


def refused_lines(on, accepted=""):
    """The lines of PROTECTED with these switches and these accepted names."""
    lines = ""
    for name, quoted, switches, why in PROTECTED:
        here = on - {"windows"} if name in accepted.split("/") else on
        mark = "windows " * ("windows" in switches)
        lines += f"{mark}{ID} 100644 {quoted} {why}\n" if switches <= here else ""
    return lines


# What a list of `--protect` turns on: its words in each order, also with one of them
# twice, or nothing. Windows has NTFS.
SWITCH_LISTS = [
    (",".join(words), set(words) | ({"ntfs"} if "windows" in words else set()))
    for some in (1, 2, 3)
    for words in itertools.permutations(sorted(ALL_SWITCHES), some)
]
SWITCH_LISTS += [(f"{words},hfs", on | {"hfs"}) for words, on in SWITCH_LISTS]
SWITCH_LISTS.append(("none", set()))
# Which switches are on, and which names are accepted: the last list counts, and all
# names.
SEVERAL = [
    ([], ALL_SWITCHES, ""),
    (["--protect=hfs", "--protect=ntfs"], {"ntfs"}, ""),
    (["--protect=ntfs", "--protect=hfs"], {"hfs"}, ""),
    (["--protect=none", "--protect=windows"], {"windows", "ntfs"}, ""),
    (["--protect=windows", "--protect=none"], set(), ""),
    (["--accept=aux.c", "--accept=con"], ALL_SWITCHES, "aux.c"),
    (["--accept=con", "--accept=aux.c"], ALL_SWITCHES, "aux.c"),
    (["--accept=con", "--accept", "a\\b/nul"], ALL_SWITCHES, "a\\b"),
    (["--accept=aux.c", "--accept="], ALL_SWITCHES, "aux.c"),
    ([*15 * ["--accept=con"], "--accept=aux.c"], ALL_SWITCHES, "aux.c"),
    (
        ["--accept", "a\\b/aux.c", "--protect", "windows"],
        {"windows", "ntfs"},
        "a\\b/aux.c",
    ),
]


def check_protected(program, words, on, accepted=""):
    lines = refused_lines(on, accepted).encode()
    ran = program.run(PROTECTED_TREE.encode(), *words)
    assert ran == Ran(int(lines != b""), lines, "")


# (a set has no order, so an id has none of it)
@pytest.mark.parametrize("words, on", SWITCH_LISTS, ids=[it[0] for it in SWITCH_LISTS])
def test_a_list_protects_by_its_words(check_push_trees, words, on):
    check_protected(check_push_trees, [f"--protect={words}"], on)
    check_protected(check_push_trees, ["--protect", words], on)


@pytest.mark.parametrize(
    "words, on, accepted", SEVERAL, ids=[" ".join(it[0]) for it in SEVERAL]
)
def test_the_last_list_counts_and_accepted_names_add_up(
    check_push_trees, words, on, accepted
):
    check_protected(check_push_trees, words, on, accepted)


def test_names_are_accepted_at_most_16_times(check_push_trees):
    words = 17 * ["--accept=aux.c"]
    why = 'invalid --accept "aux.c": give --accept at most 16 times'
    ran = check_push_trees.run(PROTECTED_TREE.encode(), *words)
    assert ran == check_push_trees.fails(why, status=2)


def test_names_of_more_than_128_kib_are_accepted(check_push_trees):
    """Linux passes no more in one argument."""
    names = [f"con.{number}" for number in range(40000)]
    lists = ["/".join(names[at::4]) for at in range(4)]
    assert sum(map(len, lists)) > 2 * 128 * 1024
    given = "".join(
        f"{ID} tree {len(name) + 28}\n100644 {name}\0{20 * '.'}\n"
        for name in [names[0], names[-1]]
    )
    ran = check_push_trees.run(given.encode(), *(f"--accept={it}" for it in lists))
    assert ran == Ran(0, b"", "")


# What is no list.
NO_LISTS = ["", " ", ",", "hfs,", ",hfs", "hfs,,ntfs", "hfs, ntfs", "hfs;ntfs", "HFS"]
NO_LISTS += ["hsf", "hfs,none", "none,hfs", "none,none", "nones"]


@pytest.mark.parametrize("value", NO_LISTS)
def test_a_list_with_another_word_is_refused(check_push_trees, value):
    valid = "windows, hfs or ntfs, separated by commas, or none"
    why = f'invalid --protect "{value}": give {valid}'
    ran = check_push_trees.run(b"", f"--protect={value}")
    assert ran == check_push_trees.fails(why, status=2)


# What options print of an input, in whichever order, and also if each is given twice.
REPLACED = f"refs/replace/{ID}"
UPDATES = f"{ZERO} {ID} HEAD\n{ZERO} {ID} {REPLACED}\n"
ALL_IDS = f'{ID}\n{ID} "{REPLACED}"\n'
NOT_ALLOWED = f'ref "{REPLACED}" replacement references are not allowed\n'
BLOB = f"{ID} blob 1\na\n"
BLOB_AND_END = f"{BLOB}..end missing\n"
NO_END = "malformed input: object 2: the input ends without the line '..end missing'"


def choice_of(program, words, given, status, output="", said="", why=""):
    why = f"{' '.join(words) or 'no option'}{why}"
    return Row(program, why, words, given, status, output, said)


ANY_ORDER = [
    choice_of("check_push refs", [], UPDATES, 1, NOT_ALLOWED),
    choice_of("check_push refs", ["--ids"], UPDATES, 1, f"{ID}\n{NOT_ALLOWED}"),
    choice_of("check_push refs", ["--replace"], UPDATES, 0),
    choice_of("check_push refs", ["--ids", "--replace"], UPDATES, 0, ALL_IDS),
    choice_of("check_push submodules", [], BLOB, 0),
    choice_of("check_push submodules", ["--end"], BLOB, 2, "", NO_END, " without one"),
    choice_of("check_push submodules", ["--end"], BLOB_AND_END, 0),
]
# Each choice of four options of check_push trees.
for some in itertools.product([True, False], repeat=4):
    modules, end, protect, accept = some
    options = ["--modules", "--end", "--protect=hfs", "--accept=aux.c"]
    lines = refused_lines({"hfs"} if protect else ALL_SWITCHES, "aux.c" * accept)
    ANY_ORDER.append(
        choice_of(
            "check_push trees",
            list(itertools.compress(options, some)),
            PROTECTED_TREE,
            2 if end else 1,
            LISTED_FILE * modules + lines,
            NO_END * end,
        )
    )


@rows(ANY_ORDER)
def test_options_do_the_same_in_any_order_and_also_twice(program, row):
    for words in itertools.permutations(row.words):
        assert program.run(row.given.encode(), *words) == row.expected
        assert program.run(row.given.encode(), *words, *words) == row.expected


# The first argument of check_push.
def run_check_push(program, *words):
    """Runs it without a subcommand."""
    ran = subprocess.run(
        [program.build, *words], input=program.given, capture_output=True
    )
    return Ran(ran.returncode, ran.stdout, ran.stderr.decode())


@pytest.mark.parametrize("word", ["--help", "-h"])
def test_help_without_a_subcommand_names_each_of_them(check_push_trees, word):
    ran = run_check_push(check_push_trees, word, "refs")
    assert ran == check_push_trees.prints(help_of("check_push"))
    listed = re.findall(r"(?m)^    (\S.*?)  ", ran.output.decode())
    assert listed == ["refs", "trees", "submodules", "-h, --help", "--version"]
    assert max(map(len, ran.output.split(b"\n"))) <= 80


def test_the_version_is_printed_without_a_subcommand(check_push_trees):
    printed = check_push_trees.prints(b"check_push " + read("VERSION"))
    assert run_check_push(check_push_trees, "--version", "-x") == printed


def test_check_push_without_an_argument_says_what_to_give(check_push_trees):
    said = "check_push: give refs, trees or submodules, see check_push --help\n"
    assert run_check_push(check_push_trees) == Ran(2, b"", said)


@pytest.mark.parametrize("word", ["ref", "Refs", "refs ", "", "-x", "--end"])
def test_another_first_argument_is_wrong(check_push_trees, word):
    said = f'check_push: unknown argument "{word}", see check_push --help\n'
    assert run_check_push(check_push_trees, word, "refs") == Ran(2, b"", said)
