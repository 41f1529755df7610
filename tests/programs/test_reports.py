"""What is reported of an input: a large one, one at a limit, each type of object."""

from typing import NamedTuple

from tests.programs.program import (
    BAD_MODULES,
    BAD_TREE,
    DOT_GIT,
    FILE,
    ID,
    MODULES,
    PARTS,
    ZERO,
    Ran,
    Row,
    rows,
)

DOTS = "Relative components '.' and '..' are disallowed"
HEADER = "the header line is not 'OID TYPE SIZE' or 'OID missing'"


def test_the_golden_input_gives_the_golden_report(program):
    ran = program.run(program.given, *program.words)
    assert ran == program.reports(program.report)


def test_a_large_input_gives_a_large_report(program):
    ran = program.run(program.large, *program.words)
    assert ran == program.reports(program.large_report)


# What stops a run.
HINT = (
    "; if it says that a name is missing, Git has no such object; "
    "a file is passed as in: echo HEAD:.gitmodules | git cat-file --batch | "
    "check_push submodules"
)
STOPS = [
    Row(
        "check_push refs",
        "a line without a reference",
        ["--ids"],
        f"{ZERO} {ID} HEAD\n{ZERO} {ID} \n",
        2,
        f"{ID}\n",
        "malformed input: line 2: the line is not 'OLD NEW REF'",
    ),
    Row(
        "check_push trees",
        "a header without a size",
        [],
        f"{ID} tree\n",
        2,
        "",
        f"malformed input: object 1: {HEADER}",
    ),
    Row(
        "check_push submodules",
        "a name in place of an id",
        [],
        "HEAD:.gitmodules missing\n",
        2,
        "",
        f"malformed input: object 1: {HEADER}{HINT}",
    ),
    Row(
        "check_push submodules",
        "a header without a size after an id that is missing",
        [],
        f"{ID} missing\n{ID} tree\n",
        2,
        "",
        f"malformed input: object 2: {HEADER}",
    ),
    Row(
        "check_push submodules",
        "a blob that is cut off after a name that is refused",
        [],
        f'{ID} blob 30\n[submodule ".."]\n',
        2,
        "",
        "malformed input: object 1: the input ends within it",
    ),
]


@rows(STOPS)
def test_a_run_stops_and_says_why(program, row):
    assert program.run_row(row) == row.expected


# A deletion has an id of zeros alone, of either length.
RESERVED = "Reference name is reserved and cannot be used:"
RESERVED_LINE = f'ref "refs/heads/HEAD" {RESERVED} "refs/heads/HEAD"\n'
DELETIONS = [
    Row(
        "check_push refs",
        f"{new[:2]}..{new[-2:]} of {len(new)} digits",
        [],
        f"{len(new) * 'a'} {new} refs/heads/HEAD\n",
        0 if is_deletion else 1,
        "" if is_deletion else RESERVED_LINE,
    )
    for new, is_deletion in [
        (ZERO, True),
        (64 * "0", True),
        (f"{39 * '0'}1", False),
        (f"1{39 * '0'}", False),
        (f"{63 * '0'}a", False),
    ]
]


@rows(DELETIONS)
def test_a_reference_is_checked_unless_it_is_deleted(program, row):
    assert program.run_row(row) == row.expected


# Names in namespaces, and why each is refused without --replace, and with it.
NO_REPLACEMENT = "replacement references are not allowed"
RESERVED_BRANCH = f'{RESERVED} "refs/heads/HEAD"'
REPEATED_SLASHES = "Reference name cannot contain repeated slashes"
IN_NAMESPACES = [
    ("refs/namespaces/a/refs/heads/b", "", ""),
    ("refs/namespaces/a/refs/heads/HEAD", RESERVED_BRANCH, RESERVED_BRANCH),
    (
        "refs/namespaces/a/refs/namespaces/b/refs/heads/HEAD",
        RESERVED_BRANCH,
        RESERVED_BRANCH,
    ),
    ("refs/namespaces/a/refs/replace/b", NO_REPLACEMENT, ""),
    (
        "refs/namespaces/a/refs/namespaces/b/refs/namespaces/c/refs/replace/d",
        NO_REPLACEMENT,
        "",
    ),
    # the reason of the outermost name that is refused
    ("refs/namespaces//refs/replace/a", REPEATED_SLASHES, REPEATED_SLASHES),
    ("refs/replace/refs/namespaces/a/refs/heads/HEAD", NO_REPLACEMENT, ""),
    # no name inside, since that begins with refs/
    ("refs/namespaces/a/HEAD", "", ""),
    ("refs/namespaces/a/refs", "", ""),
    ("refs/namespaces/a/b/refs/heads/HEAD", "", ""),
    ("refs/namespaces/refs/heads/HEAD", "", ""),
    ("refs/heads/refs/namespaces/a/refs/heads/HEAD", "", ""),
    ("refs/namespaces/a/refs/replace", "", ""),
]
# The names of replacements, if each is allowed.
REPLACEMENTS = {
    "refs/namespaces/a/refs/replace/b",
    "refs/namespaces/a/refs/namespaces/b/refs/namespaces/c/refs/replace/d",
    "refs/replace/refs/namespaces/a/refs/heads/HEAD",
}


def in_namespaces():
    for name, why, why_with_replace in IN_NAMESPACES:
        id_line = f'{ID} "{name}"\n' if name in REPLACEMENTS else f"{ID}\n"
        for words, reason, line in [
            ([], why, ""),
            (["--ids"], why, f"{ID}\n"),
            (["--ids", "--replace"], why_with_replace, id_line),
        ]:
            yield Row(
                "check_push refs",
                f"{' '.join(words) or 'no option'}, {name}",
                words,
                f"{ZERO} {ID} {name}\n",
                1 if reason else 0,
                f'ref "{name}" {reason}\n' if reason else line,
            )


@rows(list(in_namespaces()))
def test_a_name_in_a_namespace_is_checked_there_too(program, row):
    assert program.run_row(row) == row.expected


# A tree's header and a name in the tree, and the path that is printed.
PATHS = [
    ("", ".git", ".git"),
    (" ", ".git", ".git"),
    (" src", ".git", "src/.git"),
    (" src/lib", ".GIT", "src/lib/.GIT"),
    (" a b", ".git", "a b/.git"),
    (' "\t\\', ".git", '\\"\\t\\\\/.git'),
    (f" {128 * 'b'}", "..", f"{128 * 'b'}/.."),
    (f" {129 * 'b'}", "..", f"{128 * 'b'}.../.."),
    (f" {127 * 'b'}\u00e9", "..", f"{127 * 'b'}\\xc3.../.."),
]
PATH_ROWS = [
    Row(
        "check_push trees",
        f"{name!r} after {rest[:9]!r} of {len(rest.encode())} bytes",
        [],
        f"{ID} tree {len(name) + 27}{rest}\n40000 {name}\0{20 * '.'}\n",
        1,
        f'{ID} 40000 "{path}" {DOT_GIT if "g" in name.lower() else DOTS}\n',
    )
    for rest, name, path in PATHS
]


@rows(PATH_ROWS)
def test_a_line_has_the_path_of_the_entry(program, row):
    assert program.run_row(row) == row.expected


# Names that are refused, and whether only the rules of Windows do so, by default and
# without NTFS.
DEVICE = "Windows device-names may have side-effects and are not allowed"
SEPARATOR = "Path separators like / or \\ are not allowed"
MARKED = [
    ("aux.c", DEVICE, True),
    ("a\\b", SEPARATOR, True),
    ("C:x", "Windows path prefixes are not allowed", True),
    (".git", DOT_GIT, False),
    ("git~1", DOT_GIT, False),
    (".git\\x", SEPARATOR, False),
    ("..", DOTS, False),
    ("a/b", SEPARATOR, False),
]
MARKED_ROWS = [
    Row(
        "check_push trees",
        f"{name}, {' '.join(words) or 'no option'}",
        words,
        f"{ID} tree {len(name) + 28}\n100644 {name}\0{20 * '.'}\n",
        status,
        output,
    )
    for name, why, is_marked in MARKED
    for quoted in [name.replace("\\", "\\\\")]
    for line in [f'{"windows " * is_marked}{ID} 100644 "{quoted}" {why}\n']
    for words, status, output in [
        ([], 1, line),
        (["--protect=windows"], 1, line),
        *(
            [([f"--accept={name}"], 0, ""), (["--protect=hfs,ntfs"], 0, "")]
            if is_marked
            else []
        ),
    ]
]


@rows(MARKED_ROWS)
def test_what_only_windows_forbids_is_marked_and_can_be_accepted(program, row):
    assert program.run_row(row) == row.expected


# No file is listed but one.
LISTED_FILE = f'modules {20 * "2e"} {ID} 100644 ".gitmodules"\n'
MODES = [
    Row(
        "check_push trees",
        f"mode {mode}",
        ["--modules"],
        f"{ID} tree {len(mode) + 33}\n{mode} .gitmodules\0{20 * '.'}\n",
        0,
        LISTED_FILE if mode == "100644" else "",
    )
    for mode in ("40000", "160000", "20000", "100644")
]


@rows(MODES)
def test_only_a_file_is_listed_as_gitmodules(program, row):
    assert program.run_row(row) == row.expected


def limits():
    """What is limited to so many bytes: at its limit, and a byte over it."""
    for over, where in (0, "at the limit"), (1, "a byte over the limit"):
        size, path, file = 65536 + over, (128 + over) * "a", (16777216 + over) * "a"
        long = "a line or an entry is longer than 65536 bytes"
        in_line = f"malformed input: line 1: {long}" * over
        in_object = f"malformed input: object 1: {long}" * over
        line = f"{ZERO} {ID} refs/heads/".ljust(size - 1, "a") + "\n"
        header = f"{ID} blob 0 ".ljust(size - 1, "a") + "\n\n"
        entry = f"{'100644 '.ljust(size - 1, 'a')}\0{20 * '.'}"
        cut_path = f"{128 * 'a'}{over * '...'}/.git"
        yield Row("check_push refs", f"a line {where}", [], line, 2 * over, "", in_line)
        yield Row(
            "git_check_names",
            f"a name {where}",
            ["path", "--stdin"],
            f"a//b\n{(size - 1) * 'a'}\n",
            1 + over,
            PARTS["git_check_names"].line,
            "malformed input: name 2 is longer than 65535 bytes, and isn't checked"
            * over,
        )
        yield Row(
            "check_push trees", f"a header {where}", [], header, 2 * over, "", in_object
        )
        yield Row(
            "check_push trees",
            f"an entry {where}",
            [],
            f"{ID} tree {size + 20}\n{entry}\n",
            2 * over,
            "",
            in_object,
        )
        yield Row(
            "check_push trees",
            f"a path {where}",
            [],
            f"{ID} tree 31 {path}\n40000 .git\0{20 * '.'}\n",
            1,
            f'{ID} 40000 "{cut_path}" {DOT_GIT}\n',
        )
        yield Row(
            "check_push submodules",
            f"a header {where}",
            [],
            header,
            2 * over,
            "",
            in_object,
        )
        yield Row(
            "check_push submodules",
            f"a file {where}",
            [],
            f"{ID} blob {len(file)}\n{file}\n",
            over,
            f"{ID} the file is larger than 16777216 bytes\n" * over,
        )


LIMITS = list(limits())


@rows(LIMITS)
def test_what_is_limited_is_accepted_at_its_limit_and_not_a_byte_over_it(program, row):
    assert program.run_row(row) == row.expected


# The word after the id is one of four types, and decides if the object is read.
READ = {"check_push trees": "tree", "check_push submodules": "blob"}
TYPES = [
    Row(
        program,
        f"type {word}",
        [],
        PARTS[program].bad.replace(f" {read} ", f" {word} ", 1),
        1 if word == read else 0,
        PARTS[program].line if word == read else "",
    )
    for program, read in READ.items()
    for word in ("blob", "tree", "commit", "tag")
]
NO_TYPES = [
    Row(
        program,
        f"type '{word}'",
        [],
        f"{FILE}{ID} {word} 0\n\n",
        2,
        "",
        f"malformed input: object 2: {HEADER}",
    )
    for program in READ
    for word in ("", "ta", "tags", "Tag", "TREE", "trees", "blobs", "commits")
]


@rows(TYPES)
def test_the_type_decides_if_an_object_is_read(program, row):
    assert program.run_row(row) == row.expected


@rows(NO_TYPES)
def test_another_word_is_no_type(program, row):
    assert program.run_row(row) == row.expected


# Large inputs.
def test_100001_lines_or_objects_are_read_to_their_end(program):
    part = PARTS[program.name]
    # (check_names has a line of each name, and its status is no verdict)
    status, before = (0, "ok\n") if program.name == "check_names" else (1, "")
    given = (100000 * part.good + part.bad).encode()
    ran = program.run(given, *program.needed)
    assert ran == Ran(status, (100000 * before + part.line).encode(), "")


MIB_16 = 16 * 1024 * 1024
OTHER_OBJECT = f"{ID} commit 17000000\n{17000000 * 'a'}\n"


def test_a_tree_of_more_than_16_mib_is_read_to_its_end(check_push_trees):
    entry, last = f"100644 {65528 * 'a'}\0{20 * '.'}", f"40000 .git\0{20 * '.'}"
    entries = 300 * entry + last
    assert len(entries) > MIB_16
    tree = f"{ID} tree {len(entries)}\n{entries}\n"
    ran = check_push_trees.run((OTHER_OBJECT + tree).encode())
    assert ran == Ran(1, BAD_TREE.encode(), "")


def test_a_file_of_16_mib_is_read_to_its_end(check_push_submodules):
    blob = f"{ID} blob {MIB_16}\n{MODULES.rjust(MIB_16, 'a')}\n"
    line = BAD_MODULES.replace(f"{ID} 0", f"{ID} {MIB_16 - len(MODULES)}")
    ran = check_push_submodules.run((OTHER_OBJECT + blob).encode())
    assert ran == Ran(1, line.encode(), "")


class Longest(NamedTuple):
    """The line of a kind that is longest for its input: how the input begins and ends,
    what is repeated in it, and how often. A report of such lines has at most `ratio`
    times as many bytes as the input, rounded up."""

    program: str
    why: str
    words: list
    begin: str
    part: str
    end: str
    times: int
    ratio: int

    @property
    def given(self):
        return f"{self.begin}{self.times * self.part}{self.end}".encode()

    def __repr__(self):
        return f"<{self.program}: {self.why}>"


LONG_PATH, CUT, LONG_ID = 128 * "\1", "[submodule", 2 * ID[:32]
LONGEST = [
    Longest(
        "check_push refs",
        "references",
        [],
        "",
        f"{ZERO} {ID} refs/heads/".ljust(65535, "\1") + "\n",
        "",
        100,
        4,
    ),
    Longest("check_push refs", "ids", ["--ids"], "", f"{ZERO} {ID} A\n", "", 1000, 1),
    Longest(
        "check_push trees",
        "entries",
        [],
        f"{ID} tree 24000 {LONG_PATH}\n",
        f"0 \1\0{20 * '.'}",
        "\n",
        1000,
        30,
    ),
    Longest(
        "check_push trees",
        "files",
        ["--modules"],
        f"{ID} tree 36000 {LONG_PATH}\n",
        f"100000 gitmod~1\0{20 * '.'}",
        "\n",
        1000,
        18,
    ),
    Longest(
        "check_push submodules",
        "sections that can't be read",
        [],
        f"{LONG_ID} blob 10000\n",
        CUT,
        "\n",
        1000,
        10,
    ),
    Longest(
        "check_push submodules",
        "names",
        [],
        f"{LONG_ID} blob 14000\n",
        f'{CUT} ""]',
        "\n",
        1000,
        8,
    ),
    Longest(
        "check_push submodules",
        "large files",
        [],
        f"{LONG_ID} blob 16777217\n",
        16777217 * "a",
        "\n",
        1,
        1,
    ),
]


@rows(LONGEST)
def test_a_report_is_no_longer_for_its_input_than_the_docs_say(program, row):
    """docs/ASSURANCE.md, "Only tested"."""
    given = row.given
    ran = program.run(given, *row.words)
    assert ran.status < 2
    assert -(-len(ran.output) // len(given)) == row.ratio
