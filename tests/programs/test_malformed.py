"""A malformed input is said, with its number and why, as soon as it is malformed."""

import os
import re

import pytest

from tests.programs.program import (
    BAD_MODULES,
    BAD_REF,
    BAD_TREE,
    FILE,
    ID,
    MODULES,
    TREE,
    ZERO,
    Row,
    read,
    rows,
)

# Why an input is malformed, by the definition.
REASONS = re.findall(
    '= codes "(.*)"', read("crates/programs/specs/Malformations.antt").decode()
)
# What is said of malformed inputs, and for each some of these: arguments, an input, and
# what is printed before. (A proof misses a text, a number or an order that is changed
# together with its definition.)
MALFORMED = {
    # a header line
    "check_push trees: malformed input: object 1: "
    "the header line is not 'OID TYPE SIZE' or 'OID missing'": [
        ([], "HEAD tree 0\n\n", ""),
        ([], f"{ID}\n", ""),
        ([], f"{ID} tree\n", ""),
        ([], f"{ID} blob 18446744073709551616\n", ""),
        ([], "..end missing\n", ""),
        (["--end"], f"..end missing\n{TREE}", ""),
    ],
    "check_push trees: malformed input: object 3: "
    "the header line is not 'OID TYPE SIZE' or 'OID missing'": [
        ([], f"{TREE}{ID} missing\n{ID} tree -1\n", BAD_TREE),
    ],
    "check_push submodules: malformed input: object 1: "
    "the header line is not 'OID TYPE SIZE' or 'OID missing'; "
    "if it says that a name is missing, Git has no such object; "
    "a file is passed as in: echo HEAD:.gitmodules | git cat-file --batch | "
    "check_push submodules": [
        ([], "HEAD missing\n", ""),
        (["--end"], "HEAD missing\n..end missing\n", ""),
    ],
    "check_push submodules: malformed input: object 2: "
    "the header line is not 'OID TYPE SIZE' or 'OID missing'": [
        (["--end"], f"{FILE}HEAD missing\n..end missing\n", ""),
    ],
    # the bytes of an object, and the newline after them
    "check_push trees: malformed input: object 1: the input ends within it": [
        ([], f"{ID} blob 3", ""),
        ([], f"{ID} blob 3\nab", ""),
        ([], f"{ID} blob 3\nabc", ""),
        ([], f"{ID} blob 18446744073709551615\n", ""),
        ([], TREE[:-2], ""),
        ([], TREE[:-1], BAD_TREE),
    ],
    "check_push submodules: malformed input: object 1: the input ends within it": [
        ([], f"{ID} blob 17\n{MODULES}", ""),
        ([], f"{ID} blob 16\n{MODULES}", BAD_MODULES),
    ],
    "check_push trees: malformed input: object 1: no newline follows the object's bytes": [
        ([], f"{ID} blob 3\nabcd", ""),
        ([], f"{TREE[:-1]}x", BAD_TREE),
    ],
    "check_push submodules: malformed input: object 1: "
    "no newline follows the object's bytes": [
        ([], f"{ID} blob 16\n{MODULES}x", BAD_MODULES),
    ],
    # an entry of a tree
    "check_push trees: malformed input: object 1: "
    "an entry is not 'MODE NAME', NUL and an object id, or runs past its tree": [
        ([], f"{ID} tree 30\n40000 .git\0{19 * '.'}\n", ""),
        ([], f"{ID} tree 8\n100644 aX", ""),
        ([], f"{ID} tree 62\n40000 .git\0{20 * '.'}40008 .git\0{20 * '.'}\n", BAD_TREE),
    ],
    # the end line
    "check_push trees: malformed input: object 1: the object is missing": [
        (["--end"], f"{ID} missing\n..end missing\n", ""),
    ],
    "check_push submodules: malformed input: object 2: the object is missing": [
        (["--end"], f"{ID} blob 16\n{MODULES}\n{ID} missing\n", BAD_MODULES),
    ],
    "check_push trees: malformed input: object 1: "
    "the input ends without the line '..end missing'": [
        (["--end"], "", ""),
    ],
    "check_push trees: malformed input: object 3: "
    "the input ends without the line '..end missing'": [
        (["--end"], f"{TREE}{FILE}", BAD_TREE),
    ],
    "check_push trees: malformed input: object 2: the input ends within it": [
        (["--end"], f"{FILE}..end missing", ""),
    ],
    # a line of a push
    "check_push refs: malformed input: line 1: the input is empty": [
        ([], "", ""),
    ],
    "check_push refs: malformed input: line 1: the line is not 'OLD NEW REF'": [
        ([], f"{ZERO} {ID}\n", ""),
    ],
    "check_push refs: malformed input: line 2: the line is not 'OLD NEW REF'": [
        ([], f"{ZERO} {ID} refs/heads/a b\n\n", BAD_REF),
    ],
    "check_push refs: malformed input: line 2: the input ends within it": [
        ([], f"{ZERO} {ID} refs/heads/a b\n{ZERO} {ID} refs/heads/a", BAD_REF),
    ],
    # a line without a newline: a byte below the limit of a line, and at it
    "check_push refs: malformed input: line 1: the input ends within it": [
        ([], 65535 * "a", ""),
    ],
    "check_push refs: malformed input: line 1: "
    "a line or an entry is longer than 65536 bytes": [
        ([], 65536 * "a", ""),
    ],
}

MALFORMED_ROWS = [
    Row(program, f"{said} ({number})", words, given, 2, output, said)
    for line, inputs in MALFORMED.items()
    for program, said in [line.split(": ", 1)]
    for number, (words, given, output) in enumerate(inputs)
]


@rows(MALFORMED_ROWS)
def test_malformed_input_is_said_with_its_number_and_why(program, row):
    assert program.run_row(row) == row.expected


@rows([row for row in MALFORMED_ROWS if not re.search("ends|empty", row.said)])
def test_malformed_input_ends_the_run_while_the_input_is_open(program, row):
    """What the input's end alone makes malformed is left out."""
    reader, writer = os.pipe()
    os.write(writer, row.given.encode())
    ran = program.run(reader, *row.words)
    os.close(reader)
    os.close(writer)
    assert ran == row.expected


@pytest.mark.parametrize("reason", REASONS)
def test_each_reason_for_malformed_input_has_a_row(reason):
    assert f": {reason}" in "\n".join(MALFORMED)


def test_all_reasons_are_found():
    assert len(REASONS) > 8
