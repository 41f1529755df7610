"""Fails each allocation in turn: the functions that allocate report just that.

`rt ci` builds the tests of a crate as a program. Each test of its module refused_memory
runs in a process of its own, in which one allocation fails, always the same. The tests
let each allocation of the functions be that one, and the last test none. If an
allocation fails, they call the function again and compare the result. They print a line
for either.
"""

import os
import re
import subprocess
from pathlib import Path

import pytest

CRATES = Path(__file__).parents[2] / "crates"


def printed_by(crate, last, devices):
    """What the tests of the crate print, by test: how it ended, and its lines. `last` is
    the request for memory that none of the functions makes."""
    program = CRATES / crate / f"out/{crate}_tests"
    if not os.access(program, os.X_OK):
        pytest.skip(f"needs {program}, which rt ci builds")
    env = {"LD_PRELOAD": devices, "DEVICES_MEMORY": str(last)}

    def said(word):
        return subprocess.run(
            [program, word], env=env, capture_output=True, text=True, check=True
        ).stdout

    tests = re.findall(r"(?m)^refused_memory::(\w+): test$", said("--list"))
    lines = {test: said(f"refused_memory::{test}").splitlines() for test in tests}
    return {
        test: sorted(it.removeprefix("test result: ") for it in lines[test] if it)
        for test in tests
    }


def test_name_vectors_report_each_allocation_that_fails_and_succeed_the_next_time(
    devices,
):
    calls = ["sanitize_nothing", "sanitize_pieces", "reference_join", "path_join"]
    answered = [f"{call}: answered" for call in calls]
    expected = {
        f"request_{number}": sorted(["ok", *answered, f"{call}: refused"])
        for number, call in enumerate(calls, start=1)
    }
    expected["request_5"] = sorted(["ok", *answered])
    assert printed_by("name_vectors", 5, devices) == expected


def test_a_run_of_check_names_stops_with_each_allocation_that_fails(devices):
    """The first allocation is for what is read, the others are for the results. A vector
    as the writer allocates after them."""
    expected = {
        "request_1": ["ok", "run: read failed"],
        "request_2": ["ok", "run: out of memory"],
        "request_3": ["ok", "run: out of memory"],
        "request_4": ["ok", "run: out of memory"],
        "request_5": ["ok", "run: out of memory"],
        "request_6": ["ok", "run: out of memory"],
        "request_7": ["ok", "run: out of memory"],
        "request_8": ["ok", "run: answered"],
        "growing_writer": ["ok", "run: write failed"],
    }
    assert printed_by("check_names", 8, devices) == expected
