"""Python's module."""
import os
import re
import sys

from .tools import BINDINGS, OUT, ROOT, need, output, run

PYTHON = BINDINGS / "python"


def test_the_module_passes_its_own_tests():
    said = output(
        *(sys.executable, "-B", "-W", "error", "-m", "pytest", "-q"),
        *("-p", "tests.fail_closed"),
        *("--import-mode=importlib", PYTHON / "test_gix_validate.py"),
        cwd=ROOT,
        env={**os.environ, "PYTHONPATH": str(PYTHON)},
    )
    # (Any other outcome would be in this line.)
    assert re.fullmatch(r"\d{3,} passed in .*", said.splitlines()[-1])


CALLERS = """
import array, mmap
from typing import List, Optional, Union
from gix_validate import Fault, InvalidName, Kind, Protect
from gix_validate import check, fault_numbers, fault_numbers_at, faults, sanitize
from gix_validate import suggest_branch, validate_branch, validate_path

def call(given: Union[str, bytes], pages: mmap.mmap, offsets: "array.array[int]") -> None:
    name: str = validate_path("v1", protect=Protect.HFS | Protect.NTFS)
    data: bytes = validate_branch(b"v1") + sanitize(b"")
    given = validate_branch(given)
    fault: Optional[Fault] = check(given, "branch-ref") or check(data, Kind.PATH)
    suggested: Optional[str] = suggest_branch(name)
    numbers: bytes = fault_numbers(pages, "tag") + fault_numbers(name, Kind.TAG, "\\0")
    numbers += fault_numbers_at(pages, offsets, "tag", start=1, count=2)
    found: List[Optional[Fault]] = faults([b"a", "b"], "component")
    place: int = InvalidName(data, Kind.PATH, Fault.EMPTY).offset
    check("v1", "brunch")
    validate_path("v1", protect=True)
    fault_numbers_at(pages, "ab", "tag")
    validate_branch(None)
"""


def test_the_type_hints_are_those_that_callers_need(tmp_path):
    need("mypy")
    (tmp_path / "callers.py").write_text(CALLERS)
    said = run(
        *("mypy", "--strict", "--cache-dir", OUT / "mypy", tmp_path / "callers.py"),
        env={**os.environ, "MYPYPATH": str(PYTHON)},
        status=1,
    )
    refused = re.findall(r"(?m):(\d+): error: .*\[(.*)\]$", said.stdout)
    wrong = ["arg-type", "arg-type", "arg-type", "type-var"]
    assert refused == [(str(line), kind) for line, kind in enumerate(wrong, 18)]


def test_the_type_hints_are_right():
    need("mypy")
    said = output(
        "mypy", "--strict", "--cache-dir", OUT / "mypy", PYTHON / "gix_validate.py"
    )
    assert said == "Success: no issues found in 1 source file\n"
