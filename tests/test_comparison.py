"""The tables of docs/COMPARISON.md, which are of runs of several programs."""

import subprocess
from pathlib import Path

import pytest

from scripts.deriving import record_comparison

ROOT = Path(__file__).resolve().parent.parent
CRATES = "bindings/out/gitoxide/crates"


@pytest.fixture
def crate(request, monkeypatch):
    """The Rust crate for the benchmarks, built if it can be."""
    monkeypatch.chdir(ROOT)
    if not Path(record_comparison.CRATE).exists():
        if not Path(CRATES).exists():
            request.node.add_marker("may_be_skipped")
            pytest.skip(f"needs the crates of gitoxide in {CRATES}")
        subprocess.check_call(["bench/crate/build", CRATES])
    if not Path(record_comparison.JGIT).exists():
        pytest.skip("needs JGit (Debian: libjgit-java)")


def test_each_program_says_of_each_name_what_the_page_says(crate):
    page = (ROOT / record_comparison.PAGE).read_text("utf-8")
    found = {name: part for _, name, *part in record_comparison.derived()}
    # (They may say the same in another version.)
    del found["<!-- versions -->\n\n"]
    assert len(found) == 4
    for name, (end, table) in found.items():
        assert f"{name}{table}{end}" in page
