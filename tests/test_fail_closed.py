"""A run of these tests passes only by assertions that hold."""

import os
import subprocess
import sys
from pathlib import Path

ROOT = Path(__file__).parent.parent
FIXTURE = """\
import pytest

@pytest.fixture
def made():
    assert True
"""
TESTS = """\
def test_without_an_assertion():
    pass

def test_whose_assertion_is_not_reached():
    for _ in []:
        assert True

def test_of_which_a_fixture_alone_asserts(made):
    pass

def test_with_an_assertion():
    assert True
"""


def test_a_test_fails_if_it_asserts_nothing_itself(tmp_path):
    (tmp_path / "conftest.py").write_text(FIXTURE)
    (tmp_path / "test_some.py").write_text(TESTS)
    command = [sys.executable, "-m", "pytest", "-p", "tests.fail_closed"]
    command += ["-c", ROOT / "pyproject.toml", "--rootdir", tmp_path, tmp_path]
    env = {**os.environ, "PYTHONPATH": str(ROOT)}
    ran = subprocess.run(command, env=env, capture_output=True, text=True)
    assert ran.returncode == 1
    assert ran.stdout.count("it asserted nothing") == 3
    assert "= 3 failed, 1 passed in " in ran.stdout
