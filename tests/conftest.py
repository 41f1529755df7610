"""What all tests share. A fixture is what a test gets if it names it as an argument."""

import os
import shutil
import subprocess
from pathlib import Path

import pytest

pytest_plugins = ["tests.fail_closed", "tests.given_release", "tests.nothing_left"]


def pytest_addoption(parser):
    parser.addoption(
        "--built",
        action="store_true",
        help="tests/hook: install the programs that `rt ci` has just built",
    )
    parser.addoption(
        "--build",
        action="append",
        type=Path,
        metavar="FILE",
        help="tests/programs: test this build of a program instead of those that "
        "`rt ci` has just built (can be given more than once)",
    )
    parser.addoption(
        "--static",
        action="store_true",
        help="tests/programs: the builds load no library, so no device can fail",
    )


@pytest.fixture(scope="session")
def busybox(tmp_path_factory):
    """A directory with all commands of BusyBox, and no other."""
    if not shutil.which("busybox"):
        pytest.skip("needs busybox")
    made = tmp_path_factory.mktemp("busybox")
    subprocess.run(["busybox", "--install", "-s", made], check=True)
    return made


@pytest.fixture(scope="session")
def devices(tmp_path_factory):
    """The library in which reads, writes and allocations are slow or fail, for LD_PRELOAD.
    (A static program loads none.)"""
    compiler = shutil.which(os.environ.get("CC", "cc"))
    if not compiler:
        pytest.skip("needs a C compiler (Debian: gcc)")
    library = tmp_path_factory.mktemp("devices") / "devices.so"
    flags = ["-std=c11", "-Wall", "-Wextra", "-Werror", "-O2", "-shared", "-fPIC"]
    source = Path(__file__).with_name("devices.c")
    subprocess.run([compiler, *flags, "-o", library, source], check=True)
    return library
