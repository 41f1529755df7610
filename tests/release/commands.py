"""How these tests run a command: without the kit, and with nothing of the caller's Git."""

import os
import shutil
import subprocess
from pathlib import Path
from typing import NamedTuple

import pytest

ROOT = Path(__file__).resolve().parent.parent.parent
VERSION = (ROOT / "VERSION").read_text().strip()
# The same as C and the shared object, Debian, and Python write it.
NUMBERS = VERSION.removesuffix("-dev")
DEBIAN = VERSION.replace("-", "~")
PYTHON = VERSION.replace("-dev", ".dev0")
MAJOR = VERSION.partition(".")[0]

OF_THE_HOOK = "check_push"
SUBCOMMANDS = ["refs", "trees", "submodules"]
PROGRAMS = ["check_names", OF_THE_HOOK, "git-check-names"]


def path_without_the_kit():
    folders = os.environ["PATH"].split(":")
    return ":".join(it for it in folders if it and not os.access(f"{it}/rt", os.X_OK))


def is_of_the_caller(name):
    return name.startswith("GIT_") or name == "GIX_VALIDATE_LIBRARY"


ENVIRONMENT = {
    **{name: it for name, it in os.environ.items() if not is_of_the_caller(name)},
    "PATH": path_without_the_kit(),
    "LC_ALL": "C.UTF-8",
    "GIT_CONFIG_GLOBAL": "/dev/null",
    "GIT_CONFIG_NOSYSTEM": "1",
    "GIT_AUTHOR_NAME": "a",
    "GIT_AUTHOR_EMAIL": "a@example",
    "GIT_COMMITTER_NAME": "a",
    "GIT_COMMITTER_EMAIL": "a@example",
}
COMPILER = os.environ.get("CC", "cc")


class Result(NamedTuple):
    """The status of a command, and what it printed, also on standard error."""

    status: int
    said: str


def run(*command, cwd=ROOT, **environment):
    """Runs a command, which has to end in ten minutes."""
    ran = subprocess.run(
        command,
        cwd=cwd,
        env={**ENVIRONMENT, **environment},
        stdin=subprocess.DEVNULL,
        stdout=subprocess.PIPE,
        stderr=subprocess.STDOUT,
        timeout=600,
    )
    return Result(ran.returncode, ran.stdout.decode(errors="replace"))


def need(*tools):
    """A mark: the test is skipped if a tool is missing."""
    missing = [it for it in tools if not shutil.which(it, path=ENVIRONMENT["PATH"])]
    return pytest.mark.skipif(bool(missing), reason=f"needs {', '.join(missing)}")


def files_under(folder):
    """The paths of all that is under a folder but folders, relative to it, in order."""
    files = (it for it in folder.rglob("*") if it.is_symlink() or not it.is_dir())
    return sorted(str(it.relative_to(folder)) for it in files)


# A manual page that names the prefix.
WITH_PREFIX = "git-names-hook.7"


def differences(one, other, *but):
    """What `diff` prints of two folders, but for files with these names, and for the page that
    names the prefix."""
    ignored = [word for name in (WITH_PREFIX, *but) for word in ("-x", name)]
    return run("diff", "-r", "--no-dereference", *ignored, "--", one, other)


PROJECT = f"""cmake_minimum_required(VERSION 3.10)
project(example C)
find_package(gix_validate {NUMBERS} REQUIRED)
add_executable(example "{ROOT}/bindings/c/example.c")
target_link_libraries(example gix_validate::{{}})
"""


def built_by_cmake(room, prefix, target, *options):
    """The example for C, linked with a target of the package that CMake finds."""
    (room / "CMakeLists.txt").write_text(PROJECT.format(target))
    return built_project(room, prefix, *options)


def built_project(room, prefix, *options):
    """The program `example` that CMake builds of the project in `room`."""
    found = f"-DCMAKE_PREFIX_PATH={prefix}"
    for words in [
        ["-S", room, "-B", room / "built", found, *options],
        ["--build", room / "built"],
    ]:
        made = run("cmake", *words)
        assert made.status == 0, made.said
    return room / "built/example"
