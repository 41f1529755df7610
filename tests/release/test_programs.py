"""The programs of a release: what they need, and what they do."""

import sys

import pytest

from tests.release.commands import COMPILER, OF_THE_HOOK, PROGRAMS, ROOT, VERSION, run
from tests.release.elf import faults_of


def test_the_programs_pass_the_tests_of_the_programs(prefix):
    builds = [f"--build={prefix / 'bin' / it}" for it in PROGRAMS]
    words = ["tests/programs", "--static", *builds]
    tested = run(sys.executable, "-m", "pytest", *words, cwd=ROOT)
    assert tested.status == 0, tested.said


@pytest.mark.parametrize("program", PROGRAMS)
def test_a_program_is_static_and_hardened(prefix, program):
    faults, said = faults_of(prefix / "bin" / program)
    assert faults == []
    assert "DYN (Position-Independent Executable file)" in said


def test_the_hook_and_the_user_run_the_same_program(prefix, hook_folder):
    [copy] = hook_folder.glob(f"*/{OF_THE_HOOK}")
    assert copy.read_bytes() == (prefix / "bin" / OF_THE_HOOK).read_bytes()


@pytest.mark.parametrize("program", PROGRAMS)
def test_a_program_can_be_linked_again_as_the_page_of_the_objects_says(
    tree, room, program
):
    objects = tree / "objects"
    page = (objects / "README.md").read_text()
    command = "cc -static-pie -o check_names check_names.o libos_c.a liblibc_c.a"
    assert f"\n    {command}\n" in page
    linked = room / program
    words = [f"{program}.o", "libos_c.a", "liblibc_c.a"]
    ran = run(COMPILER, "-static-pie", "-o", linked, *words, cwd=objects)
    assert ran == (0, "")
    assert run(linked, "--version") == (0, f"{program} {VERSION}\n")
