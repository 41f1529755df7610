"""Upgrades of an installed release, and its removal: what they leave, and that no hostile
push is accepted at any moment."""

import os
import random
import signal
import subprocess
import time

import pytest

from tests.release.commands import ENVIRONMENT, differences, files_under, need, run
from tests.release.hostile import REFUSED, are_checked, folder_of, rounds, run_slowly

# How often `install` upgrades a release slowly, to another one or back.
SLOW_UPGRADES = 8


def test_an_upgrade_from_before_3_0_0_leaves_what_a_first_install_leaves(
    legacy, one, fresh
):
    assert run(one / "install", legacy).status == 0
    assert differences(fresh, legacy, "installed") == (0, "")


def test_an_upgrade_leaves_nothing_of_the_release_before(upgraded, one, other, fresh):
    assert run(other / "install", upgraded).status == 0
    hook = upgraded / "libexec/gix-validate"
    assert [*hook.glob("*/")] == [folder_of(hook, "other")]
    assert run(one / "install", upgraded).status == 0
    assert differences(fresh, upgraded) == (0, "")


@need("strace")
def test_no_hostile_push_is_accepted_during_slow_upgrades(
    legacy, one, other, fresh, hostile
):
    hook = legacy / "libexec/gix-validate/pre-receive"
    hostile.set_hook(legacy)
    with hostile.pushes_on() as pushes:
        for _ in rounds(SLOW_UPGRADES // 2, pushes):
            for release in [other, one]:
                ran = run_slowly(legacy, hook, release / "install", legacy)
                assert ran.status == 0, ran.said
    assert [it for it in pushes if it.status == 0] == []
    assert are_checked(pushes)
    assert differences(fresh, legacy, "installed") == (0, "")


def test_the_hook_works_after_an_upgrade_that_is_killed_at_any_moment(
    upgraded, one, other, fresh, hostile, room
):
    hostile.set_hook(upgraded)
    hook = upgraded / "libexec/gix-validate/pre-receive"
    longest = seconds_of(one / "install", upgraded)
    for n in range(1, 11):
        release = other if b"one--" in hook.read_bytes() else one
        delay = random.uniform(0, longest)
        print(f"killed after {delay} of {longest} seconds")
        kill_after(delay, room, release / "install", upgraded)
        status, said = hostile.push()
        assert status == 1
        assert REFUSED in said
        if n % 5 == 0:
            assert run(one / "install", upgraded).status == 0
            assert differences(fresh, upgraded, "installed") == (0, "")


def seconds_of(*command):
    """How long a command takes, and half of that again, since the next may be slower."""
    begun = time.monotonic()
    run(*command)
    return 1.5 * (time.monotonic() - begun)


def kill_after(seconds, room, *command):
    """Runs a command, and kills it after this time with all of its processes. What it
    leaves in its temporary directory goes with the test."""
    quiet = {"stdout": subprocess.DEVNULL, "stderr": subprocess.DEVNULL}
    environment = {**ENVIRONMENT, "TMPDIR": str(room)}
    ran = subprocess.Popen(command, env=environment, start_new_session=True, **quiet)
    time.sleep(seconds)
    os.killpg(ran.pid, signal.SIGKILL)
    ran.wait()


# A `mkdir` that kills what called it, once it has made the hook's directory.
MKDIR_THAT_KILLS = """#!/bin/sh
PATH=${PATH#*:}
mkdir "$@"
case $* in
*libexec*) kill -KILL "$PPID" ;;
esac
"""


def test_an_upgrade_that_is_killed_once_it_made_its_directory_leaves_nothing_for_ever(
    upgraded, one, other, fresh, room
):
    (room / "bin").mkdir()
    (room / "bin/mkdir").write_text(MKDIR_THAT_KILLS)
    (room / "bin/mkdir").chmod(0o755)
    path = f"{room}/bin:{ENVIRONMENT['PATH']}"
    killed = run(other / "install", upgraded, PATH=path, TMPDIR=str(room))
    assert killed == (-signal.SIGKILL, "")
    assert folder_of(upgraded / "libexec/gix-validate", "other").is_dir()
    assert run(one / "install", upgraded).status == 0
    assert differences(fresh, upgraded, "installed") == (0, "")


# Fills a disk but for 1 MB, and upgrades what is installed there.
ON_A_FULL_DISK = """set -e
mount -t tmpfs -o size=20m none "$1"
cp -a -- "$2/." "$1"
cat /dev/zero > "$1/filler" 2> /dev/null || truncate -s -1M "$1/filler"
status=0
"$3/install" "$1" || status=$?
diff -r --no-dereference -x installed -x filler -x 'other--*' "$2" "$1" && echo unchanged
exit "$status"
"""


@pytest.fixture
def can_mount(room):
    (room / "tried").mkdir()
    tried = ["mount", "-t", "tmpfs", "none", room / "tried"]
    if run("unshare", "-rm", *tried).status:
        pytest.skip("an upgrade that fills the disk: needs unshare with a tmpfs")


def test_an_upgrade_that_fills_the_disk_fails_and_changes_no_file(
    can_mount, fresh, other, room
):
    (room / "full").mkdir()
    words = ["bash", "-c", ON_A_FULL_DISK, "-", room / "full", fresh, other]
    status, said = run("unshare", "-rm", *words)
    assert status != 0
    assert "No space left on device" in said
    assert said.endswith("\nunchanged\n")


def test_an_uninstall_removes_all_that_an_install_made(upgraded, tree):
    status, said = run(tree / "install", "--uninstall", upgraded)
    assert (status, said.splitlines()[0]) == (0, f"removed from {upgraded}")
    assert list(upgraded.iterdir()) == []


def test_an_uninstall_leaves_a_folder_that_was_there_before(legacy, one, tree):
    assert run(one / "install", legacy).status == 0
    status, said = run(tree / "install", "--uninstall", legacy)
    assert (status, said.splitlines()[0]) == (0, f"removed from {legacy}")
    assert files_under(legacy) == []
    assert (legacy / "bin").is_dir()


def test_an_uninstall_where_no_release_is_fails(tree, room):
    status, said = run(tree / "install", "--uninstall", room)
    assert (status, said) == (1, f"install: no release is installed under {room}\n")
