"""What the tests of a release work with: the release unpacked and installed, two others
of it, and hostile pushes."""

import os
import shutil
import tarfile
import tempfile
from contextlib import contextmanager
from pathlib import Path

import pytest

from tests.release.commands import DEBIAN, run
from tests.release.hostile import REFUSED, Hostile, release_of_another_name


@contextmanager
def open_folder():
    """An empty folder, which goes at the end. Every user can enter it."""
    with tempfile.TemporaryDirectory() as folder:
        os.chmod(folder, 0o755)
        yield Path(folder)


@pytest.fixture(scope="session")
def session_room():
    with open_folder() as folder:
        yield folder


@pytest.fixture
def room():
    with open_folder() as folder:
        yield folder


@pytest.fixture(scope="session")
def tree(archive, session_room):
    """The release, unpacked."""
    with tarfile.open(archive) as opened:
        opened.extractall(session_room)
    return session_room / archive.name.removesuffix(".tar.gz")


@pytest.fixture(scope="session")
def prefix(tree, session_room):
    """The release, installed by somebody with a strict umask, into a folder with a space
    in its name."""
    destdir = session_room / "a prefix"
    command = 'umask 077 && exec "$0" /usr'
    installed = run("sh", "-c", command, tree / "install", DESTDIR=destdir)
    assert installed.status == 0, installed.said
    return destdir / "usr"


@pytest.fixture(scope="session")
def hook_folder(prefix):
    return prefix / "libexec/gix-validate"


@pytest.fixture(scope="session")
def one(tree, session_room):
    """The release as another one, whose hook takes no part of any other."""
    return release_of_another_name(tree, session_room / "one")


@pytest.fixture(scope="session")
def other(tree, session_room):
    return release_of_another_name(tree, session_room / "other")


@pytest.fixture(scope="session")
def fresh(one, session_room):
    """What an installation of `one` leaves."""
    installed = run(one / "install", session_room / "fresh")
    assert installed.status == 0, installed.said
    return session_room / "fresh"


@pytest.fixture
def upgraded(one, room):
    """`one` installed for this test alone."""
    installed = run(one / "install", room / "upgraded")
    assert installed.status == 0, installed.said
    return room / "upgraded"


@pytest.fixture
def legacy(tree, room):
    """What a release before 3.0.0 left: no record, three programs, and all files of the
    hook in one folder. (This hook refuses every push.)"""
    for name in ["bin", "include", "lib", "libexec", "share"]:
        shutil.copytree(tree / name, room / "legacy" / name, symlinks=True)
    hook = room / "legacy/libexec/gix-validate"
    [folder] = hook.glob("*/")
    shutil.rmtree(folder)
    for program in ["check_refs", "check_submodules", "check_trees"]:
        for name in [f"bin/{program}", f"share/man/man1/{program}.1"]:
            (room / "legacy" / name).touch()
        (hook / program).touch()
    (hook / "names.sh").touch()
    for name in ["pre-receive", "scan"]:
        (hook / name).write_text(f"#!/bin/sh\necho '{REFUSED}' >&2\nexit 1\n")
    return room / "legacy"


@pytest.fixture(scope="session")
def hostile_repository(session_room):
    """A repository with a name that isn't allowed. (Its .gitmodules file lets
    `check_push submodules` run, too.)"""
    folder = session_room / "hostile"
    git(session_room, "init", "-q", folder)
    for name in [".gitmodules", "nul.txt"]:
        (folder / name).touch()
    git(folder, "add", ".")
    git(folder, "commit", "-q", "-m", "hostile")
    return folder


def git(folder, *words):
    done = run("git", *words, cwd=folder)
    assert done.status == 0, done.said


@pytest.fixture
def hostile(hostile_repository, room):
    """Somebody who pushes a hostile name to a server of this test."""
    return Hostile(hostile_repository, room / "server")


@pytest.fixture(scope="session")
def packages(archive):
    """The Debian packages: for C, with the hook, with the shared object, and with the site."""
    shared = f"libgix-validate-c{DEBIAN.partition('.')[0]}"
    names = ["libgix-validate-dev", "gix-validate", shared]
    files = [f"{it}_{DEBIAN}_amd64.deb" for it in names]
    return [
        archive.parent / it for it in (*files, f"gix-validate-doc_{DEBIAN}_all.deb")
    ]
