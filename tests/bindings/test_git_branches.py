"""Short names of branches, next to Git.

More random names: GIT_BRANCH_NAMES=100000 pytest tests/bindings/test_git_branches.py
"""
import ctypes
import itertools
import os
import random
import subprocess

import pytest

from .tools import OUT, need

LIBRARY = OUT / "libgix_validate_c.so"
# The number of the kind.
BRANCH = 0
# What the rules speak of, and what is like it.
MARKS = [b"a", b"-", b".", b"/", b"@", b"{", b"HEAD", b".lock", b"refs/heads/", b"\xff"]
ALONE = [bytes([byte]) for byte in range(1, 256)]
BEFORE = b"topic/a"
# Names as people write them, and other pieces of random names.
ORDINARY = "main feature/log-in v1.0 fix_12 user/a.b grün".encode().split()
ODD = [b" ", b"\t", b"\x7f", *rb"~ ^ : ? * [ \ .. // @{ } .LOCK head".split()]
KINDS = [MARKS, ALONE, ODD, ORDINARY]
NUMBER = int(os.environ.get("GIT_BRANCH_NAMES", "1000"))


def git(folder, *words, **options):
    """A command of Git that no setting of a user changes."""
    environment = {
        "PATH": os.environ["PATH"],
        "LC_ALL": "C",
        "HOME": "/nonexistent",
        "GIT_CONFIG_NOSYSTEM": "1",
        "GIT_CEILING_DIRECTORIES": str(folder.parent),
    }
    return subprocess.run(
        ["git", *words], cwd=folder, env=environment, capture_output=True, **options
    )


def git_accepts(folder, name):
    """Whether Git accepts the name of a new branch, and keeps it as it is."""
    done = git(folder, "check-ref-format", "--branch", name)
    assert done.returncode in (0, 128)
    return done.returncode == 0 and done.stdout == name + b"\n"


@pytest.fixture(scope="module")
def accepts():
    """Whether the library accepts a short name."""
    need("git", LIBRARY)
    function = ctypes.CDLL(str(LIBRARY)).gix_validate_fault_of
    number = ctypes.c_uint32
    function.argtypes = [ctypes.c_char_p, ctypes.c_size_t, number, number]
    return lambda name: function(name, len(name), 0, BRANCH) == 0


def test_git_accepts_the_same_short_names(accepts, tmp_path):
    pairs = [first + second for first, second in itertools.product(MARKS, MARKS)]
    around = [b"a" + byte + b"b" for byte in ALONE]
    names = [b"", *MARKS, *ALONE, *around, *pairs]
    both = [(accepts(name), git_accepts(tmp_path, name)) for name in names]
    differ = [name for name, (ours, gits) in zip(names, both) if ours != gits]
    assert differ == []
    assert 100 < both.count((True, True)) < len(names) - 100


def random_name(source):
    """Some pieces, or an ordinary name in which bytes were changed."""
    pieces = [source.choice(source.choice(KINDS)) for _ in range(source.randint(0, 6))]
    if source.random() < 0.5:
        return b"".join(pieces)
    name = bytearray(b"/".join(source.choices(ORDINARY, k=source.randint(1, 3))))
    for piece in pieces[:2]:
        at = source.randint(0, len(name))
        name[at : at + source.randint(0, 1)] = piece
    return bytes(name)


def test_git_accepts_the_same_random_short_names(accepts, tmp_path, pytestconfig):
    source = random.Random(pytestconfig.getoption("--hypothesis-seed"))
    names = [random_name(source) for _ in range(NUMBER)]
    both = [(accepts(name), git_accepts(tmp_path, name)) for name in names]
    differ = [name for name, (ours, gits) in zip(names, both) if ours != gits]
    assert differ == []
    assert NUMBER / 10 < both.count((True, True)) < NUMBER * 9 / 10


def test_git_replaces_a_branch_that_was_checked_out_before(accepts, tmp_path):
    person = ["-c", "user.name=a", "-c", "user.email=a@b"]
    git(tmp_path, "init", "--quiet", "--initial-branch=main", check=True)
    git(tmp_path, *person, "commit", "--allow-empty", "--message=x", check=True)
    for branch in BEFORE, b"main":
        git(tmp_path, "checkout", "-B", branch, check=True)
    for rest in b"", b"/x", b"-1":
        name = b"@{-1}" + rest
        replaced = git(tmp_path, "check-ref-format", "--branch", name, check=True)
        assert replaced.stdout == BEFORE + rest + b"\n"
        assert not accepts(name)
