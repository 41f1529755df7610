"""The functions that docs/RECIPES.md names for those of libgit2 and Git: they return the
same, but for what its table says."""

import ctypes
import itertools
import re

import pytest

from .test_git_branches import git
from .tools import OUT, ROOT, need

LIBRARY = OUT / "libgix_validate_c.so"
PAGE = ROOT / "docs/RECIPES.md"
# What the rules of one of them speak of, and what is like it.
MARKS = rb"a B . .. / @ { @{ - _ ~ ^ : ? * [ \ HEAD .lock refs/ refs/heads/".split()
MARKS += [b" ", b"\t", b"\x7f", b"\xff", b"A_"]
NAMES = [b"".join(it) for n in range(4) for it in itertools.product(MARKS, repeat=n)]
# (Git is started for each name, and takes one that begins with `-` for an option.)
FEW = [it for n in range(3) for it in map(b"".join, itertools.product(MARKS, repeat=n))]
FEW = [it for it in FEW if not it.startswith(b"-")]
# The numbers of kinds, by the names that the header gives their functions.
KINDS = {"branch": 0, "tag": 2, "ref": 3, "partial": 4}


def is_capital(name):
    return re.fullmatch(b"[A-Z_]+", name) is not None


def has_delete(name):
    return b"\x7f" in name


def is_otherwise_in_libgit2(name):
    """Below capitals, or capitals with `_` at an end."""
    first, *more = name.split(b"/")
    return is_capital(first) and bool(more) != (b"_" in (first[:1], first[-1:]))


def is_tag_in_libgit2(name):
    return has_delete(name) or name == b"HEAD"


# Of each function: its kind here, what is accepted there alone, and here alone.
LIBGIT2 = {
    "git_reference_name_is_valid": ("ref", has_delete, is_otherwise_in_libgit2),
    "git_branch_name_is_valid": ("branch", has_delete, lambda name: False),
    "git_tag_name_is_valid": ("tag", is_tag_in_libgit2, lambda name: False),
}
GIT = {
    "git check-ref-format": ("ref", lambda name: False, is_capital),
    "git check-ref-format --allow-onelevel": (
        "partial",
        lambda name: False,
        lambda name: False,
    ),
}


@pytest.fixture(scope="module")
def accepts():
    """Whether the library accepts a name of a kind."""
    need(LIBRARY)
    function = ctypes.CDLL(str(LIBRARY)).gix_validate_fault_of
    function.argtypes = [ctypes.c_char_p, ctypes.c_size_t]
    function.argtypes += [ctypes.c_uint32, ctypes.c_uint32]
    return lambda kind, name: function(name, len(name), 7, KINDS[kind]) == 0


def test_the_page_names_these_functions():
    rows = re.findall(r"(?m)^\| `(git[^`]*)` \| `gix_validate_(\w+)`", PAGE.read_text())
    compared = {**LIBGIT2, **GIT}
    assert {it: kind for it, (kind, _, _) in compared.items()}.items() <= {*rows}


@pytest.mark.parametrize("call", LIBGIT2)
def test_libgit2_returns_the_same_but_for_what_the_page_says(accepts, call):
    pygit2 = pytest.importorskip("pygit2", reason="needs python3-pygit2")
    function = getattr(ctypes.CDLL(pygit2._pygit2.__file__), call)
    valid = ctypes.c_int()

    def theirs(name):
        assert function(ctypes.byref(valid), name) == 0
        return valid.value == 1

    compare(*LIBGIT2[call], accepts, theirs, NAMES)


@pytest.mark.parametrize("call", GIT)
def test_git_returns_the_same_but_for_what_the_page_says(accepts, call, tmp_path):
    need("git")
    words = call.split()[1:]
    compare(
        *GIT[call], accepts, lambda it: git(tmp_path, *words, it).returncode == 0, FEW
    )


def compare(kind, is_theirs, is_ours, accepts, theirs, names):
    """Fails if another name than these is accepted by one alone."""
    both = [(it, accepts(kind, it), theirs(it)) for it in names]
    there = [name for name, here, there in both if there and not here]
    here = [name for name, here, there in both if here and not there]
    assert [it for it in there if not is_theirs(it)] == []
    assert [it for it in here if not is_ours(it)] == []
    assert len(names) / 100 < sum(here for _, here, _ in both) < len(names) / 2
