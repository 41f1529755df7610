"""`scan --index` checks what `git commit` would commit."""

import hashlib

import pytest

from tests.hook.expected import (
    ALL_IS_WELL,
    DEVICE,
    DOT_GIT,
    bad_name,
    bad_submodule,
    found,
    scan_failed,
)
from tests.hook.git import folder

AUX = bad_name("aux.c", DEVICE)


def add(work, name, cwd=None, **env):
    entry = f"100644,{work.text},{name}"
    work.git("update-index", "--add", "--cacheinfo", entry, cwd=cwd, **env)


@pytest.fixture
def hostile(work):
    """Hostile files in the work tree."""
    (work.sub / "aux.h").write_text("text")
    (work.path / ".gitmodules").write_text('[submodule "../x"]\n\tpath = x\n')
    return work


def test_files_that_are_not_added_are_not_checked(scan, hostile):
    add(hostile, "a")
    assert scan(hostile.sub, "--index") == ALL_IS_WELL


def test_what_is_added_is_checked(scan, hostile, room):
    hostile.git("add", ".")
    expected = found(bad_name("sub/aux.h", DEVICE), bad_submodule(".gitmodules"))
    assert scan(hostile.sub, "--index") == expected
    assert scan(room, "--index", hostile.path) == expected
    hostile.git("update-index", "--split-index")
    assert scan(hostile.sub, "--index") == expected


def test_the_monitor_that_the_repository_configures_does_not_run(scan, hostile, room):
    """`git status` runs it."""
    monitor = room / "monitor"
    monitor.write_text(f"#!/bin/sh\ntouch {room}/ran\nexit 1\n")
    monitor.chmod(0o755)
    add(hostile, "a")
    hostile.git("config", "core.fsmonitor", str(monitor))
    assert scan(hostile, "--index") == ALL_IS_WELL
    assert not (room / "ran").exists()
    hostile.git("status")
    assert (room / "ran").exists()


def test_the_index_can_be_another_file_as_in_a_partial_commit(scan, work):
    next_index = work.path / "next"
    add(work, "con", GIT_INDEX_FILE=str(next_index))
    result = scan(work.sub, "--index", GIT_INDEX_FILE=next_index)
    assert result == found(bad_name("con", DEVICE))


def test_the_index_of_a_linked_worktree_is_its_own(scan, work):
    add(work, "a")
    add(work, "aux.c", cwd=work.linked)
    assert scan(work.linked, "--index") == found(AUX)
    assert scan(work, "--index") == ALL_IS_WELL


def test_an_empty_index_is_a_failure_unless_the_repository_is_empty(
    scan, work, server, source
):
    work.git("update-ref", "refs/heads/main", source.device)
    assert scan(work, "--index") == scan_failed(
        "the index is empty, so nothing was checked"
    )
    assert scan(server, "--index") == ALL_IS_WELL


def test_an_unfinished_merge_is_a_failure(scan, work, source):
    lines = f"100644 {source.text} 1\ta\n100644 {source.text} 2\ta\n"
    work.git("update-index", "--index-info", stdin=lines)
    unmerged = f"a: unmerged ({source.text})"
    assert scan(work.sub, "--index") == scan_failed(
        f"git write-tree failed (status 128): {unmerged} {unmerged} "
        "fatal: git-write-tree: error building trees"
    )


def test_an_object_that_is_missing_is_a_failure(scan, work, source):
    entry = f"100644,{source.missing},a"
    work.git("update-index", "--add", "--cacheinfo", entry)
    result = scan(work, "--index")
    assert result.status == 2
    assert f"invalid object 100644 {source.missing} for 'a'" in result.said


@pytest.mark.parametrize("way", ["exit", "echo x", '"$real" "$@"; echo no >&2; exit 0'])
def test_a_tree_that_git_does_not_make_well_is_a_failure(scan, hook, work, way):
    add(work, "a")
    hook.stand_in("git write-tree", way)
    assert scan(work.sub, "--index").status == 2


def test_a_sparse_index_is_checked_or_a_failure(scan, work, source):
    """Git 2.39 leaves out directories of such an index, with a message and status 0."""
    work.git("reset", "-q", source.commit_of(folder("a", source.tree_with_device), "b"))
    work.git("sparse-checkout", "set", "--cone", "--sparse-index")
    assert scan(work, "--index").status in (1, 2)
    work.git("sparse-checkout", "reapply", "--no-sparse-index")
    assert scan(work, "--index") == found(bad_name("a/aux.c", DEVICE))


def test_a_tree_that_only_the_index_says_is_checked(scan, work, source):
    """Git believes the extension TREE, and commits that tree."""
    work.git("read-tree", source.clean)
    work.git("write-tree")
    index = work.folder / "index"
    content = index.read_bytes()
    clean = bytes.fromhex(source.git("rev-parse", f"{source.clean}^{{tree}}"))
    hostile = source.tree(".GIT")
    assert content.count(clean) == 1
    content = content.replace(clean, bytes.fromhex(hostile))
    size = len(clean)
    content = (
        content[:-size] + hashlib.new(source.object_format, content[:-size]).digest()
    )
    index.write_bytes(content)
    assert work.git("write-tree") == hostile
    assert scan(work, "--index") == found(bad_name(".GIT", DOT_GIT))
