"""What the hook says helps, and does: if the server has the name already, and to change
the commits of a push."""
import re
import subprocess

import pytest

from tests.hook.expected import (
    ACCEPT,
    ACCEPTED,
    CORRECT_THE_FILE,
    DEVICE,
    IT_MAY_BE_OLD,
    RENAME_THE_FILE,
    bad_name,
    bad_submodule,
    refused,
)
from tests.hook.git import ENVIRONMENT, file


@pytest.fixture(params=["device", "submodule"])
def old(request, source):
    """Something hostile that a server has: its commit, the entry, another in its place,
    and how a push is refused that brings the entry in a new tree."""
    if request.param == "device":
        return (
            source.device,
            "aux.c",
            "aux_.c",
            refused(
                bad_name("aux.c", DEVICE, "aux"),
                RENAME_THE_FILE,
                IT_MAY_BE_OLD,
                ACCEPT,
            ),
        )
    bad, good = file(".gitmodules", source.bad_modules), file(
        ".gitmodules", source.good_modules
    )
    return (
        source.bad_submodule,
        bad,
        good,
        refused(bad_submodule(), CORRECT_THE_FILE, IT_MAY_BE_OLD),
    )


def test_first_a_commit_that_mends_the_old_name_then_any_other_is_accepted(
    server, source, old
):
    commit, bad, mended, refusal = old
    server.already_has(f"{commit}:refs/heads/main")
    assert server.push(source.commit_of(bad, "new", on=[commit])) == refusal
    first = source.commit_of(mended, on=[commit])
    assert server.push(first) == ACCEPTED
    assert server.push(source.commit_of(mended, "new", on=[first])) == ACCEPTED


@pytest.fixture
def author(tmp_path, source):
    """Runs commands in a clone that has checked out the first of two commits. The branch
    `work` is at the other."""

    def clone(first, commit):
        path = tmp_path / "clone"
        git = ["git", "init", "-q", f"--object-format={source.object_format}", path]
        subprocess.run(git, env=ENVIRONMENT, check=True)
        alternates = path / ".git/objects/info/alternates"
        alternates.write_text(f"{source.path}/objects\n")

        def run(command, **variables):
            how = {"cwd": path, "env": ENVIRONMENT | variables, "text": True}
            ran = subprocess.run(command, **how, shell=True, stdout=-1, stderr=-2)
            return ran.returncode, ran.stdout

        start = f"git update-ref HEAD {first} && git reset --hard && git branch work"
        assert run(f"{start} {commit}")[0] == 0
        return run

    return clone


def pushed(server, source, run, branch):
    """Pushes what the author has now."""
    path = run("git rev-parse --absolute-git-dir")[1].strip()
    source.git("fetch", "-q", path, branch)
    return server.push(run(f"git rev-parse {branch}")[1].strip())


def advised(refusal):
    """The commands that begin a rebase, go on where it stops, and help where it can't,
    for the branch `work`."""
    said = refusal.said.replace("BRANCH", "work")
    [line] = re.findall("(?m)^To change these commits: (.*)[.]$", said)
    begin, stopped, invalid = re.split(
        r"[.] Where it stops: |[.] If it stops at .*?: ", line
    )
    return begin.partition(" (")[0], stopped.split(", "), invalid.split(", ")


def test_a_commit_that_git_cannot_check_out_is_made_again_as_the_hook_says(
    server, source, author
):
    first = source.commit_of("gone.c", "main.c")
    bad = source.commit_of(".GIT", "main.c", "more.c", on=[first])
    run = author(
        first, source.commit_of(".GIT", "last.c", "main.c", "more.c", on=[bad])
    )
    last = run("git rev-parse work")[1].strip()
    server.already_has(f"{first}:refs/heads/main")
    begin, _, commands = advised(server.push(last))
    status, said = run(begin, GIT_SEQUENCE_EDITOR="true")
    assert status != 0 and "invalid path '.GIT'" in said
    for command in commands:
        status, said = run(command)
        assert status == 0, (command, said)
    assert run("git ls-files") == (0, "last.c\nmain.c\nmore.c\n")
    # (The last commit has the name, too, and picking it leaves that out.)
    assert pushed(server, source, run, "NEW") == ACCEPTED


def test_a_merge_that_adds_a_name_is_changed_as_the_hook_says(server, source, author):
    first = source.commit_of("main.c")
    sides = [source.commit_of(it, "main.c", on=[first]) for it in ("a.c", "b.c")]
    merge = source.commit_of("a.c", "aux.c", "b.c", "main.c", on=sides)
    last = source.commit_of("a.c", "aux.c", "b.c", "last.c", "main.c", on=[merge])
    server.already_has(f"{first}:refs/heads/main")
    refusal = server.push(last)
    assert f"first in commit {merge[:12]}" in refusal.said
    run = author(first, last)
    begin, commands, _ = advised(refusal)
    status, said = run(begin, GIT_SEQUENCE_EDITOR="sed -i '/^merge/a break'")
    assert status == 0, said
    for command in commands:
        command = command.replace("OLD", "aux.c").replace("NEW", "aux_.c")
        status, said = run(command)
        assert status == 0, (command, said)
    assert pushed(server, source, run, "work") == ACCEPTED
