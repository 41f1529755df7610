"""The program of the hook: one that a full disk has cut accepts nothing. And nothing that
isn't a program is run as a script."""

import shutil

import pytest

from tests.hook.expected import NOT_THE_HOOK, Result, not_checked
from tests.hook.installed import PROGRAM, ROOT
from tests.hook.processes import write_script

pytestmark = pytest.mark.one_format

NO_PROGRAM = "could not be started: Exec format error (os error 8)"


@pytest.mark.parametrize("part", [0, 1, 2, 3], ids=lambda part: f"{part} quarters")
def test_a_program_that_was_cut_refuses_every_push(hook, source, part):
    whole = (hook.original / hook.program.relative_to(hook.folder)).read_bytes()
    hook.replace(hook.program, whole[: len(whole) * part // 4])
    assert hook.run(source.pushes["clean"].lines).status == 2


def test_without_the_directory_of_its_release_the_hook_refuses_every_push(hook, source):
    """It takes no program of another release."""
    hook.program.parent.rename(hook.folder / "3.0.0-of-another")
    assert hook.run(source.pushes["clean"].lines) == not_checked(
        "check_push trees could not be started: No such file or directory (os error 2)"
    )


def test_a_copy_of_the_hook_says_to_link_it(hook, source, room):
    """A server that runs several hooks may want another name."""
    copy = room / "10-names"
    shutil.copy(hook.folder / "pre-receive", copy)
    result = hook.run(source.push_of(source.clean), file=copy)
    assert result == Result(2, NOT_THE_HOOK.format(copy))
    copy.unlink()
    copy.symlink_to(hook.folder / "pre-receive")
    assert hook.run(source.push_of(source.device), file=copy) == source.device_refused


@pytest.mark.parametrize(
    "name, command", [("pre-receive", "pre-receive"), ("scan", "git-scan-names")]
)
def test_the_hook_and_the_scan_print_their_version(hook, name, command):
    version = (ROOT / "VERSION").read_text().strip()
    said = hook.run("", ["env"], hook.folder / name, words=["--version"])
    assert said == Result(0, f"{command} {version}\n")


@pytest.mark.parametrize("size", [63, 64, 500, 4096, 100_000, "half", "most"])
def test_a_hook_that_was_cut_accepts_nothing_hostile(hook, hostile_push, size):
    """But one that is empty does: Git takes it for a script. A release is a folder that
    is renamed when it is whole."""
    whole = (hook.original / "pre-receive").read_bytes()
    size = {"half": len(whole) // 2, "most": len(whole) - 5000}.get(size, size)
    hook.replace(hook.folder / "pre-receive", whole[:size])
    result = hook.run(hostile_push.lines, through=["bash", "-c", '"$@"', "-"])
    assert result.status != 0


@pytest.mark.parametrize("text", ["", "exit 0\n"], ids=["empty", "text"])
def test_what_is_no_program_is_not_run_as_a_script(hook, source, text):
    hook.replace(hook.program, text.encode())
    assert hook.run(source.pushes["clean"].lines) == not_checked(
        f"check_push trees {NO_PROGRAM}"
    )


@pytest.mark.parametrize("text", ["", "exit 0\n"], ids=["empty", "text"])
def test_a_git_that_is_no_program_is_not_run_as_a_script(hook, source, text):
    git = hook.stand_ins / "git"
    git.write_text(text)
    git.chmod(0o755)
    assert hook.run(source.pushes["clean"].lines) == not_checked(
        f"git rev-list {NO_PROGRAM}"
    )


@pytest.mark.parametrize("mode", [0o644, 0o000, None], ids=["file", "none", "folder"])
def test_a_git_that_can_not_be_executed_is_passed_over(hook, push, mode):
    git = hook.stand_ins / "git"
    if mode is None:
        git.mkdir()
    else:
        write_script(git, "exit 9")
        git.chmod(mode)
    assert hook.run(push.lines) == push.expected


def test_git_is_searched_in_absolute_folders_alone(hook, room, source):
    """Git runs the hook in the repository that gets the push."""
    here = room / "repository"
    shutil.copytree(source.path, here)
    write_script(here / "git", f"touch '{room}/ran'", 'exec /usr/bin/git "$@"')
    lines = source.pushes["device"].lines
    result = hook.run(lines, cwd=here, PATH="::.:/nowhere")
    assert result == not_checked("there is no git on the PATH")
    assert not (room / "ran").exists()


def test_no_program_gets_another_variable_of_the_caller(hook, source, room):
    """Such as LD_PRELOAD, or GIT_TRACE, by which Git would write into a file."""
    given = room / "given"
    hook.stand_in(PROGRAM, f"env >> '{given}'")
    hook.stand_in("git", f"env >> '{given}'")
    push = source.pushes["submodule"]
    mine = {
        "LD_PRELOAD": "/nowhere/library.so",
        "GIT_TRACE": str(room / "trace"),
        "GIT_CONFIG_PARAMETERS": "'core.pager=x'",
        "GIT_EXEC_PATH": "/nowhere",
        "GIT_NAMESPACE": "mine",
        "GIT_SHALLOW_FILE": str(room / "shallow"),
        "HOME": "/nowhere",
        "ONE_OF_MINE": "1",
    }
    assert hook.run(push.lines, **mine) == push.expected
    names = {line.partition("=")[0] for line in given.read_text().splitlines()}
    # (the last three are the shell's own)
    assert names - {"PWD", "SHLVL", "_"} == {
        "GIT_CONFIG_GLOBAL",
        "GIT_CONFIG_PARAMETERS",  # (so that git config says what is ignored)
        "GIT_DIR",
        "GIT_INDEX_FILE",  # (none, for git diff-tree)
        "GIT_NO_LAZY_FETCH",
        "GIT_NO_REPLACE_OBJECTS",
        "GIT_TRACE2",
        "GIT_TRACE2_BRIEF",
        "HOME",
    }
