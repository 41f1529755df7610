"""`scan --copy` checks a copy of a repository that nobody has to trust: of any owner,
with any settings and hooks. It runs no command of the repository, writes nothing into
it, and leaves nothing behind."""

import os
import signal
import time

import pytest

from tests.hook.expected import (
    DEVICE,
    Result,
    bad_name,
    bad_ref,
    bad_submodule,
    found,
    scan_failed,
)
from tests.hook.git import folder
from tests.hook.processes import end, run, start, write_script

AUX = bad_name("aux.c", DEVICE)
LACKS = (
    "A copy lacks what Git doesn't serve: the index, the HEADs of other worktrees, "
    "references that Git calls broken, and by a URL those that the server hides.\n"
)


def of_copy(*lines):
    return Result(1 if lines else 0, LACKS + "".join(lines))


@pytest.fixture
def copies(room):
    """The directory for copies, which has to be empty at the end."""
    directory = room / "copies"
    directory.mkdir()
    yield directory
    assert not list(directory.iterdir())


def test_all_that_git_serves_is_checked_also_what_the_repository_hides(
    scan, server, source, copies, room
):
    server.already_has(
        f"{source.clean}:refs/heads/HEAD", f"{source.bad_submodule}:refs/hidden/a"
    )
    server.git("config", "transfer.hideRefs", "refs/hidden")
    server.configure("protect = none")
    expected = of_copy(bad_ref("refs/heads/HEAD"), bad_submodule())
    assert scan(room, "--copy", server.path, TMPDIR=copies) == expected
    assert scan(room, "--copy=server", TMPDIR=copies) == expected
    # (a server that another program calls by a URL hides what it hides)
    url = f"file://{server.path}"
    result = scan(room, "--copy", url, TMPDIR=copies)
    assert result == of_copy(bad_ref("refs/heads/HEAD"))


def test_a_detached_HEAD_is_checked(scan, work, source, copies):
    work.git("update-ref", "--no-deref", "HEAD", source.device)
    assert scan("/", "--copy", work.path, TMPDIR=copies) == of_copy(AUX)


def test_the_options_count_and_those_of_the_repository_do_not(
    scan, server, source, copies
):
    server.already_has(f"{source.commit_of('aux.c', 'con')}:refs/heads/main")
    server.configure("accept = con", "protect = none")
    words = "--accept=aux.c", "--copy", server.path
    result = scan("/", *words, TMPDIR=copies)
    assert result == of_copy(bad_name("con", DEVICE))
    assert scan("/", "--settings", *words, TMPDIR=copies) == result


def test_an_empty_repository_is_called_empty(scan, server, copies):
    result = scan("/", "--copy", server.path, TMPDIR=copies)
    assert result == Result(0, LACKS + "the repository is empty\n")


def test_what_is_no_repository_is_a_failure(scan, room, copies):
    missing = room / "missing"
    result = scan("/", "--copy", missing, TMPDIR=copies)
    fatal = f"fatal: repository '{missing}' does not exist"
    assert result == scan_failed(f"git clone failed (status 128): {fatal}")


def test_a_shallow_repository_is_a_failure(scan, server, source, copies):
    server.already_has(f"{source.device}:refs/heads/main")
    (server.path / "shallow").write_text(f"{source.device}\n")
    result = scan("/", "--copy", server.path, TMPDIR=copies)
    fatal = "fatal: source repository is shallow, reject to clone."
    assert result == scan_failed(f"git clone failed (status 128): {fatal}")


def test_without_room_for_a_copy_the_scan_fails(scan, server):
    assert scan("/", "--copy", server.path, TMPDIR="/nowhere") == scan_failed(
        "no temporary directory could be made below TMPDIR or /tmp"
    )


@pytest.mark.parametrize("owner", [{}, {"GIT_TEST_ASSUME_DIFFERENT_OWNER": "1"}])
def test_the_repository_may_have_another_owner(scan, server, source, copies, owner):
    server.already_has(f"{source.device}:refs/heads/main")
    result = scan("/", "--copy", server.path, TMPDIR=copies, **owner)
    assert result == of_copy(AUX)


def test_names_are_shown_as_printable_ascii(scan, room):
    """Whatever Git says."""
    result = scan("/", "--copy", room / "x\nall is well \u009b\u202e")
    assert result.status == 2 and len(result.said.splitlines()) == 1


# Hostile repositories.
HOOKS = [
    "pre-commit",
    "post-checkout",
    "pre-auto-gc",
    "fsmonitor-watchman",
    "post-index-change",
    "reference-transaction",
    "pre-receive",
]
COMMANDS = [
    "core.fsmonitor",
    "core.pager",
    "core.editor",
    "core.sshCommand",
    "core.alternateRefsCommand",
    "uploadpack.packObjectsHook",
    "filter.x.clean",
    "filter.x.smudge",
    "filter.x.process",
    "gpg.program",
    "diff.external",
    "diff.x.command",
    "diff.x.textconv",
    "remote.x.uploadpack",
]


class Trap:
    """A hostile repository whose every hook and command notes that it ran."""

    def __init__(self, work, source, room):
        self.work, self.source, self.ran = work, source, room / "ran"
        work.git("update-index", "--add", "--cacheinfo", f"100644,{source.text},aux.c")
        work.git("update-ref", "refs/heads/hostile", source.device)
        write_script(room / "run", f'echo "$0 $*" >> "{self.ran}"')
        for name in HOOKS:
            (work.folder / "hooks" / name).symlink_to(room / "run")
        for name in COMMANDS:
            work.git("config", name, f"{room}/run {name}")
        work.git("config", "core.hooksPath", str(work.folder / "hooks"))
        work.git("update-index", "--fsmonitor", "--split-index")
        (work.folder / "info/attributes").write_text("* filter=x diff=x\n")
        self.ran.write_text("")
        time.sleep(0.02)  # (a change has a later time)

    def touched(self):
        """What ran, and what was changed since."""
        since = self.ran.stat().st_ctime_ns
        folders = (
            self.work.folder,
            self.source.path / "objects" / self.source.tree_with_device[:2],
        )
        paths = [path for folder in folders for path in (folder, *folder.rglob("*"))]
        return self.ran.read_text().splitlines() + [
            path for path in paths if path.lstat().st_ctime_ns > since
        ]


@pytest.fixture
def trap(work, source, room):
    return Trap(work, source, room)


def test_no_command_of_the_repository_runs_and_nothing_is_written_into_it(
    scan, trap, work, copies, room
):
    """Whatever the caller's environment says."""
    here = {
        "GIT_DIR": work.folder,
        "GIT_WORK_TREE": work.path,
        "GIT_OBJECT_DIRECTORY": work.folder / "objects",
        "GIT_INDEX_FILE": work.folder / "index",
        "GIT_TEMPLATE_DIR": work.folder,
    }
    for env in {}, here:
        result = scan(room, "--copy", work.path, TMPDIR=copies, **env)
        assert result == of_copy(AUX)
        assert trap.touched() == []


def test_the_hook_runs_no_command_and_writes_nothing(hook, trap, work, source):
    commit = source.commit_of("con")
    result = hook.run(source.push_of(commit), cwd=work.folder)
    assert result.status == 1
    assert trap.touched() == []


@pytest.fixture
def partial(work, source, room):
    """A partial clone that lacks a tree, and whose remote is a command."""
    missing = source.commit_of(folder("a", source.missing))
    work.git("update-ref", "refs/heads/main", missing)
    work.git("config", "core.repositoryformatversion", "1")
    work.git("config", "extensions.partialClone", "x")
    with open(work.folder / "config", "a") as config:
        config.write(
            f'[remote "x"]\npromisor\nurl = "ext::touch {room}/fetched"\n'
            '[protocol "ext"]\nallow = always\n'
        )
    return work


def test_nothing_that_is_missing_is_fetched(scan, partial, room, copies):
    assert scan(room, "--copy", partial.path, TMPDIR=copies).status == 2
    assert not (room / "fetched").exists()


@pytest.mark.one_format
def test_an_older_git_that_serves_a_copy_fetches_nothing_either(
    scan, hook, partial, room
):
    """Before 2.39.4 Git ignores GIT_NO_LAZY_FETCH, as this one does if it is 0."""
    hook.stand_in("git clone", f"""printf '%s\\n' "$@" > '{room}/words'""")
    scan(room, "--copy", partial.path)
    words = (room / "words").read_text().splitlines()
    upload = words[words.index("-u") + 1].replace("FETCH=1", "FETCH=0")
    no_guard = upload.replace("GIT_ALLOW_PROTOCOL=none", "")
    for command, is_fetched in (upload, False), (no_guard, True):
        clone = "git", "clone", "-q", "--no-local", "-u", command, partial.path
        run([*clone, room / "copy"], room, {"PATH": os.environ["PATH"]})
        assert (room / "fetched").exists() == is_fetched


@pytest.mark.parametrize(
    "value", ["--not", "--exclude-hidden=fetch", "HEAD..", "^refs/heads/evil", ""]
)
def test_words_of_git_rev_list_in_a_reference_are_a_failure(
    scan, work, source, copies, value
):
    work.git("update-ref", "refs/heads/evil", source.device)
    (work.folder / "refs/heads/a").write_text(f"{value}\n")
    result = scan("/", "--copy", work.path, TMPDIR=copies)
    assert result.status == 2


@pytest.mark.parametrize("name", ["refs/heads/main", "info/grafts"])
def test_a_replacement_hides_nothing_and_a_graft_is_a_failure(
    scan, work, source, copies, name
):
    commit = source.commit_of("a", on=[source.device])
    work.git("update-ref", "refs/heads/main", commit)
    work.git("update-ref", f"refs/replace/{source.device}", source.clean)
    (work.folder / "info").mkdir(exist_ok=True)
    (work.folder / name).write_text(f"{commit}\n")
    result = scan("/", "--copy", work.path, TMPDIR=copies)
    assert result == of_copy(AUX) if name == "refs/heads/main" else result.status == 2


def test_a_commit_graph_that_lies_hides_nothing(scan, server, source, copies):
    """It says that the commit with the device has the tree of the clean one."""
    server.already_has(
        f"{source.device}:refs/heads/main", f"{source.clean}:refs/heads/clean"
    )
    server.git("commit-graph", "write", "--no-progress", "--reachable")
    graph = server.path / "objects/info/commit-graph"
    clean_tree = bytes.fromhex(source.git("rev-parse", f"{source.clean}^{{tree}}"))
    lying = graph.read_bytes().replace(
        bytes.fromhex(source.tree_with_device), clean_tree
    )
    graph.unlink()
    graph.write_bytes(lying)
    assert source.tree_with_device not in server.git("rev-list", "--objects", "--all")
    result = scan("/", "--copy", server.path, TMPDIR=copies)
    assert result.status == 2 or AUX in result.said


@pytest.mark.parametrize("name", ["objects/info", "objects", "refs"])
def test_a_linked_directory_of_the_repository_hides_nothing(
    scan, work, source, copies, room, name
):
    work.git("update-ref", "refs/heads/main", source.device)
    (work.folder / name).rename(room / "elsewhere")
    (work.folder / name).symlink_to(room / "elsewhere")
    assert scan("/", "--copy", work.path, TMPDIR=copies) == of_copy(AUX)
    assert scan(work) == found(AUX)


# It leaves nothing behind.
@pytest.mark.one_format
def test_nobody_else_can_read_the_copy(scan, hook, server, source, copies, room):
    server.already_has(f"{source.device}:refs/heads/main")
    hook.stand_in("git clone", f"stat -c %a '{copies}'/* > '{room}/mode'")
    umask = ["sh", "-c", 'umask 0; exec "$@"', "-"]
    scan("/", "--copy", server.path, TMPDIR=copies, through=umask)
    assert (room / "mode").read_text() == "700\n"


@pytest.mark.one_format
@pytest.mark.parametrize(
    "number", [signal.SIGTERM, signal.SIGINT, signal.SIGHUP, signal.SIGKILL]
)
def test_a_signal_at_any_time_leaves_no_copy(hook, work, source, room, copies, number):
    """Not even the one that can't be caught."""
    work.git("update-ref", "refs/heads/evil", source.device)
    env = hook.environment({"TMPDIR": copies})
    # (what runs in the background of a shell would ignore SIGINT)
    command = ["env", "--default-signal", hook.folder / "scan", "--copy", work.path]
    began = time.monotonic()
    assert end(start(command, room, env)) == 1
    whole = time.monotonic() - began
    for step in range(12):
        scan = start(command, room, env)
        time.sleep(whole * step / 10)
        os.killpg(scan.pid, number) if number != signal.SIGKILL else scan.kill()
        scan.wait()
        for _ in range(100):
            if not list(copies.iterdir()):
                break
            time.sleep(0.05)
        assert not list(copies.iterdir())
