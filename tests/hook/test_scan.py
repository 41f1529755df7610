"""What the scan finds in a repository of one's own, with which options, and when it
fails."""

import os
import pty
import select

import pytest

from tests.hook.expected import (
    ALL_IS_WELL,
    DEVICE,
    DOT_GIT,
    FILE_SYSTEMS,
    ILLEGAL,
    SYMLINK,
    Result,
    bad_name,
    bad_ref,
    bad_submodule,
    found,
    misused,
    scan_failed,
)
from tests.hook.git import ENVIRONMENT, Entry, file, folder, symlink

AUX = bad_name("aux.c", DEVICE)
SHOWN_NARROW = r"\342\200\214"  # U+200C, as Git quotes it
COPY_IT = (
    "To scan a copy of a repository that you don't own or trust: "
    "git scan-names --copy PATH\n"
)


def test_an_empty_repository_is_clean_and_called_empty(scan, server):
    assert scan(server) == Result(0, "the repository is empty\n")


class Hostile:
    """A server whose branch HEAD has hostile names in its last two commits. `first`, a
    branch and a tag, is clean. Its settings and a replacement would hide all, but they
    have no say in how it is scanned."""

    def __init__(self, server, source):
        self.second = source.tree(symlink(".gitmodules", source.text), "a\nb", "aux.c")
        self.third = source.tree(
            folder("\u200c.GIT", source.tree("a")),
            file(".GITMODULES", source.bad_modules),
        )
        last = source.commit(self.third, source.commit(self.second, source.clean))
        server.configure("protect = none")
        server.already_has(
            f"{last}:refs/heads/HEAD",
            f"{source.clean}:refs/heads/first",
            f"{source.clean}:refs/tags/first",
            f"{source.clean}:refs/replace/{last}",
        )
        # All that is found, in the order in which the scan shows it.
        self.ref = bad_ref("refs/heads/HEAD")
        self.dot_git = bad_name(f'"{SHOWN_NARROW}.GIT"', DOT_GIT)
        self.link = bad_name(".gitmodules", SYMLINK)
        self.newline = bad_name(r'"a\nb"', ILLEGAL)
        self.device = bad_name("aux.c", DEVICE)
        self.submodule = bad_submodule(".GITMODULES")
        self.all = found(
            self.ref,
            self.dot_git,
            self.link,
            self.newline,
            self.device,
            self.submodule,
        )


@pytest.fixture
def hostile(server, source):
    return Hostile(server, source)


def test_all_of_a_hostile_repository_is_found(scan, server, hostile):
    assert scan(server) == hostile.all


def test_a_directory_is_entered(scan, server, hostile, room):
    assert scan(room, "server") == hostile.all
    assert scan(server, ".") == hostile.all
    assert scan(room, "server/objects") == hostile.all


def test_a_word_that_is_a_directory_and_a_revision_is_the_directory(scan, work, source):
    """The whole repository is scanned then, so nothing is missed."""
    work.git("update-ref", "refs/heads/sub", source.clean)
    work.git("update-ref", "refs/heads/other", source.device)
    assert scan(work, "sub") == found(AUX)
    assert scan(work, "refs/heads/sub") == ALL_IS_WELL


def test_without_a_repository_the_scan_fails(scan, room):
    result = scan(room, GIT_CEILING_DIRECTORIES=room.parent)
    fatal = "fatal: not a git repository (or any of the parent directories): .git"
    assert result == scan_failed(f"git for-each-ref failed (status 128): {fatal}")


def test_a_repository_of_another_owner_is_not_scanned_in_its_place(scan, work, source):
    """Git runs by the settings of the repository."""
    work.git("update-ref", "refs/heads/a", source.device)
    other = {"GIT_TEST_ASSUME_DIFFERENT_OWNER": "1"}
    result = scan(work, **other)
    assert result.status == 2
    assert "dubious ownership" in result.said and result.said.endswith(COPY_IT)


def test_a_clean_branch_of_a_hostile_repository_is_clean(scan, server, hostile):
    assert scan(server, "first") == ALL_IS_WELL


def test_only_what_a_range_has_is_found(scan, server, hostile):
    assert scan(server, "refs/heads/HEAD^..refs/heads/HEAD") == found(
        hostile.dot_git, hostile.submodule
    )


def test_what_is_left_out_is_not_found(scan, server, hostile):
    words = "--all", "--not", "refs/heads/HEAD^^", "refs/heads/HEAD^"
    assert scan(server, *words) == found(hostile.dot_git, hostile.submodule)


def test_the_option_protect_wins_over_the_settings(scan, server, hostile):
    assert scan(server, "--settings", "--branches") == found(
        hostile.link, hostile.submodule
    )
    assert scan(server, "--settings", "--protect", "hfs", "--branches") == found(
        hostile.dot_git, hostile.link, hostile.submodule
    )


def test_an_option_may_be_after_the_revisions(scan, server, hostile):
    words = "refs/heads/HEAD", "--protect=none", "--not", "refs/heads/HEAD^^"
    assert scan(server, *words) == found(hostile.link, hostile.submodule)


def test_windows_means_windows_as_it_is(scan, server, source):
    """With NTFS."""
    commit = source.commit_of("aux.c", "git~1")
    server.already_has(f"{commit}:refs/heads/main")
    assert scan(server, "--protect", "windows") == found(
        AUX, bad_name("git~1", DOT_GIT)
    )


def test_the_limits_of_pushes_are_no_settings_of_the_scan(scan, server, source):
    server.configure("seconds = 1", "megabytes = 1")
    server.already_has(f"{source.device}:refs/heads/main")
    assert scan(server, "--settings") == found(AUX)


def test_accept_accepts_what_windows_alone_forbids_and_no_spelling_of_git(
    scan, server, hostile
):
    rest = hostile.ref, hostile.dot_git, hostile.link, hostile.newline
    accepted = "--accept", "x", "--accept=aux.c/\u200c.GIT"
    assert scan(server, *accepted) == found(*rest, hostile.submodule)


@pytest.mark.parametrize(
    "word", ["--quiet", "-q", "--count", "--stdin", "--protected=hfs", "--", "-n"]
)
def test_other_options_of_git_rev_list_are_refused(scan, server, word):
    """With --quiet, Git would list nothing, and all would be well."""
    assert scan(server, "--all", word) == misused(f'unknown option "{word}"')


@pytest.mark.parametrize(
    "words, why",
    [
        (["--index", "--protect"], "--protect needs a list"),
        (["--protect="], "--protect needs a list"),
        (["--protect=hsf"], f'--protect is "hsf": {FILE_SYSTEMS}'),
        (["--accept"], "--accept needs names"),
        (["--accept="], "--accept needs names"),
        ([b"--accept=\xff"], "--accept isn't UTF-8"),
        (["--accept=a\nb"], "--accept has a newline"),
        (["--index", "HEAD"], "--index accepts no revisions"),
        (["--copy"], "--copy needs a path or a URL"),
        (["--copy=x", "HEAD"], "--copy accepts no revisions"),
        (["--copy=x", "--index"], "--index and --copy don't go together"),
    ],
    ids=lambda words: repr(words) if isinstance(words, list) else "",
)
def test_a_misuse_is_explained(scan, server, words, why):
    assert scan(server, *words) == misused(why)


def test_the_help_fits_a_terminal(scan, server):
    result = scan(server, "--protect", "none", "--help")
    assert result.status == 0
    assert "--protect LIST" in result.said
    assert max(map(len, result.said.splitlines())) <= 80


def test_an_unknown_setting_is_a_failure(scan, server):
    server.configure("protet = x")
    assert scan(server, "--settings") == scan_failed(
        "the setting names.protet is unknown"
    )


# What is selected.
@pytest.mark.parametrize(
    "words",
    [["--branches=maim"], ["--tags"], ["HEAD", "--tags=v*"], ["--glob=refs/notes/*"]],
    ids=" ".join,
)
def test_a_pattern_that_matches_nothing_is_a_failure(scan, work, source, words):
    work.git("update-ref", "refs/heads/main", source.device)
    assert scan(work, *words) == scan_failed(f"{words[-1]} matches no reference")


@pytest.mark.parametrize("words", [["HEAD..HEAD"], ["--not", "HEAD"]], ids=" ".join)
def test_revisions_that_select_nothing_are_a_failure(scan, work, words):
    assert scan(work, *words) == scan_failed(
        "the revisions select no commit, so nothing was checked"
    )


def test_a_revision_that_is_none_is_shown_in_one_printable_line(scan, work):
    """With a newline and with bytes that aren't ASCII."""
    text, shown = "x\nall is well \u009b\u202e", "x all is well ?????"
    fatal = f"fatal: bad revision '{shown}'"
    assert scan(work, text) == scan_failed(f"git rev-list failed (status 128): {fatal}")


@pytest.mark.parametrize(
    "words",
    [
        ["topic"],
        ["topic~1..topic"],
        ["HEAD...topic"],
        ["v1^0"],
        ["origin"],
        ["^HEAD", "@~0", "topic"],
        ["--not", "HEAD", "--not", "topic"],
        ["topic@{0}"],
        ["ORIG_HEAD"],
        ["topic:"],
    ],
    ids=" ".join,
)
@pytest.mark.one_format
def test_what_git_takes_for_a_revision_is_checked(scan, work, source, words):
    hostile = source.commit_of("aux.c", on=[source.clean])
    for name in "refs/heads/topic", "refs/remotes/origin/main", "ORIG_HEAD":
        work.git("update-ref", "--create-reflog", name, hostile)
    work.git("symbolic-ref", "refs/remotes/origin/HEAD", "refs/remotes/origin/main")
    work.git("tag", "-a", "-m", "message", "v1", hostile)
    assert scan(work, *words) == found(AUX)
    assert scan(work, "HEAD") == ALL_IS_WELL


@pytest.mark.parametrize("ref", ["HEAD", "refs/heads/topic"])
def test_what_another_worktree_is_at_is_checked(scan, work, source, ref):
    work.git("update-ref", "--no-deref", ref, source.device, cwd=work.linked)
    assert scan(work.sub) == found(AUX)
    assert scan(work.linked) == found(AUX)


@pytest.fixture
def shallow(server, source, room):
    """A clone with the last two of three commits, of which the last has a device."""
    first = source.commit_of("a", on=[source.clean])
    last = source.commit_of("aux.c", on=[first])
    server.already_has(f"{last}:refs/heads/main")
    words = "clone", "-q", "--bare", "--depth=2", "--branch=main"
    source.git(*words, f"file://{server.path}", str(room / "shallow"))
    return room / "shallow"


def test_a_shallow_clone_is_checked_where_no_history_is_missing(scan, shallow):
    assert scan(shallow, "main^..main") == found(AUX)


def test_a_shallow_clone_whose_history_is_missing_is_a_failure(scan, shallow):
    for words in [], ["main"]:
        result = scan(shallow, *words)
        assert result.status == 2
        assert "Failed to traverse parents of commit" in result.said
        assert result.said.endswith("complete it first: git fetch --unshallow\n")


def test_grafts_hide_nothing(scan, server, source, room):
    commit = source.commit_of("a", on=[source.device])
    server.already_has(f"{commit}:refs/heads/main")
    (room / "grafts").write_text(f"{commit}\n")
    grafts = {"GIT_GRAFT_FILE": room / "grafts", "GIT_SHALLOW_FILE": room / "grafts"}
    assert scan(server, **grafts) == found(AUX)


# References that Git calls broken.
def test_a_reference_with_a_broken_name_is_a_failure(scan, work, source):
    """Git leaves it out of lists, but not of what it serves."""
    (work.folder / "refs/heads/a..b").write_text(f"{source.clean}\n")
    warning = "warning: ignoring ref with broken name refs/heads/a..b"
    assert scan(work) == scan_failed(f"git for-each-ref: {warning}")


@pytest.mark.parametrize("content", ["garbage", "0" * 40, "^1", "--not"])
def test_a_reference_without_an_id_is_a_failure(scan, work, source, content):
    work.git("update-ref", "refs/heads/evil", source.device)
    (work.folder / "refs/heads/a").write_text(f"{content}\n")
    warning = "warning: ignoring broken ref refs/heads/a"
    assert scan(work) == scan_failed(f"git for-each-ref: {warning}")


def test_a_reference_to_a_missing_object_is_a_failure(scan, work, source):
    (work.folder / "refs/heads/a").write_text(f"{source.missing}\n")
    result = scan(work)
    assert result.status == 2
    assert "refs/heads/a" in result.said


def test_what_was_found_before_a_failure_is_shown(scan, work, source):
    modules = file(".gitmodules", source.missing)
    work.git("update-ref", "refs/heads/evil", source.commit_of(modules, "aux.c"))
    result = scan(work)
    assert result.status == 2
    assert AUX in result.said


def test_what_replaces_a_file_is_read_as_gitmodules(scan, work, source):
    """Git would show it in place of such a file."""
    work.git("update-ref", "refs/heads/a", source.clean)
    name = f"refs/replace/{source.good_modules}"
    work.git("update-ref", name, source.bad_modules)
    assert scan(work) == found(bad_submodule(name))


def test_an_entry_with_a_mode_of_hundreds_of_digits_is_found(scan, server, source):
    """Git reads the mode, whose zeros at the front mean nothing."""
    entries = [
        Entry("0" * 300 + "100644", ".gitmodules", source.bad_modules),
        Entry("0" * 300 + "100644", "aux.c", source.text),
    ]
    commit = source.commit_of(*entries)
    assert "aux.c" in source.git("ls-tree", "--name-only", commit).split()
    server.already_has(f"{commit}:refs/heads/main")
    assert scan(server) == found(AUX, bad_submodule())


# What is printed.
def test_a_name_of_many_versions_has_one_line(scan, server, source):
    commits = []
    for n in range(20):
        tree = source.tree("aux.c", f"b{n}")
        commits.append(source.commit_of(folder("src", tree), on=commits[-1:]))
    server.already_has(f"{commits[-1]}:refs/heads/main")
    line = f"src/{AUX}".rstrip("\n")
    assert scan(server) == found(f"{line} (in 20 versions of its directory)\n")


def test_a_summary_has_a_line_for_each_reason(scan, server, source):
    commit = source.commit_of("aux.c", "con", "x?y", ".GIT")
    server.already_has(f"{commit}:refs/heads/main")
    assert scan(server, "--summary") == found(
        f"1 {DOT_GIT}\n", f"1 {ILLEGAL}\n", f"2 {DEVICE}\n"
    )


def test_the_path_of_a_directory_is_cut_and_the_name_is_whole(scan, server, source):
    names = [letter * 60 for letter in "abcdef"]
    tree = source.tree("aux.c")
    for name in reversed(names):
        tree = source.tree(folder(name, tree))
    server.already_has(f"{source.commit(tree)}:refs/heads/main")
    path = "/".join(names)[:128] + ".../"
    assert scan(server) == found(path + AUX)


def in_terminal(command, cwd, env):
    """Runs a command at a terminal. Returns its status, and what it shows."""
    child, terminal = pty.fork()
    if child == 0:
        os.chdir(cwd)
        os.execvpe(command[0], command, env)
    shown = b""
    while select.select([terminal], [], [], 20)[0]:
        try:
            shown += os.read(terminal, 1 << 16)
        except OSError:  # (it has ended)
            break
    status = os.waitstatus_to_exitcode(os.waitpid(child, 0)[1])
    return status, shown.decode("latin-1").replace("\r\n", "\n")


@pytest.mark.one_format
def test_at_a_terminal_a_clean_scan_says_that_it_checked_names_only(hook, work, source):
    env = ENVIRONMENT | {"PATH": os.environ["PATH"], "TERM": "xterm"}
    command = [str(hook.folder / "scan")]
    said = "names only: all are allowed. What files contain, hooks and settings were not checked.\n"
    assert in_terminal(command, work.path, env) == (0, said)
    work.git("update-ref", "refs/heads/evil", source.device)
    assert in_terminal(command, work.path, env) == (1, AUX)
