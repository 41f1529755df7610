"""Which names the hook refuses, wherever a push has them, and what it says of them."""
import re
import shutil
import subprocess

import pytest

from tests.hook.expected import (
    ACCEPT,
    ACCEPTED,
    ALLOW_REPLACEMENTS,
    CORRECT_THE_FILE,
    DEVICE,
    DOT_GIT,
    FULL_CLONE,
    ILLEGAL,
    IT_MAY_BE_OLD,
    LIST_ALL,
    MAKE_IT_A_FILE,
    RENAME_THE_FILE,
    RENAME_THE_REF,
    SYMLINK,
    UNCHECKED,
    Result,
    bad_name,
    bad_ref,
    bad_submodule,
    change,
    found,
    not_checked,
    refused,
)
from tests.hook.git import (
    ENVIRONMENT,
    Repository,
    file,
    folder,
    git_version,
    program,
    submodule,
    symlink,
)

NARROW = "\u200c"  # a joiner of width zero, which HFS+ ignores


def is_broken(result, said=".*"):
    """Whether the push was refused since Git could not list it, and said this."""
    pattern = rf"{UNCHECKED}: git rev-list failed \(status 128\): {said}\n"
    return result.status > 0 and re.fullmatch(pattern, result.said) is not None


def test_a_clean_push_of_all_kinds_of_objects_is_accepted_and_so_is_a_delete(
    server, source
):
    empty_modules = source.tree(file(".gitmodules", source.blob("")))
    first = source.commit_of(
        "README",
        symlink("link", source.text),
        submodule("module", source.clean),
        program("run", source.text),
        folder(" a  b", source.tree("c")),
        b"caf\xe9",
        file(".gitmodules", source.good_modules),
        folder("a", empty_modules),
        folder("b", source.tree(folder(".gitmodules", source.tree("a")))),
    )
    merge = source.commit_of(
        "README", on=[first, source.commit_of("other", on=[first])]
    )
    assert (
        server.push(
            f"{merge}:refs/heads/main",
            f"{source.tag('commit', first)}:refs/tags/annotated",
            f"{source.text}:refs/blobs/some",
            f"{first}:refs/tags/HEAD",
            f"{source.commit_of()}:refs/heads/empty",
            f"{first}:refs/heads/漢",
        )
        == ACCEPTED
    )
    assert server.push(":refs/heads/main") == ACCEPTED


def test_each_kind_of_name_is_refused_and_ten_lines_are_shown(server, source):
    """A refused reference doesn't hide what its files are refused for."""
    devices = [f"com{n}" for n in range(1, 9)]
    tree = source.tree(
        file(".gitmodules", source.bad_modules), "a\n\tb", *devices, f"{NARROW}.git"
    )
    commit = source.commit(tree, source.clean)
    assert server.push(f"{commit}:refs/heads/HEAD") == Result(
        1,
        (
            bad_ref("refs/heads/HEAD")
            + bad_name(r'"a\n\tb"', ILLEGAL, r"\n", commit)
            + "".join(bad_name(name, DEVICE, name, commit) for name in devices)
            + "push refused: 12 names are not allowed (10 of them shown)\n"
            + LIST_ALL
            + RENAME_THE_REF
            + RENAME_THE_FILE
            + CORRECT_THE_FILE
            + change(commit)
            + ACCEPT
        ),
    )


def test_what_offends_is_named_and_only_what_windows_alone_forbids_can_be_accepted(
    server, source
):
    names = "12:30.log", "AUX.tar.gz", "a.", "c:x", r"a\b", f"{NARROW}.git"
    commit = source.commit_of(*names, on=[source.clean])
    shown = rf'"{NARROW}.git"'.replace(NARROW, r"\342\200\214")
    separator = "Path separators like / or \\ are not allowed"
    assert server.push(commit) == Result(
        1,
        bad_name("12:30.log", ILLEGAL, ":", commit)
        + bad_name("AUX.tar.gz", DEVICE, "AUX", commit)
        + bad_name("a.", ILLEGAL, ".", commit)
        + bad_name("c:x", "Windows path prefixes are not allowed", "c:", commit)
        + bad_name(r'"a\\b"', separator, r"\\", commit)
        + bad_name(shown, DOT_GIT, None, commit)
        + "push refused: 6 names are not allowed\n"
        + RENAME_THE_FILE
        + change(commit)
        + ACCEPT,
    )
    other = source.commit_of(".GIT", r"a\b", on=[source.clean])
    assert "names.accept" not in server.push(other).said


def test_the_first_commit_that_has_a_refused_name_is_named(server, source):
    """Also of a merge, and of a name that goes again before the last commit."""
    side = source.commit_of("aux.c", on=[source.clean])
    main = source.commit_of("b", on=[source.clean])
    merge = source.commit_of("b", "con", on=[main, side])
    last = source.commit_of("b", "con", "c", on=[merge])
    assert server.push(last) == Result(
        1,
        bad_name("con", DEVICE, "con", merge)
        + bad_name("aux.c", DEVICE, "aux", side)
        + "push refused: 2 names are not allowed\n"
        + RENAME_THE_FILE
        + change(side)
        + ACCEPT,
    )


def test_a_symlink_is_first_in_the_commit_that_makes_it_one(server, source):
    first = source.commit_of(file(".gitmodules", source.good_modules))
    second = source.commit_of(symlink(".gitmodules", source.text), on=[first])
    third = source.commit_of(symlink(".gitmodules", source.text), "a", on=[second])
    line = bad_name(".gitmodules", SYMLINK, None, second)
    assert server.push(third) == refused(line, MAKE_IT_A_FILE, change(second))


def test_a_submodule_is_first_in_the_commit_that_brings_it(server, source):
    second = source.commit(source.tree_with_bad_modules, source.clean)
    other = source.blob('[submodule "../x"]\n\tpath = y\n')
    third = source.commit_of(file(".gitmodules", other), on=[second])
    assert server.push(third) == refused(
        bad_submodule(commit=second), CORRECT_THE_FILE, change(second)
    )


def test_any_bytes_of_a_name_are_shown_as_git_quotes_them(server, source):
    modules = source.blob('[submodule "\1/.."]')
    odd = file(b'a"\n\t\r\1\x7f\xff', source.text)
    commit = source.commit_of(file(".gitmodules", modules), odd, on=[source.clean])
    place = r'.gitmodules: submodule "\001/.."'
    assert server.push(commit) == Result(
        1,
        bad_name(r'"a\"\n\t\r\001\177\377"', ILLEGAL, r"\"", commit)
        + bad_name(place, "Submodules names must not contains '..'", None, commit)
        + "push refused: 2 names are not allowed\n"
        + RENAME_THE_FILE
        + CORRECT_THE_FILE
        + change(commit),
    )


def test_a_name_of_2_MB_is_cut_and_takes_no_minutes(hook, source):
    modules = source.blob('[submodule "' + 2_000_000 * "\1" + '/.."]\n')
    commit = source.commit_of(file(".gitmodules", modules))
    name = 5 * r"\001" + "..." + 4 * r"\001" + "..."
    line = bad_name(
        f'.gitmodules: submodule "{name}"',
        "Submodules names must not contains '..'",
        None,
        commit,
    )
    result = hook.run(source.push_of(commit), through=["timeout", "20"])
    assert result == refused(line, CORRECT_THE_FILE, change(commit))


def test_a_name_deep_in_a_middle_commit_is_refused_with_its_directory(server, source):
    assert server.push(source.clean) == ACCEPTED
    deep = source.tree(
        folder(b"b \xff", source.tree(folder("c", source.tree_with_device), "d"))
    )
    middle = source.commit_of(folder("a", deep), "e", on=[source.clean])
    last = source.commit_of("a", on=[middle])
    line = bad_name(r'"a/b \377/c/aux.c"', DEVICE, "aux", middle)
    assert server.push(last) == refused(line, RENAME_THE_FILE, change(middle), ACCEPT)


def test_a_submodule_in_a_tag_of_a_tag_of_a_tree_is_refused_with_its_directory(
    server, source
):
    tree = source.tree(
        folder("a;", source.tree(folder("b", source.tree_with_bad_modules)))
    )
    tag = source.tag("tag", source.tag("tree", tree))
    line = bad_submodule("a;/b/.gitmodules")
    assert server.push(f"{tag}:refs/tags/one") == refused(
        line, CORRECT_THE_FILE, IT_MAY_BE_OLD
    )


def test_a_branch_is_checked_beside_a_delete_and_a_clean_branch(server, source):
    server.already_has(f"{source.clean}:refs/heads/main")
    result = server.push(
        ":refs/heads/main",
        f"{source.clean}:refs/heads/a",
        f"{source.device}:refs/heads/b",
    )
    assert result == source.device_refused


def test_a_directory_that_is_there_already_is_not_checked_again(server, source):
    bad = folder("a", source.tree_with_device)
    old = source.commit_of(bad, folder("b", source.tree("b")))
    server.already_has(f"{old}:refs/heads/old")
    new = source.commit_of(bad, folder("b", source.tree("c")), on=[old])
    assert server.push(f"{new}:refs/heads/old") == ACCEPTED


def test_a_missing_gitmodules_file_is_not_taken_for_a_good_one(hook, source):
    commit = source.commit_of(file(".gitmodules", source.missing))
    assert hook.run(source.push_of(commit)) == not_checked(
        "check_push submodules failed (status 2): "
        "malformed input: object 1: the object is missing"
    )


def test_a_missing_object_is_not_taken_for_a_good_one(hook, source):
    said = f"fatal: bad object {source.missing}"
    assert is_broken(hook.run(source.push_of(source.missing)), said)


def test_a_tag_that_calls_a_commit_a_blob_hides_no_tree(hook, source):
    """An older Git could believe it, and list no tree of the commit."""
    tag = source.tag("blob", source.device)
    assert is_broken(hook.run(source.push_of(tag)))


def test_a_blob_in_place_of_a_directory_is_refused_and_its_name_is_made_harmless(
    hook, source
):
    """Git prints the name as it is: a message with lines of the pusher's choice, or
    with control bytes."""
    tree = source.tree("a", folder("x\nall is well \u009b\u202e", source.text))
    assert is_broken(hook.run(source.push_of(tree)))


def test_a_gitmodules_file_in_two_directories_is_shown_once(server, source):
    tree = source.tree(
        file(".a", source.bad_modules),
        file(".gitmodules", source.good_modules),
        file(".gitmodules", source.bad_modules),
        folder("a", source.tree_with_bad_modules),
        folder("b", source.tree(file(".gitmodules", source.blob("")))),
    )
    result = server.push(source.commit(tree, source.clean))
    assert result.status == 1
    assert result.said.startswith(bad_submodule())
    assert "push refused: 1 name is not allowed\n" in result.said


def test_a_gitmodules_file_is_found_under_its_short_name_where_NTFS_is_protected(
    server, source
):
    server.configure("protect = hfs,ntfs")
    commit = source.commit_of(file("gitmod~1", source.bad_modules), on=[source.clean])
    assert server.push(commit) == refused(
        bad_submodule("gitmod~1", commit), CORRECT_THE_FILE, change(commit)
    )


def test_a_text_that_is_there_under_another_name_is_checked_as_gitmodules(
    server, source
):
    server.configure("protect = none")
    assert (
        server.push(source.commit_of(file("gitmod~1", source.bad_modules))) == ACCEPTED
    )
    result = server.push(f"{source.bad_submodule}:refs/heads/other")
    assert result == source.submodule_refused


def test_the_same_line_is_shown_and_counted_once(server, source):
    """A name comes back with each commit that changes something else in its
    directory."""
    commits = [source.device]
    for n in range(5):
        folder_ = source.tree("aux.h", f"f{n}")
        commits.append(source.commit_of(folder("src", folder_), on=commits[-1:]))
    assert server.push(commits[-1]) == Result(
        1,
        bad_name("src/aux.h", DEVICE, "aux", commits[1])
        + bad_name("aux.c", DEVICE, "aux", commits[0])
        + "push refused: 2 names are not allowed\n"
        + RENAME_THE_FILE
        + change(commits[0])
        + ACCEPT,
    )


@pytest.mark.parametrize(
    "name, shown",
    [
        ("a b.", "a b."),
        ("b ", '"b "'),
        ("x: y", '"x: y"'),
        ("caf\u00e9.", r'"caf\303\251."'),
        ('a"b', r'"a\"b"'),
        ("a\\b", r'"a\\b"'),
        ("\x01\x07\x08\t\n\x0b\x0c\r\x7f", r'"\001\a\b\t\n\v\f\r\177"'),
        (" a.", '" a."'),
        ("x" * 119 + ".", "x" * 119 + "."),
        ("x" * 120 + ".", "x" * 60 + "..." + "x" * 59 + "."),
        ("\x01" * 30 + ".", '"' + r"\001" * 15 + "..." + r"\001" * 14 + '."'),
    ],
)
def test_a_path_is_quoted_as_git_quotes_it_if_it_has_to_be(server, source, name, shown):
    result = server.push(source.commit_of(name))
    assert result.status == 1
    assert result.said.startswith(f"{shown}: ")


def test_a_long_path_is_shown_with_its_beginning_and_its_end(server, source):
    tree = source.tree("aux.c")
    for n in range(9, -1, -1):
        tree = source.tree(folder(f"{n}" * 50, tree))
    commit = source.commit(tree, source.clean)
    shown = "0" * 50 + "/" + "1" * 9 + "..." + "8" * 3 + "/" + "9" * 50 + "/aux.c"
    line = bad_name(shown, DEVICE, "aux", commit)
    advice = RENAME_THE_FILE, change(commit), ACCEPT
    assert server.push(commit) == refused(line, *advice)


def test_a_section_that_can_not_be_read_has_its_offset(server, source):
    modules = source.blob("# a\n[submodule a]\n")
    commit = source.commit_of(file(".gitmodules", modules), on=[source.clean])
    line = bad_name(".gitmodules", "at byte 4 a section can't be read", None, commit)
    assert server.push(commit) == refused(line, CORRECT_THE_FILE, change(commit))


# References. Who clones from a namespace sees its references without it.
def test_a_reference_in_a_namespace_is_also_checked_as_one_of_its_own(server, source):
    in_two = "refs/namespaces/a/refs/namespaces/b/refs/heads/HEAD"
    assert server.push(f"{source.clean}:{in_two}") == refused(
        f'{in_two}: Reference name is reserved and cannot be used: "refs/heads/HEAD"\n',
        RENAME_THE_REF,
    )


def test_a_replacement_in_a_namespace_is_refused(server, source):
    name = f"refs/namespaces/z/refs/replace/{source.good_modules}"
    assert server.push(f"{source.clean}:{name}") == refused(
        f"{name}: replacement references are not allowed\n", ALLOW_REPLACEMENTS
    )


def test_a_reference_in_thousands_of_namespaces_is_checked(hook, source):
    ref = "refs/namespaces/a/" * 3600 + "refs/heads/"
    assert hook.run(source.push_of(source.clean, f"{ref}x")) == ACCEPTED
    assert hook.run(source.push_of(source.clean, f"{ref}HEAD")).status == 1


def test_a_refused_reference_hides_nothing_of_its_files(server, source):
    result = server.push(f"{source.device}:refs/heads/HEAD")
    assert result == Result(
        1,
        bad_ref("refs/heads/HEAD")
        + bad_name("aux.c", DEVICE, "aux", source.device)
        + "push refused: 2 names are not allowed\n"
        + RENAME_THE_REF
        + RENAME_THE_FILE
        + change(source.device)
        + ACCEPT,
    )


def test_references_that_are_devices_or_look_like_options_are_accepted(server, source):
    """The page says that they are not checked."""
    names = "refs/heads/aux.c", "refs/heads/con", "refs/heads/-x", "refs/tags/-x"
    assert server.push(*(f"{source.clean}:{name}" for name in names)) == ACCEPTED


def test_a_failure_without_a_missing_commit_does_not_ask_for_a_full_clone(hook, source):
    hook.stand_in("git -c core.warn*rev-list", "echo 'fatal: no' >&2; exit 128")
    assert is_broken(hook.run(source.push_of(source.clean)), "fatal: no")


def test_other_references_in_a_namespace_are_accepted(server, source):
    names = "HEAD", "refs/heads/main", "refs/namespaces/b/refs/heads/main"
    refspecs = [f"{source.clean}:refs/namespaces/a/{name}" for name in names]
    assert server.push(*refspecs) == ACCEPTED
    assert server.push(":refs/namespaces/a/refs/heads/main") == ACCEPTED


# A shallow push.
@pytest.fixture
def shallow(room, source):
    """A clone that has the last of two commits alone."""
    last = source.commit_of("b", on=[source.clean])
    clone = Repository(room / "shallow", source.object_format, "--bare")
    alternates = clone.path / "objects/info/alternates"
    alternates.write_text(f"{source.path}/objects\n")
    (clone.path / "shallow").write_text(f"{last}\n")
    return clone, last


def test_a_shallow_push_to_a_server_that_has_the_history_is_accepted(
    server, source, shallow
):
    server.git("config", "receive.shallowUpdate", "true")
    clone, last = shallow
    server.already_has(f"{last}:refs/heads/main")
    new = source.commit_of("c", on=[last])
    assert server.push(new, GIT_DIR=clone.path) == ACCEPTED


@pytest.mark.parametrize("is_allowed", [False, True])
def test_a_shallow_push_that_leaves_out_commits_is_refused_with_what_helps(
    server, source, shallow, is_allowed
):
    """Nobody could check these commits, and the server would become shallow, too."""
    server.git("config", "receive.shallowUpdate", str(is_allowed).lower())
    clone, last = shallow
    missing = rf"error: Could not read {source.clean} "
    missing += rf"fatal: Failed to traverse parents of commit {last}"
    result = server.push(last, GIT_DIR=clone.path)
    [reason, help] = result.said.splitlines(keepends=True)
    assert is_broken(Result(result.status, reason), missing)
    assert help == FULL_CLONE


# References in reftables, which Git has since 2.45.
@pytest.fixture
def with_reftables(server):
    """A server that has them, with the same objects and settings."""
    words = "git", "init", "-q", "--bare", "--ref-format=reftable"
    new = server.path.with_name("reftable")
    command = [*words, f"--object-format={server.object_format}", new]
    subprocess.run(command, env=ENVIRONMENT, check=True)
    shutil.rmtree(new / "hooks")
    shutil.copytree(server.path / "hooks", new / "hooks")
    shutil.rmtree(server.path)
    new.rename(server.path)
    return server


# (Debian 12's Git has none. Its run has no such test, because one that is skipped fails it.)
if git_version() >= (2, 45):

    def test_a_server_with_reftables_is_checked_and_what_it_has_is_old(
        with_reftables, scan, source
    ):
        server = with_reftables
        device = source.device
        server.already_has(*(f"{device}:refs/heads/{n}" for n in range(2000)))
        assert server.push(source.commit_of("a", on=[device])) == ACCEPTED
        con = source.commit_of("con", on=[device])
        assert server.push(con).said.startswith(bad_name("con", DEVICE, "con", con))
        assert scan(server) == found(bad_name("aux.c", DEVICE))
        copied = scan("/", "--copy", server.path)
        assert copied.status == 1 and copied.said.endswith(bad_name("aux.c", DEVICE))


# A fork that borrows the objects of another repository.
@pytest.fixture
def upstream(room, source):
    """A repository with a name that was never checked."""
    upstream = Repository(room / "upstream", source.object_format, "--bare")
    borrow(upstream, source)
    upstream.git("update-ref", "refs/heads/main", source.device)
    return upstream


@pytest.fixture
def fork(server, upstream):
    borrow(server, upstream)
    return server


def borrow(borrower, owner):
    alternates = borrower.path / "objects/info/alternates"
    alternates.write_text(f"{owner.path}/objects\n")


def test_the_history_that_a_fork_borrows_is_checked(fork, source):
    new = source.commit_of("a", on=[source.device])
    assert fork.push(new) == source.device_refused


def test_what_a_fork_borrows_is_old_if_a_setting_says_so(fork, source):
    fork.configure("alternateRefs = true")
    new = source.commit_of("a", on=[source.device])
    assert fork.push(new) == ACCEPTED
    con = source.commit_of("con", on=[new])
    assert fork.push(con).said.startswith(bad_name("con", DEVICE, "con", con))


def test_the_history_that_a_fork_borrows_is_old_if_the_fork_has_references_to_it(
    fork, upstream, source
):
    fork.git("fetch", "-q", upstream.path, "+refs/heads/*:refs/upstream/*")
    fork.git("config", "--add", "transfer.hideRefs", "refs/upstream")
    new = source.commit_of("a", on=[source.device])
    assert fork.push(new) == ACCEPTED
