"""The settings names.*, and that the account which pushes has no say."""
import shutil

import pytest

from tests.hook.expected import (
    ACCEPT,
    ACCEPTED,
    ALLOW_REPLACEMENTS,
    CORRECT_THE_FILE,
    DEVICE,
    DOT_GIT,
    FILE_SYSTEMS,
    IT_MAY_BE_OLD,
    RENAME_THE_FILE,
    Result,
    bad_name,
    bad_submodule,
    change,
    not_checked,
    refused,
)

pytestmark = pytest.mark.one_format


def refused_name(name, fault, commit):
    line = bad_name(name, fault, None, commit)
    return refused(line, RENAME_THE_FILE, change(commit))


def push_of_clean_branches(server):
    clean = server.hook.source.clean
    return server.push(f"{clean}:refs/heads/main", f"{clean}:refs/heads/topic")


# Replacements.
def replacement(source):
    """A ref that would make Git show the bad .gitmodules file for the good one."""
    return f"{source.bad_modules}:refs/replace/{source.good_modules}"


def refused_replacement(source):
    ref = f"refs/replace/{source.good_modules}"
    line = f"{ref}: replacement references are not allowed\n"
    return refused(line, ALLOW_REPLACEMENTS)


def test_a_replacement_is_refused_beside_a_clean_branch(server, source):
    assert server.push(
        f"{source.clean}:refs/heads/main", replacement(source)
    ) == refused_replacement(source)


def test_the_last_setting_of_replace_counts(server, source):
    server.configure("replace = true", "replace = false")
    assert server.push(replacement(source)) == refused_replacement(source)


@pytest.mark.parametrize(
    "setting, is_true",
    [
        ("replace = yes", True),
        ("replace = On", True),
        ("replace = TRUE", True),
        ("replace = 1", True),
        ("replace", True),
        ("replace = no", False),
        ("replace = oFF", False),
        ("replace = 0", False),
        ("replace =", False),
    ],
)
def test_a_replacement_is_allowed_if_the_setting_is_true_to_git(
    server, source, setting, is_true
):
    server.configure(setting)
    good_for_bad = f"{source.good_modules}:refs/replace/{source.bad_modules}"
    assert (server.push(good_for_bad) == ACCEPTED) == is_true


def test_a_replacement_that_is_allowed_changes_nothing_in_what_is_checked(
    server, source
):
    server.configure("replace = true")
    good_for_bad = f"{source.good_modules}:refs/replace/{source.bad_modules}"
    assert server.push(source.clean, good_for_bad) == ACCEPTED
    result = server.push(f"{source.bad_submodule}:refs/heads/other")
    assert result == source.submodule_refused
    commit = source.commit_of("git~1")
    assert server.push(commit) == refused_name("git~1", DOT_GIT, commit)


@pytest.mark.parametrize("namespace", ["", "refs/namespaces/z/"])
def test_a_file_that_replaces_another_is_read_as_gitmodules(server, source, namespace):
    """Git would show it in place of a .gitmodules file that was accepted."""
    server.configure("replace = true")
    ref = f"{namespace}refs/replace/{source.good_modules}"
    assert server.push(f"{source.bad_modules}:{ref}") == refused(
        bad_submodule(ref), CORRECT_THE_FILE, IT_MAY_BE_OLD
    )


def test_a_file_that_is_there_already_is_read_when_it_replaces_another(server, source):
    server.configure("replace = true")
    assert server.push(f"{source.bad_modules}:refs/blobs/some") == ACCEPTED
    assert server.push(replacement(source)) == refused(
        bad_submodule(f"refs/replace/{source.good_modules}"),
        CORRECT_THE_FILE,
        IT_MAY_BE_OLD,
    )
    assert server.push(":refs/blobs/some") == ACCEPTED


def test_what_replaces_a_tree_or_a_commit_is_checked(server, source):
    server.configure("replace = true")
    tree = source.clean
    result = server.push(f"{source.device}:refs/replace/{tree}")
    assert result == source.device_refused


# File systems.
@pytest.mark.parametrize("word", ["windows,hsf", "", " ", r"none\n"])
def test_an_unknown_file_system_refuses_every_push(server, word):
    server.configure(f'protect = "{word}"')
    result = push_of_clean_branches(server)
    shown = word.replace(r"\n", " ")
    assert result.ending == not_checked(
        f'the setting names.protect is "{shown}": {FILE_SYSTEMS}', status=1
    )


# What each list refuses of three names. (Windows has NTFS.)
HFS_NAME, NTFS_NAME, DEVICE_NAME = ".g\u200cit", "git~1", "aux.c"
REFUSED_UNDER = {
    "windows": [NTFS_NAME, DEVICE_NAME],
    "hfs": [HFS_NAME],
    "ntfs": [NTFS_NAME],
    "windows,hfs": [HFS_NAME, NTFS_NAME, DEVICE_NAME],
    "hfs,windows": [HFS_NAME, NTFS_NAME, DEVICE_NAME],
    "windows,ntfs": [NTFS_NAME, DEVICE_NAME],
    "ntfs,windows": [NTFS_NAME, DEVICE_NAME],
    "hfs,ntfs": [HFS_NAME, NTFS_NAME],
    "ntfs,hfs": [HFS_NAME, NTFS_NAME],
    "windows,hfs,ntfs": [HFS_NAME, NTFS_NAME, DEVICE_NAME],
    "windows,ntfs,hfs": [HFS_NAME, NTFS_NAME, DEVICE_NAME],
    "hfs,windows,ntfs": [HFS_NAME, NTFS_NAME, DEVICE_NAME],
    "hfs,ntfs,windows": [HFS_NAME, NTFS_NAME, DEVICE_NAME],
    "ntfs,windows,hfs": [HFS_NAME, NTFS_NAME, DEVICE_NAME],
    "ntfs,hfs,windows": [HFS_NAME, NTFS_NAME, DEVICE_NAME],
    "ntfs,hfs,windows,hfs": [HFS_NAME, NTFS_NAME, DEVICE_NAME],
    "none": [],
}


@pytest.fixture
def three_names(source):
    return source.tree(HFS_NAME, NTFS_NAME, DEVICE_NAME)


def result_for(names, commit):
    """The result of a push of a commit with that tree, in which these names are
    refused."""
    if not names:
        return ACCEPTED
    lines = {
        HFS_NAME: bad_name(r'".g\342\200\214it"', DOT_GIT, None, commit),
        NTFS_NAME: bad_name("git~1", DOT_GIT, None, commit),
        DEVICE_NAME: bad_name("aux.c", DEVICE, "aux", commit),
    }
    count = "1 name is" if len(names) == 1 else f"{len(names)} names are"
    said = "".join(lines[name] for name in names)
    said += f"push refused: {count} not allowed\n{RENAME_THE_FILE}"
    said += change(commit)
    return Result(1, said + (ACCEPT if DEVICE_NAME in names else ""))


@pytest.mark.parametrize("words, names", REFUSED_UNDER.items(), ids=str)
def test_a_push_brings_just_the_names_that_no_protected_file_system_refuses(
    server, source, three_names, words, names
):
    server.configure(f"protect = {words}")
    commit = source.commit(three_names)
    assert server.push(commit) == result_for(names, commit)


def test_without_the_setting_all_file_systems_are_protected(
    server, source, three_names
):
    commit = source.commit(three_names)
    expected = result_for(REFUSED_UNDER["windows,hfs,ntfs"], commit)
    assert server.push(commit) == expected


@pytest.mark.parametrize(
    "first, last", [("none", "windows,ntfs"), ("windows,ntfs", "none")]
)
def test_of_several_settings_of_file_systems_the_last_counts(
    server, source, three_names, first, last
):
    server.configure(f"protect = {first}", f"protect = {last}")
    commit = source.commit(three_names)
    assert server.push(commit) == result_for(REFUSED_UNDER[last], commit)


# Names that are accepted.
def test_names_are_accepted_that_windows_alone_forbids(server, source):
    server.configure("accept = aux.c", "accept = x/.GIT/con.h")
    assert server.push(source.commit_of("aux.c", "con.h")) == ACCEPTED
    con = source.commit_of("con.c")
    assert server.push(con).said.startswith(bad_name("con.c", DEVICE, "con", con))
    commit = source.commit_of(".GIT")
    assert server.push(commit) == refused_name(".GIT", DOT_GIT, commit)


def test_any_number_of_names_can_be_accepted(server, source):
    """Linux passes 128 KiB in one argument."""
    names = [f"aux.{n:030d}" for n in range(6000)]
    server.configure(*(f"accept = {name}" for name in names))
    assert server.push(source.commit_of(*names)) == ACCEPTED
    assert server.push(source.commit_of("aux.h")).status == 1


def test_more_names_than_linux_passes_refuse_every_push(server, source):
    names = ["x" * 60_000 for _ in range(40)]
    server.configure(*(f"accept = {name}" for name in names))
    assert server.push(source.clean) == not_checked(
        "check_push trees could not be started: Argument list too long (os error 7)",
        status=1,
    )


@pytest.mark.parametrize(
    "setting, why",
    [
        ("accept", "accept has no value"),
        (r"accept = aux.c\n", "accept has a newline"),
        (r"accept = aux.c\ncon.h", "accept has a newline"),
        ("accept-existing = true", "accept-existing is unknown"),
        ("limits = 2", "limits is unknown"),
        ("replace = maybe", "replace is neither true nor false"),
        ("alternateRefs = maybe", "alternaterefs is neither true nor false"),
        ("seconds = 0", 'seconds is "0": give a number from 1 to 1000000000'),
        ("seconds = 2k", 'seconds is "2k": give a number from 1 to 1000000000'),
        ("megabytes = -1", 'megabytes is "-1": give a number from 1 to 1000000000'),
        ("megabytes", "megabytes has no value"),
    ],
)
def test_a_setting_without_a_clear_meaning_refuses_every_push(server, setting, why):
    server.configure(setting)
    expected = not_checked(f"the setting names.{why}", status=1)
    assert push_of_clean_branches(server).ending == expected


def test_settings_that_git_can_not_read_are_shown_with_what_git_says(
    hook, source, room
):
    shutil.copytree(source.path, room / "server")
    with open(room / "server/config", "a") as config:
        config.write("[names\n")
    lines = sum(1 for _ in open(room / "server/config"))
    assert hook.run(source.push_of(source.clean), cwd=room / "server") == not_checked(
        "git config failed (status 128): "
        f"fatal: bad config line {lines} in file ./config"
    )


# A path such as ~/attributes needs the variable HOME.
@pytest.mark.parametrize("key", ["core.attributesFile", "core.excludesFile"])
def test_paths_in_the_home_directory_are_no_failure(server, source, key):
    server.git("config", key, "~/some")
    assert server.push(source.clean) == ACCEPTED


def test_what_the_settings_include_from_the_home_directory_counts(server, source, room):
    server.git("config", "include.path", "~/more")
    (room / "more").write_text("[names]\n\taccept = aux.c\n")
    assert server.push(source.device) == ACCEPTED


# Settings of the account are ignored, which is said.
IGNORED = (
    "The setting names.accept with the scope {} is ignored: "
    "set it in the repository, or with git config --system\n"
)


@pytest.mark.parametrize("scope", ["global", "command"])
def test_a_setting_that_is_ignored_is_said_once(hook, source, room, scope):
    (room / ".gitconfig").write_text("[names]\n\taccept = aux.c\n\taccept = x\n")
    of_environment = {
        "GIT_CONFIG_COUNT": "1",
        "GIT_CONFIG_KEY_0": "names.accept",
        "GIT_CONFIG_VALUE_0": "aux.c",
        "GIT_CONFIG_GLOBAL": "/dev/null",
    }
    of_account = {"GIT_CONFIG_GLOBAL": None}
    env = of_account if scope == "global" else of_environment
    expected = source.device_refused.said + IGNORED.format(scope)
    assert hook.run(source.push_of(source.device), **env) == Result(1, expected)
    assert hook.run(source.push_of(source.clean), **env) == ACCEPTED


# The environment of the hook is that of the account that pushes, as far as sshd passes
# it on.
@pytest.mark.parametrize(
    "env",
    [
        {"GIT_CONFIG": "SETTINGS"},
        {"GIT_CONFIG_GLOBAL": "SETTINGS"},
        {"GIT_CONFIG_GLOBAL": None},
        {"GIT_CONFIG_NOSYSTEM": None, "GIT_CONFIG_SYSTEM": "SETTINGS"},
        {
            "GIT_CONFIG_COUNT": "1",
            "GIT_CONFIG_KEY_0": "names.protect",
            "GIT_CONFIG_VALUE_0": "none",
        },
        {"GIT_CONFIG_PARAMETERS": "'names.protect=none'"},
        {"GIT_GRAFT_FILE": "GRAFTS"},
    ],
    ids=lambda env: "+".join(env),
)
def test_who_pushes_can_not_weaken_the_check(hook, room, source, env):
    """Neither by settings, which would protect nothing, nor by a graft, which would
    hide the parent with the device."""
    commit = source.commit_of("a", on=[source.device])
    settings, grafts = room / ".gitconfig", room / "grafts"
    settings.write_text("[names]\n\tprotect = none\n\treplace = true\n")
    grafts.write_text(f"{commit}\n")
    env = {
        name: {"SETTINGS": settings, "GRAFTS": grafts}.get(value, value)
        for name, value in env.items()
    }
    result = hook.run(source.push_of(commit), **env)
    assert result.status == 1
    assert result.said.startswith(source.device_refused.said)


def test_who_pushes_can_not_set_what_the_hook_sets(hook, push):
    """Git runs with these values of the hook, whatever the environment has."""
    hook.stand_in(
        "git",
        '[ "$LC_ALL:$GIT_NO_LAZY_FETCH:$GIT_NO_REPLACE_OBJECTS" = ":1:1" ] || exit 9',
    )
    env = {"LC_ALL": "C.UTF-8", "GIT_NO_LAZY_FETCH": "0"}
    assert hook.run(push.lines, **env, GIT_NO_REPLACE_OBJECTS=None) == push.expected


def test_the_settings_of_the_system_are_read_even_if_who_pushes_says_no(hook, push):
    hook.stand_in("git config", '[ -z "${GIT_CONFIG_NOSYSTEM+set}" ] || exit 9')
    assert hook.run(push.lines, GIT_CONFIG_NOSYSTEM="1") == push.expected
