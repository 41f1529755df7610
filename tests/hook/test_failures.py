"""Whatever fails, nothing hostile is accepted: the hook and the scan fail closed."""

import pytest

from tests.hook.expected import ACCEPTED, NOT_THE_HOOK, Result, not_checked

pytestmark = pytest.mark.one_format

# The parts of the hook, with what it says if that part fails at once. (`git config` is
# git, where its words are these, and `check_push refs` likewise.)
TREES, FILES = "git cat-file*%(rest)", "git cat-file*size) --buffer"
REASONS = {
    "git config": "git config failed (status 9)",
    "git -c core.warn*rev-list": "git rev-list failed (status 9)",
    TREES: "git cat-file failed (status 9)",
    FILES: "git cat-file failed (status 9)",
    "check_push refs": "check_push refs failed (status 9)",
    "check_push trees": "check_push trees failed (status 9)",
    "check_push submodules": "check_push submodules failed (status 9)",
}
# What the scan runs.
OF_THE_SCAN = ["git for-each-ref", *REASONS]

# The ways in which a part fails. "$real" "$@" is the part itself, and $grand the parent
# of its parent.
WAYS = {
    "fails": "exit 9",
    "reads all, then fails": "cat > /dev/null; exit 1",
    "is killed": "kill -9 $$",
    "takes its parent along": "kill -9 $PPID",
    "is killed at its end": '{ "$real" "$@"; kill -9 $$; }',
    "is cut, then fails": '"$real" "$@" | head -c 50; exit 9',
    "is cut, then takes its parent along": """
        "$real" "$@" | {
            head -c 30
            kill -9 $PPID
        }
    """,
    "takes its grandparent along": 'kill -9 "$grand"',
    "leaves its parents no descriptors": """
        for process in $PPID $grand; do
            prlimit --pid="$process" --nofile=4 > /dev/null
        done
    """,
}
# A program that says that all is well, and whose output the next one can check. (A `git
# rev-list` or a check that lies can't be told from a true one.)
LIES = {
    "does nothing": "exit 0",
    "is cut": '"$real" "$@" | head -c 50; exit 0',
    "prints the first object alone": 'head -n 1 | "$real" "$@"; cat > /dev/null; exit 0',
    "loses its last line": '"$real" "$@" | sed \\$d; exit 0',
}
LIARS = [TREES, FILES]


def failures(parts):
    """Parameters for each part and way."""
    return pytest.mark.parametrize(
        "part, way",
        [
            pytest.param(part, script, id=f"{part} {way}")
            for part in parts
            for way, script in (WAYS | (LIES if part in LIARS else {})).items()
        ],
    )


@failures(REASONS)
def test_nothing_hostile_is_accepted_if_a_part(hook, hostile_push, part, way):
    hook.stand_in(part, way)
    assert hook.run(hostile_push.lines).status != 0


@pytest.mark.parametrize("part", REASONS)
def test_a_clean_push_is_refused_if_a_part_is_killed_when_it_has_done_all(
    hook, source, part
):
    hook.stand_in(part, WAYS["is killed at its end"])
    assert hook.run(source.pushes["clean"].lines).status == 2


@failures(OF_THE_SCAN)
def test_the_scan_finds_no_hostile_repository_clean_if_a_part(
    scan, hook, server, source, part, way
):
    server.already_has(
        f"{source.device}:refs/heads/HEAD", f"{source.bad_submodule}:refs/heads/modules"
    )
    hook.stand_in(part, way)
    result = scan(server)
    assert result.status != 0
    if way.endswith("exit 9"):
        assert "git scan-names: " in result.said


@pytest.mark.parametrize("part", [it for it in REASONS if it.startswith("check_push")])
@pytest.mark.parametrize(
    "way", [f"{said}; exit {n}" for said in ("printf half", "echo no") for n in (0, 1)]
)
def test_a_report_that_is_cut_or_in_another_form_is_a_failure(hook, source, part, way):
    hook.stand_in(part, f"cat > /dev/null; {way}")
    assert hook.run(source.pushes["clean"].lines).status == 2


@pytest.mark.parametrize("part", REASONS)
def test_the_hook_says_which_part_failed(hook, source, part):
    hook.stand_in(part, "exit 9")
    assert hook.run(source.pushes["submodule"].lines).ending == not_checked(
        REASONS[part]
    )


# What the hook gets in another way than Git would give it. `"$@"` is the hook.
STREAMS = ["", "<&-", ">&-", "2>&-", "<&- >&- 2>&-"]
LIMITS = [f"ulimit -n {n}" for n in range(4, 15)]
LIMITS += [f"ulimit -v {n}000" for n in range(2, 33, 3)]


@pytest.mark.parametrize(
    "way",
    [f'exec "$@" {streams}' for streams in STREAMS]
    + [f'{limit}; exec "$@"' for limit in LIMITS],
)
def test_nothing_hostile_is_accepted_if_streams_are_closed_or_limits_are_low(
    hook, hostile_push, way
):
    assert hook.run(hostile_push.lines, through=["bash", "-c", way, "-"]).status != 0


def test_a_closed_input_is_not_taken_for_an_empty_push(hook, source):
    result = hook.run(
        source.pushes["clean"].lines, through=["bash", "-c", 'exec "$@" <&-', "-"]
    )
    assert result == not_checked(
        "check_push refs failed (status 2): malformed input: line 1: the input is empty"
    )


def test_the_hook_needs_no_room_for_files(hook, push):
    no_files = '(ulimit -f 0; exec "$@") 2>&1 | cat; exit "${PIPESTATUS[0]}"'
    result = hook.run(
        push.lines, through=["bash", "-c", no_files, "-"], TMPDIR=hook.home / "missing"
    )
    assert result == push.expected


@pytest.mark.parametrize("version", ["1.9.5", "2.9.0", "2.38.5", "2.4.12", "2.3"])
def test_an_old_git_refuses_every_push(hook, source, version):
    hook.stand_in("git config", f"echo version {version} >&2; exit 1")
    too_old = not_checked(
        f"git version {version} is too old: it has to be 2.39 or later"
    )
    assert hook.run(source.pushes["clean"].lines) == too_old


@pytest.mark.parametrize(
    "version",
    ["2.39.0.rc1", "2.39.5 (Apple Git-154)", "2.50.1", "2.100", "3.0", "10.2.1"],
)
def test_a_git_that_is_new_enough_is_used(hook, source, version):
    hook.stand_in("git config", f"echo 'version {version}' >&2; exit 1")
    assert hook.run(source.pushes["clean"].lines) == ACCEPTED


def test_a_hook_that_was_just_replaced_says_to_push_again(hook, source):
    """Linux can run a file that is gone, and calls it by another name then."""
    script = 'exec 3< "$1"; rm "$1"; exec /proc/self/fd/3'
    through = ["bash", "-c", script, "bash"]
    result = hook.run(source.push_of(source.clean), through=through)
    assert result == Result(
        2, NOT_THE_HOOK.format(f"{hook.folder}/pre-receive (deleted)")
    )
