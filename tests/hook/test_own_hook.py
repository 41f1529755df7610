"""Another hook and ours, as hook/README.md sets them up: each gets all lines of a push,
and may read none. Whatever fails refuses the push."""

import pytest

from tests.hook.expected import ACCEPTED, Result

pytestmark = pytest.mark.one_format


@pytest.fixture
def keep(two_hooks):
    """Sets the server up with another hook of these lines."""

    def set_up(*own):
        assert two_hooks.set_up(*own) == (0, [])

    return set_up


def test_a_push_is_accepted_if_both_hooks_accept_it(two_hooks, keep, source, room):
    keep(f"cat > '{room}/seen'", f"grep -q topic '{room}/seen' || exit 0", "exit 3")
    assert two_hooks.server.push(source.clean) == ACCEPTED
    assert two_hooks.server.push(source.device) == source.device_refused


def test_the_other_hook_can_refuse_a_push_by_its_lines_and_say_why(
    two_hooks, keep, source, room
):
    seen = room / "seen"
    keep(f"cat > '{seen}'", f"grep -q topic '{seen}' || exit 0", "echo no", "exit 3")
    assert two_hooks.server.push(source.clean) == ACCEPTED
    topic = f"{source.clean}:refs/heads/topic"
    assert two_hooks.server.push(source.clean, topic) == Result(1, "no\n")
    assert two_hooks.server.push(source.commit_of("b", on=[source.clean])) == ACCEPTED


def test_each_hook_gets_all_lines_and_no_file_is_left(two_hooks, keep, push, room):
    files, seen = room / "tmp", room / "seen"
    files.mkdir()
    keep(f"cat > '{seen}'")
    assert two_hooks.run(push.lines, TMPDIR=files) == push.expected
    assert seen.read_text() == push.lines
    assert not list(files.iterdir())


def test_a_hook_that_reads_no_line_takes_none_from_ours(two_hooks, keep, push, room):
    files = room / "tmp"
    files.mkdir()
    keep(":")
    assert two_hooks.run(push.lines, TMPDIR=files) == push.expected
    assert not list(files.iterdir())


@pytest.mark.parametrize("way", ["exit 9", "head -n 1; exit 9", "kill -9 $PPID"])
def test_if_the_lines_can_not_be_kept_the_push_is_refused(
    two_hooks, keep, hook, source, way
):
    keep("while read -r line; do :; done")
    hook.stand_in("cat", way)
    assert two_hooks.run(source.pushes["clean"].lines).status != 0


@pytest.mark.parametrize(
    "way",
    ['TMPDIR=/nowhere exec "$@"', 'ulimit -f 0; exec "$@"', 'exec "$@" <&-'],
)
def test_without_room_or_input_the_push_is_refused(two_hooks, keep, source, way):
    keep("while read -r line; do :; done")
    through = ["bash", "-c", way, "-"]
    assert two_hooks.run(source.pushes["clean"].lines, through=through).status != 0


def test_another_hook_that_is_not_executable_refuses_every_push(
    two_hooks, keep, source
):
    keep(":")
    two_hooks.own.chmod(0o644)
    assert two_hooks.run(source.pushes["clean"].lines).status != 0


def test_another_hook_that_is_missing_refuses_every_push(two_hooks, keep, source):
    keep(":")
    two_hooks.own.unlink()
    assert two_hooks.run(source.pushes["clean"].lines).status != 0


def test_if_our_hook_is_missing_every_push_is_refused(two_hooks, keep, source):
    keep(":")
    two_hooks.ours.unlink()
    assert two_hooks.run(source.pushes["clean"].lines).status != 0
