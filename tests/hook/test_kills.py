"""Kills of a random process at a random time let nothing hostile in."""

import os
import random
import signal
import time
from pathlib import Path

import pytest

from tests.hook.processes import end, start

pytestmark = pytest.mark.one_format

# What is killed, and how often.
CHECKS = ["device", "submodule", "ref", "own hook", "scan"]
KILLS = 50


def descendants(pid):
    """The processes below this one."""
    try:  # (each thread has its own children)
        threads = list(Path(f"/proc/{pid}/task").iterdir())
        children = [
            it for thread in threads for it in (thread / "children").read_text().split()
        ]
    except (FileNotFoundError, ProcessLookupError):
        return []
    return [it for child in map(int, children) for it in (child, *descendants(child))]


class Check:
    """A run of the hook or the scan, in which a process can be killed."""

    def __init__(self, command, folder, env, lines):
        self.command, self.folder, self.env, self.lines = command, folder, env, lines

    def run(self, kill_after=None):
        """The status, and whether a process was killed after so many seconds."""
        with open(self.lines) as given:
            process = start(self.command, self.folder, self.env, given)
        was_killed = False
        if kill_after is not None:
            time.sleep(kill_after)
            if victims := descendants(process.pid):
                try:
                    os.kill(random.choice(victims), signal.SIGKILL)
                    was_killed = True
                except ProcessLookupError:
                    pass
        return end(process), was_killed

    def seconds(self):
        """How long a run takes that nothing disturbs, and that refuses the push."""
        begin = time.monotonic()
        assert self.run() == (1, False)
        return time.monotonic() - begin


@pytest.fixture(params=CHECKS)
def check(request, hook, server, two_hooks, source, room):
    """The hook on each kind of hostile push, the hook after another one, and the scan
    of a hostile server."""
    server.already_has(f"{source.device}:refs/heads/main")
    command, folder, env = hook.command(), source.path, {"GIT_DIR": "."}
    kind = request.param if request.param in source.pushes else "device"
    if request.param == "own hook":
        assert two_hooks.set_up(f"cat > '{room}/seen'") == (0, [])
        command = hook.command(two_hooks.both)
    if request.param == "scan":
        command, folder, env = [hook.folder / "scan"], server.path, {}
    lines = room / "lines"
    lines.write_text(source.pushes[kind].lines)
    return Check(command, folder, hook.environment(env), lines)


def test_random_kills_let_nothing_hostile_in(check):
    # (on a busy machine one run can take long)
    length = min(check.seconds() for _ in range(5))
    statuses = []
    for _ in range(KILLS * 10):
        after = random.uniform(0, length)
        status, was_killed = check.run(after)
        assert status != 0, f"a kill after {after} s of {length}"
        statuses += [status] * was_killed
        if len(statuses) == KILLS:
            break
    assert len(statuses) == KILLS
    assert set(statuses) != {1}, "no kill ended a check"
