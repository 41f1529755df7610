"""Starts commands for the tests, and ends all that they leave behind."""

import os
import select
import signal
import subprocess
import tempfile

from tests.hook.git import ENVIRONMENT


def start(command, cwd, env, given=subprocess.DEVNULL, said=subprocess.DEVNULL):
    """Starts a command in a session of its own, so that it can't kill a process of the
    tests. A variable that is None is unset."""
    env = {
        name: str(value)
        for name, value in (ENVIRONMENT | env).items()
        if value is not None
    }
    return subprocess.Popen(
        command,
        stdin=given,
        stdout=said,
        stderr=said,
        cwd=cwd,
        env=env,
        start_new_session=True,
    )


def end(process, seconds=60):
    """Waits for a command, which has to end in time, and ends what it leaves, such as
    the children of a hook that was killed. Returns its status as a shell has it."""
    # (process.wait(seconds) would look again and again)
    handle = os.pidfd_open(process.pid)
    in_time, _, _ = select.select([handle], [], [], seconds)
    os.close(handle)
    try:
        os.killpg(process.pid, signal.SIGKILL)
    except ProcessLookupError:
        pass
    status = process.wait()
    if not in_time:
        raise AssertionError(f"it did not end in {seconds} seconds")
    return status if status >= 0 else 128 - status


def run(command, cwd, env, given=""):
    """Runs a command. Returns its status, and the lines that it wrote."""
    with tempfile.TemporaryFile() as stdin, tempfile.TemporaryFile() as said:
        stdin.write(given.encode())
        stdin.seek(0)
        status = end(start(command, cwd, env, stdin, said))
        said.seek(0)
        return status, said.read().decode("latin-1").splitlines(keepends=True)


def write_script(path, *lines):
    path.unlink(missing_ok=True)
    path.write_text("\n".join(["#!/bin/sh", *lines, ""]))
    path.chmod(0o755)
