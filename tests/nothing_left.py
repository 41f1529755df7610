"""A pytest plugin: a run leaves nothing in the temporary directory.

Each run has a temporary directory of its own, below that of the machine. It goes with the
run, and pytest's own files with it, unless a test failed. What else tests left in it is
named at the end. (That is no failure: tools of others, such as wine, sometimes leave
something there, and it goes, too.)
"""

import os
import shutil
import tempfile

import pytest


class Room:
    """The directory of a run. (Its workers get the name from the environment.)"""

    def __init__(self, config):
        self.path, self.is_kept = tempfile.mkdtemp(prefix="tests."), False
        os.chmod(self.path, 0o711)  # (some tests run a program as another user)
        self.say = lambda line: config.get_terminal_writer().line(f"\n{line}")
        self.before = os.environ.get("TMPDIR")
        self.set(self.path)
        if not config.option.basetemp:
            config.option.basetemp = f"{self.path}/pytest"

    def set(self, path):
        if path is None:
            del os.environ["TMPDIR"]
        else:
            os.environ["TMPDIR"] = path
        tempfile.tempdir = None  # (so that the variable is read again)

    @pytest.hookimpl(trylast=True)  # (after the last worker has ended)
    def pytest_sessionfinish(self, session):
        left = [it for it in os.listdir(self.path) if it != "pytest"]
        if left:
            self.say(f"tests left in the temporary directory: {' '.join(left)}")
        self.is_kept = session.exitstatus == pytest.ExitCode.TESTS_FAILED

    def pytest_unconfigure(self):
        self.set(self.before)
        if self.is_kept:
            self.say(f"the temporary files of this run are in {self.path}")
        else:
            shutil.rmtree(self.path, ignore_errors=True)


@pytest.hookimpl(tryfirst=True)  # (before pytest reads where its files go)
def pytest_configure(config):
    if not hasattr(config, "workerinput"):
        config.pluginmanager.register(Room(config))
