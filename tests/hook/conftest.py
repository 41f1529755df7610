"""What the tests of the hook and the scan get if they name it as an argument.

Pushes go from a temporary repository to temporary servers, with real Git. Each test
runs with SHA-1 objects and again with SHA-256, unless it has the mark `one_format`: that
is for what no id plays a part in, such as a program that fails.

- `source`: the repository to push from. git.py makes its blobs, trees, commits and
  tags, also those that Git refuses to make.
- `server`: an empty one with the hook. `server.push(commit)` is a real push,
  `server.already_has(commit)` brings it past the hook.
- `hook`, `scan`: what hook/install installs. A test may break it:
  `hook.stand_in("git config", "exit 9")`.
- `push`, `hostile_push`: pushes of all kinds, as Git gives them to the hook.
- `two_hooks`: a server that keeps another hook.
- `work`: a repository with a work tree and a linked one.

What is expected is written out in expected.py.
"""

import difflib
import re
import shutil
import subprocess
import tempfile
from pathlib import Path

import pytest

from tests.hook.expected import Result
from tests.hook.installed import ROOT, Hook, TwoHooks
from tests.hook.repositories import Server, Source, Work


@pytest.fixture(scope="session", autouse=True)
def git():
    """The hook needs Git 2.39, and so do its tests."""
    if not shutil.which("git"):
        pytest.skip("needs git (Debian: git)")
    version = subprocess.run(
        ["git", "version"], stdout=subprocess.PIPE, text=True, check=True
    ).stdout
    number = re.search(r"(\d+)\.(\d+)", version)
    if tuple(map(int, number.groups())) < (2, 39):
        pytest.skip(f"needs Git 2.39 or later, and this is {version}")


def pytest_generate_tests(metafunc):
    if "object_format" in metafunc.fixturenames:
        is_one = metafunc.definition.get_closest_marker("one_format")
        formats = ["sha1"] if is_one else ["sha1", "sha256"]
        metafunc.parametrize("object_format", formats, True, scope="session")


@pytest.fixture(scope="session")
def object_format(request):
    return request.param


@pytest.fixture(scope="session")
def installed(request, tmp_path_factory):
    """What hook/install installs."""
    folder = tmp_path_factory.mktemp("hook") / "installed"
    built = ["--built"] if request.config.getoption("built") else []
    subprocess.run([ROOT / "hook/install", folder, *built], check=True)
    return folder


@pytest.fixture(scope="session")
def source(object_format, tmp_path_factory):
    """The repository to push from. Tests share it: they only add objects."""
    return Source(tmp_path_factory.mktemp(object_format) / "source", object_format)


@pytest.fixture
def room():
    """An empty folder, which goes with the test."""
    with tempfile.TemporaryDirectory() as folder:
        yield Path(folder)


@pytest.fixture
def hook(installed, room, source):
    return Hook(installed, room, source)


@pytest.fixture
def scan(hook):
    return hook.scan


@pytest.fixture
def server(room, hook):
    return Server(room / "server", hook)


@pytest.fixture
def two_hooks(server):
    return TwoHooks(server)


@pytest.fixture
def work(room, source):
    return Work(room, source)


@pytest.fixture(params=["clean", "device", "submodule", "ref"])
def push(request, source):
    """Each kind of push in turn, as the hook gets it: one that is clean, and three that
    have something hostile at their end."""
    return source.pushes[request.param]


@pytest.fixture(params=["device", "submodule", "ref"])
def hostile_push(request, source):
    return source.pushes[request.param]


def pytest_assertrepr_compare(op, left, right):
    """Shows a wrong result by its lines that differ."""
    if isinstance(left, Result) and isinstance(right, Result) and op == "==":
        lines = difflib.ndiff(right.said.splitlines(), left.said.splitlines())
        return [
            f"status {left.status}, expected {right.status}; said (+), expected (-):",
            *(line for line in lines if line[0] in "+-"),
        ]
