"""Each script that has options prints its help."""

import os
import re
import subprocess

import pytest

from tests.scripts.copies import ROOT

FOLDERS = (".ci", "bench", "bindings", "hook", "release", "scripts", "tests")


def scripts():
    """The files that begin with `#!`, and their texts."""
    for folder in FOLDERS:
        for path in sorted((ROOT / folder).rglob("*")):
            is_built = {"out", "target", "native"} & {*path.parts}
            if not is_built and path.is_file() and os.access(path, os.X_OK):
                if path.read_bytes()[:2] == b"#!":
                    yield str(path.relative_to(ROOT)), path.read_text("utf-8")


SCRIPTS = dict(scripts())
# Those that have options. (A script without any may begin its work whatever it is given.)
WITH_HELP = [
    name
    for name, text in SCRIPTS.items()
    if re.search(r"argparse|--help (?:says|lists)", text)
]


def help_of(script):
    ran = subprocess.run(
        [ROOT / script, "--help"],
        stdin=subprocess.DEVNULL,
        capture_output=True,
        text=True,
        timeout=60,
    )
    return ran.returncode, ran.stdout


@pytest.mark.parametrize("script", WITH_HELP)
def test_a_script_with_options_prints_its_help(script):
    status, output = help_of(script)
    # The help of a shell script is the comment at its head.
    head = SCRIPTS[script].splitlines()[1].removeprefix("# ")
    assert status == 0
    assert output.splitlines()[0] == head or output.startswith("usage: ")
    assert len(output.split()) > 5


@pytest.mark.parametrize("script", SCRIPTS)
def test_a_script_says_at_its_head_what_it_does(script):
    [head, *_] = re.findall("(?m)^(?!#!|# shellcheck ).*$", SCRIPTS[script])
    assert head.startswith(("# ", '"""', 'r"""'))
    assert len(head.split()) > 3


def test_scripts_are_found():
    assert {"scripts/dev", "release/dist", ".ci/run"} <= {*SCRIPTS}
    assert {".ci/run", "bench/run", "release/dist", "scripts/dev"} <= {*WITH_HELP}


@pytest.mark.parametrize(
    "command",
    ["update-version", "update-public-api", "check-unsafe", "all", "try-edits"],
)
def test_a_command_of_scripts_dev_prints_its_help(copy, command):
    ended = copy.dev(command, "--help")
    assert (ended.status, ended.errors) == (0, "")
    assert ended.output.startswith(f"usage: scripts/dev {command} [-h] ")


def test_scripts_dev_lists_its_commands(copy):
    output = copy.dev("--help").output
    for command in "update-pictures", "record-headers", "check-quotes", "try-edits":
        assert f"    {command}" in output
