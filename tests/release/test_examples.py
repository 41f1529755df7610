"""The examples of the manual pages print what the pages say."""

import pytest

from release import descriptions
from tests.release.commands import ENVIRONMENT, run

EXAMPLES = [
    (name, example)
    for name, described in descriptions.read_all().items()
    for example in described["examples"]
    if "prints" in example
]
# What is in the repository of a program's examples.
FILES = {
    "check_push": {
        ".gitmodules": '[submodule "../x"]\n\tpath = x\n\turl = https://example.org/x\n'
    }
}
HOSTILE = {"README": "", "src/aux.h": ""}


@pytest.mark.parametrize(
    "name, example", EXAMPLES, ids=[f"{name}: {it['command']}" for name, it in EXAMPLES]
)
def test_an_example_prints_what_its_page_says(prefix, tmp_path, name, example):
    for file, text in FILES.get(name, HOSTILE).items():
        (tmp_path / file).parent.mkdir(exist_ok=True)
        (tmp_path / file).write_text(text)
    for words in [["init", "-q"], ["add", "."], ["commit", "-q", "-m", "first"]]:
        assert run("git", *words, cwd=tmp_path).status == 0
    path = f"{prefix}/bin:{ENVIRONMENT['PATH']}"
    ran = run("sh", "-c", example["command"], cwd=tmp_path, PATH=path)
    assert ran == (example.get("status", 0), example["prints"].lstrip("\n"))
