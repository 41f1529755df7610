"""What a reader pastes from the pages works, and prints what they say."""

import subprocess
import tempfile
from pathlib import Path

import pytest

from tests.pages.blocks import LANGUAGES, ROOT, Language, blocks_of
from tests.pages.reader import Reader, only_crates_are_missing

# The pages that are followed with a release, and the directory in which a reader begins.
PAGES = {
    "README.md": "new",
    "docs/CI.md": "clone",
    "docs/RECIPES.md": "clone",
    "hook/README.md": "srv/git/project.git",
    "bindings/c/README.md": "new",
    "bindings/cpp/README.md": "new",
    "bindings/rust/README.md": "new",
    "bindings/rust/gix-validate/README.md": "new",
    "bindings/python/README.md": "new",
    "bindings/go/README.md": "new",
    "bindings/js/README.md": "new",
}


TUTORIAL = "docs/TUTORIAL.md"
# This page has declarations, which `scripts/dev update-public-api` derives.
NOT_FOLLOWED = ["docs/PUBLIC_API.md"]


def test_every_page_with_commands_to_run_is_followed():
    listed = ["git", "ls-files", "*.md"]
    pages = subprocess.check_output(listed, cwd=ROOT, text=True).split()
    followed = [it for it in pages if any(block.is_run for block in blocks_in(it))]
    assert followed == sorted([*PAGES, TUTORIAL, *NOT_FOLLOWED])


def text_of(page):
    return (ROOT / page).read_text("utf-8")


def blocks_in(page):
    return blocks_of(text_of(page))


@pytest.fixture
def reader():
    with tempfile.TemporaryDirectory() as room:
        yield Reader(Path(room))


@pytest.mark.parametrize("page", PAGES)
def test_what_a_page_shows_can_be_run_with_a_release(request, reader, archive, page):
    reader.install(archive)
    reader.prepare_cargo()
    reader.make_repositories()
    outcome = reader.follow(text_of(page), PAGES[page])
    check_that_all_ran(request, outcome)


def test_what_the_TUTORIAL_shows_can_be_run(request, reader):
    outcome = reader.follow(text_of(TUTORIAL))
    check_that_all_ran(request, outcome)


def check_that_all_ran(request, outcome):
    """Fails if a block did. Then skips the test if a tool was missing for others."""
    failed = f"the block at line {outcome.at}: status {outcome.status}:"
    assert outcome.status == 0, f"{failed}\n{outcome.said}"
    assert outcome.at == "end"
    assert outcome.ran + len(outcome.missing) > 0
    if outcome.missing:
        if only_crates_are_missing(outcome):
            request.node.add_marker("may_be_skipped")
        names = {it.what for needs in outcome.missing.values() for it in needs}
        lines = ", ".join(map(str, outcome.missing))
        pytest.skip(f"the blocks at lines {lines} need {', '.join(sorted(names))}")


SH = "```sh\n{}\n```\n"
PRINTS = "It prints:\n\n```text\n{}\n```\n"


def test_a_page_whose_last_block_fails_does_not_come_to_its_end(reader):
    outcome = reader.follow("# A\n\n" + SH.format("true") + "\n" + SH.format("false"))
    assert (outcome.at, outcome.status, outcome.ran) == ("7", 1, 2)


def test_a_page_that_shows_another_output_does_not_come_to_its_end(reader):
    page = SH.format("echo one; echo two") + "\n" + PRINTS
    assert reader.follow(page.format("two")).at == "end"
    wrong = reader.follow(page.format("three"))
    assert (wrong.at, wrong.status) == ("1", 1)
    assert wrong.said.endswith("< two\n---\n> three\n")


def test_a_block_that_the_page_says_is_not_run_does_not_run(reader):
    outcome = reader.follow("A\n\n<!-- not run: it fails -->\n" + SH.format("false"))
    assert (outcome.ran, outcome.missing) == (0, {})


def test_a_block_without_its_tool_is_missed_and_the_others_run(reader, monkeypatch):
    monkeypatch.setitem(LANGUAGES, "js", Language("a.mjs", "no-such-tool", "exit 1"))
    outcome = reader.follow("```js\n1\n```\n\n" + SH.format("true"))
    assert (outcome.at, outcome.ran) == ("end", 1)
    assert list(outcome.missing) == [1]
