"""scripts/dev check-words hints at words, and at sentences that begin with 'It'."""

import pytest

from scripts.checks import check_words


@pytest.fixture
def hints(tmp_path):
    """The hints at a text, each as its line and the word that it is about."""

    def hints_at(text, name="page.md"):
        file = tmp_path / name
        file.write_text(text, "utf-8")
        found = check_words.hints(file)
        return [it.removeprefix(f"{file}:").split(": ")[:2] for it in found]

    return hints_at


@pytest.mark.parametrize(
    "word, text",
    [
        ("whoever", "Whoever pushes attacks the server."),
        ("whomever", "Ask whomever you like."),
        ("of other people", "It reads repositories of other people."),
        ("even so", "Git accepts it even so."),
        ("mended", "Both bugs are mended."),
        ("folder", "Write it into a folder."),
        ("folders", "A tree has folders."),
    ],
)
def test_a_word_that_reads_as_foreign_is_found_on_its_line(hints, word, text):
    assert hints(f"# A page\n\n{text}\n") == [["3", word]]


@pytest.mark.parametrize(
    "text",
    [
        "The recommended way is evens out, ever so slowly.",
        "Run `mkdir folder`.",
        "```sh\ncd folder\n```",
        "See [the page](folder/mended.md).",
        "Anyone who pushes writes into a directory.",
    ],
)
def test_code_targets_of_links_and_other_words_are_no_hints(hints, text):
    assert hints(f"{text}\n") == []


LONG = "It has a sentence of more than just eight words here."
CHAINS = {
    "eight sentences": 8 * [LONG],
    "three sentences": 3 * [LONG],
    "two short sentences": ["It reads names.", "It prints them."],
}


@pytest.mark.parametrize("sentences", CHAINS.values(), ids=CHAINS)
def test_sentences_in_a_row_that_begin_with_it_are_one_hint(hints, sentences):
    assert hints(f"The page.\n{' '.join(sentences)}\n") == [["2", "it"]]


@pytest.mark.parametrize(
    "text",
    [
        f"{LONG} {LONG}",
        f"It reads names. Then {LONG} It prints them.",
        "It reads names.\n\nIt prints them.",
        "- It reads names.\n- It prints them.",
        "Its names are read. Its lines are printed. Items follow.",
    ],
)
def test_fewer_such_sentences_or_others_between_them_are_no_hint(hints, text):
    assert hints(f"{text}\n") == []


def test_of_a_source_only_the_documentation_is_read(hints):
    source = "//! A folder.\n// folder\n\n/// Mended.\nfn folder() {}\n"
    assert hints(source, "lib.rs") == [["1", "folder"], ["4", "mended"]]


def test_the_command_prints_the_hints_and_does_not_fail(copy):
    before = copy.dev("check-words")
    copy.change("docs/FAQ.md", r"\Z", "\nWhoever asks, reads this.\n")
    ended = copy.dev("check-words")
    assert (before.status, ended.status, ended.errors) == (0, 0, "")
    [hint] = {*ended.output.splitlines()[:-1]} - {*before.output.splitlines()}
    assert hint.startswith("docs/FAQ.md:")
    assert hint.endswith(": whoever: name the person: anyone who, the author, you")
    found = len(ended.output.splitlines()) - 1
    assert ended.output.endswith(
        f"\n{found} hints about words (scripts/dev check-words)\n"
    )
