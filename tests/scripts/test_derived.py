"""What scripts/dev writes and checks: what a command says of a change in a file, and what
a new version gives in other files."""

from typing import NamedTuple

import pytest

from scripts import commands
from scripts.deriving.derived import differing
from scripts.sources import Wrong


class Differs(NamedTuple):
    """A change of a file that a command derives."""

    command: str
    file: str
    pattern: str
    replacement: str


DIFFERS = [
    Differs("update-promises", "docs/PROMISES.md", r"src/tag\.rt\)", "src)"),
    Differs(
        "update-fault-tables",
        "bindings/rust/gix-validate/src/errors.rs",
        ".*WindowsPathPrefix.*\n",
        "",
    ),
    Differs(
        "update-version",
        "bindings/rust/gix-validate/Cargo.toml",
        r"\+dihareku[^\"]*",
        "+dihareku.0.0.1",
    ),
    Differs("update-benchmarks", "bench/length.svg", "path", "paths"),
]


@pytest.mark.parametrize("differs", DIFFERS, ids=lambda it: it.command)
def test_a_derived_text_that_differs_is_found_and_written_again(copy, differs):
    copy.change(differs.file, differs.pattern, differs.replacement)
    ended = copy.dev(differs.command, "--check")
    assert (ended.status, ended.output) == (1, "")
    assert (
        ended.errors == f"{differs.file} differs: run scripts/dev {differs.command}\n"
    )
    assert not copy.is_unchanged(differs.file)
    ended = copy.dev(differs.command)
    assert ended == (0, "", f"{differs.file} is written\n")
    assert copy.is_unchanged(differs.file)
    assert copy.dev(differs.command, "--check") == (0, "", "")


class Refused(NamedTuple):
    """A change of a file, and why a command then writes nothing."""

    command: str
    file: str
    pattern: str
    replacement: str
    why: str


PROMISES = "docs/PROMISES.md"
EDIT = "crates/gix_validate/mutants/tag_gives_back_a_part.edit"
NUMBERS = "crates/gix_validate_c/specs/Numbers.antt"
REFUSED = {
    "a heading of the page of promises is gone": Refused(
        "update-promises",
        PROMISES,
        "^## Clauses without a",
        "## A",
        "docs/PROMISES.md does not have this once",
    ),
    "the page of promises names no definition": Refused(
        "update-promises",
        PROMISES,
        "::is_tag_name`",
        "::is_tag`",
        "docs/PROMISES.md: gix_validate::Tag::is_tag is no definition",
    ),
    "the page of promises names no clause": Refused(
        "update-promises",
        PROMISES,
        r" `fewer`\]",
        " `fewest`]",
        "gix_validate::path::component fewest is no public clause",
    ),
    "a clause without an edit has no reason": Refused(
        "update-promises",
        PROMISES,
        r"^`\*run`: .*\n",
        "",
        "run sections has no must-fail edit and no reason",
    ),
    "a clause with an edit has a reason": Refused(
        "update-promises",
        PROMISES,
        r"\Z",
        "`gix_validate::tag::name`: `answer` | law\n",
        "gix_validate::tag::name answer has a reason, but is no",
    ),
    "a reason names no function": Refused(
        "update-promises",
        PROMISES,
        r"\| .*\n\Z",
        "| from `gix_validate::tag::names`\n",
        "gix_validate::tag::names has no must-fail edit, but a reason",
    ),
    "a clause is like one without an edit": Refused(
        "update-promises",
        PROMISES,
        r"(?m)^(`gix_validate_c::sanitize::gix_validate_sanitize_in_place`: .*\|).*$",
        r"\1 as `gix_validate::tag::name`",
        "gix_validate_sanitize_in_place bounds is said to be as one without",
    ),
    "an edit names a function that it does not change": Refused(
        "update-promises",
        EDIT,
        "name_on_walk",
        "name_on_walks",
        "something else than the body of tag::name_on_walks",
    ),
    "an edit names a clause that its function lacks": Refused(
        "update-promises",
        EDIT,
        "answer",
        "answers",
        "refused by answers of gix_validate::tag::name_on_walk",
    ),
    "a clause of a function is new": Refused(
        "update-promises",
        "crates/gix_validate/src/tag.rt",
        "ensures same {",
        "ensures kept {",
        "gix_validate::tag::name kept has no must-fail edit",
    ),
    "a ghost member of a type is new": Refused(
        "update-promises",
        "crates/typed_names/src/name.rt",
        "pub ghost valid:",
        "pub ghost found:",
        "typed_names::name::Name found has no must-fail edit",
    ),
    "a clause of a trait is new": Refused(
        "update-promises",
        "crates/typed_names/src/rule.rt",
        "ensures same {",
        "ensures kept {",
        "typed_names::rule::Rule::check kept has no must-fail",
    ),
    "a ghost member of an impl is new": Refused(
        "update-promises",
        "crates/gitmodules/src/reader.rt",
        "ghost remaining =",
        "ghost rest =",
        "gitmodules::reader::Sections rest has no must-fail",
    ),
    "a clause without a name gets one": Refused(
        "update-promises",
        "crates/programs/src/lib.rt",
        "ensures { IfSome",
        "ensures prints { IfSome",
        "programs::print prints has no must-fail",
    ),
    "a file has a derived text twice": Refused(
        "update-fault-tables",
        "bindings/go/fault.go",
        r"\Z",
        "// The faults.\nconst (\n",
        "bindings/go/fault.go does not have this once",
    ),
    "a number is left out": Refused(
        "update-fault-tables",
        NUMBERS,
        r"^tag_number tag\.Empty = 11",
        "tag_number tag.Empty = 30",
        "the faults from 1 on",
    ),
    "a fault has no number": Refused(
        "update-fault-tables",
        NUMBERS,
        r"^tag_number tag\.Empty.*\n",
        "",
        "don't have the same faults: Empty",
    ),
    "a fault has no row": Refused(
        "update-fault-tables",
        "tests/rows",
        "^(?s:.*)\\Z",
        "",
        "tests/rows lacks Asterisk",
    ),
    "a version has no PATCH": Refused(
        "update-version", "VERSION", ".*", "4.5", "VERSION is not MAJOR.MINOR.PATCH"
    ),
    "the version of a release has no heading with a date": Refused(
        "update-version", "VERSION", ".*", "4.5.6", "VERSION is not MAJOR.MINOR.PATCH"
    ),
    "a version has another suffix": Refused(
        "update-version",
        "VERSION",
        ".*",
        "4.5.6-rc1",
        "VERSION is not MAJOR.MINOR.PATCH",
    ),
    "a PATCH has four digits": Refused(
        "update-version",
        "VERSION",
        ".*",
        "4.5.1000-dev",
        "VERSION is not MAJOR.MINOR.PATCH",
    ),
    "a quoted line is not in its file": Refused(
        "check-quotes",
        "docs/CONTRACTS.md",
        r"(?s:(From `[^`]*`:\n\n```(?:rust|antt)\n))",
        r"\1not there\n",
        "docs/CONTRACTS.md quotes from ",
    ),
    "a word of the kit has no explanation": Refused(
        "check-quotes",
        "docs/CONTRACTS.md",
        r"^\| `before_first .*\n",
        "",
        "docs/CONTRACTS.md doesn't explain a word of the kit: before_first",
    ),
    "a link leads to no file": Refused(
        "check-quotes",
        "README.md",
        r"\(docs/FAQ\.md\)",
        "(docs/FAQS.md)",
        "README.md has a link that leads nowhere: docs/FAQS.md",
    ),
    "a link leads to no heading": Refused(
        "check-quotes",
        "README.md",
        "#with-gitoxide",
        "#without-gitoxide",
        "README.md has a link that leads nowhere: docs/BINDINGS.md#without-gitoxide",
    ),
    "a name in the table of bindings is no name": Refused(
        "check-quotes",
        "docs/BINDINGS.md",
        r"`is_windows_device`",
        "`is_a_windows_device`",
        "docs/BINDINGS.md has a name that isn't in ",
    ),
    "the table of bindings lacks a function": Refused(
        "check-quotes",
        "docs/BINDINGS.md",
        r", `FaultsOf`",
        "",
        "docs/BINDINGS.md lacks a name of bindings/go/*.go: FaultsOf",
    ),
    "the body of a test is empty": Refused(
        "check-tests",
        "crates/name_vectors/src/tests.rt",
        r"(?s)(fn agrees_on_names_of_few_parts.*?\{\n).*?\n\}",
        r"\1    Ok(())\n}",
        "tests.rt: the test agrees_on_names_of_few_parts asserts nothing",
    ),
    "there is unsafe code": Refused(
        "check-unsafe",
        "crates/programs/src/lib.rt",
        r"\Z",
        "// unsafe\n",
        "has `unsafe`, and may not",
    ),
}


@pytest.mark.parametrize("refused", REFUSED.values(), ids=REFUSED)
def test_a_command_fails_and_writes_nothing_if(copy, refused):
    copy.change(refused.file, refused.pattern, refused.replacement)
    changed = copy.read(refused.file)
    ended = copy.dev(refused.command)
    assert (ended.status, ended.output) == (1, "")
    assert refused.why in ended.errors
    assert "Traceback" not in ended.errors
    assert copy.read(refused.file) == changed


VERSIONS = [
    ("bindings/c/gix_validate.h", "#define GIX_VALIDATE_VERSION 4005006u\n"),
    ("bindings/c/gix_validate.pc", "\nVersion: 4.5.6~dev\n"),
    ("bindings/python/gix_validate.py", '\n__version__ = "4.5.6.dev0"\n'),
    ("bindings/python/gix_validate.py", "\n_VERSION = (4, 5, 6)\n"),
    ("bindings/js/package.json", '"version": "4.5.6-dev"'),
    ("bindings/rust/Cargo.toml", '\nversion = "4.5.6-dev"\n'),
    ("bindings/rust/gix-validate/Cargo.toml", '"0.13.1+dihareku.4.5.6-dev"'),
    ("bindings/c/README.md", "gix_validate 4 "),
    ("crates/programs/src/lib.rt", 'pub const VERSION: &str = "4.5.6-dev";'),
    ("crates/check_names/src/main.rt", 'const VERSION: &str = "4.5.6-dev";'),
    ("crates/gix_validate_c/src/version.rt", "version_number 4 5 6 }"),
    ("docs/RULES.md", "now 4005006 for 4.5.6.\n"),
]


def test_a_new_version_is_written_in_the_form_of_each_tool(copy):
    assert not [text for file, text in VERSIONS if text in copy.read(file)]
    (copy.path / "VERSION").write_text("4.5.6-dev\n")
    ended = copy.dev("update-version")
    assert (ended.status, ended.output) == (0, "")
    for file, text in VERSIONS:
        assert f"{file} is written\n" in ended.errors
        assert text in copy.read(file), file
    assert copy.dev("update-version", "--check") == (0, "", "")


class Module:
    """A module of the package that derives these parts."""

    def __init__(self, *parts):
        self.parts = parts

    def derived(self):
        yield from self.parts


@pytest.fixture
def folder(tmp_path, monkeypatch):
    monkeypatch.chdir(tmp_path)
    return tmp_path


def test_a_text_is_put_between_two_others_line_by_line(folder):
    (folder / "a").write_text("<\none\ntwo\n>\n")
    module = Module(("a", "<\n", "\n>", "1\n2"))
    assert differing(module) == {"a": "<\n1\n2\n>\n"}


def test_two_texts_are_put_into_one_file(folder):
    (folder / "a").write_text("<a>\n(b)\n")
    module = Module(("a", "<", ">", "1"), ("a", "(", ")", "2"))
    assert differing(module) == {"a": "<1>\n(2)\n"}


def test_a_file_that_is_not_there_differs(folder):
    assert differing(Module(("a", "text\n"))) == {"a": "text\n"}


@pytest.mark.parametrize("text", ["<a> <a>\n", "<a\n", "a>\n", "<a\nb>\n"])
def test_a_text_is_put_only_between_texts_that_are_there_once(folder, text):
    (folder / "a").write_text(text)
    with pytest.raises(Wrong) as raised:
        differing(Module(("a", "<", ">", "new")))
    assert str(raised.value).startswith("a does not have this once, in as many lines")


def test_nothing_is_written_if_something_is_wrong(folder, monkeypatch, capsys):
    module = Module(("a", "text\n"), "this is wrong", "and this")
    monkeypatch.setitem(commands.DERIVING, "check-quotes", module)
    assert commands.main(["check-quotes"]) == 1
    assert capsys.readouterr() == ("", "this is wrong\nand this\n")
    assert not (folder / "a").exists()


def test_all_runs_each_command_and_fails_if_one_does(folder, monkeypatch, capsys):
    (folder / "c").write_text("text\n")
    modules = {
        "first": Module(("a", "text\n")),
        "second": Module("this is wrong"),
        "third": Module(("b", "text\n")),
        "fourth": Module(("c", "text\n")),
    }
    monkeypatch.setattr(commands, "DERIVING", modules)
    monkeypatch.setattr(commands, "OF_BUILT", {})
    assert commands.main(["all", "--check"]) == 1
    assert capsys.readouterr().err.splitlines() == [
        "a differs: run scripts/dev first",
        "this is wrong",
        "b differs: run scripts/dev third",
    ]
    modules["second"] = Module()
    assert commands.main(["all"]) == 0
    assert commands.main(["all", "--check"]) == 0


def test_a_command_that_raises_something_else_ends_with_it(folder, monkeypatch):
    monkeypatch.setattr(commands, "DERIVING", {"first": object(), "second": Module()})
    with pytest.raises(AttributeError) as raised:
        commands.main(["all", "--check"])
    assert raised.value.name == "derived"


@pytest.mark.parametrize(
    "words", ["", "none", "all --write", "update-version --checks", "check-quotes a"]
)
def test_wrong_arguments_are_an_error(copy, words):
    ended = copy.dev(*words.split())
    assert (ended.status, ended.output) == (2, "")
    assert ended.errors.startswith("usage: scripts/dev ")
