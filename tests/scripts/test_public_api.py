"""docs/PUBLIC_API.md: a changed promise is a changed line there, and nothing else is."""

import difflib
import re
from collections import Counter

import pytest

from scripts import sources
from scripts.deriving import declarations, update_public_api
from tests.scripts.copies import ROOT

PAGE = "docs/PUBLIC_API.md"
CHECK = "crates/check_push/src/refs/check.rt"
BRANCH = "crates/git_names/src/branches.rt"
SHORT = "crates/git_names/specs/ShortNames.antt"


def difference(copy):
    """The lines of the page that its command changes, each after a `-` or a `+`."""
    before = copy.read(PAGE).splitlines()
    ended = copy.dev("update-public-api")
    assert ended in [(0, "", ""), (0, "", f"{PAGE} is written\n")]
    after = copy.read(PAGE).splitlines()
    lines = difflib.unified_diff(before, after, n=0, lineterm="")
    return [line for line in lines if not re.match(r"---|\+\+\+|@@", line)]


def test_a_page_that_differs_is_found(copy):
    copy.change(PAGE, "pub mod tag;", "pub mod tags;")
    assert copy.dev("update-public-api", "--check") == (
        1,
        "",
        f"{PAGE} differs: run scripts/dev update-public-api\n",
    )


def test_a_law_of_a_program_that_is_weakened_to_a_copy_of_another_is_shown(copy):
    copy.change(
        CHECK,
        "ensures well_formed { IsWellFormedOnlyIfSpelled self }",
        "ensures well_formed { IsReportedInOrder self }",
    )
    assert difference(copy) == [
        "-use check_push.specs.Refs.Spelled: IsAcceptedInput, IsReportedInOrder, "
        "IsWellFormedOnlyIfSpelled",
        "+use check_push.specs.Refs.Spelled: IsAcceptedInput, IsReportedInOrder",
        "-        ensures well_formed { IsWellFormedOnlyIfSpelled self }",
        "+        ensures well_formed { IsReportedInOrder self }",
    ]


def test_a_changed_definition_is_shown(copy):
    copy.change(SHORT, r"^full_name x = .*", 'full_name x = codes "refs/" ++ x')
    assert difference(copy) == [
        '-full_name x = codes "refs/heads/" ++ x',
        '+full_name x = codes "refs/" ++ x',
    ]


def test_a_definition_of_another_crate_that_is_cited_over_others_is_shown(copy):
    file = "crates/gix_validate/specs/Bytes.antt"
    copy.change(file, "^(is_bad b )=", r"\1= b == 0x25 ||")
    [before, after] = difference(copy)
    assert before.startswith("-is_bad b =")
    assert after.startswith("+is_bad b = b == 0x25 ||")


def test_a_clause_that_cites_another_definition_by_the_same_name_is_shown(copy):
    copy.change(CHECK, r"\{IsAcceptedInput, ", "{IsUpdate as IsAcceptedInput, ")
    lines = difference(copy)
    assert (
        "-use check_push.specs.Refs.Spelled: IsAcceptedInput, IsReportedInOrder, IsWell"
        in (lines[0])
    )
    assert lines[1].startswith("+use check_push.specs.Refs.Spelled: ")
    assert "IsUpdate as IsAcceptedInput" in lines[1]


def test_a_definition_that_cites_another_one_by_the_same_name_is_shown(copy):
    copy.change(
        SHORT,
        r"is_branch_name, is_full_name, reserved",
        "is_partial_name as is_branch_name, is_full_name, reserved",
    )
    before, after = [it for it in difference(copy) if "is_branch_name" in it]
    assert before.startswith(
        "-use gix_validate.specs.Reference: carried, is_branch_name,"
    )
    assert after.startswith(
        "+use gix_validate.specs.Reference: carried, is_full_name, is_partial_name as is_"
    )


@pytest.mark.parametrize(
    "file, pattern, replacement, line",
    [
        (
            "crates/gix_validate/src/tag.rt",
            "    ensures same {.*\n",
            "",
            "-    ensures same { IfOk result (λ name. name ≡ input.entry) }",
        ),
        (
            "crates/gix_validate/src/path/joining.rt",
            "requires some { 0 < length",
            "requires some { 1 < length",
            "+    requires some { 1 < length parts.now }",
        ),
        (
            "crates/gix_validate/src/path.rt",
            "^    SymlinkedGitModules,",
            "    LinkedGitModules,",
            "+    LinkedGitModules,",
        ),
        (
            "crates/gix_validate/src/text.rt",
            "MAX_TEXT: usize = 134",
            "MAX_TEXT: usize = 135",
            "+pub const MAX_TEXT: usize = 135;",
        ),
        (
            "crates/typed_names/src/name.rt",
            r"pub ghost valid: \{ IsTrue",
            "pub ghost valid: { IsFalse",
            "+    pub ghost valid: { IsFalse (R.is_name (bstr_bytes name)) },",
        ),
        (
            "crates/typed_names/src/rule.rt",
            r"ghost is_name = \{ is_tag_name \}",
            "ghost is_name = { is_partial_name }",
            "+    ghost is_name = { is_partial_name };",
        ),
        (
            CHECK,
            "ensures clean { IfOk result",
            "ensures clean { OnOk result",
            "+        ensures clean { OnOk result (λ verdict.",
        ),
        (
            "crates/gix_validate_c/src/names.rt",
            'pub extern "C" fn gix_validate_is_windows_device\\(name: &\\[u8\\]\\) -> bool',
            'pub extern "C" fn gix_validate_is_windows_device(name: &[u8]) -> u8',
            '+pub extern "C" fn gix_validate_is_windows_device(name: &[u8]) -> u8',
        ),
    ],
)
def test_each_part_of_a_promise_is_shown(copy, file, pattern, replacement, line):
    copy.change(file, pattern, replacement)
    assert line in difference(copy)


@pytest.mark.parametrize(
    "file, pattern, replacement",
    [
        (CHECK, r"\Z", "// a comment\n"),
        (CHECK, "lines.clear\\(\\);", "lines.clear(); lines.clear();"),
        (SHORT, "^-- .*", "-- another comment"),
        ("crates/gix_validate/specs/Private/Scan.antt", r"\Z", "\n-- a comment\n"),
        ("crates/gix_validate/src/tag.rt", r"#\[inline\]\n", ""),
    ],
    ids=["a comment", "a body", "a comment of a definition", "a private one", "inline"],
)
def test_what_is_no_promise_changes_nothing_on_the_page(
    copy, file, pattern, replacement
):
    copy.change(file, pattern, replacement)
    assert difference(copy) == []


def test_a_source_with_what_the_page_can_not_show_is_an_error(copy):
    copy.change(BRANCH, r"\Z", "\nsome_macro! { }\n")
    assert copy.dev("update-public-api") == (
        1,
        "",
        f"{BRANCH} has what isn't read here: some_macro! {{ }}\n",
    )


# The name of a clause, or of a ghost member of a type.
CLAUSE = re.compile(r"(?m)^ *(?:pub )?(?:ghost|ensures)(?: \w+)?(?::| =)? \{")


def test_the_page_has_each_public_clause(monkeypatch):
    monkeypatch.chdir(ROOT)
    page = (ROOT / PAGE).read_text("utf-8")
    shown = {}
    for section in page.split("\n### ")[1:]:
        file, _, text = section.partition("\n")
        shown[file] = len(CLAUSE.findall(text))
    libraries = update_public_api.LIBRARIES
    items = [it for it in sources.items() if it.file.parts[1] in libraries]
    public = Counter(str(it.file) for it in items if it.is_public)
    assert sum(public.values()) > 200
    # (An impl of a trait of these crates has members that stand for what the trait says.)
    assert {file: n for file, n in public.items() if n > shown.get(file, 0)} == {}


def test_the_page_has_each_definition_of_the_claims(monkeypatch):
    monkeypatch.chdir(ROOT)
    page = (ROOT / PAGE).read_text("utf-8")
    claims = (ROOT / "docs/PROMISES.md").read_text("utf-8")
    libraries = "|".join(update_public_api.LIBRARIES)
    names = re.findall(rf"\[`(?:{libraries})::[\w:]+::(\w+)`\]\([^)]*\.antt\)", claims)
    assert len(names) > 15
    for name in names:
        assert re.search(
            rf"(?m)^(?:abbrev |unfoldable )?pub (?:\w+ )?{name} ", page
        ), name


def test_a_name_is_cited_as_a_word_or_as_a_part_of_an_operator():
    assert declarations.cites("a (IsSpelled b)", "IsSpelled")
    assert not declarations.cites("a (IsSpelledOut b)", "IsSpelled")
    assert not declarations.cites("a.IsSpelled b", "IsSpelled")
    assert declarations.cites("a orelse b", "◌orelse◌")
    assert declarations.cites("a ≡ b", "◌≡◌")
    assert not declarations.cites("a = b", "◌≡◌")


def test_the_page_has_what_others_can_depend_on_and_then_the_programs(monkeypatch):
    monkeypatch.chdir(ROOT)
    page = (ROOT / PAGE).read_text("utf-8")
    assert re.findall(r"(?m)^## (\w+)$", page) == [
        *("gix_validate", "typed_names", "git_names", "gitmodules", "gix_validate_c"),
        *("check_names", "check_push", "git_check_names"),
    ]
