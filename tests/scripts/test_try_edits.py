"""scripts/dev try-edits, by what a stand-in for rt says of the edited crate.

A crate `app` has an edit `number`, which is refused as its line says, and another edit
`added`, of which each test says what rt says.
"""

import itertools
import re
import subprocess
from typing import NamedTuple

import pytest

from scripts.checks.try_edits import in_braces
from tests.scripts.copies import Copy

SOURCE = """\
pub fn number() -> u32
    ensures { result ≡ 1 }
{
    one
}
fn other() {
    eins
}
const SIZE: u32 = 5
impl fmt::Display for Kind {
    fn fmt() {
        text
    }
}
"""
NOTE = "note: src/lib.rt:1:1: it is not proved that"
# Errors of the old proof of `other`.
OPEN = "./proofs/other/Answers.antt:1:1: error: `a`: open"
NO_FIELD = "./proofs/other/Answers.antt:1:1: error: `a`: record\n  has no field `b`"
NOT_IN_SCOPE = "./proofs/other/Answers.antt:1:1: error: `a`: not in scope"
FALSE_AT = (
    "./proofs/other/Answers.antt:1:1: error: `a`: `omega`: the part\n"
    "  of it holds, and the part fails, at a = 9"
)
GAVE_UP = "a; `search` gave up"
AT_LIMIT = (
    "./proofs/other/Answers.antt:1:1: error: `a`: `grind`\n  stopped at its own limit"
)
NUMBER = "crates/app/mutants/number.edit"
ADDED = "crates/app/mutants/added.edit"
FAMOUS = "crates/app/must-fail/famous.edit"


def not_proved(function, why="it holds"):
    """What a check says of a function that it can't prove."""
    return f"{NOTE} {why}\nfn app::{function}: not proved\n"


def comment(text):
    """A comment in which the stand-in finds what a check says of the source with it."""
    return "// " + text.rstrip("\n").replace("\n", "\\n").replace(";", "\\073")


class App(Copy):
    """A copy with one crate, `app`."""

    def __init__(self, room):
        super().__init__(room, "scripts", "HANDLES")
        self.does = "judges"
        (self.path / "crates.txt").write_text("app:\n")
        (self.path / "crates/app/src").mkdir(parents=True)
        (self.path / "crates/app/mutants").mkdir()
        (self.path / "crates/app/src/lib.rt").write_text(SOURCE)
        self.write(NUMBER, "one", comment(not_proved("number")), "number answer")

    def write(self, file, old, new, refused, *more, lines=""):
        """Writes an edit; what `more` has are further pairs of an old and a new text, and
        `lines` are those before the last."""
        pairs = zip((old, *more[::2]), (new, *more[1::2]))
        texts = "".join(f"old: {old}\nnew: {new}\n" for old, new in pairs)
        text = f"file: src/lib.rt\n{texts}{lines}refused: {refused}\n"
        (self.path / file).parent.mkdir(exist_ok=True)
        (self.path / file).write_text(text)

    def add(self, old, new, refused="other answer", *more, lines=""):
        self.write(ADDED, old, new, refused, *more, lines=lines)

    def control(self, right, file=ADDED):
        """Writes an edit of `other` with this control."""
        new = comment(not_proved("other"))
        self.write(file, "eins", new, "other answer", lines=f"right: {right}\n")

    def says(self, status, text):
        """Has rt say this of each check."""
        self.does = "says"
        (self.room / "said").write_text(f"{status}\n{text}")

    def try_edits(self, *words):
        return self.dev("try-edits", *words)

    def git(self, *words):
        """Runs git in the copy, and returns what it says."""
        who = ["-c", "user.name=A", "-c", "user.email=a@example.org"]
        ran = subprocess.run(
            ["git", *who, *words], cwd=self.path, check=True, capture_output=True
        )
        return ran.stdout.decode().strip()

    def commit(self):
        """Commits the crates, and returns the commit's hash."""
        if not (self.path / ".git").exists():
            self.git("init", "--quiet")
        (self.path / ".gitignore").write_text("out\n")
        self.git("add", ".gitignore", "crates.txt", "crates")
        self.git("commit", "--quiet", "--allow-empty", "--message", "a")
        return self.git("rev-parse", "HEAD")

    def tried(self, commit):
        """Writes that all edits were tried for this commit."""
        (self.path / ".ci").mkdir(exist_ok=True)
        (self.path / ".ci/edits-tried").write_text(f"{commit}\n")

    def add_crate(self, name, count, each=1):
        """Adds a crate with as many functions, and `each` edits of each of them."""
        with open(self.path / "crates.txt", "a") as crates:
            crates.write(f"{name}:\n")
        (self.path / f"crates/{name}/src").mkdir(parents=True)
        functions = [f"fn f{it}() {{\n    v{it}_\n}}\n" for it in range(count)]
        (self.path / f"crates/{name}/src/lib.rt").write_text("".join(functions))
        for it, number in itertools.product(range(count), range(each)):
            said = comment(f"{NOTE} a{number}\nfn {name}::f{it}: not proved")
            file = f"crates/{name}/mutants/f{it}_{number}.edit"
            self.write(file, f"v{it}_", said, f"f{it} answer")


@pytest.fixture
def app(tmp_path):
    return App(tmp_path)


class Refused(NamedTuple):
    """What a check says, and how it then refuses the edit of `other`."""

    said: str
    way: str


REFUSED = {
    "a search that ended": Refused(not_proved("other"), "by a search that ended"),
    "an old proof, which the check names last": Refused(
        f"fn app::other: no proof: it calls third\n{OPEN}", "by its old proof"
    ),
    "an old proof, which the check names first": Refused(
        f"{OPEN}\nfn app::other: no proof: it calls third", "by its old proof"
    ),
    "a search, as the old proof has only a name that is gone": Refused(
        f"{NO_FIELD}\n{not_proved('other')}", "by a search that ended"
    ),
    "values in the old proof": Refused(
        f"{FALSE_AT}\nfn app::other: not proved", "by values at which it is false"
    ),
    "values in the source": Refused(
        not_proved(
            "other", "a; the facts known there allow values at which it is false"
        ),
        "by values at which it is false",
    ),
    "an old proof, of which only one part came to its limit": Refused(
        f"{AT_LIMIT}\n{OPEN}\nfn app::other: not proved", "by its old proof"
    ),
    "an old proof that came to its limit": Refused(
        f"{AT_LIMIT}\nfn app::other: not proved", "by a search that gave up"
    ),
    "a search that gave up": Refused(
        not_proved("other", GAVE_UP), "by a search that gave up"
    ),
}


@pytest.mark.parametrize("refused", REFUSED.values(), ids=REFUSED)
def test_an_edit_is_refused_by(app, refused):
    app.add("eins", comment(refused.said))
    ended = app.try_edits("all")
    assert ended.status == 0, ended.errors
    assert f"{ADDED}: refused as its line says, {refused.way}\n" in ended.output
    assert ended.output.endswith(
        "2 refused as their lines say, 0 failed, in 1 checks; a harmless one is accepted\n"
    )
    # Once without an edit, once with braces that change nothing, once with both edits.
    assert len(app.calls) == 3


def test_an_edit_may_write_what_another_replaces(app):
    # ("one" is what the edit `number` replaces.)
    app.add("eins", comment(not_proved("other", "one")))
    ended = app.try_edits("all")
    assert (ended.status, ended.errors) == (0, "")
    assert "2 refused as their lines say, 0 failed, in 1 checks" in ended.output


class Wrong(NamedTuple):
    """What a check says, what is then wrong with the edit of `other`, and how many checks
    that takes: an edit that its line doesn't explain is tried again alone."""

    said: str
    wrong: str
    checks: int = 5


WRONG = {
    "another function is refused instead": Wrong(
        not_proved("number"), "REFUSED in app::number, which it doesn't change", 4
    ),
    "another function is refused, too": Wrong(
        not_proved("other") + not_proved("third"),
        "REFUSED in app::third, which it doesn't change",
    ),
    "it only calls one that is refused": Wrong(
        not_proved("third") + "fn app::other: not proved; it calls third",
        "NOT REFUSED in app::other",
    ),
    "one with a longer name is refused": Wrong(
        not_proved("others") + "fn app::other: proved", "NOT REFUSED in app::other"
    ),
    "its old proof only names a field that is gone": Wrong(
        f"{NO_FIELD}\nfn app::other: not proved",
        "NOT REFUSED in app::other, but by names alone",
        4,
    ),
    "its old proof names what is not in scope, and a search gave up": Wrong(
        f"{NOT_IN_SCOPE}\n{not_proved('other', GAVE_UP)}",
        "NOT REFUSED in app::other, but by names alone",
        4,
    ),
    "its contract is not admitted": Wrong(
        f"fn app::other: no proof: antt did not admit its contract\n{NOTE} it holds",
        "it did not reach the prover",
    ),
    "a definition has an error": Wrong(
        not_proved("other") + "./specs/A.antt:1:1: error: `a`: not in scope",
        "it did not reach the prover",
    ),
    "its types are wrong": Wrong(
        not_proved("other") + "src/lib.rt:4:5: error[mismatched-types]",
        "it did not reach the prover",
    ),
    "its check is killed": Wrong(
        not_proved("other") + "logic=not-proved killed",
        "it did not reach the prover, and ended with status -9",
    ),
    "its check says that all is proved": Wrong(
        not_proved("other") + "logic=proved", "it did not reach the prover"
    ),
}


@pytest.mark.parametrize("wrong", WRONG.values(), ids=WRONG)
def test_an_edit_fails_if(app, wrong):
    app.add("eins", comment(wrong.said))
    ended = app.try_edits("all")
    assert ended.status == 1
    assert f"{ADDED}: FAILED\n" in ended.output
    assert f"\n  {wrong.wrong}" in ended.output
    assert "1 refused as their lines say, 1 failed, in 1 checks" in ended.output
    assert len(app.calls) == wrong.checks


def test_what_a_check_says_of_an_edit_that_is_tried_alone_is_shown(app):
    app.add("eins", comment(not_proved("other") + "src/lib.rt:4:5: error[mismatched]"))
    said = app.try_edits("added").output
    assert "\n  fn app::other: not proved\n" in said
    assert "\n  src/lib.rt:4:5: error[mismatched]\n" in said


def test_an_edit_of_a_trait_s_method_names_the_type(app):
    app.add("text", comment(not_proved("KindDisplay::fmt")), "Kind::fmt output")
    assert app.try_edits("all").status == 0


def test_an_edit_of_a_trait_s_method_fails_if_another_method_is_refused(app):
    app.add("text", comment(not_proved("KindDisplay::show")), "Kind::fmt output")
    ended = app.try_edits("all")
    assert ended.status == 1
    assert "NOT REFUSED in app::Kind::fmt\n" in ended.output


def test_an_edit_that_the_check_accepts_fails(app):
    app.add("eins", "// ")
    ended = app.try_edits("--built", "added")
    assert ended.status == 1
    assert "NOT REFUSED in app::other\n" in ended.output
    assert "0 refused as their lines say, 1 failed" in ended.output


def test_two_edits_of_a_function_are_tried_one_after_the_other(app):
    app.add("one", comment("fn app::number: not proved; for the second time"))
    app.write(ADDED, "one", comment(not_proved("number") + "again"), "number answer")
    ended = app.try_edits("app")
    assert ended.status == 0, ended.output
    assert "2 refused as their lines say, 0 failed, in 2 checks" in ended.output
    assert len(app.calls) == 4


def test_an_edit_may_have_several_pairs_one_after_the_other(app):
    said = comment(not_proved("other"))
    app.add("eins", "zwei", "other answer", "zwei", said)
    assert app.try_edits("--built", "all").status == 0


def test_crates_that_were_just_proved_are_not_checked_without_an_edit(app):
    app.add("eins", comment(not_proved("other")))
    assert app.try_edits("all", "--built").status == 0
    assert len(app.calls) == 2


def test_each_crate_is_checked_with_a_harmless_edit(app):
    app.add_crate("low", 1)
    assert app.try_edits("all", "--built").status == 0
    assert sorted(it.partition(":")[0] for it in app.calls) == ["app"] * 2 + ["low"] * 2


def test_the_first_check_of_a_crate_leaves_what_it_has_proved_to_the_others(app):
    app.does = "keeps"
    app.write(ADDED, "one", comment(not_proved("number") + "again"), "number answer")
    assert app.try_edits("all", "--built").status == 0
    [kept] = (app.path / "crates/app/out/incremental").iterdir()
    begun = (app.room / "begun").read_text().splitlines()
    assert begun == ["", kept.name, kept.name]


@pytest.mark.parametrize("name", ["number", "app/number", NUMBER])
def test_an_edit_is_named_by_its_name_its_crate_and_name_or_its_file(app, name):
    app.add("eins", comment(not_proved("other")))
    ended = app.try_edits("--built", name)
    assert ended.status == 0
    assert f"{NUMBER}: refused as its line says" in ended.output
    assert ADDED not in ended.output


SAME = f"{ADDED} and {NUMBER} have the same effect\n"


@pytest.mark.parametrize("space", ["", " "], ids=["as it is", "with other white space"])
def test_an_edit_that_is_a_copy_of_another_is_an_error(app, space):
    app.add("one", space + comment(not_proved("number")) + space, "number answer")
    ended = app.try_edits("all")
    assert (ended.status, ended.output, ended.errors) == (1, "", SAME)
    assert app.calls == []


def test_an_edit_with_the_effect_of_another_by_other_texts_is_an_error(app):
    app.add("one", "two", "number answer", "two", comment(not_proved("number")))
    assert app.try_edits("all")[::2] == (1, SAME)


class NoEdit(NamedTuple):
    """Pairs of texts, the edit's last line, and what is wrong with it."""

    pairs: tuple
    refused: str
    wrong: str
    lines: str = ""


NO_EDIT = {
    "its old text is gone": NoEdit(
        ("six", "two"), "number answer", "no longer applies: src/lib.rt does not have "
    ),
    "its old text is there twice": NoEdit(
        ("fn", "two"), "number answer", "no longer applies: src/lib.rt does not have "
    ),
    "its second old text is gone after the first change": NoEdit(
        ("eins", "zwei", "eins", "drei"),
        "other answer",
        "does not have this once: eins",
    ),
    "it changes a contract": NoEdit(
        ("1 }", "two"),
        "number answer",
        "changes something else than the body of number",
    ),
    "it changes another function": NoEdit(
        ("eins", "two"),
        "number answer",
        "changes something else than the body of number",
    ),
    "it changes something else, too": NoEdit(
        ("eins", "zwei", "SIZE", "drei"),
        "other answer",
        "changes something else than the body of other",
    ),
    "it names no clause": NoEdit(("one", "two"), "number", "is no edit"),
    "only one of its two texts has a control": NoEdit(
        ("eins", "zwei", "zwei", "drei"), "other answer", "is no edit", "right: vier\n"
    ),
    "it has a control, and says why it has none": NoEdit(
        ("eins", "zwei"),
        "other answer",
        "has a control, and says why it has none",
        "right: drei\nhollow: it has none\n",
    ),
}


@pytest.mark.parametrize("no_edit", NO_EDIT.values(), ids=NO_EDIT)
def test_nothing_is_checked_if_an_edit_is_none_as(app, no_edit):
    old, new, *more = no_edit.pairs
    app.add(old, new, no_edit.refused, *more, lines=no_edit.lines)
    ended = app.try_edits("all")
    assert (ended.status, ended.output) == (1, "")
    assert ended.errors.startswith(f"{ADDED} ")
    assert no_edit.wrong in ended.errors
    assert app.calls == []


def test_an_unknown_name_is_an_error(app):
    ended = app.try_edits("none", "number")
    assert ended == (1, "", "there is no edit none\n")
    assert app.calls == []


def test_a_command_without_a_name_is_an_error(app):
    ended = app.try_edits()
    assert (ended.status, ended.output) == (2, "")
    assert ended.errors.startswith("usage: scripts/dev try-edits ")


def test_without_an_edit_there_is_nothing_to_try(app):
    (app.path / NUMBER).unlink()
    assert app.try_edits("all") == (1, "", "there is no edit all\n")


def test_a_check_that_accepts_all_but_says_nothing_of_an_edit_refuses_none(app):
    app.add("eins", comment(not_proved("other")))
    app.says(0, "fn app::number: proved (kept)\nlogic=proved functions=2\n")
    ended = app.try_edits("--built", "all")
    assert ended.status == 1
    assert "0 refused as their lines say, 2 failed" in ended.output


def test_a_check_that_refuses_all_is_no_check(app):
    app.says(1, not_proved("number") + "logic=not-proved\n")
    ended = app.try_edits("--built", "number")
    assert ended.status == 1
    assert "braces around the body of app::number FAILED\n" in ended.output
    assert ended.output.endswith("a harmless one is REFUSED\n")


def test_a_crate_has_to_be_proved_without_an_edit(app):
    with open(app.path / "crates/app/src/lib.rt", "a") as source:
        source.write("// fn app::other: not proved\n")
    assert app.try_edits("number") == (
        1,
        "",
        "app isn't proved without an edit either: rt check there says why\n",
    )


def test_a_control_is_tried_together_with_the_harmless_edit_and_accepted(app):
    app.control("zwei")
    ended = app.try_edits("--built", "all")
    assert ended.status == 0, ended.output
    said = "refused as its line says, by a search that ended, control accepted"
    assert f"{ADDED}: {said}\n" in ended.output
    assert "\n1 controls accepted, 0 refused; 0 hollow\n" in ended.output
    # Once with both edits, once with the control and with braces that change nothing.
    assert len(app.calls) == 2


def test_a_control_that_is_refused_fails_and_is_shown(app):
    app.control(comment(not_proved("other", "one")))
    ended = app.try_edits("--built", "all")
    assert ended.status == 1
    said = "refused as its line says, by a search that ended, control REFUSED"
    assert f"{ADDED}: {said}\n" in ended.output
    assert "\n  fn app::other: not proved\n" in ended.output
    assert "\n0 controls accepted, 1 refused; 0 hollow\n" in ended.output
    assert "2 refused as their lines say, 1 failed" in ended.output


def test_controls_of_two_functions_are_tried_together_and_alone_if_one_is_refused(app):
    app.control(comment(not_proved("other", "one")))
    said = comment(not_proved("number"))
    app.write(NUMBER, "one", said, "number answer", lines="right: two\n")
    ended = app.try_edits("--built", "all")
    assert ended.status == 1
    assert (
        f"{NUMBER}: refused as its line says, by a search that ended, control acc"
        in (ended.output)
    )
    assert "\n1 controls accepted, 1 refused; 0 hollow\n" in ended.output
    assert len(app.calls) == 5


def test_a_control_of_two_pairs_replaces_both(app):
    (app.path / ADDED).write_text(
        f"file: src/lib.rt\nold: eins\nnew: zwei\nright: {comment('drei')}\n"
        f"old: zwei\nnew: {comment(not_proved('other'))}\nright: vier\n"
        "refused: other answer\n"
    )
    # (The control has to have what it replaces next.)
    assert "does not have this once: zwei" in app.try_edits("--built", "added").errors
    text = app.read(ADDED).replace(comment("drei"), "zwei zwo")
    (app.path / ADDED).write_text(text)
    ended = app.try_edits("--built", "added")
    assert ended.status == 0, ended.output + ended.errors
    assert "\n1 controls accepted, 0 refused; 0 hollow\n" in ended.output


def test_a_hollow_edit_is_refused_and_says_why_it_is_hollow(app):
    app.add(
        "eins", comment(not_proved("other")), lines="hollow: it has one form alone\n"
    )
    ended = app.try_edits("--built", "all")
    assert ended.status == 0, ended.output
    way = "refused as its line says, by a search that ended"
    assert f"{ADDED}: {way}, hollow: it has one form alone\n" in ended.output
    assert "\n0 controls accepted, 0 refused; 1 hollow\n" in ended.output


def test_a_famous_edit_without_a_control_fails_unless_it_says_why(app):
    app.write(FAMOUS, "eins", comment(not_proved("other")), "other answer")
    ended = app.try_edits("--built", "famous")
    assert ended.status == 1
    assert f"{FAMOUS}: refused as its line says, by a search that ended, FAILED\n" in (
        ended.output
    )
    assert "\n  it has no line 'right:' or 'hollow:'\n" in ended.output
    app.control("zwei", FAMOUS)
    assert app.try_edits("--built", "famous").status == 0


def test_drawn_edits_are_tried_with_braces_around_what_they_change(app):
    app.add("eins", comment(not_proved("other")))
    ended = app.try_edits("--built", "--controls", "--seed", "a")
    assert ended == (
        0,
        "drawn by a of 2 edits\n"
        f"{ADDED}: control accepted\n"
        f"{NUMBER}: control accepted\n"
        "2 controls accepted, 0 refused\n",
        "",
    )
    # Both in one check.
    assert len(app.calls) == 1


def test_braces_that_the_check_refuses_are_counted_and_are_no_failure(app):
    app.says(1, not_proved("number") + "logic=not-proved\n")
    ended = app.try_edits("--built", "--controls", "--seed", "a")
    assert ended.status == 0
    assert f"{NUMBER}: control refused: the edit may be hollow\n" in ended.output
    assert ended.output.endswith("\n0 controls accepted, 1 refused\n")


def test_braces_that_the_check_cannot_read_are_tried_around_the_body(app):
    app.says(1, "src/lib.rt:4:5: error[unexpected]\n")
    app.try_edits("--built", "--controls", "--seed", "a")
    assert len(app.calls) == 2


def test_a_drawn_control_of_the_edit_s_own_has_to_be_accepted(app):
    app.control(comment(not_proved("other", "one")))
    ended = app.try_edits("--built", "--controls", "--seed", "a")
    assert ended.status == 1
    assert f"{ADDED}: control REFUSED\n" in ended.output


def test_as_many_are_drawn_as_are_wanted_and_the_same_by_the_same_seed(app):
    app.add_crate("low", 40)
    words = ["--built", "--controls", "7", "--seed"]
    first, again, other = (app.try_edits(*words, it).output for it in ("a", "a", "b"))
    assert first.count("control accepted") == 7
    assert first == again
    assert first.splitlines()[1:] != other.splitlines()[1:]


def test_famous_edits_are_not_drawn(app):
    app.control("zwei", FAMOUS)
    ended = app.try_edits("--built", "--controls", "--seed", "a")
    assert "drawn by a of 1 edits\n" in ended.output
    assert FAMOUS not in ended.output


def test_all_are_tried_in_turn_if_no_known_commit_is_said_to_have_been(app):
    app.add_crate("low", 40)
    for line in "", "0123456789abcdef0123456789abcdef01234567":
        app.tried(line)
        app.commit()
        ended = app.try_edits("--built", "--turns")
        assert ended.status == 0, ended.output + ended.errors
        assert "so all are tried\n" in ended.output
        assert "\n41 refused as their lines say, 0 failed" in ended.output


def tried_in_turn(app):
    """The edits that are tried in turn."""
    ended = app.try_edits("--built", "--turns")
    assert ended.status == 0, ended.output + ended.errors
    lines = [it for it in ended.output.splitlines() if ": refused as" in it]
    return ended.output, {it.partition(":")[0] for it in lines}


def test_edits_of_changed_crates_and_thirty_more_are_tried_in_turn(app):
    app.add_crate("low", 40)
    app.tried(app.commit())
    app.add("eins", comment(not_proved("other")))
    head = app.commit()
    output, tried = tried_in_turn(app)
    assert "changed since " in output and ": app\n" in output
    assert f"drawn by {head}:\n" in output
    assert {NUMBER, ADDED} <= tried and len(tried) == 32
    assert (output, tried) == tried_in_turn(app)
    app.commit()
    assert tried_in_turn(app)[1] != tried


def test_a_crate_changed_if_its_line_in_the_list_of_crates_did(app):
    app.add_crate("low", 40)
    app.tried(app.commit())
    (app.path / "crates.txt").write_text("app:\nlow: app\n")
    app.commit()
    assert ": low\n" in tried_in_turn(app)[0]


def test_of_famous_edits_the_controls_are_tried_in_turn(app):
    app.control("zwei", FAMOUS)
    app.add_crate("low", 40)
    before = app.commit()
    app.tried(before)
    app.commit()
    # (Nothing is new in the crate, so it has no turn.)
    assert FAMOUS not in tried_in_turn(app)[0]
    (app.path / "crates/app/src/lib.rt").write_text(f"{SOURCE}fn more() {{\n}}\n")
    app.commit()
    assert f"\n{FAMOUS}: control accepted\n" in tried_in_turn(app)[0]


def test_edits_are_drawn_crate_by_crate(app):
    for name in "low", "middle", "high":
        app.add_crate(name, 40)
    app.tried(app.commit())
    app.commit()
    _, tried = tried_in_turn(app)
    crates = {it.split("/")[1] for it in tried}
    assert len(tried) == 30 and len(crates - {"app"}) == 1


def test_of_each_function_an_edit_is_drawn_before_another_of_any(app):
    app.add_crate("low", 25, each=4)
    app.tried(app.commit())
    app.commit()
    output, tried = tried_in_turn(app)
    functions = {re.search(r"/f(\d+)_", it)[1] for it in tried - {NUMBER}}
    assert len(tried) == 30 and len(functions) == 25
    # (Two checks are for this crate, and one is for the other if its edit is drawn.)
    assert f" in {2 + (NUMBER in tried)} checks;" in output


# A line of a body, and how braces are put there: the line is the last of a block if
# nothing follows.
IN_BRACES = {
    "a statement": ("    end += 1;", "    { end += 1; }"),
    "a value": ("    a + b", "    { a + b }"),
    "the value of a `let`": ("    let x = f(a, b)?;", "    let x = { f(a, b)? };"),
    "an argument": ("    a + b,", "    { a + b },"),
    "the value of a field": ("    name: f(a),", "    name: { f(a) },"),
    "the value of an arm with a condition": (
        "    b if b == 1 => b + 1,",
        "    b if b == 1 => { b + 1 },",
    ),
    "the value of an arm": ("    Some(b) => b + 1,", "    Some(b) => { b + 1 },"),
}


@pytest.mark.parametrize("row", IN_BRACES.values(), ids=IN_BRACES)
def test_braces_are_put_around(row):
    line, expected = row
    assert in_braces(f"\n{line}\n}}\n", 6) == f"\n{expected}\n}}\n"


NO_BRACES = {
    "the head of an `if`": "    if a {",
    "the first line of a call": "    f(",
    "a line in the middle of a value": "    && b",
    "a first line of two": "    a",
    "a comment": "    // a",
}


@pytest.mark.parametrize("line", NO_BRACES.values(), ids=NO_BRACES)
def test_braces_are_put_around_the_whole_body_if_what_changes_is_in(line):
    body = f"\n{line}\n    .b\n"
    assert in_braces(body, 6) == f"{{{body}}}"
