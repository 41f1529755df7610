"""The commands of the root, which prove a program and then run it, and other scripts that
have rt prove something: hook/install and bindings/build."""

import os
import shutil

import pytest


def first_line_of(program):
    """What is said at once."""
    minutes = 7 if program == "check_names" else 15
    return (
        f"{program}: proving it and the crates that it uses, in about {minutes} minutes"
    )


@pytest.mark.parametrize("word", ["-h", "--help"])
@pytest.mark.parametrize(
    "command, text",
    [
        ("check_names", "    printf 'tag v1.2.3\\ntag a..b\\n' | check_names\n"),
        ("scripts/program check_push", "    refs "),
        ("scripts/program check_push refs", '    ref "refs/heads/a b" Reference name'),
    ],
)
def test_a_command_prints_its_help_without_a_proof(copy, command, text, word):
    ended = copy.run(*command.split(), word)
    assert ended.status == 0
    assert text in ended.output
    assert "\nThe status is 0" in ended.output
    assert copy.calls == []


@pytest.mark.parametrize("command", ["check_names", "git-check-names"])
def test_a_command_proves_its_program_and_passes_on_its_words_and_its_input(
    copy, command
):
    copy.does = "builds"
    ended = copy.run(command, "--help", "two words")
    program = command.replace("-", "_")
    assert ended.status == 0
    assert ended.output == f"{program}|--help|two words|tag a\ntag b\n"
    said = ended.errors.splitlines()
    assert said[0] == first_line_of(program)
    assert "rt: waiting for another rt in /a/b" in said
    libraries = ["gix_validate", "typed_names"]
    if program == "git_check_names":
        libraries += ["git_names", "programs"]
    proved = [it for it in said if it.startswith(f"{program}: proving ")]
    assert list(dict.fromkeys(proved))[1:] == [
        f"{program}: proving {crate}" for crate in [*libraries, program]
    ]
    built = [it for it in copy.calls if it.endswith(" rt lib --jobs 1")]
    assert built == [f"{crate}: rt lib --jobs 1" for crate in libraries]


def test_a_command_whose_proof_fails_says_what_is_not_proved_and_no_more(copy):
    copy.does = "fails"
    ended = copy.run("check_names", "--version")
    assert (ended.status, ended.output) == (2, "")
    assert ended.errors.splitlines()[1:] == [
        "check_names: proving gix_validate",
        "./proofs/f/Answers.antt:3:7: error: they differ",
        "note: src/lib.rt:12:1: it is not proved that it holds",
        "rt: the library low did not build",
        "check_names: it was not built; run `rt lib --jobs 1` in "
        f"{copy.path}/crates/gix_validate for the whole message",
    ]


def test_a_command_runs_nothing_if_a_source_is_edited_during_the_build(copy):
    copy.does = "is edited"
    ended = copy.run("check_names")
    assert (ended.status, ended.output) == (2, "")
    assert "a source was edited during the build: run it again" in ended.errors


def test_a_program_that_is_built_is_not_proved_again(copy):
    copy.run("check_names")
    before = len(copy.calls)
    assert copy.run("check_names", given="tag a\n") == (0, "check_names|tag a\n", "")
    assert copy.calls[before:] == ["check_names: rt run -- --version"]


def test_a_command_runs_by_a_link_from_another_folder(copy):
    (copy.room / "link").symlink_to(copy.path / "check_names")
    copy.run("check_names")
    ended = copy.run(copy.room / "link", given="tag a\n", cwd="/")
    assert ended == (0, "check_names|tag a\n", "")


def test_a_command_without_an_input_does_not_wait(copy):
    copy.run("check_names")
    (copy.path / "closed").write_text('#!/bin/bash\nexec "${0%/*}/check_names" <&-\n')
    (copy.path / "closed").chmod(0o755)
    ended = copy.run("closed")
    assert ended.output + ended.errors == "check_names|cat: -: Is a directory\n"


@pytest.mark.parametrize(
    "words", [["check_names"], ["git-check-names"], ["hook/install", "new"]]
)
def test_a_command_without_rt_says_in_one_line_that_it_needs_the_kit(copy, words):
    few = copy.room / "few"
    few.mkdir()
    for tool in "bash", "dirname", "env", "readlink", "sed":
        (few / tool).symlink_to(shutil.which(tool))
    ended = copy.run(*words, path=few)
    assert (ended.status, ended.output) == (2, "")
    [line] = ended.errors.splitlines()
    assert "needs the Rattle kit" in line
    assert '"Build from source" in README.md' in line


def test_a_reader_finds_in_README_what_a_command_without_rt_names(copy):
    assert "\n## Build from source\n" in copy.read("README.md")


def test_scripts_program_builds_a_program(copy):
    assert copy.run("scripts/program", "--build", "check_push")[:2] == (0, "")
    assert (copy.path / "crates/check_push/out/check_push").exists()


def test_what_rt_ci_has_built_runs_until_a_source_changes(copy):
    program = copy.path / "crates/check_names/out/check_names"
    program.parent.mkdir()
    program.write_text("#!/bin/sh\necho by rt ci\n")
    program.chmod(0o755)
    copy.run("scripts/program", "--built", "check_names")
    before = len(copy.calls)
    assert copy.run("check_names") == (0, "by rt ci\n", "")
    assert copy.calls[before:] == ["a copy: rt version"]
    copy.change("crates/gix_validate/src/lib.rt", "^//!", "//! ")
    assert copy.run("check_names").output == "check_names|tag a\ntag b\n"


@pytest.mark.parametrize(
    "words, name", [(["--build"], ""), (["check_nothing"], "check_nothing"), ([], "")]
)
def test_scripts_program_says_that_there_is_no_such_program(copy, words, name):
    ended = copy.run("scripts/program", *words)
    assert (ended.status, ended.output) == (2, "")
    assert f"there is no program '{name}'; usage: scripts/program" in ended.errors
    assert copy.calls == []


def test_hook_install_installs_nothing_if_a_proof_fails(copy):
    copy.does = "fails"
    ended = copy.run("hook/install", copy.room / "hook")
    assert (ended.status, ended.output) == (2, "")
    assert "src/lib.rt:12:1: it is not proved that" in ended.errors
    assert not (copy.room / "hook").exists()


def test_hook_install_makes_a_folder_that_all_can_read(copy):
    tools, target = copy.room / "tools", copy.path / "hook/target/release"
    tools.mkdir()
    (tools / "cargo").symlink_to(shutil.which("true"))  # (which has built this)
    target.mkdir(parents=True)
    (target / "names-hook").write_text("the hook")
    path = f"{tools}:{copy.bin}:{os.environ['PATH']}"
    before = os.umask(0o077)
    try:
        ended = copy.run(
            "hook/install", copy.room / "hook", path=path, CARGO_TARGET_DIR=""
        )
    finally:
        os.umask(before)
    assert ended.status == 0
    assert (copy.room / "hook").stat().st_mode & 0o777 == 0o755


def test_hook_install_writes_over_no_folder(copy):
    ended = copy.run("hook/install", copy.room)
    assert (ended.status, ended.output) == (2, "")
    assert f"{copy.room} is there already" in ended.errors
    assert copy.calls == []


@pytest.fixture
def bindings(copy):
    """With stand-ins for what bindings/build runs after rt."""
    copy.replace_by("bindings/block/make", "true")
    copy.replace_by("release/wasm", "false")
    return copy


@pytest.mark.parametrize(
    "words, before", [([], ["git_names: rt lib"]), (["--after-gate"], [])]
)
def test_bindings_build_proves_what_it_builds_and_fails_if_a_part_does(
    bindings, words, before
):
    bindings.does = "judges"
    ended = bindings.run("bindings/build", *words, CC="true")
    assert (ended.status, ended.output) == (1, "")
    assert "bindings/build: proving gix_validate_c" in ended.errors
    assert bindings.calls == [*before, *2 * ["gix_validate_c: rattle build"]]


def test_bindings_build_says_what_is_not_proved(bindings):
    bindings.does = "fails"
    ended = bindings.run("bindings/build", CC="true")
    assert (ended.status, ended.output) == (2, "")
    assert "src/lib.rt:12:1: it is not proved that" in ended.errors


def test_bindings_build_needs_a_compiler(bindings):
    ended = bindings.run("bindings/build", CC="none")
    assert (ended.status, ended.errors) == (77, "")
    assert ended.output == (
        "bindings/build: the shared object needs a C compiler (Debian: gcc)\n"
    )


@pytest.mark.parametrize(
    "words",
    ["hook/install", "hook/install --built", "hook/install NEW --build"],
)
def test_hook_install_does_nothing_with_wrong_arguments(copy, words):
    script, *words = words.split()
    words = [str(copy.room / "new") if word == "NEW" else word for word in words]
    ended = copy.run(script, *words)
    assert (ended.status, ended.output) == (2, "")
    assert "usage: hook/install" in ended.errors
    assert not (copy.room / "new").exists()
    assert copy.calls == []


def test_what_runs_is_what_rt_itself_has_proved_for_the_text_that_is_there(copy):
    for name in "low", "app":
        (copy.path / "crates" / name / "src").mkdir(parents=True)
    (copy.path / "crates.txt").write_text("low:\napp: low\n")
    library = copy.path / "crates/low/src/lib.rt"
    library.write_text(LIBRARY)
    (copy.path / "crates/app/src/main.rt").write_text(PROGRAM)
    path = os.environ["PATH"]
    first = copy.run("scripts/program", "app", path=path)
    assert (first.status, first.output) == (0, "the number is 1\n"), first.errors
    assert first.errors.startswith(f"{first_line_of('app')}\n")
    second = copy.run("scripts/program", "app", path=path)
    assert second == (0, "the number is 1\n", "")
    library.write_text(LIBRARY.replace("    1\n", "    2\n"))
    second = copy.run("scripts/program", "app", path=path)
    assert (second.status, second.output) == (2, "")
    assert "src/lib.rt:5:1: it is not proved that" in second.errors
    assert "the library low did not build" in second.errors


LIBRARY = """\
#![tactic(auto)]

ghost use Rattle.std.specs.Prelude.{◌≡◌};

pub fn number() -> u32
    ensures { result ≡ 1 }
{
    1
}
"""
PROGRAM = """\
#![tactic(auto)]

fn main(rt: HostRuntime) -> std::io::Result<()> {
    println!(rt; "the number is {}", low::number())
}
"""
