"""What bash, zsh and fish complete after the programs. In bash and zsh they are also commands
of Git. (The completion of git in fish 3.6 doesn't find those of other commands.)"""

import os
import re
import shutil
import subprocess
from pathlib import Path

import pytest

from release import completion, descriptions

OF_GIT = Path("/usr/share/bash-completion/completions/git")
PROGRAMS = [name for name, it in descriptions.read_all().items() if it["section"] == 1]
BASH = """
. "$1"
COMP_WORDS=("${@:2}")
COMP_CWORD=$(($# - 2))
"_called_${2//-/_}" "$2" "${!#}" "${COMP_WORDS[COMP_CWORD - 1]}"
echo "${COMPREPLY[@]}"
"""
# As the completion of git sets these variables.
GIT_IN_BASH = """
. "$1"
. "$2"
words=("${@:3}")
cword=$(($# - 3))
cur=${words[cword]} prev=${words[cword - 1]}
__git_complete_command "${words[1]}"
echo "${COMPREPLY[@]}"
"""
# Types a line into zsh, and prints what a tab makes of it.
ZSH = """
zmodload zsh/zpty
zpty shell zsh -f -i
zpty -w shell "fpath=(${(q)1} \\$fpath); path=(${(q)2} \\$path); autoload -Uz compinit"
zpty -w shell 'compinit -u -D; unsetopt beep; show() { print -r -- "<$BUFFER>"; exit }; zle -N show'
zpty -w shell 'bindkey "^I" complete-word; bindkey "^X" show; print read''y'
zpty -r shell line '*ready*'
zpty -n -w shell "$3"$'\\t\\x18'
zpty -r shell line '*<*>*'
print -r -- "$line"
"""


@pytest.fixture(scope="module")
def release(tmp_path_factory):
    """The completions, and programs that need not do anything."""
    made = tmp_path_factory.mktemp("release")
    completion.write(made)
    (made / "bin").mkdir()
    for name in PROGRAMS:
        (made / "bin" / name).write_text("#!/bin/sh\n")
        (made / "bin" / name).chmod(0o755)
    return made


@pytest.fixture
def repository(tmp_path):
    git = ["git", "-C", tmp_path, "-c", "user.name=a", "-c", "user.email=a@example"]
    for words in ["init -q -b main", "commit -q --allow-empty -m a", "tag v1.2.3"]:
        subprocess.run([*git, *words.split()], check=True)
    return tmp_path


def run(release, *words, cwd=None):
    path = f"{release}/bin:{os.environ['PATH']}"
    home = {"HOME": str(release), "XDG_CONFIG_HOME": str(release / "config")}
    environment = {**os.environ, **home, "PATH": path, "LC_ALL": "C.UTF-8"}
    ran = subprocess.run(
        words, cwd=cwd, env=environment, capture_output=True, text=True, timeout=60
    )
    assert ran.stderr == ""
    return ran.stdout


def needs(tool):
    return pytest.mark.skipif(not shutil.which(tool), reason=f"needs {tool}")


# What is typed, and what is offered for its last word.
TYPED = [
    ("check_names --", "--help --version"),
    ("check_push ", "refs trees submodules"),
    ("check_push s", "submodules"),
    ("check_push refs -", "--ids --replace -h --help --version"),
    ("check_push trees --e", "--end"),
    ("check_push trees --protect ", "windows hfs ntfs none"),
    ("check_push trees --protect = n", "ntfs none"),
    ("check_push trees --protect hfs,w", "hfs,windows"),
    ("check_push submodules --", "--end --help --version"),
    ("check_push no-such-word --i", ""),
    ("git-check-names su", "submodule"),
    ("git-check-names tag --st", "--stdin"),
    ("git-scan-names --to", "--to-accept"),
    ("git-scan-names --index v", "v1.2.3"),
]


@pytest.mark.parametrize("typed, offered", TYPED)
def test_bash_completes_a_word(release, repository, typed, offered):
    words = typed.split(" ")
    file = release / "share/bash-completion/completions" / words[0]
    made = run(release, "bash", "-c", BASH, "-", file, *words, cwd=repository)
    assert made == f"{offered}\n"


@pytest.mark.skipif(not OF_GIT.exists(), reason=f"needs {OF_GIT} (Debian: git)")
@pytest.mark.parametrize(
    "typed, offered",
    [
        ("git check-names --st", "--stdin "),
        ("git check-names su", "submodule "),
        ("git scan-names --pro", "--protect "),
        ("git scan-names --protect=hfs,w", "hfs,windows "),
        ("git scan-names v1", "v1.2.3 "),
    ],
)
def test_bash_completes_a_word_after_git(release, repository, typed, offered):
    words = typed.split(" ")
    file = release / f"share/bash-completion/completions/git-{words[1]}"
    ran = ["bash", "-c", GIT_IN_BASH, "-", OF_GIT, file, *words]
    assert run(release, *ran, cwd=repository) == f"{offered}\n"


@needs("zsh")
@pytest.mark.parametrize(
    "typed, completed",
    [
        ("check_names --v", "check_names --version "),
        ("check_push s", "check_push submodules "),
        ("check_push refs --i", "check_push refs --ids "),
        ("check_push trees --protect=hf", "check_push trees --protect=hfs,"),
        ("git-check-names su", "git-check-names submodule "),
        ("git-check-names tag --st", "git-check-names tag --stdin "),
        ("git check-names tag --st", "git check-names tag --stdin "),
        ("git scan-names --to", "git scan-names --to-accept "),
        ("git-scan-names v1", "git-scan-names v1.2.3 "),
    ],
)
def test_zsh_completes_a_line(release, repository, typed, completed):
    functions = release / "share/zsh/site-functions"
    words = ["zsh", "-f", "-c", ZSH, "-", functions, release / "bin", typed]
    shown = run(release, *words, cwd=repository)
    assert re.search(r"<([^<>]*)>\r?\n", shown)[1].strip() == completed.strip()


@needs("fish")
@pytest.mark.parametrize(
    "typed, offered",
    [
        ("check_names --v", ["--version"]),
        ("check_push ", ["refs", "submodules", "trees"]),
        ("check_push refs --i", ["--ids"]),
        ("check_push trees --protect=hfs,w", ["--protect=hfs,windows"]),
        ("git-check-names su", ["submodule"]),
        ("git-check-names tag --st", ["--stdin"]),
        ("git-scan-names v1", ["v1.2.3"]),
    ],
)
def test_fish_completes_a_word(release, repository, typed, offered):
    files = release / "share/fish/vendor_completions.d"
    program = f"set -p fish_complete_path {files}; complete -C '{typed}'"
    shown = run(release, "fish", "--no-config", "-c", program, cwd=repository)
    assert sorted(it.partition("\t")[0] for it in shown.splitlines()) == offered


@pytest.mark.parametrize("name", PROGRAMS)
@pytest.mark.parametrize("shell", ["bash", "zsh", "fish"])
def test_a_shell_reads_the_completion_of_a_program(release, shell, name):
    if not shutil.which(shell):
        pytest.skip(f"needs {shell}")
    [directory] = (it for it in completion.PLACES if f"/{shell}" in it)
    file = release / directory / completion.PLACES[directory][0].format(name)
    assert run(release, shell, "-n", file) == ""


@needs("shellcheck")
def test_shellcheck_finds_no_fault_in_the_completions_for_bash(release):
    files = sorted((release / "share/bash-completion/completions").iterdir())
    assert len(files) == len(PROGRAMS)
    assert run(release, "shellcheck", *files) == ""
