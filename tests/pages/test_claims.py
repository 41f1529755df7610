"""Pages are right about names, about what Git does with them, and in what they count."""

import os
import re
import subprocess
import tarfile

import pytest

from scripts.checks.check_quotes import pages
from scripts.deriving.update_benchmarks import SPEEDS
from tests.hook.test_kills import CHECKS, KILLS
from tests.pages.blocks import ROOT
from tests.release import test_debian, test_upgrade

# Names that README says are accepted, each as what it is checked.
ACCEPTED = [
    ("path", "-x"),
    ("ref", "refs/heads/-x"),
    ("path", "README"),
    ("path", "readme"),
    ("path", "\u00e9"),
    ("path", "e\u0301"),
    ("path", "COM\u00b9"),
    ("path", ".git\udcff"),
    ("ref", "refs/heads/aux"),
    ("submodule", "hippo"),
    ("submodule", "hippo/hooks"),
    ("path", "a" * 60_000),
]

CONFIG = """[user]
name = a
email = a@example
[protocol "file"]
allow = always
"""


@pytest.fixture(scope="session")
def command(archive, tmp_path_factory):
    """The `git-check-names` of the release."""
    room = tmp_path_factory.mktemp("release")
    with tarfile.open(archive) as opened:
        opened.extractall(room)
    [program] = room.glob("*/bin/git-check-names")
    return program


@pytest.fixture
def git(tmp_path):
    """Git, which sees nobody's settings, and fetches from directories."""
    config = tmp_path / "config"
    config.write_text(CONFIG)
    environment = {
        **os.environ,
        "GIT_CONFIG_GLOBAL": str(config),
        "GIT_CONFIG_NOSYSTEM": "1",
    }

    def run(*words, cwd=tmp_path):
        how = {"cwd": cwd, "env": environment, "capture_output": True, "text": True}
        return subprocess.run(["git", *words], **how)

    return run


def section(page, heading):
    """The text below a heading of a page."""
    text = (ROOT / page).read_text("utf-8")
    return re.search(rf"(?ms)^#+ {heading}$(.*?)(?=^#|\Z)", text)[1]


def test_ASSURANCE_counts_the_must_fail_edits():
    text = section("docs/ASSURANCE.md", r"Could a wrong body satisfy its contract\?")
    famous = [it.read_text("utf-8") for it in ROOT.glob("crates/*/must-fail/*.edit")]
    others = [*ROOT.glob("crates/*/mutants/*.edit")]
    with_control = sum("\nright: " in it for it in famous)
    assert f"more than {(len(famous) + len(others)) // 100}00." in text
    assert f"The {len(famous)} in `must-fail/`" in text
    assert f"{with_control} of the {len(famous)} have a *control*" in text
    assert sum("\nhollow: " in it for it in famous) == len(famous) - with_control


def test_ASSURANCE_counts_what_was_recorded_and_the_rows_of_the_bindings():
    text = (ROOT / "docs/ASSURANCE.md").read_text("utf-8")
    record = (ROOT / "tests/recorded/results").read_text("utf-8").splitlines()
    results = 0
    for line in record:
        kind, _, *given = line.split(" ")
        each = given if kind == "names" else "".join(given)
        results += sum(it != "-" for it in each)
    assert f"[{results:,} results for {len(record):,} questions]" in text
    rows = (ROOT / "tests/rows").read_text("utf-8").splitlines()
    count = sum(bool(it) and not it.startswith("#") for it in rows)
    assert f"some {round(count, -2)} rows" in text


def test_ASSURANCE_counts_the_kills_and_the_slow_upgrades():
    text = section("docs/ASSURANCE.md", "The hook and the scan")
    of_the_hook = [it for it in CHECKS if it != "scan"]
    kills = KILLS * len(of_the_hook)
    by_install, by_dpkg = test_upgrade.SLOW_UPGRADES, test_debian.SLOW_UPGRADES
    assert f"killed at a random moment ({kills} times)" in text
    assert f"{by_install} slowed upgrades by `install` and {by_dpkg} by `dpkg`" in text


@pytest.mark.parametrize("kind, name", ACCEPTED)
def test_what_README_says_is_not_checked_is_accepted(command, kind, name):
    words = [command, kind, "-z"]
    given = os.fsencode(name) + b"\0"
    ran = subprocess.run(words, input=given, stdout=subprocess.PIPE)
    assert (ran.returncode, ran.stdout) == (0, b"")


# Names that Windows can't store as files. THREAT_MODEL has some of them.
OF_WINDOWS = ["aux", '"', "<", ">", "|", "foo./bar", "con.a/b"]


@pytest.mark.parametrize("name", OF_WINDOWS)
def test_only_a_safe_reference_has_no_name_that_Windows_cannot_store(command, name):
    full = f"refs/heads/{name}"
    for kind, status in ("ref", 0), ("safe-ref", 1):
        ran = subprocess.run([command, kind, full], stdout=subprocess.PIPE)
        assert ran.returncode == status
    text = (ROOT / "docs/THREAT_MODEL.md").read_text("utf-8")
    assert "`refs/heads/aux`" in text and '`refs/heads/"`' in text


def test_README_names_what_is_not_checked():
    text = section("README.md", "What it doesn't check")
    named = {it for _, it in ACCEPTED if it.isascii() and len(it) < 100}
    assert [it for it in named if f"`{it}`" not in text] == []


def test_the_rules_that_the_FAQ_calls_those_of_Windows_go_with_Windows(command):
    table = section("docs/FAQ.md", r"Which rules are Windows' alone\?")
    rows = re.findall(r"(?m)^\|[^|]*\|([^|]*)\|$", table)
    examples = [it for row in rows for it in re.findall("`([^`]*)`", row)]
    assert len(examples) == 7
    for name in examples:
        ran = [
            subprocess.run([command, "path", *words, name], stdout=subprocess.PIPE)
            for words in ([], ["--protect", "hfs,ntfs"])
        ]
        assert [it.returncode for it in ran] == [1, 0], name


@pytest.mark.parametrize("word", ["branch", "tag"])
def test_git_refuses_a_branch_and_a_tag_that_begin_with_a_dash(git, tmp_path, word):
    git("init", "-q")
    assert git("commit", "-q", "--allow-empty", "-m", "a").returncode == 0
    assert git(word, "--", "x").returncode == 0
    refused = git(word, "--", "-x")
    assert refused.returncode == 128
    assert "is not a valid" in refused.stderr


def test_git_refuses_to_clone_a_submodule_in_another_one(git, tmp_path):
    (tmp_path / "top").mkdir()
    for name in ("top", "part"):
        git("init", "-q", name)
    git("commit", "-q", "--allow-empty", "-m", "a", cwd=tmp_path / "part")
    head = git("rev-parse", "HEAD", cwd=tmp_path / "part").stdout.strip()
    form = '[submodule "{}"]\n\tpath = {}\n\turl = {}/part\n'
    names = {"hippo": "one", "hippo/hooks": "two"}
    modules = (form.format(it, path, tmp_path) for it, path in names.items())
    (tmp_path / "top/.gitmodules").write_text("".join(modules))
    git("add", ".", cwd=tmp_path / "top")
    for path in names.values():
        entry = f"160000,{head},{path}"
        git("update-index", "--add", "--cacheinfo", entry, cwd=tmp_path / "top")
    git("commit", "-q", "-m", "a", cwd=tmp_path / "top")
    assert git("fsck", cwd=tmp_path / "top").returncode == 0
    cloned = git("clone", "-q", "--recurse-submodules", "top", "clone")
    assert cloned.returncode == 1
    assert "in another submodule's git dir" in cloned.stderr


def test_tar_lists_a_name_with_a_newline_on_one_line(tmp_path):
    (tmp_path / "a\nb").touch()
    archive = tmp_path / "a.tar"
    subprocess.check_call(["tar", "-cf", archive, "a\nb"], cwd=tmp_path)
    listed = subprocess.check_output(["tar", "-tf", archive], text=True)
    assert listed == "a\\nb\n"


def test_a_time_of_a_call_is_only_where_a_script_writes_it_from_the_figures():
    for page in pages(ROOT):
        text = page.read_text("utf-8")
        rest = re.sub(r"(?s)<!-- (\w+) -->\n.*?<!-- end -->", "", text)
        rest = "\n".join(it for it in rest.split("\n") if not it.startswith(SPEEDS))
        assert re.findall(r"\d (?:ns|µs|ms|nanoseconds|milliseconds)\b", rest) == []
