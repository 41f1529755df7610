"""release/programs describes each program as its help and its source do, and makes manual
pages of which no tool complains."""

import re
import shutil
import subprocess
from pathlib import Path

import pytest

from release import descriptions, manual

ROOT = Path(__file__).resolve().parent.parent
DESCRIBED = descriptions.read_all()
HOOK = DESCRIBED["git-names-hook"]
PROGRAMS = [it for it in DESCRIBED if it != HOOK["name"]]
SUBCOMMANDS = DESCRIBED["check_push"]["subcommands"]
# What a manual page has, in this order, with others between.
HEADINGS = [
    "NAME",
    "SYNOPSIS",
    "DESCRIPTION",
    "OPTIONS",
    "EXIT STATUS",
    "EXAMPLES",
    "SEE ALSO",
]


@pytest.mark.parametrize("name", PROGRAMS)
def test_the_glossary_says_what_a_program_is(name):
    glossary = (ROOT / "docs/GLOSSARY.md").read_text("utf-8")
    assert f"\n**`{name}`**: " in glossary


def help_of(name):
    """The help that a program prints, from its source."""
    if name == "git-scan-names":
        source = (ROOT / "hook/src/scan/options.rs").read_text("utf-8")
        return re.search(r'(?s)\npub const HELP: &str = "\\\n(.*?)";\n', source)[1]
    command = [ROOT / "scripts/program", *name.replace("-", "_").split(), "--help"]
    return subprocess.check_output(command, text=True)


def listed_in(text):
    """What the lists of a help begin with: options, and words such as kinds."""
    listed = re.findall(r"(?m)^    (\S.*?)  ", text)
    words = [it for it in listed if not it.startswith("-")]
    return sorted(set(listed) - set(words)), words


def options_of(*described):
    return sorted(option["option"] for it in described for option in it["options"])


@pytest.mark.parametrize("name", PROGRAMS)
def test_the_options_and_words_of_a_program_are_those_of_its_help(name):
    options, words = listed_in(help_of(name))
    described = DESCRIBED[name]
    assert options == options_of(described)
    if name == "check_names":
        [kinds] = (it for it in described["sections"] if it["heading"] == "KINDS")
        assert words == re.findall(r"(?m)^`(\w+)`\n:   ", kinds["text"])
    else:
        lists = described.get("words", []) + described.get("subcommands", [])
        assert words == [it["word"] for it in lists]


@pytest.mark.parametrize("subcommand", SUBCOMMANDS, ids=lambda it: it["word"])
def test_the_options_of_a_subcommand_are_those_of_its_help(subcommand):
    options, _ = listed_in(help_of(f"check_push {subcommand['word']}"))
    assert options == options_of(DESCRIBED["check_push"], subcommand)


@pytest.mark.parametrize("name", PROGRAMS)
def test_the_statuses_of_a_program_are_those_of_its_help(name):
    said = re.search(r"(?s)\nThe status is .*", help_of(name))[0]
    assert sorted(DESCRIBED[name]["status"]) == sorted(
        {*re.findall(r"\b[0-9]\b", said)}
    )


@pytest.mark.parametrize("name", DESCRIBED)
def test_a_default_that_a_program_and_the_hook_share_is_described_alike(name):
    lists = [
        option["text"]
        for it in [DESCRIBED[name], *DESCRIBED[name].get("subcommands", [])]
        for option in it.get("options", [])
        if option["option"] == "--protect LIST"
    ]
    assert all("The default is all three." in it for it in lists)


def test_the_settings_of_the_hook_are_those_that_its_source_reads():
    source = (ROOT / "hook/src/settings.rs").read_text("utf-8")
    read = {*re.findall(r'"(names\.\w+)"', source)}
    assert read == {it["name"].lower() for it in HOOK["settings"]}


def test_the_defaults_of_the_settings_are_those_of_the_source():
    source = (ROOT / "hook/src/settings.rs").read_text("utf-8")
    [defaults] = re.findall(r"(?s)fn default\(\) -> Self \{(.*?)\n    \}", source)
    defaults = dict(re.findall(r'(\w+): "?([\w,]+)"?', defaults))
    defaults["alternateRefs"] = defaults.pop("alternate_refs")
    for it in HOOK["settings"]:
        if "default" in it:
            read = defaults[it["name"].partition(".")[2]]
            assert read.strip(",") == it["default"]


@pytest.mark.parametrize("name", DESCRIBED)
def test_a_description_has_the_keys_that_are_explained_and_no_other(name):
    explained = re.findall(r"`(\w+)`", descriptions.__doc__)
    assert {*DESCRIBED[name]} <= {*explained}


@pytest.fixture(scope="module")
def pages(tmp_path_factory):
    """The manual pages, as a release has them."""
    release = tmp_path_factory.mktemp("release")
    (release / "include").mkdir()
    shutil.copy(ROOT / "bindings/c/gix_validate.h", release / "include")
    manual.write(release, "1.2.3", "2026-11-29")
    return release / "share/man"


def page_in(pages, name):
    [page] = pages.glob(f"man*/{name}.*")
    return page


@pytest.mark.parametrize("name", DESCRIBED)
def test_a_manual_page_has_the_usual_sections_in_order(pages, name):
    headings = re.findall(r"(?m)^\.SH (.*)", page_in(pages, name).read_text("utf-8"))
    assert [it for it in headings if it in HEADINGS] == HEADINGS


TOOLS = {
    "mandoc": ["-T", "lint", "-W", "warning"],
    "groff": ["-ww", "-man", "-T", "utf8", "-z"],
}


@pytest.mark.parametrize("tool", TOOLS)
@pytest.mark.parametrize("name", [*DESCRIBED, "gix_validate"])
def test_no_tool_complains_of_a_manual_page(pages, name, tool):
    if not shutil.which(tool):
        pytest.skip(f"needs {tool}")
    words = [tool, *TOOLS[tool], page_in(pages, name)]
    ran = subprocess.run(words, capture_output=True, text=True)
    assert (ran.returncode, ran.stdout + ran.stderr) == (0, "")


def test_a_manual_page_shows_an_option_and_an_example_as_they_are_typed(pages):
    if not shutil.which("mandoc"):
        pytest.skip("needs mandoc")
    words = ["mandoc", "-T", "ascii", page_in(pages, "check_push")]
    shown = subprocess.check_output(words, text=True)
    shown = re.sub(".\b", "", shown)
    assert "\n       --protect LIST\n" in shown
    assert "--batch='%(objectname) %(objecttype) %(objectsize) %(rest)' |\n" in shown
    assert r"""backslash are \0, \t, \n, \r, \" and \\;""" in " ".join(shown.split())


@pytest.mark.parametrize("name", DESCRIBED)
def test_a_manual_page_leads_only_to_pages_that_there_are(name):
    ours = {f"{it}({DESCRIBED[it]['section']})" for it in DESCRIBED}
    others = {"git", "githooks", "gix_validate"}
    for page in DESCRIBED[name]["also"]:
        assert page in ours or re.split(r"[-(]", page)[0] in others


def test_the_functions_of_the_header_are_named_and_its_guards_are_not(pages):
    page = page_in(pages, "gix_validate").read_text("ascii")
    assert "GIX_VALIDATE_H\n" not in page and "#if" not in page
    for name in manual.declared_in((ROOT / "bindings/c/gix_validate.h").read_text()):
        assert (pages / f"man3/{name}.3").exists()
