"""The pictures that Graphviz draws from docs/pictures/*.dot, and matplotlib of figures."""

import re
from pathlib import Path
from xml.etree import ElementTree

import pytest

ROOT = Path(__file__).resolve().parent.parent.parent
SOURCES = sorted((ROOT / "docs/pictures").glob("*.dot"))
MEASURED = sorted((ROOT / "bench").glob("*.svg"))
LABEL = re.compile(r'\blabel="((?:[^"\\]|\\.)*)"')
SVG = "{http://www.w3.org/2000/svg}"
DOT = "docs/pictures/tag.dot"
SVG_OF_TAG = "docs/pictures/tag.svg"


def lines_of(label):
    """The lines that a label of a .dot shows, without the spaces around them."""
    parts = re.split(r"\\n", label.replace(r"\\", "\0"))
    return [it.replace("\0", "\\").strip() for it in parts]


def texts(svg):
    """The lines of text that a picture shows, without the spaces around them."""
    return [it.text.strip() for it in ElementTree.fromstring(svg).iter(f"{SVG}text")]


@pytest.mark.parametrize("source", SOURCES, ids=lambda it: it.stem)
def test_a_picture_shows_each_label_of_its_source(source):
    labels = LABEL.findall(source.read_text("utf-8"))
    wanted = sorted(line for label in labels for line in lines_of(label))
    shown = texts(source.with_suffix(".svg").read_text("utf-8"))
    assert labels and {*wanted} == {*shown}


@pytest.mark.parametrize("source", SOURCES, ids=lambda it: it.stem)
def test_a_picture_says_in_words_what_it_shows(source):
    drawn = ElementTree.fromstring(source.with_suffix(".svg").read_text("utf-8"))
    title, description = drawn.find(f"{SVG}title"), drawn.find(f"{SVG}desc")
    assert drawn.get("aria-labelledby").split() == [
        title.get("id"),
        description.get("id"),
    ]
    head = source.read_text("utf-8").partition("\ndigraph")[0]
    said = f"{title.text} {description.text}"
    assert said.split() == head.replace("//", "").split()


@pytest.mark.parametrize("source", SOURCES, ids=lambda it: it.stem)
def test_a_picture_needs_no_network_and_has_colours_for_light_and_dark(source):
    svg = source.with_suffix(".svg").read_text("utf-8")
    links = re.findall(r"""(?:href|src|url)\W+([^"')]*)""", svg)
    assert not links
    assert "prefers-color-scheme: dark" in svg


def reached(links, start):
    """What the links lead to from there, in one step or in several."""
    found, rest = set(), [start]
    while rest:
        more = links.get(rest.pop(), set()) - found
        found |= more
        rest += more
    return found


def test_the_arrows_between_crates_lead_to_what_each_depends_on():
    lines = [it.partition(":") for it in (ROOT / "crates.txt").read_text().splitlines()]
    depends = {head.split()[0]: {*rest.split()} for head, _, rest in lines if rest}
    dot = (ROOT / "docs/pictures/crates.dot").read_text("utf-8")
    names = dict(re.findall(r'(?m)^ +(\w+) \[label="(\w+)', dot))
    arrows = {}
    for start, end in re.findall(r"(\w+) -> (\w+)", dot):
        if {names[start], names[end]} <= {*depends}:
            arrows.setdefault(names[start], set()).add(names[end])
    shown = {*names.values()} & {*depends}
    assert len(shown) == 9
    for name in shown:
        assert arrows.get(name, set()) <= depends[name]
        assert reached(arrows, name) == reached(depends, name) & {*depends}


def test_a_picture_whose_source_changed_is_found_and_drawn_again(copy):
    copy.change(DOT, "Is it empty", "Has it no byte")
    ended = copy.dev("update-pictures", "--check")
    assert (ended.status, ended.output) == (1, "")
    assert ended.errors == f"{SVG_OF_TAG} differs: run scripts/dev update-pictures\n"
    assert copy.dev("update-pictures") == (0, "", f"{SVG_OF_TAG} is written\n")
    assert "Has it no byte?" in texts((copy.path / SVG_OF_TAG).read_text("utf-8"))
    assert copy.dev("update-pictures", "--check") == (0, "", "")


def test_a_source_without_words_is_refused(copy):
    copy.change(DOT, r"\A// .*\n//\n", "")
    ended = copy.dev("update-pictures")
    assert (ended.status, ended.output) == (1, "")
    assert ended.errors == f"{DOT} does not begin with a title and what it shows\n"


@pytest.mark.parametrize("file", MEASURED, ids=lambda it: it.stem)
def test_a_picture_of_measurements_says_in_words_what_it_shows(file):
    drawn = ElementTree.fromstring(file.read_text("utf-8"))
    title, description = drawn.find(f"{SVG}title"), drawn.find(f"{SVG}desc")
    named = drawn.get("aria-labelledby").split()
    assert named == [title.get("id"), description.get("id")]
    assert title.text and re.search(r"\d", description.text)


@pytest.mark.parametrize("file", MEASURED, ids=lambda it: it.stem)
def test_each_colour_of_a_picture_of_measurements_has_another_in_the_dark(file):
    style, drawn = re.findall(
        r"(?s)@media \(prefers-color-scheme: dark\)(.*?)</style>(.*)",
        file.read_text("utf-8"),
    )[0]
    colours = {*re.findall(r"\b(?:fill|stroke): #\w+", drawn)}
    assert colours and [it for it in colours if f'[style*="{it}"]' not in style] == []
