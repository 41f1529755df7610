"""The site that MkDocs builds from the pages (mkdocs.yml)."""

import html
import json
import re
import subprocess
from pathlib import Path

import pytest

from scripts.checks.check_quotes import pages
from tests.built_site import Site, is_elsewhere

ROOT = Path(__file__).resolve().parent.parent
CHECKER = "docs/names.html"
# (One process builds the site for all tests.)
pytestmark = pytest.mark.xdist_group("site")


@pytest.fixture(scope="module")
def site(tmp_path_factory):
    """The site, built as the full check wants it: without a warning."""
    if not (ROOT / CHECKER).exists():
        pytest.skip(f"needs {CHECKER}: bindings/build makes it")
    room = tmp_path_factory.mktemp("site")
    built = subprocess.run(
        ["mkdocs", "build", "--strict", "--site-dir", room],
        cwd=ROOT,
        capture_output=True,
        text=True,
    )
    assert built.returncode == 0, built.stderr
    return Site(room)


def test_each_page_of_the_repository_is_in_the_navigation(site):
    front = site.pages["index.html"]
    shown = {site.target("index.html", it)[0] for it in front.links}
    for page in pages(ROOT):
        name = page.relative_to(ROOT).with_suffix(".html").as_posix()
        there = site.path / name.replace("README.html", "index.html")
        assert there in shown, f"mkdocs.yml has no {page.relative_to(ROOT)}"


def test_the_checker_of_names_is_a_page(site):
    assert CHECKER in site.pages["index.html"].links
    assert (site.path / CHECKER).read_bytes() == (ROOT / CHECKER).read_bytes()


def test_each_link_leads_to_a_page_and_to_an_anchor_of_it(site):
    links = [*site.links()]
    assert links and [it for it in links if not site.leads_somewhere(*it)] == []


def test_no_page_loads_anything_from_a_network(site):
    loaded = [*site.loaded()]
    assert loaded and [it for it in loaded if is_elsewhere(it[1])] == []
    own = [it for it in loaded if it[0] != CHECKER]
    assert [it for it in own if not site.target(*it)[0].is_file()] == []


def test_no_style_loads_anything_from_a_network(site):
    styles = sorted(site.path.glob("**/*.css"))
    assert styles
    for style in styles:
        text = style.read_text("utf-8")
        links = re.findall(r"url\(\s*[\"']?([^\"')]*)", text) + re.findall(
            r"@import\s+[\"']([^\"']*)", text
        )
        assert not [it for it in links if re.match(r"(?:https?:)?//", it)], style


def test_a_list_is_a_list_on_the_site_as_on_a_host(site):
    for name in site.pages.keys() - {CHECKER}:
        text = (site.path / name).read_text("utf-8")
        article = re.search(r"(?s)<article\b.*</article>", text)[0]
        shown = re.sub(r"(?s)<pre\b.*?</pre>", "", article)
        assert not re.findall(r"(?m)^ *(?:[-*]|\d+\.) .*", shown), name


def test_the_search_finds_a_page_of_each_folder(site):
    index = (site.path / "search/search_index.json").read_text("utf-8")
    for place in ("docs/RULES.html", "hook/index.html", "bench/index.html"):
        assert f'"location":"{place}"' in index


def answers(site):
    """The questions and answers in the index of the search."""
    index = json.loads((site.path / "search/search_index.json").read_text("utf-8"))
    return [it for it in index["docs"] if "docs/FAQ.html" in it["location"]]


def test_the_search_finds_each_question(site):
    found = {it["title"] for it in answers(site)}
    asked = re.findall("(?m)^### (.*)$", (ROOT / "docs/FAQ.md").read_text("utf-8"))
    assert len(asked) > 15
    for it in asked:
        title = html.escape(it.replace("`", ""), quote=False)
        assert any(title == re.sub("<.*?>", "", each) for each in found), it


@pytest.mark.parametrize(
    "sought",
    ["closed source", "contact", "jenkins", "license", "proprietary", "support"],
)
def test_the_search_finds_an_answer_to_what_readers_look_for(site, sought):
    texts = [it["title"] + " " + it["text"] for it in answers(site)[1:]]
    # (The search splits at spaces and dashes, and drops what surrounds a word.)
    words = [re.split(r"\W*[\s-]+\W*", it.lower()) for it in texts]
    assert any({*sought.split()} <= {*it} for it in words)
