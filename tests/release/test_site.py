"""The site of the pages, as somebody reads it who has installed the release."""

import os
import re
from html import unescape

import pytest

from release import descriptions
from tests.built_site import Site, is_elsewhere
from tests.release.commands import need, run

OF_RUST = "reference/rust/"
CHECKER = "docs/names.html"


@pytest.fixture(scope="module")
def site(prefix):
    return Site(prefix / "share/doc/gix-validate/html")


def text_of(page):
    """The text of a page. (mandoc writes a space into an empty line.)"""
    return unescape(re.sub("<[^>]*>", "", page)).replace("\xa0", "")


def shown(url, room):
    """What a browser makes of a page in 20 of its seconds."""
    flags = ["--headless", "--disable-gpu", f"--user-data-dir={room}/chromium"]
    flags += ["--no-sandbox"] if os.getuid() == 0 else []
    flags += ["--virtual-time-budget=20000", "--dump-dom"]
    return run("chromium", *flags, url, TMPDIR=str(room))


@need("chromium")
@pytest.mark.parametrize(
    "page, text",
    [
        ("index.html", "Dihareku checks the names that Git stores"),
        ("docs/RULES.html", "RepeatedDot"),
        ("reference/python.html", "validate_branch_ref"),
        ("reference/rust/git_names/index.html", "suggest_branch"),
    ],
)
def test_a_page_opens_from_a_disk(site, room, page, text):
    opened = shown((site.path / page).as_uri(), room)
    assert opened.status == 0 and text in opened.said


@need("chromium")
def test_the_search_finds_a_heading_of_another_page_from_a_disk(site, room):
    front = (site.path / "index.html").as_uri()
    opened = shown(f"{front}?q=short%20branch", room)
    assert opened.status == 0
    found = re.findall('href="([^"]*)" class="md-search-result__link"', opened.said)
    assert (site.path / "docs/RULES.html").as_uri() + "#short-names" in found


def test_each_link_leads_to_a_page_and_to_an_anchor_of_it(site):
    links = [*site.links()]
    # (The script of rustdoc makes some of its anchors.)
    links = [
        (page, link.partition("#")[0] if page.startswith(OF_RUST) else link)
        for page, link in links
    ]
    assert links and [it for it in links if not site.leads_somewhere(*it)] == []


def test_no_page_loads_anything_from_a_network(site):
    # (The settings of rustdoc have a script that it doesn't write.)
    others = [CHECKER, f"{OF_RUST}settings.html"]
    loaded = [it for it in site.loaded() if it[0] not in others]
    assert loaded and [it for it in loaded if is_elsewhere(it[1])] == []
    assert [it for it in loaded if not site.target(*it)[0].is_file()] == []


def test_each_program_and_the_hook_have_a_page(site):
    for name, described in descriptions.read_all().items():
        page = (site.path / f"reference/programs/{name}.html").read_text("utf-8")
        shown = " ".join(text_of(page).split())
        for example in described["examples"]:
            assert " ".join(example["command"].split()) in shown


@pytest.mark.parametrize(
    "page, function",
    [
        ("c.html", "gix_validate_sanitize_in_place"),
        ("cpp.html", "check_branch_ref"),
        ("go.html", "func CheckBranchRef"),
        ("javascript.html", "suggestBranch"),
        ("python.html", "validate_branch_ref"),
        ("rust/git_names/fn.branch_ref.html", "full branch name"),
    ],
)
def test_each_language_has_a_page_that_the_first_one_leads_to(site, page, function):
    assert function in text_of((site.path / "reference" / page).read_text("utf-8"))
    front = "rust/git_names/index.html" if page.startswith("rust") else page
    assert f"reference/{front}" in site.pages["index.html"].links


def test_the_site_has_the_licences_of_what_it_shows_its_pages_with(site):
    names = sorted(it.name for it in (site.path / "licences").iterdir())
    assert names == [
        "NOTICE",
        "focus-visible-LICENSE-W3C",
        "material-LICENSE-MIT",
        "mkdocstrings-LICENSE-ISC",
    ]


def test_nothing_is_left_of_what_only_a_web_server_or_other_languages_need(site):
    left = [*site.path.glob("**/*.map"), *site.path.glob("sitemap*")]
    assert [*left, *site.path.glob("**/lunr/*")] == []
