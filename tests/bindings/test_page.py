"""The page docs/names.html, from the disk, in headless Chromium: typed names, keyboard,
what a screen reader gets, narrow, in the dark."""
import pytest

from .tools import ROOT, need, run

# (`--dist loadgroup` has one process run them all, in one browser.)
pytestmark = pytest.mark.xdist_group("page")
PAGE = ROOT / "docs/names.html"
# Keys, as WebDriver writes them. (Nothing is pressed after the first.)
NULL, TAB, ENTER, CONTROL = "\ue000", "\ue004", "\ue007", "\ue009"
# (A script has no other way to paste.)
INSERT = """
    const [kind, text] = arguments, transfer = new DataTransfer();
    const field = document.getElementById("name");
    transfer.setData("text/plain", text);
    field.select();
    const given = {clipboardData: transfer, dataTransfer: transfer};
    const event = kind === "paste" ? new ClipboardEvent(kind, {...given, cancelable: true}) :
                                     new DragEvent(kind, {...given, cancelable: true});
    return field.dispatchEvent(event);
"""
# Kind, typed name, verdict, what is marked, what is said besides, repair.
STATES = [
    (
        "branch",
        "main",
        "✓ Valid",
        None,
        ["main", "Git stores it as refs/heads/main."],
        None,
    ),
    (
        "branch",
        "HEAD",
        "✗ Not valid",
        "HEAD",
        ['cannot be used: "HEAD" ("H" at index 0)', "Reserved.", "can't be repaired"],
        None,
    ),
    (
        "branch",
        "feature//x y..lock",
        "✗ Not valid",
        "//",
        ['cannot contain repeated slashes ("/" at index 8)', "RepeatedSlash."],
        "feature/x-y",
    ),
    (
        "branch",
        "refs/heads/-",
        "✓ Valid",
        None,
        ["refs/heads/-", "Git stores it as refs/heads/refs/heads/-."],
        None,
    ),
    ("branch", ".foo", "✗ Not valid", ".", ["StartsWithDot."], "foo"),
    ("branch", "-x", "✗ Not valid", "-", ["StartsWithDash."], "x"),
    ("tag", "v1", "✓ Valid", None, ["v1", "Git stores it as refs/tags/v1."], None),
    (
        "tag",
        "ä b",
        "✗ Not valid",
        " ",
        ['invalid byte: " " (" " at index 1)', "InvalidByte. The first character"],
        "ä-b",
    ),
    (
        "tag",
        "a\\x1bb",
        "✗ Not valid",
        "\\x1b",
        ["a\\x1bb", '("\\u001b" at index 1)'],
        "a-b",
    ),
    ("tag", "...", "✗ Not valid", "..", ["can't be repaired"], None),
    (
        "reference",
        "Main",
        "✗ Not valid",
        "a",
        ['("a" at index 1)', "SomeLowercase.", "It can't be repaired"],
        None,
    ),
    (
        "reference",
        "refs/remotes/o/v1.lock",
        "✗ Not valid",
        ".lock",
        ['("." at index 17, in "v1.lock")', "LockFileSuffix."],
        "refs/remotes/o/v1",
    ),
    (
        "path",
        "docs/aux.txt",
        "✗ Not valid",
        "aux",
        ['("a" at index 5, in "aux.txt")', "WindowsReservedName."],
        None,
    ),
    (
        "path",
        ".g\u200cit/x",
        "✗ Not valid",
        ".g\\u{200c}it",
        ['("." at index 0, in ".g\\u200cit")', "DotGitDir."],
        None,
    ),
    ("path", "x/ab .", "✗ Not valid", " .", ["WindowsIllegalCharacter."], None),
    ("path", "a//b", "✗ Not valid", "", ['("/" at index 2)', "EmptyPart."], None),
    ("path", "a/", "✗ Not valid", "", ["(at the end)", "EmptyPart."], None),
    (
        "path",
        "src/main.c",
        "✓ Valid",
        None,
        ["src/main.c", "A file system may refuse more"],
        None,
    ),
    (
        "submodule",
        "lib/../x",
        "✗ Not valid",
        "..",
        ['("." at index 4, in "..")', "ParentComponent."],
        None,
    ),
    ("submodule", "x/..\u200c", "✗ Not valid", "..\\u{200c}", ["Disguised."], None),
]
DEVICE = (
    "✗ Refused: Windows device-names may have side-effects and are not allowed "
    '("a" at index 5, in "aux.txt")'
)
DOT_GIT = '✗ Refused: The .git name may never be used ("{}" at index 0)'
ACCEPTED = "✓ Accepted"
# A path, and what each protection says of it.
PROTECTED = [
    ("docs/aux.txt", [DEVICE, ACCEPTED, ACCEPTED]),
    ("git~1", [DOT_GIT.format("g"), ACCEPTED, ACCEPTED]),
    (".g\u200cit", [ACCEPTED, DOT_GIT.format("."), ACCEPTED]),
    (".GIT", [DOT_GIT.format(".")] * 3),
    ("src/main.c", [ACCEPTED] * 3),
]
# The row that Git's settings stand for. (That of Windows refuses more.)
PROTECTION_OF = {
    "protectNTFS=false": "none",
    "protectNTFS=true": "Windows, NTFS",
    "protectNTFS=false protectHFS=true": "HFS+",
}
# A path, settings, and whether Git 2.39 accepts it under them.
OF_GIT = [
    ("git~1", "protectNTFS=false", True),
    ("git~1", "protectNTFS=true", False),
    (".g\u200cit", "protectNTFS=true", True),
    (".g\u200cit", "protectNTFS=false protectHFS=true", False),
    ("aux.c", "protectNTFS=false", True),
    ("a\\.git", "protectNTFS=true", False),
    (".GIT", "protectNTFS=false", False),
    ("a//b", "protectNTFS=false", False),
]
# What a screen reader gets of an element: its role, and its name.
READ = [
    ("#name", "textbox", "Name"),
    ("fieldset", "group", "It is the name of"),
    ("[value=tag]", "radio", "a tag"),
    ("[role=status]", "status", ""),
    ("#use", "button", "Use it"),
    ("main", "main", ""),
]


class Page:
    """The page in a browser."""

    def __init__(self, browser):
        self.browser = browser

    def found(self, selector):
        return self.browser.find_elements("css selector", selector)

    def text(self, selector):
        """The text of an element, and None if there is none."""
        texts = (it.get_property("textContent") for it in self.found(selector))
        return next(texts, None)

    def said(self):
        """The lines of the result."""
        return [it.text for it in self.found("[role=status] p") if it.text]

    def protections(self):
        """The lines of the table."""
        return [it.text for it in self.found("#protections tr")]

    def insert(self, kind, text):
        """Pastes or drops a text in place of what is typed. Returns whether the browser
        is to do it."""
        return self.browser.execute_script(INSERT, kind, text)

    def active(self):
        """The element that has the keyboard."""
        return self.browser.switch_to.active_element

    def type_name(self, kind, name):
        """Chooses a kind, and types a name in place of the one that is there."""
        self.found(f"[value={kind}]")[0].click()
        self.found("#name")[0].send_keys(CONTROL, "a", NULL, name)

    def colours(self, scheme):
        """The colours of the result's ground, verdict and place, in light or dark."""
        media = {"features": [{"name": "prefers-color-scheme", "value": scheme}]}
        self.browser.execute_cdp_cmd("Emulation.setEmulatedMedia", media)
        shown = {"#result": "background-color", "#verdict": "color", "#where": "color"}
        return [
            self.found(it)[0].value_of_css_property(name) for it, name in shown.items()
        ]

    def size(self, width, height):
        metrics = {"width": width, "height": height}
        metrics.update({"deviceScaleFactor": 1, "mobile": True})
        self.browser.execute_cdp_cmd("Emulation.setDeviceMetricsOverride", metrics)


@pytest.fixture(scope="module")
def offline(chromium):
    """A browser without a network."""
    need(PAGE)
    with chromium() as browser:
        browser.set_network_conditions(offline=True, latency=0, throughput=0)
        yield browser


@pytest.fixture
def page(offline):
    """The page, as it is when it was opened."""
    from selenium.webdriver.support.wait import WebDriverWait

    offline.execute_cdp_cmd("Emulation.clearDeviceMetricsOverride", {})
    offline.execute_cdp_cmd("Emulation.setEmulatedMedia", {"features": []})
    offline.get(PAGE.as_uri())
    opened = Page(offline)
    WebDriverWait(offline, 60).until(lambda _: opened.text("#version"))
    return opened


def test_at_first_the_page_asks_for_a_name(page):
    assert page.said() == ["Type a name."]
    assert page.active().get_attribute("id") == "name"


@pytest.mark.parametrize("kind, name, verdict, marked, besides, repaired", STATES)
def test_the_page_says_whether_a_name_is_valid_and_why_not(
    page, kind, name, verdict, marked, besides, repaired
):
    page.type_name(kind, name)
    said = page.said()
    assert said[0] == verdict
    assert page.text("mark") == marked
    assert page.text("#repair:not([hidden]) #repaired") == repaired
    assert [it for it in besides if not any(it in line for line in said)] == []
    is_invalid = str(not verdict.startswith("✓")).lower()
    assert page.active().get_attribute("aria-invalid") == is_invalid
    assert len(page.found("#protections:not([hidden])")) == (kind == "path")


@pytest.mark.parametrize("name, refusals", PROTECTED)
def test_the_page_says_which_protections_refuse_a_path(page, name, refusals):
    page.type_name("path", name)
    assert page.protections() == [
        f"Windows, NTFS {refusals[0]}",
        f"HFS+ {refusals[1]}",
        f"none {refusals[2]}",
    ]


@pytest.mark.parametrize("name, settings, accepted", OF_GIT)
def test_git_refuses_what_the_protections_of_its_settings_refuse(
    page, tmp_path, name, settings, accepted
):
    need("git")
    run("git", "init", "--quiet", tmp_path)
    options = [it for setting in settings.split() for it in ("-c", f"core.{setting}")]
    words = ["update-index", "--add", "--cacheinfo", f"100644,{'1' * 40},{name}"]
    run("git", *options, *words, cwd=tmp_path, status=0 if accepted else 128)
    page.type_name("path", name)
    row = PROTECTION_OF[settings]
    [said] = [it for it in page.protections() if it.startswith(f"{row} ")]
    assert said.startswith(f"{row} ✓") == accepted


@pytest.mark.parametrize("kind", ["branch", "tag"])
def test_the_page_refuses_a_leading_hyphen_as_git_does(page, tmp_path, kind):
    need("git")
    run("git", "init", "--quiet", tmp_path)
    who = ["-c", "user.name=a", "-c", "user.email=a@example"]
    run("git", *who, "commit", "--allow-empty", "--message=a", cwd=tmp_path)
    refused = run("git", kind, "--", "-x", cwd=tmp_path, status=128)
    assert "'-x' is not a valid" in refused.stderr
    page.type_name(kind, "-x")
    assert page.said()[0] == "✗ Not valid"


def test_a_full_name_may_start_with_a_hyphen(page):
    page.type_name("reference", "-x/y")
    assert page.said() == ["✓ Valid", "-x/y"]


@pytest.mark.parametrize("kind", ["paste", "drop"])
def test_what_is_put_in_keeps_the_end_of_its_line(page, kind):
    page.type_name("tag", "v2")
    page.insert(kind, "v1\r\n")
    assert page.active().get_property("value") == "v1\\x0d\\x0a"
    assert page.said()[0] == "✗ Not valid"


def test_a_name_that_is_pasted_without_control_characters_is_left_to_the_browser(page):
    page.type_name("tag", "v2")
    assert page.insert("paste", "v1") is True


def test_a_path_is_said_to_be_a_link_by_the_keyboard_alone(page):
    page.type_name("path", f".gitmodules{TAB}")
    assert page.said()[0] == "✓ Valid"
    page.active().send_keys(" ")
    assert page.said()[0] == "✗ Not valid"


def test_a_repair_is_taken_by_the_keyboard_alone(page):
    page.type_name("tag", f"v1..2{TAB}")
    assert page.active().get_attribute("id") == "use"
    page.active().send_keys(ENTER)
    assert page.active().get_property("id") == "name"
    assert page.active().get_property("value") == "v1.2"
    assert page.said()[0] == "✓ Valid"


def test_a_name_is_shown_as_text(page):
    page.type_name("tag", "<img src=x onerror=alert(1)>")
    assert page.said()[0] == "✗ Not valid"
    assert page.found("img") == []


@pytest.mark.parametrize("selector, role, name", READ)
def test_a_screen_reader_gets_roles_and_names(page, selector, role, name):
    page.type_name("tag", "v1..2")
    element = page.found(selector)[0]
    assert (element.aria_role, element.accessible_name) == (role, name)


def test_the_page_has_other_colours_in_the_dark(page):
    page.type_name("tag", "v1..2")
    light, dark = page.colours("light"), page.colours("dark")
    assert [one == other for one, other in zip(light, dark)] == [False] * 3


def test_a_narrow_screen_shows_a_long_name_without_scrolling(page):
    page.size(320, 640)
    page.type_name("path", "a-long-name/" * 20 + "aux.c")
    width = page.browser.execute_script("return document.documentElement.scrollWidth")
    assert width == 320
