"""The pages of the site that tools make (release/references.py)."""

import re
import shutil

import pytest

from release import references

needs_mandoc = pytest.mark.skipif(not shutil.which("mandoc"), reason="needs mandoc")
MANUAL = r""".TH CHECK_TEXT 1 "2026-11-28" "gix-validate 3.0.0"
.SH NAME
check_text \- checks <text>
.SH DESCRIPTION
.nf
check_text: checks [a](b)
\ 
\&    \-\-help
.fi
"""


@needs_mandoc
def test_a_manual_keeps_its_lines_and_margins_and_loses_its_head_and_foot(tmp_path):
    (tmp_path / "check_text.1").write_text(MANUAL)
    made = references.manual(tmp_path / "check_text.1")
    assert (
        "<pre><code>check_text: checks [a](b)\n&#x00A0;\n    --help</code></pre>"
        in made
    )
    assert re.findall(r"(?s)<h2[^>]*>.*?>(\w+)<", made) == ["NAME", "DESCRIPTION"]
    assert "<h1" not in made and "2026-11-28" not in made


def test_python_has_its_functions_before_its_classes():
    names = re.findall(
        "(?m)^::: gix_validate[.](.*)$", references.functions_of_python()
    )
    assert names[0] == "check"
    assert names[-4:] == ["Fault", "InvalidName", "Kind", "Protect"]


def test_the_navigation_has_each_program_and_language(tmp_path):
    programs = tmp_path / "reference/programs"
    programs.mkdir(parents=True)
    for name in ["check_push", "check_names"]:
        (programs / f"{name}.md").touch()
    assert references.navigation(tmp_path) == [
        {
            "Programs": [
                {"check_names": "reference/programs/check_names.md"},
                {"check_push": "reference/programs/check_push.md"},
            ]
        },
        {
            "Functions by language": [
                {"C": "reference/c.md"},
                {"C++": "reference/cpp.md"},
                {"Rust": "reference/rust/git_names/index.html"},
                {"Python": "reference/python.md"},
                {"JavaScript": "reference/javascript.md"},
                {"Go": "reference/go.md"},
            ]
        },
    ]


def test_a_tool_that_fails_stops_the_release_and_says_why(tmp_path):
    with pytest.raises(references.Wrong) as raised:
        references.run("cat", tmp_path / "no_such_file")
    assert "no_such_file: No such file" in str(raised.value)


def test_a_tool_that_is_missing_is_named():
    with pytest.raises(references.Wrong) as raised:
        references.run("no_such_tool")
    assert "the site needs Debian's no_such_tool" in str(raised.value)
