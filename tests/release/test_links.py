"""The pages of a release, as somebody reads them who has unpacked it."""

import re

# Code, in which nothing is a link, and a link to a file.
CODE = re.compile(r"(?ms)^ *```.*?^ *```$|`[^`\n]*`")
LINK = re.compile(r"\]\((?!\w+:|#)([^)#\s]+)")


def test_each_relative_link_of_a_page_leads_to_what_the_release_has(tree):
    pages = [*tree.rglob("*.md")]
    assert {tree / "c/README.md", tree / "go/gitnames/README.md"} < {*pages}
    found, missing = 0, []
    for page in pages:
        for link in LINK.findall(CODE.sub("", page.read_text("utf-8"))):
            found += 1
            target = (page.parent / link).resolve()
            if not target.exists() or tree.resolve() not in target.parents:
                missing.append(f"{page.relative_to(tree)}: {link}")
    assert missing == []
    assert found > 100
