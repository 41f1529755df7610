"""What ./install leaves."""

import re

import pytest

from tests.release.commands import PROGRAMS, VERSION, WITH_PREFIX, files_under, run

COMMANDS = [*PROGRAMS, "git-scan-names"]


def test_the_manifest_has_the_version_and_says_whether_the_full_check_ran(tree):
    manifest = (tree / "MANIFEST").read_text()
    title = f"gix-validate (of the project Dihareku) {VERSION} for x86_64 Linux\n"
    assert manifest.startswith(title)
    assert re.search(
        r"(?m)^full check: (passed \(it packs the archive|did not run on this commit; )",
        manifest,
    )


def test_all_can_read_what_was_installed_with_a_strict_umask(prefix):
    found = run("find", ".", "!", "-type", "l", "!", "-perm", "-444", cwd=prefix)
    assert found == (0, "")


def test_no_link_leads_nowhere(prefix):
    assert run("find", ".", "-xtype", "l", cwd=prefix) == (0, "")


def test_what_is_installed_has_the_sums_of_the_release(prefix, room):
    record = (prefix / "share/gix-validate/SHA256SUMS").read_text()
    lines = re.findall("(?m)^.* (?:bin|include|lib|libexec|share)/.*\n", record)
    same = (it for it in lines if not it.endswith(f"/{WITH_PREFIX}\n"))
    (room / "sums").write_text("".join(same))
    summed = run("sha256sum", "--quiet", "--check", room / "sums", cwd=prefix)
    assert summed == (0, "")
    listed = [line[66:-1] for line in lines]
    added = [
        f"share/gix-validate/{it}" for it in ("MANIFEST", "SHA256SUMS", "installed")
    ]
    assert files_under(prefix) == sorted([*listed, *added])


def test_the_manifest_is_installed(tree, prefix):
    installed = prefix / "share/gix-validate/MANIFEST"
    assert installed.read_bytes() == (tree / "MANIFEST").read_bytes()


def test_the_commands_are_these(prefix):
    assert files_under(prefix / "bin") == COMMANDS


@pytest.mark.parametrize("command", COMMANDS)
def test_a_command_has_a_manual_page_and_completions_in_three_shells(prefix, command):
    share = prefix / "share"
    for file in [
        f"man/man1/{command}.1",
        f"bash-completion/completions/{command}",
        f"zsh/site-functions/_{command}",
        f"fish/vendor_completions.d/{command}.fish",
    ]:
        assert (share / file).stat().st_size > 0


def test_the_hook_has_a_manual_page_that_says_where_it_is(prefix):
    page = (prefix / "share/man/man7/git-names-hook.7").read_text()
    assert "names.alternateRefs" in page
    # (It was installed with the prefix /usr.)
    link = r"ln \-s /usr/libexec/gix\-validate/pre\-receive hooks/pre\-receive"
    assert f"\n{link}\n" in page and "/usr/local" not in page


def test_the_links_between_the_documents_lead_to_files(prefix):
    documents = prefix / "share/doc/gix-validate"
    links = [
        (page.relative_to(documents), link)
        for page in documents.rglob("*.md")
        for link in re.findall(r"\]\(([A-Za-z0-9./_-]+)", page.read_text("utf-8"))
        if link != "https"
    ]
    assert links
    dead = [it for it in links if not (documents / it[0].parent / it[1]).exists()]
    assert dead == []
