"""Only what one run has built, and has not changed since, gets into a release."""

import gzip
import inspect
import io
import re
import shutil
import subprocess
import tarfile
from pathlib import Path

import pytest

from release import dist, links
from scripts.checks import full_check


def git(folder, *words):
    names = ["-c", "user.name=a", "-c", "user.email=a@example"]
    subprocess.run(["git", *names, *words], cwd=folder, check=True)


@pytest.fixture
def clone(tmp_path, monkeypatch):
    """A repository with a commit, and something under the name of all that is built."""
    root = tmp_path / "clone"
    for file in dist.BUILT:
        (root / file).parent.mkdir(parents=True, exist_ok=True)
        (root / file).write_text(file)
    (root / ".gitignore").write_text("out/\nnative/\ngix_validate_wasm.mjs\n")
    (root / "VERSION").write_text("1.2.3\n")
    git(root, "init", "-q")
    git(root, "add", ".")
    git(root, "commit", "-q", "-m", "first")
    monkeypatch.setattr(dist, "ROOT", root)
    monkeypatch.setattr(dist, "KEPT", root / "out/release")
    monkeypatch.setattr(dist, "LOGS", root / "out/check")
    (root / "out/check").mkdir(parents=True)
    for part in dist.PARTS:
        (root / f"out/check/{part}.txt").write_text(f"{part} passed\n")
    return root


@pytest.fixture
def sums(clone, tmp_path):
    """What the full check has recorded."""
    assert dist.main(["--record", str(tmp_path / "sums")]) == 0
    return tmp_path / "sums"


def test_emptying_removes_all_that_was_built_but_not_what_was_fetched(clone):
    (clone / "crates/low/out").mkdir(parents=True)
    (clone / "crates/low/out/left_over").touch()
    gitoxide = clone / "bindings/out/gitoxide"
    (gitoxide / "crates").mkdir(parents=True)
    others = ["hook/target", "bench/crate/out", "bindings/js/gix_validate.cjs"]
    for made in gitoxide / "target", *(clone / it for it in others):
        made.mkdir(parents=True)
    (clone / "out/release").mkdir(parents=True)
    assert dist.main(["--empty"]) == 0
    assert [it for it in dist.BUILT if (clone / it).exists()] == []
    assert not (clone / "crates/low/out").exists()
    assert (clone / "crates/low").exists()
    assert not (clone / "out/release").exists()
    assert [it for it in others if (clone / it).exists()] == []
    assert [*gitoxide.iterdir()] == [gitoxide / "crates"]
    assert (clone / "out/check").exists()


def test_emptying_follows_no_link(clone, tmp_path):
    (tmp_path / "elsewhere/out").mkdir(parents=True)
    (tmp_path / "elsewhere/out/file").touch()
    (clone / "crates/linked").symlink_to(tmp_path / "elsewhere")
    (clone / "crates/low").mkdir()
    (clone / "crates/low/out").symlink_to(tmp_path / "elsewhere/out")
    assert dist.main(["--empty"]) == 0
    assert (tmp_path / "elsewhere/out/file").exists()
    assert not (clone / "crates/low/out").is_symlink()


def test_packing_anew_without_rt_says_so_and_removes_nothing(
    clone, tmp_path, monkeypatch, capsys
):
    (tmp_path / "few").mkdir()
    (tmp_path / "few/git").symlink_to(shutil.which("git"))
    monkeypatch.setenv("PATH", str(tmp_path / "few"))
    assert dist.main([str(tmp_path / "new")]) == 1
    [line] = capsys.readouterr().err.splitlines()
    assert "needs the Rattle kit" in line
    assert [it for it in dist.BUILT if not (clone / it).exists()] == []


def test_what_is_recorded_is_what_sha256sum_checks(clone, sums):
    checked = ["sha256sum", "--check", "--quiet", "--strict", sums]
    assert subprocess.run(checked, cwd=clone).returncode == 0
    assert len(sums.read_text().splitlines()) == len(dist.BUILT)


def test_nothing_is_recorded_if_a_file_is_not_built(clone, tmp_path, capsys):
    for file in dist.BUILT:
        (clone / file).rename(tmp_path / "away")
        assert dist.main(["--record", str(tmp_path / "sums")]) == 1
        assert f"{file} is not built" in capsys.readouterr().err
        assert not (tmp_path / "sums").exists()
        (tmp_path / "away").rename(clone / file)


@pytest.mark.parametrize("file", dist.BUILT)
def test_a_file_is_packed_only_as_it_was_recorded(clone, sums, tmp_path, file):
    release = dist.Release(tmp_path / "room", sums, dist.ALONE)
    release.copy_built(file, tmp_path / "copied")
    assert (tmp_path / "copied").read_text() == file
    (clone / file).write_text("another")
    with pytest.raises(dist.Wrong, match="is not what was built"):
        release.copy_built(file, tmp_path / "other")
    assert not (tmp_path / "other").exists()


def test_nothing_is_packed_by_a_record_that_lacks_a_file(clone, sums, tmp_path, capsys):
    lines = sums.read_text().splitlines(keepends=True)
    sums.write_text("".join(lines[:-1]))
    assert dist.main(["--built", str(sums), str(tmp_path / "out")]) == 1
    assert f"lacks {dist.BUILT[-1]}" in capsys.readouterr().err
    assert not (tmp_path / "out").exists()


def test_nothing_is_packed_from_a_tree_with_changes(clone, sums, tmp_path, capsys):
    (clone / "more").touch()
    for words in [["--built", str(sums)], []]:
        assert dist.main([*words, str(tmp_path / "out")]) == 1
        assert "has changes that are not committed" in capsys.readouterr().err
    assert not (tmp_path / "out").exists()
    assert (clone / dist.BUILT[0]).exists()


def test_nothing_is_packed_if_git_fails(clone, sums, tmp_path, capsys, monkeypatch):
    monkeypatch.setenv("GIT_DIR", str(tmp_path / "nowhere"))
    assert dist.main(["--built", str(sums), str(tmp_path / "out")]) == 1
    assert "git status failed" in capsys.readouterr().err


@pytest.mark.parametrize(
    "words", [[], ["--empty", "out"], ["--built", "sums"], ["--record", "sums", "out"]]
)
def test_wrong_arguments_have_status_2(clone, words):
    with pytest.raises(SystemExit) as ended:
        dist.main(words)
    assert ended.value.code == 2


class Packed:
    """What the full check has packed: an archive with a MANIFEST, and its sum."""

    def __init__(self, folder, manifest):
        self.folder, self.archive = folder, folder / "gix-validate-1.tar.gz"
        folder.mkdir()
        with tarfile.open(self.archive, "w:gz") as archive:
            entry = tarfile.TarInfo("gix-validate-1/MANIFEST")
            entry.size = len(manifest)
            archive.addfile(entry, io.BytesIO(manifest.encode()))
        line = f"{dist.sum_of(self.archive.read_bytes())}  {self.archive.name}\n"
        (folder / "SHA256SUMS").write_text(line)


@pytest.fixture
def packed(clone, tmp_path):
    commit = subprocess.check_output(["git", "rev-parse", "HEAD"], cwd=clone, text=True)
    manifest = f"\ncommit:     {commit}full check: {dist.IN_THE_CHECK}\n"
    return Packed(tmp_path / "packed", manifest)


def test_what_was_packed_and_tested_is_kept(clone, sums, packed):
    (clone / "out/release").mkdir(parents=True)
    (clone / "out/release/of_another_time").touch()
    for file in clone.glob("crates/*/out/*.o"):  # (as `rt ci` does)
        file.unlink()
    assert dist.main(["--keep", str(sums), str(packed.folder)]) == 0
    kept = sorted(it.name for it in (clone / "out/release").iterdir())
    assert kept == ["SHA256SUMS", "gix-validate-1.2.3-check.txt", packed.archive.name]


def test_the_record_of_the_full_check_is_kept_and_has_a_sum(clone, sums, packed):
    (clone / "out/check/of_another_run.txt").touch()
    assert dist.main(["--keep", str(sums), str(packed.folder)]) == 0
    record = clone / "out/release/gix-validate-1.2.3-check.txt"
    parts = [f"== {part}\n{part} passed\n\n" for part in dist.PARTS]
    assert record.read_text() == "".join(parts)
    checked = ["sha256sum", "--check", "--quiet", "--strict", "SHA256SUMS"]
    assert subprocess.run(checked, cwd=record.parent).returncode == 0
    assert f"  {record.name}\n" in (record.parent / "SHA256SUMS").read_text()


def test_the_record_has_each_part_of_the_full_check():
    source = inspect.getsource(full_check.check_all)
    parts = re.findall(r'\b(?:run|start)\("(\w+)"', source)
    assert sorted(parts) == sorted(dist.PARTS)


# A page, a link in it, and the link that works where the release has the page.
LINKS = [
    (
        "bindings/c",
        "../../docs/RULES.md#paths",
        "../share/doc/gix-validate/docs/RULES.md#paths",
    ),
    (
        "bindings/c",
        "../cpp/README.md",
        "../share/doc/gix-validate/bindings/cpp/README.md",
    ),
    ("bindings/go", "../rust/README.md", "../../rust/git-names/README.md"),
    ("bindings/rust", "gix-validate/README.md#a", "gix-validate/README.md#a"),
    ("bindings/rust/gix-validate", "../README.md", "../README.md"),
    ("bindings/c", "#kinds", "#kinds"),
    ("bindings/c", "https://example.org/a.md", "https://example.org/a.md"),
]


@pytest.mark.parametrize("folder, link, expected", LINKS)
def test_a_page_that_the_release_has_elsewhere_gets_links_that_work_there(
    folder, link, expected
):
    places = links.places((Path(links.__file__).parent / "contents").read_text())
    text = links.rewritten(f"A [b]({link}).", f"{folder}/README.md", places)
    assert text == f"A [b]({expected})."


@pytest.mark.parametrize("language", ["js", "python"])
def test_the_page_of_a_package_names_the_pages_that_the_package_lacks(language):
    page = Path(links.__file__).parent.parent / f"bindings/{language}/README.md"
    text = page.read_text("utf-8")
    assert "](../../docs/BINDINGS.md#protections)" in text
    packed = links.alone(text, f"bindings/{language}/README.md")
    assert "](../" not in packed
    assert " (`docs/BINDINGS.md`)" in packed
    assert packed.endswith("are in `share/doc/gix-validate` of a release.\n")


def test_the_page_of_a_package_keeps_links_to_the_web_and_within_it():
    text = "A [b](https://c.example/d.md), an [e](#f).\n"
    assert links.alone(text, "bindings/js/README.md") == text


def test_the_sources_are_packed_with_their_commit_and_always_alike(
    clone, sums, tmp_path
):
    release = dist.Release(tmp_path, sums, dist.ALONE)
    for name in ["one.tar.gz", "other.tar.gz"]:
        release.pack_sources(tmp_path / name)
    one = (tmp_path / "one.tar.gz").read_bytes()
    assert one == (tmp_path / "other.tar.gz").read_bytes()
    words = ["git", "get-tar-commit-id"]
    commit = subprocess.check_output(words, input=gzip.decompress(one), text=False)
    assert commit.decode().strip() == release.commit
    with tarfile.open(tmp_path / "one.tar.gz") as archive:
        names = archive.getnames()
    assert "dihareku-1.2.3/VERSION" in names
    assert {it.split("/")[0] for it in names} == {"dihareku-1.2.3"}


@pytest.fixture
def key(tmp_path, monkeypatch):
    """A key of gpg that is thrown away."""
    if not shutil.which("gpg"):
        pytest.skip("needs gpg")
    home = tmp_path / "gpg"
    home.mkdir(mode=0o700)
    monkeypatch.setenv("GNUPGHOME", str(home))
    made = ["--batch", "--quiet", "--passphrase", "", "--quick-gen-key", "a@example"]
    subprocess.run(["gpg", *made], check=True)
    yield "a@example"
    subprocess.run(["gpgconf", "--kill", "all"], check=True)


def is_verified(folder):
    words = ["gpg", "--batch", "--quiet", "--verify", "SHA256SUMS.asc", "SHA256SUMS"]
    return subprocess.run(words, cwd=folder).returncode == 0


def test_the_sums_of_a_release_are_signed_and_no_other_sums_are_verified(packed, key):
    assert dist.main(["--sign", key, str(packed.folder)]) == 0
    assert is_verified(packed.folder)
    with open(packed.folder / "SHA256SUMS", "a") as sums:
        sums.write(f"{64 * '0'}  another\n")
    assert not is_verified(packed.folder)


def test_sums_that_the_files_do_not_have_are_not_signed(clone, packed, key):
    change_the_archive(clone, packed)
    assert dist.main(["--sign", key, str(packed.folder)]) == 1
    assert not (packed.folder / "SHA256SUMS.asc").exists()


def test_nothing_is_signed_without_the_key(packed, key, capsys):
    assert dist.main(["--sign", "b@example", str(packed.folder)]) == 1
    assert "gpg" in capsys.readouterr().err
    assert not (packed.folder / "SHA256SUMS.asc").exists()


def change_the_archive(clone, packed):
    packed.archive.write_bytes(packed.archive.read_bytes() + b"\n")


def change_a_library(clone, packed):
    (clone / dist.ARCHIVE).write_text("another")


def change_a_program(clone, packed):
    (clone / dist.BUILT[0]).write_text("another")


def change_the_tree(clone, packed):
    (clone / "more").touch()


def commit_another_change(clone, packed):
    change_the_tree(clone, packed)
    git(clone, "add", ".")
    git(clone, "commit", "-q", "-m", "second")


@pytest.mark.parametrize(
    "change",
    [
        change_the_archive,
        change_a_library,
        change_a_program,
        change_the_tree,
        commit_another_change,
    ],
)
def test_nothing_is_kept_after(clone, sums, packed, change):
    change(clone, packed)
    assert dist.main(["--keep", str(sums), str(packed.folder)]) == 1
    assert not (clone / "out/release").exists()


def test_nothing_is_kept_that_was_packed_outside_of_the_full_check(
    clone, sums, tmp_path
):
    commit = subprocess.check_output(["git", "rev-parse", "HEAD"], cwd=clone, text=True)
    manifest = f"\ncommit:     {commit}full check: {dist.ALONE}\n"
    alone = Packed(tmp_path / "packed", manifest)
    assert dist.main(["--keep", str(sums), str(alone.folder)]) == 1
    assert not (clone / "out/release").exists()
