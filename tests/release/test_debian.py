"""The Debian packages: what they hold, how they are used from C, and their upgrades.

dpkg installs them into a folder of the test."""

import gzip
import io
import re
import shutil
import subprocess
import tarfile

import pytest

from tests.release.commands import COMPILER, DEBIAN, MAJOR, built_by_cmake, need, run
from tests.release.hostile import (
    are_checked,
    package_of_another_name,
    rounds,
    run_slowly,
)

pytestmark = need("dpkg")

# How often the packages are upgraded slowly, to another release or back.
SLOW_UPGRADES = 10
SHARED = f"libgix-validate-c{MAJOR}"
LOCAL = b"/usr/local/libexec"
NAMES = ["gix-validate", "gix-validate-doc", SHARED, "libgix-validate-dev"]


class System:
    """A root folder in which dpkg installs."""

    def __init__(self, root):
        self.root, self.usr = root, root / "usr"
        state = root / "var/lib/dpkg"
        for folder in ["info", "updates"]:
            (state / folder).mkdir(parents=True)
        for file in ["status", "available"]:
            (state / file).touch()
        forced = [f"--force-{it}" for it in ("not-root", "depends", "bad-path")]
        self.dpkg = ["dpkg", f"--root={root}", f"--log={root}/var/log", *forced]

    def install(self, *packages):
        installed = run(*self.dpkg, "-i", *packages)
        assert installed.status == 0, installed.said


@pytest.fixture(scope="module")
def system(packages, session_room):
    """The packages, installed. Tests only read it."""
    system = System(session_room / "system")
    system.install(*packages)
    return system


@pytest.fixture
def own_system(packages, room):
    """The packages, installed for this test alone."""
    system = System(room / "system")
    system.install(*packages)
    return system


@pytest.fixture(scope="module")
def upgrades(packages, session_room):
    """The package of the hook, of two other releases."""
    (session_room / "packages").mkdir()
    names = [session_room / "packages" / f"{name}.deb" for name in ("other", "one")]
    return [package_of_another_name(packages[1], it) for it in names]


@need("lintian")
def test_lintian_has_no_error_and_no_warning(packages, tmp_path):
    words = ["--no-cfg", "--fail-on", "error,warning"]
    # (It leaves files in the temporary directory.)
    status, said = run("lintian", *words, *packages, TMPDIR=str(tmp_path))
    assert status == 0, said


def test_all_files_of_the_packages_have_the_date_of_the_archive(packages, archive):
    def dates_in(opened):
        return {member.mtime for member in opened}

    with tarfile.open(archive) as opened:
        dates = dates_in(opened)
    assert len(dates) == 1
    for package in packages:
        files = subprocess.check_output(["dpkg-deb", "--fsys-tarfile", package])
        with tarfile.open(fileobj=io.BytesIO(files)) as opened:
            assert dates_in(opened) == dates


def test_the_files_have_the_sums_of_the_packages(system, room):
    info = system.root / "var/lib/dpkg/info"
    sums = [(info / f"{name}.md5sums").read_text() for name in NAMES]
    (room / "sums").write_text("".join(sums))
    summed = run("md5sum", "--quiet", "--check", room / "sums", cwd=system.root)
    assert summed == (0, "")


@pytest.fixture(scope="module")
def of_archive(tree, session_room):
    """The archive's files, with the hook's directory as the package has it."""
    copy = session_room / "archive"
    shutil.copytree(tree, copy, symlinks=True)
    for page in (copy / "share/doc").rglob("*"):
        if page.is_file() and LOCAL in (text := page.read_bytes()):
            page.write_bytes(text.replace(LOCAL, b"/usr/libexec"))
    return copy


@pytest.mark.parametrize(
    "folder",
    ["bin", "include", "libexec", "share/bash-completion", "share/doc", "share/fish"],
)
def test_the_files_are_those_of_the_archive(system, of_archive, folder):
    of_debian = ["copyright", "changelog.gz", *NAMES[1:]]
    ignored = [
        word for it in ("licences", "MANIFEST", *of_debian) for word in ("-x", it)
    ]
    # (follows links: the package has some in place of hard links)
    compared = run(
        "diff", "-r", *ignored, "--", of_archive / folder, system.usr / folder
    )
    assert compared == (0, "")


@pytest.mark.parametrize("name", ["libgix_validate_c.a", "libgix_validate_c.so"])
def test_the_library_is_that_of_the_archive(system, tree, name):
    [library] = system.usr.glob(f"lib/*/{name}")
    assert library.read_bytes() == (tree / "lib" / name).read_bytes()


def test_the_shared_object_is_in_a_package_of_its_own(system):
    [file] = system.usr.glob("lib/*/libgix_validate_c.so.*.*")
    listed = (system.root / f"var/lib/dpkg/info/{SHARED}.list").read_text()
    assert f"/{file.relative_to(system.root)}\n" in listed


def test_the_manual_page_of_the_hook_says_where_the_package_has_it(system):
    file = system.usr / "share/man/man7/git-names-hook.7.gz"
    page = gzip.decompress(file.read_bytes()).decode().replace("\\", "")
    assert "\nln -s /usr/libexec/gix-validate/pre-receive hooks/pre-receive\n" in page
    assert "/usr/local" not in page


def test_no_page_of_the_packages_names_the_directory_of_a_release_without_a_package(
    system,
):
    documents = system.usr / "share/doc"
    pages = [
        it for it in documents.rglob("*") if it.suffix in (".md", ".html", ".json")
    ]
    texts = {it: re.sub(rb"<[^>]*>", b"", it.read_bytes()) for it in pages}
    assert [it for it, text in texts.items() if LOCAL in text] == []
    command = b"ln -s /usr/libexec/gix-validate/pre-receive hooks/pre-receive"
    saying = {it.suffix for it in pages if command in texts[it]}
    assert {".md", ".html"} <= saying


def test_the_package_of_the_shared_object_lists_its_symbols(system):
    listed = (system.root / f"var/lib/dpkg/info/{SHARED}.symbols").read_text()
    first, *lines = listed.splitlines()
    assert first == f"libgix_validate_c.so.{MAJOR} {SHARED} #MINVER#"
    [library] = system.usr.glob("lib/*/libgix_validate_c.so")
    symbols = run("nm", "-D", "--defined-only", library).said.split("\n")
    defined = {it.split()[2].partition("@")[0] for it in symbols if it}
    assert {line.split("@")[0].strip() for line in lines} == defined
    assert {line.split()[1] for line in lines} == {DEBIAN}


@need("pkg-config")
def test_the_example_for_c_is_built_as_pkg_config_says(system, room):
    [folder] = system.usr.glob("lib/*/pkgconfig")
    words = [f"--define-variable=prefix={system.usr}", "--cflags", "--libs"]
    environment = {"PKG_CONFIG_LIBDIR": folder}
    status, flags = run("pkg-config", *words, "gix_validate", **environment)
    assert status == 0, flags
    example = room / "example"
    words = ["-o", example, "bindings/c/example.c", *flags.split()]
    assert run(COMPILER, *words) == (0, "")
    # (ldconfig finds it in the root of a system)
    assert_is_the_example(example, LD_LIBRARY_PATH=folder.parent)


@need("cmake")
@pytest.mark.parametrize("kind", ["static", "shared", "gix_validate"])
def test_the_example_for_c_is_built_by_cmake(system, room, kind):
    assert_is_the_example(built_by_cmake(room, system.usr, kind))


def assert_is_the_example(program, **environment):
    status, said = run(program, "main", "a..b", **environment)
    assert status == 1
    assert "a..b: it has two dots in a row (RepeatedDot at byte 2)\n" in said


@need("strace")
def test_no_hostile_push_is_accepted_during_slow_upgrades(
    own_system, upgrades, hostile
):
    hook = own_system.usr / "libexec/gix-validate/pre-receive"
    hostile.set_hook(own_system.usr)
    with hostile.pushes_on() as pushes:
        for n in rounds(SLOW_UPGRADES, pushes):
            command = [*own_system.dpkg, "-i", upgrades[n % 2]]
            ran = run_slowly(own_system.root, hook, *command)
            assert ran.status == 0, ran.said
    assert [it for it in pushes if it.status == 0] == []
    assert are_checked(pushes)


def test_a_purge_leaves_nothing_also_after_an_upgrade(own_system, upgrades):
    own_system.install(upgrades[0])
    purged = run(*own_system.dpkg, "-P", *NAMES)
    assert purged.status == 0, purged.said
    assert [it.name for it in own_system.root.iterdir()] == ["var"]
