"""release/install with GNU's tools and with those of BusyBox, on a release that has a file of
each kind. (tests/release installs a whole release, and upgrades it under pushes.)"""

import hashlib
import os
import shutil
import subprocess
from pathlib import Path

import pytest

ROOT = Path(__file__).resolve().parent.parent
# The files of a release, and what is in them. The others are links.
FILES = {
    "MANIFEST": "",
    "README.md": "",
    "bin/check_names": "",
    "include/gix_validate.h": "",
    "lib/libgix_validate_c.a": "",
    "lib/libgix_validate_c.so.3.0.0": "",
    "lib/pkgconfig/gix_validate.pc": (ROOT / "release/gix_validate.pc").read_text(),
    "lib/cmake/gix_validate/gix_validate-config.cmake": (
        ROOT / "release/gix_validate-config.cmake"
    ).read_text(),
    "libexec/gix-validate/3.0.0-01234567/check_push": "",
    "libexec/gix-validate/pre-receive": "",
    "libexec/gix-validate/scan": "",
    "share/doc/gix-validate/a page.md": "",
    "share/man/man1/check_names.1": "",
    "share/man/man3/gix_validate.3": "",
    "share/man/man7/git-names-hook.7": "ln \\-s /usr/local/libexec/x hooks/x\n",
}
LINKS = {
    "bin/git-scan-names": "../libexec/gix-validate/scan",
    "lib/libgix_validate_c.so.3": "libgix_validate_c.so.3.0.0",
    "share/man/man3/gix_validate_sanitize.3": "gix_validate.3",
}


def write_sums(release):
    files = [it for it in release.rglob("*") if it.is_symlink() or it.is_file()]
    lines = [
        f"{hashlib.sha256(it.read_bytes()).hexdigest()}  {it.relative_to(release)}\n"
        for it in sorted(files)
        if it.name != "SHA256SUMS"
    ]
    (release / "SHA256SUMS").write_text("".join(lines))


@pytest.fixture
def release(tmp_path):
    made = tmp_path / "a release"
    for name, text in FILES.items():
        (made / name).parent.mkdir(parents=True, exist_ok=True)
        (made / name).write_text(text or name)
        (made / name).chmod(0o755 if name.startswith(("bin", "libexec")) else 0o644)
    for name, to in LINKS.items():
        (made / name).symlink_to(to)
    shutil.copy(ROOT / "release/install", made)
    write_sums(made)
    return made


@pytest.fixture(params=["GNU", "BusyBox"])
def install(request, release, tmp_path):
    """Runs install. It has to leave nothing in the temporary directory."""
    path = os.environ["PATH"]
    if request.param == "BusyBox":
        path = str(request.getfixturevalue("busybox"))
    room = tmp_path / "room"
    room.mkdir()

    def run(*words, **environment):
        ran = subprocess.run(
            [shutil.which("sh", path=path), release / "install", *words],
            env={"PATH": path, "TMPDIR": str(room), **environment},
            cwd=tmp_path,
            stdin=subprocess.DEVNULL,
            stdout=subprocess.PIPE,
            stderr=subprocess.STDOUT,
            text=True,
        )
        assert list(room.iterdir()) == []
        return ran.returncode, ran.stdout

    return run


def tree_of(folder):
    """What is under a directory: the files, and the links with what they lead to."""
    found = {}
    for path in sorted(folder.rglob("*")):
        name = str(path.relative_to(folder))
        if path.is_symlink():
            found[name] = os.readlink(path)
        elif path.is_file():
            found[name] = path.read_text()
    return found


def text_of(name):
    return FILES[name] or name


def installed_in(prefix, release, **places):
    """What an installation has, if some directories of it are elsewhere."""
    expected = {}
    for name in [*FILES, *LINKS]:
        place = name
        for directory, other in places.items():
            directory = {"man": "share/man"}.get(directory, directory)
            if name.startswith(f"{directory}/"):
                place = other + name[len(directory) :]
        if "/" in name:
            text = LINKS.get(name) or text_of(name)
            expected[place] = text.replace("/usr/local", str(prefix))
    for name in ["MANIFEST", "SHA256SUMS"]:
        expected[f"share/gix-validate/{name}"] = (release / name).read_text()
    return expected


def record_in(found):
    return found.pop("share/gix-validate/installed").splitlines()


def test_a_release_is_installed_with_its_links_and_modes(install, release, tmp_path):
    to = tmp_path / "a prefix"
    said = f"installed under {to}; what is for other languages and targets is in {release}\n"
    assert install(to) == (0, said)
    found = tree_of(to)
    record = record_in(found)
    assert found == installed_in(to, release)
    assert {*found} <= {*record}
    assert (to / "bin/check_names").stat().st_mode & 0o777 == 0o755
    assert (to / "include/gix_validate.h").stat().st_mode & 0o777 == 0o644


@pytest.mark.parametrize("word", [["--prefix", "{}"], ["--prefix={}"], ["{}"]])
def test_the_prefix_is_an_option_or_an_argument(install, tmp_path, word):
    to = tmp_path / "prefix"
    assert install(*(it.format(to) for it in word))[0] == 0
    assert (to / "bin/check_names").is_file()


def test_directories_below_the_prefix_can_be_chosen(install, release, tmp_path):
    to = tmp_path / "prefix"
    words = ["--libdir=lib/x86_64-linux-gnu", "--mandir", "man", "--bindir", "commands"]
    assert install(*words, to)[0] == 0
    found = tree_of(to)
    record_in(found)
    places = {"lib": "lib/x86_64-linux-gnu", "man": "man", "bin": "commands"}
    expected = installed_in(to, release, **places)
    expected["commands/git-scan-names"] = f"{to}/libexec/gix-validate/scan"
    for name in [
        "pkgconfig/gix_validate.pc",
        "cmake/gix_validate/gix_validate-config.cmake",
    ]:
        place = f"lib/x86_64-linux-gnu/{name}"
        assert found.pop(place) != expected.pop(place)
    assert found == expected


def test_what_finds_the_library_knows_another_libdir(install, tmp_path):
    to = tmp_path / "prefix"
    assert install("--libdir", f"{tmp_path}/libraries", to)[0] == 0
    lines = (tmp_path / "libraries/pkgconfig/gix_validate.pc").read_text().splitlines()
    assert lines[:3] == [
        f"prefix={to}",
        "includedir=${prefix}/include",
        f"libdir={tmp_path}/libraries",
    ]
    file = tmp_path / "libraries/cmake/gix_validate/gix_validate-config.cmake"
    assert f'set(_gix_validate_prefix "{to}")\n' in file.read_text()


@pytest.mark.parametrize("where", ["{}/prefix/lib64", "lib64"])
def test_an_absolute_directory_below_the_prefix_is_the_same(install, tmp_path, where):
    to = tmp_path / "prefix"
    assert install("--libdir", where.format(tmp_path), to)[0] == 0
    assert "lib64/libgix_validate_c.a" in record_in(tree_of(to))


def test_destdir_is_in_front_of_all_directories_and_in_no_file(install, tmp_path):
    there = tmp_path / "destdir"
    words = ["--bindir=/opt/bin", "--libdir=/usr/lib64", "--prefix=/usr"]
    assert install(*words, DESTDIR=str(there))[0] == 0
    found = tree_of(there)
    assert (
        os.readlink(there / "opt/bin/git-scan-names")
        == "/usr/libexec/gix-validate/scan"
    )
    assert "prefix=/usr\n" in found["usr/lib64/pkgconfig/gix_validate.pc"]
    assert [it for it in found if str(there) in found[it]] == []
    record = found["usr/share/gix-validate/installed"].splitlines()
    assert "/opt/bin/check_names" in record and "lib64/libgix_validate_c.a" in record


@pytest.mark.parametrize("words", [[], ["--bindir={}/elsewhere", "--libdir=lib/a/b"]])
def test_an_uninstall_leaves_nothing(install, tmp_path, words):
    to = tmp_path / "prefix"
    assert install(*(it.format(tmp_path) for it in words), to)[0] == 0
    assert install("--uninstall", to) == (
        0,
        f"removed from {to}\nhooks that link to {to}/libexec/gix-validate accept every "
        "push now, so remove these links\n",
    )
    assert list(to.iterdir()) == []
    assert not (tmp_path / "elsewhere").exists()


def test_an_uninstall_leaves_what_others_have_put_there(install, tmp_path):
    to = tmp_path / "prefix"
    (to / "lib").mkdir(parents=True)
    assert install(to)[0] == 0
    (to / "bin/mine").touch()
    assert install("--uninstall", to)[0] == 0
    assert [*tree_of(to)] == ["bin/mine"]
    assert (to / "lib").is_dir()


def test_an_upgrade_removes_what_the_new_release_lacks(install, release, tmp_path):
    to = tmp_path / "prefix"
    assert install(to)[0] == 0
    (release / "bin/check_names").rename(release / "bin/other")
    (release / "lib/libgix_validate_c.so.3.0.0").rename(
        release / "lib/libgix_validate_c.so.3.0.1"
    )
    (release / "lib/libgix_validate_c.so.3").unlink()
    (release / "lib/libgix_validate_c.so.3").symlink_to("libgix_validate_c.so.3.0.1")
    write_sums(release)
    assert install(to)[0] == 0
    assert sorted(os.listdir(to / "bin")) == ["git-scan-names", "other"]
    # (programs may be linked with the older shared object)
    assert {"libgix_validate_c.so.3.0.0", "libgix_validate_c.so.3.0.1"} <= {
        *os.listdir(to / "lib")
    }
    assert install("--uninstall", to)[0] == 0
    assert list(to.iterdir()) == []


def test_an_upgrade_to_other_directories_moves_the_files(install, tmp_path):
    to = tmp_path / "prefix"
    assert install(to)[0] == 0
    assert install("--bindir=commands", "--libdir=lib64", to)[0] == 0
    assert sorted(os.listdir(to / "commands")) == ["check_names", "git-scan-names"]
    assert not (to / "bin").exists()
    assert install("--uninstall", to)[0] == 0
    assert list(to.iterdir()) == []


DAMAGES = {
    "echo >>bin/check_names": "bin/check_names: FAILED",
    "echo x >bin/more": "SHA256SUMS doesn't list bin/more",
    "sed -i 1s/^./x/ SHA256SUMS": "these lines of SHA256SUMS are no checksums",
    "rm bin/check_names": "bin/check_names",
    "sed -i 's|  bin|  /bin|' SHA256SUMS": "these lines of SHA256SUMS are no checksums",
}


@pytest.mark.parametrize("damage", DAMAGES)
def test_nothing_of_a_damaged_release_is_installed(install, release, tmp_path, damage):
    subprocess.run(damage, shell=True, cwd=release, check=True)
    status, said = install(tmp_path / "prefix")
    assert status == 1 and DAMAGES[damage] in said
    assert tree_of(tmp_path / "prefix") == {}


@pytest.mark.parametrize(
    "words, why",
    [
        (["--libdir"], "--libdir needs a directory"),
        (["--libdir="], "--libdir needs a directory"),
        (["--libdir", "--mandir"], "--libdir needs a directory"),
        (["--mandir=../man"], "--mandir needs a directory"),
        (["--datadir=share"], "there is no option --datadir=share"),
        (["a", "b"], "there is more than one prefix"),
        (["DESTDIR=a"], "DESTDIR is a variable: write it before ./install"),
    ],
)
def test_wrong_arguments_have_status_2_and_change_nothing(
    install, tmp_path, words, why
):
    before = sorted(os.listdir(tmp_path))
    status, said = install(*words)
    assert status == 2 and said.startswith(f"install: {why}\nusage: ")
    assert sorted(os.listdir(tmp_path)) == before


@pytest.mark.parametrize(
    "place, why", [("", "bin can't be written"), ("/bin/usr", "bin/usr can't be made")]
)
def test_who_may_not_write_there_is_told_so(release, tmp_path, place, why):
    kept = tmp_path / "kept"
    (kept / "bin").mkdir(parents=True)
    (kept / "bin").chmod(0o555)
    for path in [kept, *kept.parents[:3]]:
        path.chmod(0o755)
    command = [release / "install", f"{kept}{place}"]
    if not os.geteuid():
        nobody = ["--reuid=65534", "--regid=65534", "--clear-groups"]
        command = ["setpriv", *nobody, *command]
    # (nobody may not write into every TMPDIR)
    environment = {**os.environ, "TMPDIR": "/tmp"}
    ran = subprocess.run(command, env=environment, capture_output=True, text=True)
    line = f"install: {kept}/{why}: run this as root, or give another PREFIX\n"
    assert ran.returncode == 1 and ran.stderr.startswith(line)


def test_a_directory_keeps_its_mode_and_a_prefix_can_be_relative(install, tmp_path):
    (tmp_path / "kept/bin").mkdir(parents=True)
    (tmp_path / "kept/bin").chmod(0o2750)
    assert install("kept")[0] == 0
    assert (tmp_path / "kept/bin").stat().st_mode & 0o7777 == 0o2750
    assert (tmp_path / "kept/bin/check_names").exists()


def test_a_relative_prefix_and_destdir_do_not_go_together(install):
    status, said = install("kept", DESTDIR="there")
    why = "install: with DESTDIR, PREFIX has to begin with /\n"
    assert status == 2 and said.startswith(why)


def test_an_uninstall_where_nothing_is_installed_fails(install, tmp_path):
    why = f"install: no release is installed under {tmp_path}/prefix\n"
    status, said = install("--uninstall", f"{tmp_path}/prefix")
    assert status == 1 and said.startswith(why)


def test_the_help_is_printed_and_changes_nothing(install, tmp_path):
    before = sorted(os.listdir(tmp_path))
    status, said = install("--help")
    assert status == 0 and "\n    --libdir DIR  " in said
    assert sorted(os.listdir(tmp_path)) == before
