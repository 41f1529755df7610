"""The hook and the scan of a release. tests/hook tests what they check; here each way to
run them finds a name that Windows can't hold."""

import os
import re
import shutil

import pytest

from tests.release.commands import (
    COMPILER,
    ENVIRONMENT,
    OF_THE_HOOK,
    ROOT,
    VERSION,
    files_under,
    need,
    run,
)
from tests.release.elf import faults_of
from tests.release.hostile import REFUSED

DEVICE = "Windows device-names may have side-effects and are not allowed"


@pytest.fixture
def copied(prefix, room):
    """The hook of this test alone, which may break it."""
    shutil.copytree(prefix / "libexec", room / "copied/libexec")
    return room / "copied"


def test_the_hook_and_the_scan_are_one_program(prefix, hook_folder):
    assert files_under(hook_folder)[-2:] == ["pre-receive", "scan"]
    program = (hook_folder / "pre-receive").read_bytes()
    assert (hook_folder / "scan").read_bytes() == program
    command = prefix / "bin/git-scan-names"
    assert os.readlink(command) == "../libexec/gix-validate/scan"


def test_the_directory_of_a_release_has_the_proved_program(hook_folder):
    [folder] = hook_folder.glob("*/")
    assert files_under(folder) == [OF_THE_HOOK]
    assert folder.name.startswith(f"{VERSION}-")


def test_the_hook_is_static_and_hardened(hook_folder):
    faults, said = faults_of(hook_folder / "pre-receive")
    assert faults == []
    assert "DYN (Position-Independent Executable file)" in said


def test_the_hook_can_be_linked_again_as_the_page_of_the_objects_says(
    tree, copied, hostile
):
    objects = tree / "objects"
    command = "cc -static-pie -o pre-receive hook.o"
    assert f"\n    {command}\n" in (objects / "README.md").read_text()
    linked = copied / "libexec/gix-validate/pre-receive"
    linked.unlink()
    ran = run(COMPILER, "-static-pie", "-o", linked, "hook.o", cwd=objects)
    assert ran == (0, "")
    hostile.set_hook(copied)
    assert REFUSED in hostile.push().said


def test_a_push_is_refused_if_the_folder_of_the_release_is_gone(copied, hostile):
    [folder] = (copied / "libexec/gix-validate").glob("*/")
    shutil.rmtree(folder)
    hostile.set_hook(copied)
    status, said = hostile.push()
    assert status == 1
    assert "push refused: the server could not check the names" in said


class Work:
    """A clone with the archive in it, and its server, which has the hook. `file` is in
    the index."""

    def __init__(self, room, archive, prefix, file):
        self.folder, self.archive = room / "work", archive.name
        server = room / "server"
        self.git("init", "-q", "--bare", server, cwd=room)
        self.git("clone", "-q", server, self.folder, cwd=room)
        hook = prefix / "libexec/gix-validate/pre-receive"
        (server / "hooks/pre-receive").symlink_to(hook)
        # (a link to the command works as the command does)
        self.scan = room / "git-scan-names"
        self.scan.symlink_to(prefix / "bin/git-scan-names")
        for it in [archive, archive.parent / "SHA256SUMS"]:
            shutil.copy(it, self.folder)
        self.git("commit", "-q", "-m", "start", "--allow-empty")
        self.git("push", "-q", "origin", "HEAD:refs/heads/main")
        modules = '[submodule "good"]\n\tpath = good\n'
        (self.folder / file).write_text(modules)
        self.git("add", file)

    def git(self, *words, cwd=None):
        done = run("git", *words, cwd=cwd or self.folder)
        assert done.status == 0, done.said

    def commit(self):
        self.git("commit", "-q", "-m", "change")

    def check_the_index(self):
        return run(self.scan, "--index", cwd=self.folder)

    def scan_the_repository(self):
        self.commit()
        return run(self.scan, cwd=self.folder)

    def run_the_job_of_the_page(self):
        """The commands that docs/CI.md gives for any CI."""
        self.commit()
        page = (ROOT / "docs/CI.md").read_text()
        [job] = re.findall(r"(?ms)^## Any other CI$.*?^```sh\n(.*?)^```$", page)
        return run("sh", "-c", job, cwd=self.folder)

    def push(self):
        self.commit()
        return run("git", "push", "origin", "HEAD:refs/heads/main", cwd=self.folder)


@pytest.fixture
def work(room, archive, prefix):
    return lambda file: Work(room, archive, prefix, file)


CHECKS = [
    Work.check_the_index,
    Work.scan_the_repository,
    Work.run_the_job_of_the_page,
    Work.push,
]


@pytest.mark.parametrize("check", CHECKS)
def test_a_good_gitmodules_file_is_accepted(work, check):
    status, said = check(work(".gitmodules"))
    assert status == 0, said


@pytest.mark.parametrize("check", CHECKS)
def test_a_name_that_windows_can_not_hold_is_refused(work, check):
    status, said = check(work("nul.txt"))
    assert status == 1
    assert f"nul.txt: {DEVICE}" in said


def test_a_push_of_such_a_name_is_refused_with_this_line(work):
    assert "push refused: 1 name is not allowed" in work("nul.txt").push().said


@need("pre-commit")
def test_the_hook_for_pre_commit_refuses_such_a_name_once(work, prefix, room):
    path = f"{prefix}/bin:{ENVIRONMENT['PATH']}"
    words = ["pre-commit", "try-repo", ROOT, "git-names", "--all-files"]
    environment = {"PRE_COMMIT_HOME": room / "pre-commit", "PATH": path}
    status, said = run(*words, cwd=work("nul.txt").folder, **environment)
    assert status == 1
    assert said.count(f"nul.txt: {DEVICE}") == 1


def test_the_job_runs_nothing_of_an_archive_with_another_sum(work):
    changed = work("nul.txt")
    with open(changed.folder / changed.archive, "ab") as archive:
        archive.write(b"\n")
    status, said = changed.run_the_job_of_the_page()
    assert status == 1
    assert f"{changed.archive}: FAILED" in said
    assert "nul.txt" not in said
