"""The whole files of docs/CI.md: their commands, as GitHub Actions and GitLab run them, with
the commands of GNU and with those of BusyBox, which images of Alpine have."""

import hashlib
import os
import re
import shutil
import subprocess
from pathlib import Path
from typing import NamedTuple

import pytest

yaml = pytest.importorskip("yaml")

PAGE = Path(__file__).resolve().parent.parent.parent / "docs/CI.md"
DEVICE = "aux.c: Windows device-names may have side-effects and are not allowed"
NO_COMMIT = "0" * 40


class Clone(NamedTuple):
    """The clone of a job, the commit where its range begins, and the one that it checks."""

    path: Path
    base: str
    head: str


class Git:
    """Git, which sees nobody's settings."""

    def __init__(self, room):
        config = room / "config"
        config.write_text("[user]\nname = a\nemail = a@example\n")
        self.environment = {
            **os.environ,
            "GIT_CONFIG_GLOBAL": str(config),
            "GIT_CONFIG_NOSYSTEM": "1",
        }

    def __call__(self, cwd, *words):
        how = {"cwd": cwd, "env": self.environment, "text": True}
        return subprocess.check_output(["git", *words], **how).strip()

    def commit(self, cwd, *changes):
        """Makes a commit for each of these changes, `NAME` or `-NAME`, and names it."""
        for change in changes:
            name = change.removeprefix("-")
            if change == name:
                (cwd / name).write_text("\n")
                self(cwd, "add", name)
            else:
                self(cwd, "rm", "-q", name)
            self(cwd, "commit", "-q", "-m", change)
        return self(cwd, "rev-parse", "HEAD")


class Job:
    """The job of a file on the page, with the release that it is to get."""

    def __init__(self, text, room, commands, archive, sum_of_it):
        self.text, self.file, self.room = text, yaml.safe_load(text), room
        self.commands = commands
        self.release = {"RELEASE_URL": archive.as_uri(), "RELEASE_SHA256": sum_of_it}
        self.environment = {**Git(room).environment, "RUNNER_TEMP": str(room)}

    def add_to_each_scan(self, words):
        scan = 'git-scan-names "$what"'
        assert self.text.count(scan) == 1
        text = self.text.replace(scan, f'git-scan-names {words} "$what"')
        self.file = yaml.safe_load(text)

    def run_script(self, shell, script, clone, **variables):
        environment = {**self.environment, **variables}
        if self.commands:
            # (Where there is no bash, GitHub, too, takes sh.)
            shell, environment["PATH"] = "sh", self.commands
        shell = shutil.which(shell, path=environment["PATH"])
        command = [shell, "-e", "-c", script]
        how = {"cwd": clone.path, "env": environment, "text": True}
        ran = subprocess.run(command, **how, stdout=-1, stderr=-2, errors="replace")
        return ran.returncode, ran.stdout


class GitHub(Job):
    heading = "GitHub Actions"

    def check_out(self, git, server, *how):
        """What actions/checkout leaves: the merge of the branch into main."""
        git(self.room, "clone", "-q", "-n", *how, server.as_uri(), "job")
        path = self.room / "job"
        git(path, "checkout", "-q", "origin/main")
        git(path, "merge", "-q", "--no-ff", "-m", "merge", "origin/change")
        return path

    def run(self, clone):
        [job] = self.file["jobs"].values()
        for step in job["steps"]:
            given = {**step.get("env", {}), **self.release, "BASE": clone.base}
            if "run" in step:
                ended, said = self.run_script("bash", step["run"], clone, **given)
                if ended:
                    break
        return ended, said


class GitLab(Job):
    heading = "GitLab"

    def check_out(self, git, server, *how):
        """What the runner leaves: the branch, without a name."""
        git(self.room, "clone", "-q", "-n", *how, server.as_uri(), "job")
        path = self.room / "job"
        git(path, "checkout", "-q", "origin/change")
        return path

    def run(self, clone):
        [job] = self.file.values()
        lines = [it for it in job["before_script"] if not it.startswith("apt-get ")]
        script = "\n".join([*lines, *job["script"]])
        script = script.replace("/tmp/", f"{self.room}/")
        base = {"CI_COMMIT_BEFORE_SHA": clone.base}
        return self.run_script("sh", script, clone, **self.release, **base)


@pytest.fixture(scope="module")
def tools(tmp_path_factory):
    """A directory with what a job installs."""
    made = tmp_path_factory.mktemp("tools")
    for tool in ("curl", "git"):
        if not shutil.which(tool):
            pytest.skip(f"needs {tool}")
        (made / tool).symlink_to(shutil.which(tool))
    return made


@pytest.fixture(params=["GNU", "BusyBox"])
def commands(request, tools):
    """The PATH of a job, if it isn't that of this machine."""
    if request.param == "BusyBox":
        return f"{request.getfixturevalue('busybox')}:{tools}"


@pytest.fixture(params=[GitHub, GitLab])
def job(request, archive, tmp_path, commands):
    kind = request.param
    form = rf"(?ms)^## {kind.heading}$.*?^```yaml\n(.*?)^```$"
    [text] = re.findall(form, PAGE.read_text("utf-8"))
    sum_of_it = hashlib.sha256(archive.read_bytes()).hexdigest()
    return kind(text, tmp_path, commands, archive, sum_of_it)


@pytest.fixture
def opened(job, tmp_path):
    """Opens a pull request for commits with these changes, and checks it out."""
    git = Git(tmp_path)

    def open_it(*changes, before=("README",), how=()):
        server, author = tmp_path / "server", tmp_path / "author"
        git(tmp_path, "init", "-q", "--bare", "-b", "main", server)
        git(tmp_path, "init", "-q", "-b", "main", author)
        base = git.commit(author, *before)
        git(author, "push", "-q", server, "HEAD:refs/heads/main")
        git.commit(author, *changes)
        git(author, "push", "-q", server, "HEAD:refs/heads/change")
        path = job.check_out(git, server, *how)
        return Clone(path, base, git(path, "rev-parse", "HEAD"))

    return open_it


def test_a_job_for_good_names_passes_and_says_how_many_it_checked(job, opened):
    clone = opened("main.c", "other.c")
    status, said = job.run(clone)
    assert status == 0, said
    commits = 3 if isinstance(job, GitHub) else 2  # (with the merge)
    assert said.splitlines()[-3:] == [
        f"git-scan-names: 3 files, {commits} commits in {clone.base}..HEAD",
        "== git-scan-names --index",
        f"== git-scan-names {clone.base}..HEAD",
    ]


def advised(said, path):
    """The command with which the job's log tells to look for the commit of a path."""
    [command] = re.findall(r"(?m)^git log .*$", said)
    return command.replace("PATH", path)


@pytest.mark.parametrize("changes", [["aux.c"], ["aux.c", "-aux.c"]])
def test_a_job_for_a_device_fails_and_says_how_to_find_the_commit_that_adds_it(
    job, opened, changes
):
    clone = opened("main.c", *changes, "other.c")
    status, said = job.run(clone)
    assert status == 1
    # (The file that is still there is also in the index.)
    assert said.count(DEVICE) == (2 if changes == ["aux.c"] else 1)
    found = job.run_script("sh", advised(said, "aux.c"), clone)[1].strip()
    assert Git(job.room)(clone.path, "log", "-1", "--format=%s", found) == "aux.c"


def test_the_command_that_a_job_advises_finds_a_merge_that_adds_a_name(job, opened):
    clone = opened("main.c", "aux.c")
    said, git = job.run(clone)[1], Git(job.room)
    git(clone.path, "checkout", "-q", "-b", "side", clone.base)
    git.commit(clone.path, "side.c")
    git(clone.path, "merge", "-q", "--no-commit", clone.head)
    merge = git.commit(clone.path, "con.h")
    git(clone.path, "checkout", "-q", "-b", "next", clone.head)
    git.commit(clone.path, "next.c")
    git(clone.path, "merge", "-q", "--no-edit", "side")
    found = job.run_script("sh", advised(said, "con.h"), clone)[1].strip()
    assert found and merge.startswith(found)


def test_a_job_names_an_old_device_and_a_new_one_that_is_no_longer_there(job, opened):
    status, said = job.run(opened("con.h", "-con.h", before=["aux.c"]))
    assert status == 1
    assert DEVICE in said
    assert DEVICE.replace("aux.c", "con.h") in said


def test_a_job_with_an_old_device_passes_if_the_name_is_accepted(job, opened):
    clone = opened("main.c", before=["aux.c"])
    status, said = job.run(clone)
    assert status == 1
    assert said.endswith(" accept it: git-scan-names --accept aux.c\n")
    shutil.rmtree(job.room / "release")
    job.add_to_each_scan("--accept aux.c")
    status, said = job.run(clone)
    assert status == 0, said


def test_a_job_without_a_base_checks_all_history(job, opened):
    clone = opened("main.c", before=["aux.c", "-aux.c", "README"])
    assert job.run(clone)[0] == 0
    shutil.rmtree(job.room / "release")
    status, said = job.run(clone._replace(base=NO_COMMIT))
    assert (status, said.count(DEVICE)) == (1, 1)


@pytest.mark.parametrize("change", ["main.c", "aux.c"])
def test_a_job_in_a_shallow_clone_has_status_2_also_if_it_finds_a_name(
    job, opened, change
):
    clone = opened(change)
    shallow = job.room / "shallow"
    Git(job.room)(job.room, "clone", "-q", "--depth=1", clone.path.as_uri(), shallow)
    status, said = job.run(clone._replace(path=shallow))
    assert status == 2, said
    assert "A commit is missing." in said
    assert (DEVICE in said) == (change == "aux.c")


def test_a_job_in_an_empty_checkout_fails(job, opened):
    clone = opened("main.c")
    empty = job.room / "empty"
    Git(job.room)(job.room, "clone", "-q", "-n", clone.path.as_uri(), empty)
    status, said = job.run(clone._replace(path=empty))
    assert status == 2, said
    assert "the index is empty, so nothing was checked" in said


def test_a_job_for_no_commits_fails(job, opened):
    clone = opened("main.c")
    status, said = job.run(clone._replace(base=clone.head))
    assert status == 2, said
    assert " 0 commits in " in said


def test_a_job_runs_nothing_of_an_archive_with_another_checksum(job, opened):
    clone = opened("aux.c")
    job.release["RELEASE_SHA256"] = "0" * 64
    status, said = job.run(clone)
    assert status == 1
    assert "FAILED" in said
    assert DEVICE not in said
