"""The hook on Git servers, as docs/SERVERS.md installs it: with the page's own commands,
for the directories of the test.

Authors push by ssh, of which a script plays both ends: it runs what sshd would run for
the author's key, with no variable of the author. gitolite is Debian's. Gitea and Gitaly
aren't there: instead of them there is a script like Gitea's, and a program that runs
hooks as Gitaly does, both written from what is known of them.
"""

import os
import re
import shutil
import subprocess
import sys
from typing import NamedTuple

import pytest

from tests.hook.git import ENVIRONMENT, Repository
from tests.hook.installed import ROOT
from tests.hook.processes import write_script

PAGE = (ROOT / "docs/SERVERS.md").read_text()
HOOK = "/usr/local/libexec/gix-validate"
GITOLITE_SHELL = "/usr/share/gitolite3/gitolite-shell"
# What the author of a hostile push reads.
REFUSED = re.compile("^remote: (.*: )?aux[.]h: ", re.M)


def blocks(heading, language="sh"):
    """The blocks of a section of the page."""
    section = re.search(rf"(?ms)^##+ {heading}$(.*?)(?=^##|\Z)", PAGE)[1]
    return re.findall(rf"(?ms)^```{language}\n(.*?)^```$", section)


class Ended(NamedTuple):
    """How a command ended, and what was said."""

    status: int
    said: str

    @property
    def is_refused(self):
        return self.status == 1 and "pre-receive hook declined" in self.said

    @property
    def is_refused_by_name(self):
        return self.is_refused and bool(REFUSED.search(self.said))


def run(words, cwd, env, given=""):
    done = subprocess.run(
        words,
        cwd=cwd,
        env={name: str(value) for name, value in env.items()},
        input=given,
        stdout=subprocess.PIPE,
        stderr=subprocess.STDOUT,
        text=True,
    )
    return Ended(done.returncode, done.stdout)


class Server:
    """An account to which authors push, and a hook that is only for it. `shell` is what
    sshd runs there, with these variables."""

    def __init__(self, room, installed, shell='git-shell -c "$2"', **variables):
        self.room, self.home = room, room / "home"
        self.hook, self.git = room / "hook", room / "git"
        self.paths = {HOOK: self.hook, "/srv/git": self.git}
        shutil.copytree(installed, self.hook, copy_function=os.link)
        self.home.mkdir()
        self.git.mkdir()
        self.account = {"HOME": self.home, "USER": "git", "PATH": os.environ["PATH"]}
        given = {**self.account, **variables, "SSH_CONNECTION": "::1 9 ::1 22"}
        words = " ".join(f"{name}='{value}'" for name, value in given.items())
        self.ssh = room / "ssh"
        write_script(self.ssh, f'exec env -i {words} SSH_ORIGINAL_COMMAND="$2" {shell}')
        self.author = {
            **ENVIRONMENT,
            "GIT_SSH": self.ssh,
            "GIT_SSH_VARIANT": "simple",
            "AUTHOR": "alice",
        }
        self.clone = Repository(room / "clone", "sha1")
        self.clean = self.clone.commit_of("README")
        self.hostile = self.clone.commit_of("aux.h")

    def bare(self, path):
        """A repository on the server."""
        path.parent.mkdir(parents=True, exist_ok=True)
        return Repository(path, "sha1", "--bare").path

    def run(self, script, cwd=None, **env):
        """Runs commands of the page, for the places of this server."""
        for path, place in self.paths.items():
            script = script.replace(path, str(place))
        env = {"GIT_CONFIG_NOSYSTEM": 1, **self.account, **env}
        return run(["sh", "-e"], cwd or self.home, env, script)

    def paste(self, heading, number=0, cwd=None):
        """Runs a block of the page, which has to succeed."""
        ended = self.run(blocks(heading)[number], cwd)
        assert ended.status == 0, ended.said

    def push(self, commit, repository, branch="main"):
        """Pushes a commit by ssh."""
        words = f"git push -f git@server:{repository} {commit}:refs/heads/{branch}"
        return run(words.split(), self.clone.path, self.author)

    def checks(self, repository):
        """Whether a repository refuses a hostile push, and accepts a harmless one."""
        refused = self.push(self.hostile, repository, "hostile")
        return (
            refused.is_refused_by_name and not self.push(self.clean, repository).status
        )


# On every server.


@pytest.fixture
def server(tmp_path, installed):
    return Server(tmp_path, installed)


@pytest.fixture
def repository(server):
    return server.bare(server.git / "project.git")


def test_a_server_with_the_script_checks_pushes_by_git_shell(server, repository):
    server.paste("A link or a script", cwd=server.room)
    (server.room / "10-names").rename(repository / "hooks/pre-receive")
    assert server.checks(repository)


def test_a_hook_that_is_missing_refuses_all_by_a_script_and_nothing_by_a_link(
    server, repository
):
    server.paste("A link or a script", cwd=server.room)
    hook = repository / "hooks/pre-receive"
    (server.room / "10-names").rename(hook)
    shutil.rmtree(server.hook)
    assert server.push(server.clean, repository).is_refused
    hook.unlink()
    hook.symlink_to(server.hook / "pre-receive")
    assert server.push(server.hostile, repository).status == 0


def test_the_script_for_syslog_passes_on_why_a_push_is_refused(server, repository):
    log = server.room / "log"
    write_script(server.room / "logger", f"cat >> '{log}'")
    script = blocks("Logs")[0].replace("logger -t", f"'{server.room}/logger' -t")
    assert server.run(script, server.room).status == 0
    (server.room / "10-names").rename(repository / "hooks/pre-receive")
    assert server.push(server.clean, repository).status == 0
    assert not log.exists()
    assert server.push(server.hostile, repository).is_refused_by_name
    assert log.read_text().startswith(f"git in {repository}:\naux.h: ")
    (server.room / "logger").unlink()
    assert server.push(server.hostile, repository).is_refused_by_name
    shutil.rmtree(server.hook)
    assert server.push(server.clean, repository, "again").is_refused


# gitolite.


def project(name, *lines):
    return "".join([f"repo {name}\n    RW+ = alice\n", *lines, "\n"])


class Gitolite(Server):
    """gitolite as the page sets it up, with the projects of the tests."""

    def __init__(self, room, installed):
        super().__init__(room, installed, f'{GITOLITE_SHELL} "$AUTHOR"')
        assert self.run("gitolite setup --admin admin").status == 0
        self.file = self.home / ".gitolite.rc"
        [lines] = blocks("gitolite", "perl")
        self.change_file("(?m)^ *GIT_CONFIG_KEYS .*\n", lines)
        # (what only takes time here)
        self.change_file("(?m)^ *'(daemon|gitweb|ssh-authkeys)',\n", "")
        self.paste("gitolite")
        self.admin = room / "admin"
        self.as_admin("clone", "-q", "git@server:gitolite-admin", self.admin, cwd=room)
        self.text = "".join(map(project, ["testing", "new", "logged", "own"]))
        self.text += "repo wild/..*\n    C = alice\n    RW+ = CREATOR\n\n"
        self.configure()

    def change_file(self, pattern, text):
        """Replaces what is in ~/.gitolite.rc."""
        changed, n = re.subn(pattern, lambda _: text, self.file.read_text())
        assert n > 0
        self.file.write_text(changed)

    def as_admin(self, *words, cwd=None):
        return run(
            ["git", *words], cwd or self.admin, {**self.author, "AUTHOR": "admin"}
        )

    def try_to_configure(self, text=""):
        """Pushes gitolite.conf, with these lines at its end."""
        start = "repo gitolite-admin\n    RW+ = admin\n\n"
        (self.admin / "conf/gitolite.conf").write_text(start + self.text + text)
        self.as_admin("commit", "-qam", "configuration")
        return self.as_admin("push", "-q", "origin", "HEAD:master")

    def configure(self, text=""):
        ended = self.try_to_configure(text)
        assert ended.status == 0, ended.said

    def settings(self, repository):
        file = self.home / f"repositories/{repository}.git/config"
        words = ["git", "config", "--file", file, "--get-regexp", "^names[.]"]
        return run(words, self.home, self.account).said


# (it is set up once)
on_gitolite = pytest.mark.xdist_group("gitolite")


@pytest.fixture(scope="module")
def gitolite(tmp_path_factory, installed):
    return Gitolite(tmp_path_factory.mktemp("gitolite"), installed)


@on_gitolite
def test_gitolite_checks_pushes_to_old_new_and_wild_repositories(gitolite):
    assert gitolite.as_admin("push", "origin", "HEAD:refs/heads/HEAD").is_refused
    for repository in ["testing", "new", "wild/of-alice"]:
        assert gitolite.checks(repository), repository


@on_gitolite
def test_the_push_by_which_the_page_probes_a_server_is_refused(gitolite):
    [script] = blocks("Check it")
    script = script.replace("git@git.example.org:project", "git@server:new")
    assert gitolite.run(script, gitolite.room, **gitolite.author).is_refused_by_name


@on_gitolite
def test_gitolite_logs_no_update_of_a_push_that_is_refused(gitolite):
    assert gitolite.checks("logged")
    [log] = (gitolite.home / ".gitolite/logs").iterdir()
    lines = [line.split("\t") for line in log.read_text().splitlines()]
    kinds = [line[2] for line in lines if line[3:4] == ["logged"]]
    assert [it for it in kinds if it != "END"] == ["pre_git", "pre_git", "update"]


@on_gitolite
def test_after_an_upgrade_gitolite_still_checks_pushes(gitolite, installed):
    shutil.rmtree(gitolite.hook)
    shutil.copytree(installed, gitolite.hook)
    assert gitolite.checks("new")
    assert gitolite.run("gitolite setup").status == 0
    assert gitolite.checks("new")


@on_gitolite
def test_settings_in_gitolite_conf_reach_the_repositories_and_leave_them(gitolite):
    [text] = [it for it in blocks("gitolite", "text") if "@all" in it]
    one, two = (gitolite.clone.commit_of("aux.c", *it) for it in ([], ["con.txt"]))
    gitolite.configure(text + project("other"))
    assert gitolite.settings("project") == "names.accept aux.c/con.txt\n"
    assert gitolite.push(two, "project").status == 0
    assert gitolite.settings("other") == "names.accept aux.c\n"
    assert gitolite.push(two, "other").is_refused
    assert gitolite.push(one, "other").status == 0
    # Without its line a setting stays, and without its value it goes.
    gitolite.configure(
        project("project") + project("other", "    config names.accept =\n")
    )
    assert gitolite.settings("project") == "names.accept aux.c/con.txt\n"
    assert gitolite.settings("other") == ""


@on_gitolite
def test_a_setting_for_all_that_is_misspelled_is_removed_as_the_page_says(gitolite):
    wrong = "repo @all\n    config names.protekt = {}\n\n"
    gitolite.configure(wrong.format("none"))
    assert gitolite.push(gitolite.clean, "new", "more").is_refused
    right = wrong.format("")
    assert gitolite.try_to_configure(right).is_refused
    gitolite.paste("gitolite", 1)
    gitolite.configure(right)
    assert "protekt" not in gitolite.settings("new")


@on_gitolite
def test_an_option_for_a_hook_of_one_repository_also_has_to_name_ours(gitolite):
    folder = gitolite.home / "local/hooks/repo-specific"
    folder.mkdir()
    write_script(folder / "mine", "cat > /dev/null", "echo mine")
    gitolite.change_file("# ('repo-specific-hooks',)", "'repo-specific-hooks',")
    gitolite.configure("repo own\n    option hook.pre-receive = mine\n")
    assert gitolite.push(gitolite.hostile, "own").status == 0
    gitolite.paste("gitolite", 2)
    [text] = [it for it in blocks("gitolite", "text") if "option" in it]
    gitolite.configure(text.replace("repo project", "repo own"))
    another = gitolite.clone.commit_of("aux.h", "README")
    assert gitolite.push(another, "own").is_refused_by_name
    gitolite.hook.rename(gitolite.room / "gone")
    refused = gitolite.push(another, "own").is_refused
    (gitolite.room / "gone").rename(gitolite.hook)
    assert refused


# Gitea and Forgejo.

# What Gitea writes into hooks/pre-receive.
GITEA = """data=$(cat)
exitcodes=""
hookname=$(basename $0)
GIT_DIR=${GIT_DIR:-$(dirname $0)/..}
for hook in ${GIT_DIR}/hooks/${hookname}.d/*; do
  test -x "${hook}" && test -f "${hook}" || continue
  echo "${data}" | "${hook}"
  exitcodes="${exitcodes} $?"
done
for i in ${exitcodes}; do
  [ ${i} -eq 0 ] || exit ${i}
done
"""


class Gitea(Server):
    """Repositories in the directories of Gitea, with what it writes into them, and the
    variables that it gives to Git."""

    def __init__(self, room, installed):
        variables = {
            "GIT_CONFIG_NOSYSTEM": 1,
            "GIT_NO_REPLACE_OBJECTS": 1,
            "GIT_TERMINAL_PROMPT": 0,
            "GITEA_PUSHER_NAME": "alice",
        }
        super().__init__(room, installed, **variables)
        self.paste("A link or a script", cwd=room)

    def make(self, name):
        """Makes a repository as Gitea does."""
        path = self.git / f"gitea-repositories/owner/{name}.git"
        assert self.run(f"git init -q --bare '{path}'").status == 0
        (path / "hooks/pre-receive.d").mkdir(exist_ok=True)
        write_script(path / "hooks/pre-receive", GITEA)
        seen = path / "seen"
        write_script(path / "hooks/pre-receive.d/gitea", f"cat > '{seen}'")
        return path


@pytest.fixture
def gitea(tmp_path, installed):
    return Gitea(tmp_path, installed)


def test_gitea_checks_pushes_to_each_repository_and_wiki(gitea):
    places = [gitea.make("project"), gitea.make("project.wiki")]
    gitea.paste("Gitea and Forgejo", 0, gitea.room)
    for repository in places:
        assert gitea.checks(repository)
        assert (repository / "seen").read_text().endswith(" refs/heads/main\n")


def test_gitea_refuses_all_by_a_script_and_nothing_by_a_link_if_the_hook_is_missing(
    gitea,
):
    repository = gitea.make("project")
    gitea.paste("Gitea and Forgejo", 0, gitea.room)
    shutil.rmtree(gitea.hook)
    assert gitea.push(gitea.clean, repository).is_refused
    ours = repository / "hooks/pre-receive.d/10-names"
    ours.unlink()
    ours.symlink_to(gitea.hook / "pre-receive")
    assert gitea.push(gitea.hostile, repository).status == 0


def test_gitea_copies_the_template_into_a_new_repository(gitea):
    gitea.paste("Gitea and Forgejo", 1, gitea.room)
    # (Gitea writes the lines of app.ini into the configuration of its account.)
    [line] = re.findall(
        "(?m)^init[.]templateDir = (.*)$", blocks("Gitea and Forgejo", "ini")[0]
    )
    line = line.replace("/srv/git", str(gitea.git))
    gitea.run(f"git config --global init.templateDir '{line}'")
    assert gitea.checks(gitea.make("new"))


def test_gitea_reads_settings_of_a_repository_and_none_of_its_account(gitea):
    repository = gitea.make("project")
    gitea.paste("Gitea and Forgejo", 0, gitea.room)
    gitea.run("git config --global names.accept aux.c/aux.h")
    assert gitea.checks(repository)
    gitea.paste("Gitea and Forgejo", 2)
    assert gitea.push(gitea.clone.commit_of("aux.c"), repository).status == 0


# GitLab.

# What Gitaly does with a push: it runs each file of the directory that can be executed,
# with these variables alone.
GITALY = """#!{python}
import os, subprocess, sys
from pathlib import Path

lines = sys.stdin.buffer.read()
names = ["HOME", "PATH", "GIT_OBJECT_DIRECTORY", "GIT_ALTERNATE_OBJECT_DIRECTORIES"]
own = {{
    "GIT_DIR": os.getcwd(),
    "GL_ID": "user-1",
    "GL_PROTOCOL": "ssh",
    "GL_REPOSITORY": "project-1",
    "GL_USERNAME": "alice",
}}
env = {{name: os.environ[name] for name in names if name in os.environ}} | own
for file in sorted(Path("{directory}").iterdir()):
    if file.is_file() and os.access(file, os.X_OK) and not file.name.endswith("~"):
        if subprocess.run([file], input=lines, env=env).returncode:
            sys.exit(1)
"""


class GitLab(Server):
    """A repository in the directory of GitLab, and Gitaly's directory of hooks."""

    def __init__(self, room, installed):
        super().__init__(room, installed)
        self.data = room / "gitlab"
        self.paths["/var/opt/gitlab"] = self.data
        hashed = "git-data/repositories/@hashed/6b/86/6b86b273ff34.git"
        self.repository = self.bare(self.data / hashed)
        self.directory = self.data / "gitaly/custom_hooks/pre-receive.d"
        hook = self.repository / "hooks/pre-receive"
        hook.write_text(GITALY.format(python=sys.executable, directory=self.directory))
        hook.chmod(0o755)
        self.paste("GitLab")


@pytest.fixture
def gitlab(tmp_path, installed):
    return GitLab(tmp_path, installed)


def test_gitlab_checks_pushes_and_each_line_has_the_prefix_for_the_web(gitlab):
    assert gitlab.checks(gitlab.repository)
    refused = gitlab.push(gitlab.hostile, gitlab.repository, "again")
    lines = [it for it in refused.said.splitlines() if it.startswith("remote: ")]
    assert lines[0].startswith("remote: GL-HOOK-ERR: aux.h: ")
    assert all(it.startswith("remote: GL-HOOK-ERR: ") for it in lines)


def test_gitlab_refuses_all_by_a_script_and_nothing_by_a_link_if_the_hook_is_missing(
    gitlab,
):
    shutil.rmtree(gitlab.hook)
    assert gitlab.push(gitlab.clean, gitlab.repository).is_refused
    ours = gitlab.directory / "10-names"
    ours.unlink()
    ours.symlink_to(gitlab.hook / "pre-receive")
    assert gitlab.push(gitlab.hostile, gitlab.repository).status == 0


def test_gitlab_reads_the_settings_of_the_repository(gitlab):
    device = gitlab.clone.commit_of("aux.c")
    assert gitlab.push(device, gitlab.repository).is_refused
    gitlab.paste("GitLab", 1)
    assert gitlab.push(device, gitlab.repository).status == 0
