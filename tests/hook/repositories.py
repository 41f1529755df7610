"""The repositories of the tests: to push from, a server, and one with work trees."""

from typing import NamedTuple

from tests.hook.expected import (
    ACCEPT,
    ACCEPTED,
    CORRECT_THE_FILE,
    DEVICE,
    RENAME_THE_FILE,
    RENAME_THE_REF,
    Result,
    bad_name,
    bad_ref,
    bad_submodule,
    change,
    refused,
)
from tests.hook.git import Repository, file
from tests.hook.installed import result
from tests.hook.processes import run, write_script


class Push(NamedTuple):
    """A push as Git gives it to the hook, and what the hook has to say of it."""

    lines: str
    expected: Result


class Source(Repository):
    """The repository to push from, with what many tests push. It has no reference, so
    the hook takes all in it for new."""

    def __init__(self, path, object_format):
        super().__init__(path, object_format, "--bare")
        self.no_id = "0" * len(self.text)
        self.missing = "1" * len(self.text)  # the id of an object that isn't there
        self.good_modules = self.blob('[submodule "good"]\n\tpath = good\n')
        self.bad_modules = self.blob('[submodule "../x"]\n\tpath = x\n')
        self.tree_with_device = self.tree("aux.c")
        self.tree_with_bad_modules = self.tree(file(".gitmodules", self.bad_modules))
        self.clean = self.commit_of(file(".gitmodules", self.good_modules), "a")
        self.device = self.commit(self.tree_with_device)
        self.bad_submodule = self.commit(self.tree_with_bad_modules)
        self.device_refused = self.refused_device()
        self.submodule_refused = refused(
            bad_submodule(commit=self.bad_submodule),
            CORRECT_THE_FILE,
            change(self.bad_submodule),
        )
        trees = "".join(f"100644 blob {self.text}\t{n}\n\n" for n in range(1000, 2000))
        self.thousand_trees = self.git("mktree", "--batch", stdin=trees).split()
        self.pushes = {
            "clean": Push(self.large_push(self.clean, "last"), ACCEPTED),
            "device": Push(self.large_push(self.device, "last"), self.device_refused),
            "submodule": Push(
                self.large_push(self.bad_submodule, "last"), self.submodule_refused
            ),
            "ref": Push(
                self.large_push(self.clean, "HEAD"),
                refused(bad_ref("refs/heads/HEAD"), RENAME_THE_REF),
            ),
        }

    def refused_device(self, commit=None, path="aux.c"):
        """How a push is refused that has a device first in this commit."""
        commit, name = commit or self.device, path.rpartition("/")[2]
        return refused(
            bad_name(path, DEVICE, name.partition(".")[0], commit),
            RENAME_THE_FILE,
            change(commit),
            ACCEPT,
        )

    def push_of(self, object_id, ref="refs/tags/a"):
        """The line that a hook gets for a reference that is created."""
        return f"{self.no_id} {object_id} {ref}\n"

    def large_push(self, commit, branch):
        """The lines for a thousand trees, with this branch at their end: more than a
        pipe holds at once."""
        trees = (
            self.push_of(tree, f"refs/tags/{tree}") for tree in self.thousand_trees
        )
        return "".join(trees) + self.push_of(commit, f"refs/heads/{branch}")


class Server(Repository):
    """An empty repository with the hook."""

    def __init__(self, path, hook):
        super().__init__(path, hook.source.object_format, "--bare")
        self.hook = hook
        self.pre_receive = self.path / "hooks/pre-receive"
        write_script(
            self.pre_receive,
            f"PATH='{hook.stand_ins}':$PATH exec '{hook.folder}/pre-receive'",
        )

    def configure(self, *settings):
        """Adds lines to the section [names] of its settings."""
        with open(self.path / "config", "a") as config:
            config.write("\n".join(["[names]", *settings, ""]))

    def push(self, *refspecs, **env):
        """Pushes what the source has; an id alone goes to refs/heads/main. What is said
        is what the hook says."""
        refspecs = [it if ":" in it else f"{it}:refs/heads/main" for it in refspecs]
        command = ["git", "push", "--force", self.path, *refspecs]
        status, lines = run(command, self.hook.source.path, self.hook.environment(env))
        remote = "remote: "
        said = [line for line in lines if line.startswith(remote)]
        return result(status, [line[len(remote) :].rstrip() + "\n" for line in said])

    def already_has(self, *refspecs):
        """Brings it there past the hook."""
        past = "--receive-pack=git -c core.hooksPath=/dev/null receive-pack"
        self.hook.source.git("push", "-q", "--force", past, str(self.path), *refspecs)


class Work(Repository):
    """A repository at the clean commit, with a work tree and a second, linked one, over
    the objects of the source."""

    def __init__(self, room, source):
        super().__init__(room / "work", source.object_format)
        self.main, self.linked = self.path, room / "linked"
        self.sub = self.path / "sub"
        self.folder = self.path / ".git"
        self.of_linked = self.folder / "worktrees/linked"
        self.sub.mkdir()
        alternates = self.folder / "objects/info/alternates"
        alternates.write_text(f"{source.path}/objects\n")
        self.git("update-ref", "HEAD", source.clean)
        self.git("worktree", "add", "-q", "--detach", str(self.linked))
