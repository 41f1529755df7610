"""Git repositories for the tests, with objects in them that `git add` and `git commit`
would refuse to make.

A tree is written as a list of its entries:

    source = folder("src", repository.tree("aux.c"))
    repository.tree("README", source, symlink(".gitmodules", repository.text))

A plain string is a file with that name whose content doesn't matter.
"""
import functools
import os
import re
import subprocess
from pathlib import Path
from typing import NamedTuple

# Nothing of the caller's Git has a say: neither its repository (GIT_DIR and others) nor
# its settings.
WHO, WHEN = "a@b", "1700000000 +0000"
ENVIRONMENT = {
    name: value for name, value in os.environ.items() if not name.startswith("GIT_")
} | {
    "LC_ALL": "C",
    "GIT_CONFIG_GLOBAL": "/dev/null",
    "GIT_CONFIG_NOSYSTEM": "1",
    "GIT_AUTHOR_NAME": WHO,
    "GIT_AUTHOR_EMAIL": WHO,
    "GIT_AUTHOR_DATE": WHEN,
    "GIT_COMMITTER_NAME": WHO,
    "GIT_COMMITTER_EMAIL": WHO,
    "GIT_COMMITTER_DATE": WHEN,
}


def git_version():
    """The first two numbers of Git's version."""
    version = subprocess.check_output(["git", "version"], text=True)
    return tuple(map(int, re.search(r"(\d+)\.(\d+)", version).groups()))


class Entry(NamedTuple):
    """What a tree has. A name can have any byte, so it is bytes if it isn't UTF-8."""

    mode: str
    name: str | bytes
    id: str


def file(name, blob):
    return Entry("100644", name, blob)


def program(name, blob):
    return Entry("100755", name, blob)


def symlink(name, blob):
    return Entry("120000", name, blob)


def submodule(name, commit):
    return Entry("160000", name, commit)


def folder(name, tree):
    return Entry("40000", name, tree)


def as_bytes(text):
    return text if isinstance(text, bytes) else text.encode()


class Repository:
    """A repository in the folder `path`. What makes an object returns its id."""

    def __init__(self, path, object_format, *options):
        self.path = Path(path)
        self.object_format = object_format
        subprocess.run(
            ["git", "init", "-q", f"--object-format={object_format}", *options, path],
            env=ENVIRONMENT,
            check=True,
        )
        # (Git would pack the objects of many tests at any time.)
        self.git("config", "gc.auto", "0")

    @functools.cached_property
    def text(self):
        return self.blob("text")

    def git(self, *words, stdin="", cwd=None, **env):
        """Runs a command of Git, which has to succeed, and returns what it prints."""
        done = subprocess.run(
            ["git", *words],
            cwd=cwd or self.path,
            input=as_bytes(stdin),
            env=ENVIRONMENT | env,
            stdout=subprocess.PIPE,
            check=True,
        )
        return done.stdout.decode().strip()

    def blob(self, content):
        return self.git("hash-object", "-w", "--stdin", stdin=content)

    def tree(self, *entries):
        parts = []
        for entry in entries:
            mode, name, id_ = (
                entry if isinstance(entry, Entry) else file(entry, self.text)
            )
            parts += [mode.encode(), b" ", as_bytes(name), b"\0", bytes.fromhex(id_)]
        words = ["hash-object", "--literally", "-t", "tree", "-w", "--stdin"]
        return self.git(*words, stdin=b"".join(parts))

    def commit(self, tree, *parents):
        return self.git(
            "commit-tree", "-m", "message", *(f"-p{parent}" for parent in parents), tree
        )

    def commit_of(self, *entries, on=()):
        """A commit whose root folder has these entries."""
        return self.commit(self.tree(*entries), *on)

    def tag(self, kind, object_id):
        """An annotated tag that says that the object is of this kind, which needn't be
        true."""
        content = f"object {object_id}\ntype {kind}\ntag x\ntagger a <b> 1 +0000\n\n"
        return self.git(
            "hash-object", "--literally", "-t", "tag", "-w", "--stdin", stdin=content
        )
