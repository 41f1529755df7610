"""Copies of the repository, in which scripts run with a stand-in for rt."""

import os
import re
import shutil
import stat
import subprocess
from pathlib import Path
from typing import NamedTuple

ROOT = Path(__file__).resolve().parent.parent.parent
STAND_IN = Path(__file__).resolve().parent / "stand_ins/rt"
INPUT = "tag a\ntag b\n"
# What is not committed, or no script reads.
LEFT_OUT = (".git", "out", "target", "native", "__pycache__", ".*_cache", ".hypothesis")


def state_of(folder):
    """What a folder has, by its path there: its kind, and of files the size and the time.
    (What Python compiled may stay, since it looks at the time itself.)"""
    found = {}
    for place, folders, names in os.walk(folder):
        folders[:] = [name for name in folders if name != "__pycache__"]
        for name in folders + names:
            path = Path(place, name)
            of = path.lstat()
            it = () if stat.S_ISDIR(of.st_mode) else (of.st_size, of.st_mtime_ns)
            found[path.relative_to(folder)] = (of.st_mode, *it)
    return found


def remove(path):
    if path.is_dir() and not path.is_symlink():
        shutil.rmtree(path)
    else:
        path.unlink(missing_ok=True)


class Ended(NamedTuple):
    status: int
    output: str
    errors: str


class Copy:
    """Files of the repository in a folder, and how rt is replaced there."""

    def __init__(self, room, *names):
        """Copies these files and folders, or all, as they are: links stay links."""
        self.room, self.path, self.bin = room, room / "a copy", room / "bin"
        self.path.mkdir()
        ignored = shutil.ignore_patterns(*LEFT_OUT)
        for name in names or sorted(
            set(os.listdir(ROOT)) - ignored(ROOT, os.listdir(ROOT))
        ):
            if (ROOT / name).is_dir():
                shutil.copytree(
                    ROOT / name, self.path / name, ignore=ignored, symlinks=True
                )
            else:
                shutil.copy2(ROOT / name, self.path / name, follow_symlinks=False)
        self.bin.mkdir()
        (self.bin / "rt").symlink_to(STAND_IN)
        for tools in "kit/bin", "kit/toolchain/bin":
            (room / tools).mkdir(parents=True)
        (room / "kit/bin/rattle").symlink_to(STAND_IN)
        self.does = "nothing"
        self.state = state_of(self.path)

    def restore(self):
        """Makes all as it was before a test, which changes few files."""
        for path in {*self.room.iterdir()} - {self.path, self.bin, self.room / "kit"}:
            remove(path)
        now = state_of(self.path)
        for name in sorted(now.keys() - self.state.keys()):
            remove(self.path / name)  # (or its folder was removed before)
        for name, before in self.state.items():
            if now.get(name) != before:
                remove(self.path / name)
                shutil.copy2(ROOT / name, self.path / name, follow_symlinks=False)
        self.does = "nothing"

    def __enter__(self):
        return self

    def __exit__(self, *_):
        shutil.rmtree(self.path)

    @property
    def calls(self):
        """How rt was called: in which folder, and with which words."""
        calls = self.room / "calls"
        return calls.read_text().splitlines() if calls.exists() else []

    def run(self, script, *words, given=INPUT, path=None, cwd=None, **variables):
        """Runs a script of the copy."""
        path = path or f"{self.bin}:{os.environ['PATH']}"
        set_here = {"PATH": str(path), "ROOM": str(self.room), "DOES": self.does}
        ran = subprocess.run(
            [self.path / script, *words],
            input=given,
            capture_output=True,
            text=True,
            errors="replace",
            cwd=cwd,
            env={**os.environ, **set_here, **variables},
            timeout=300,
        )
        return Ended(ran.returncode, ran.stdout, ran.stderr)

    def dev(self, *words):
        """Runs a command of scripts/dev."""
        return self.run("scripts/dev", *words)

    def read(self, file):
        return (self.path / file).read_text("utf-8")

    def change(self, file, pattern, replacement):
        """Changes what this pattern finds first in a file. In it, `^` and `$` are those of
        a line."""
        text = self.read(file)
        changed = re.sub(f"(?m){pattern}", replacement, text, count=1)
        assert changed != text, f"{file} has no {pattern}"
        (self.path / file).write_text(changed, "utf-8")

    def is_unchanged(self, file):
        return (self.path / file).read_bytes() == (ROOT / file).read_bytes()

    def replace_by(self, file, program):
        """Puts another program in the place of a script."""
        (self.path / file).unlink()
        (self.path / file).symlink_to(shutil.which(program))
