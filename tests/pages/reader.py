"""A reader, who follows a page in folders of their own."""

import os
import subprocess
import zipfile
from typing import NamedTuple

from tests.pages.blocks import CRATES, ROOT, blocks_of

# The tutorial's checks are left out, since what stands for `rt run` proves the crates as its
# last step leaves them.
START = """rt() {
    case $1 in
    check) ;;
    run) "$LIBRARY/tests/pages/rt_run" ;;
    *) command rt "$@" ;;
    esac
}
"""


class Outcome(NamedTuple):
    """How a page ended: at the end, or in the block at a line, with a status and what was
    said on standard error. Then the number of blocks that ran, and what was missing for
    others."""

    at: str
    status: int
    said: str
    ran: int
    missing: dict


class Reader:
    def __init__(self, room):
        self.room = room
        (room / "new").mkdir()
        (room / "tmp").mkdir()
        self.environment = {
            **os.environ,
            "PATH": f"{room}/usr/local/bin:{os.environ['PATH']}",
            "TMPDIR": f"{room}/tmp",  # (Dask, for one, leaves a directory there)
            "JDK_JAVA_OPTIONS": "-XX:-UsePerfData",  # (Java leaves one in /tmp)
            "PYTHONPATH": f"{room}/module",
            "LIBRARY": str(ROOT),
            "GIT_CONFIG_SYSTEM": f"{room}/SYSTEM",
            "GIT_CONFIG_GLOBAL": f"{room}/GLOBAL",
            "PRE_COMMIT_HOME": f"{room}/pre-commit",
        }

    def run(self, *command, cwd=""):
        at = self.room / cwd
        subprocess.run(command, cwd=at, env=self.environment, check=True)

    def follow(self, text, folder="new"):
        """Runs the blocks of a page, which begins in this folder."""
        script, missing, ran = [START], {}, 0
        section = None  # that of the last block that ran
        for block in blocks_of(text):
            if block.language == "text":
                if "print" in block.before and section == block.section:
                    script.append(block.comparison(self.room))
                continue
            section = None
            if not block.is_run:
                continue
            if needs := block.missing(self.room, self.environment):
                missing[block.line] = needs
                continue
            section = block.section
            ran += 1
            script.append(f"echo {block.line} > '{self.room}/at'\n")
            script.append(f"exec > '{self.room}/out'\n{block.script(self.room)}")
        script.append(f"echo end > '{self.room}/at'\n")
        ended = subprocess.run(
            ["bash", "-ec", "".join(script)],
            cwd=self.room / folder,
            env=self.environment,
            stdin=subprocess.DEVNULL,
            stderr=subprocess.PIPE,
            text=True,
            errors="replace",
        )
        at = (self.room / "at").read_text().strip()
        return Outcome(at, ended.returncode, ended.stderr[-2000:], ran, missing)

    def install(self, archive):
        """Gives the reader a release: its file, and it unpacked and installed for all
        languages."""
        room = self.room
        self.run("cp", archive, archive.parent / "SHA256SUMS", "new")
        self.run("tar", "-xzf", archive)
        [unpacked] = room.glob("gix-validate-*-linux")
        unpacked = unpacked.rename(room / "unpacked")
        self.run(unpacked / "install", room / "usr/local")
        [wheel] = unpacked.glob("python/*.whl")
        zipfile.ZipFile(wheel).extractall(room / "module")
        (room / "node_modules/gix-validate").mkdir(parents=True)
        [package] = unpacked.glob("javascript/*.tgz")
        to = ["-C", room / "node_modules/gix-validate"]
        self.run("tar", "-xzf", package, "--strip-components=1", *to)
        # (Python is Debian's, if it is there)
        if os.path.exists("/usr/bin/python3"):
            (room / "usr/local/bin/python3").symlink_to("/usr/bin/python3")

    def prepare_cargo(self):
        """Crates are those of tests/gitoxide/fetch, if they are there and Rust is new
        enough for them. The crate `probe` needs them, so that a fault of the release's
        crate isn't taken for one that is missing."""
        crates = ROOT / "bindings/out/gitoxide/crates"
        version = subprocess.run(
            "rustc --version | cut -d . -f 2",
            shell=True,
            capture_output=True,
            text=True,
        ).stdout
        if crates.is_dir() and int(version or 0) >= 88:
            config = self.room / ".cargo/config.toml"
            config.parent.mkdir()
            config.write_text(CARGO.format(crates=crates))
        (self.room / "probe").mkdir()
        (self.room / "probe/Cargo.toml").write_text(PROBE)

    def make_repositories(self):
        """A repository; one with a name that Windows forbids; and a clone of the first
        with a commit that isn't pushed."""
        (self.room / "GLOBAL").write_text(SETTINGS)
        for name in ["project", "windows"]:
            self.run("git", "init", "-q", "--bare", f"srv/git/{name}.git")
        self.run("git", "clone", "-q", "srv/git/project.git", "clone")
        self.commit("README")
        self.run(*PUSH, "origin", "HEAD:refs/heads/main", cwd="clone")
        self.commit("aux.c")
        windows = "../srv/git/windows.git"
        self.run(*PUSH, windows, "HEAD:refs/heads/main", cwd="clone")
        self.run("git", "reset", "-q", "--hard", "HEAD^", cwd="clone")
        self.commit("main.c")
        self.run("git", "fetch", "-q", "origin", cwd="clone")
        for file in (self.room / "new").iterdir():
            self.run("cp", file, "clone")

    def commit(self, name):
        (self.room / "clone" / name).write_text("\n")
        self.run("git", "add", name, cwd="clone")
        self.run("git", "commit", "-q", "-m", name, cwd="clone")


PUSH = ["git", "push", "-q"]
SETTINGS = """[user]
name = a
email = a@example
[init]
defaultBranch = main
"""
CARGO = """[source.crates-io]
replace-with = "sid"
[source.sid]
directory = "{crates}"
"""
PROBE = """[package]
name = "probe"
version = "0.1.0"
[lib]
path = "/dev/null"
[dependencies]
bstr = "1"
gix-error = "0.5"
"""


def only_crates_are_missing(outcome):
    return all(needs == [CRATES] for needs in outcome.missing.values())
