"""The builds of the programs, what a run does, and inputs that many tests share."""

import os
import subprocess
import tempfile
from dataclasses import dataclass
from pathlib import Path
from typing import NamedTuple

ROOT = Path(__file__).parents[2]
# Each program, or subcommand of one.
PROGRAMS = (
    "check_names",
    "check_push trees",
    "check_push submodules",
    "check_push refs",
    "git_check_names",
)

# An object's id, and that of none.
ID, ZERO = "4b825dc642cb6eb9a060e54bf8d69288fbee4904", "0" * 40
# The last line of a stream, if --end is given.
END = b"..end missing\n"
DOT_GIT = "The .git name may never be used"

# Objects, and the lines that are printed of those that are refused.
FILE, TREE = f"{ID} blob 0\n\n", f"{ID} tree 31\n40000 .git\0{20 * '.'}\n"
BAD_TREE = f'{ID} 40000 ".git" {DOT_GIT}\n'
MODULES = '[submodule ".."]'
BAD_MODULES = f"""{ID} 0 ".." Submodules names must not contains '..'\n"""
BAD_REF = 'ref "refs/heads/a b" Reference name contains invalid byte: " "\n'


class Part(NamedTuple):
    """Parts of an input: one that is accepted, and one of which a line is printed."""

    good: str
    bad: str
    line: str


PARTS = {
    "check_names": Part(
        "tag v1.2.3\n",
        "tag a*\n",
        "error: A ref must not contain '*' character\n",
    ),
    "check_push trees": Part(FILE, TREE, BAD_TREE),
    "check_push submodules": Part(FILE, f"{ID} blob 16\n{MODULES}\n", BAD_MODULES),
    "check_push refs": Part(
        f"{ZERO} {ID} refs/heads/a\n",
        f"{ZERO} {ID} refs/heads/a b\n",
        BAD_REF,
    ),
    "git_check_names": Part(
        "src/main.rs\n",
        "a//b\n",
        "a//b: A path must not be empty, "
        "start or end with a slash, or have two in a row ('/' at byte 2)\n",
    ),
}
# The arguments without which a program reads nothing.
NEEDED = {"git_check_names": ["path", "--stdin"]}


def read(path):
    """The bytes of a file of the repository; none if it isn't there."""
    return (ROOT / path).read_bytes() if (ROOT / path).exists() else b""


@dataclass(frozen=True)
class Ran:
    """How a run ended, what it printed, and what it wrote to standard error."""

    status: int
    output: bytes
    said: str

    def __repr__(self):
        size = f"{len(self.output)} bytes that begin with {self.output[:60]!r}"
        return f"<status {self.status}, {size}, said {self.said!r}>"


class Row(NamedTuple):
    """A row of a table: what a program does with this input, under these arguments."""

    program: str
    why: str
    words: list
    given: str
    status: int
    output: str = ""
    said: str = ""

    def __repr__(self):
        return f"<{self.program} {self.words}, {self.why}: {self.given[:60]!r}>"

    @property
    def expected(self):
        said = f"{command_of(self.program)}: {self.said}\n" if self.said else ""
        return Ran(self.status, self.output.encode(), said)


def rows(table):
    """Makes a test with the arguments `program` and `row` one of each row of a table,
    for each build of the row's program (conftest.py)."""

    def mark(test):
        test.table = table
        return test

    return mark


def built_by(build):
    """The programs, or the subcommands of one, that a build is."""
    name = build.name.removesuffix(".by-rattle").replace("-", "_")
    return [program for program in PROGRAMS if program.split()[0] == name]


def shown(build, name):
    """What a test's name calls a build of this program or subcommand."""
    return " ".join([build.name, *name.split()[1:]])


def golden_of(name):
    """Where the golden files of a program are. `rt ci` runs a program on one input, so those
    of other subcommands are here."""
    crate, here = ROOT / "crates" / name.split()[0], Path(__file__).parent / "golden"
    moved = here / name.replace(" ", "_")
    return moved if moved.exists() else crate


def command_of(name):
    """What a program calls itself: a command of Git has dashes."""
    return name.replace("_", "-") if name.startswith("git_") else name


class Program:
    """A build of a program, with its golden files: the arguments, what it is given, its
    report and its status."""

    def __init__(self, build, name):
        self.build, self.name = build.resolve(), name
        self.command, self.needed = command_of(name), NEEDED.get(name, [])
        # what says that the arguments can't be read
        self.executable, *self.subcommand = self.command.split()
        golden = golden_of(name)
        words = read(golden / "args").decode().split()
        self.words = words[len(self.subcommand) :]
        self.good = int(read(golden / "status") or 0)
        self.failure = 2 if self.good else 1
        self.given, self.report = read(golden / "stdin"), read(golden / "stdout")
        # A large input is that of the golden files many times, so that the report is
        # longer than what is written at once.
        times, one = 65536 // len(self.report) + 1, self.given.removesuffix(END)
        one += b"" if one.endswith(b"\n") else b"\n"
        self.large = one * times + END * self.given.endswith(END)
        self.large_report = self.report * times

    def __repr__(self):
        return f"<{shown(self.build, self.name)}>"

    def run(self, given, *words, to=subprocess.PIPE, devices=None, **settings):
        """Runs it on these bytes or a descriptor, on devices with these settings."""
        settings = {f"DEVICES_{name}": str(it) for name, it in settings.items()}
        env = {**os.environ, "LC_ALL": "C", **settings}
        if settings:
            env["LD_PRELOAD"] = str(devices)
        with tempfile.TemporaryFile() as file, tempfile.TemporaryFile() as written:
            if isinstance(given, bytes):
                file.write(given)
                file.seek(0)
                given = file
            it = subprocess.run(
                [self.build, *self.subcommand, *words],
                stdin=given,
                # (a device writes single bytes: each would wake the reader of a pipe)
                stdout=written if settings else to,
                stderr=subprocess.PIPE,
                env=env,
                timeout=60,
            )
            written.seek(0)
            output = written.read() if settings else it.stdout or b""
        return Ran(it.returncode, output, it.stderr.decode())

    def run_row(self, row):
        return self.run(row.given.encode(), *row.words)

    def prints(self, output):
        return Ran(0, output, "")

    def reports(self, report):
        """It prints its report to the end. (Its status says whether all is well.)"""
        return Ran(self.good, report, "")

    def fails(self, why, output=b"", status=None, command=None):
        status = self.failure if status is None else status
        return Ran(status, output, f"{command or self.command}: {why}\n")

    def is_wrong_argument(self, word):
        """Nothing is read or printed, and it says which word is wrong."""
        why = f'unknown argument "{word}", see {self.command} --help'
        return self.fails(why, status=2)
