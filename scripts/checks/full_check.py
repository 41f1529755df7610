"""The full check (CI), from the repository's root. (.ci/run starts this program.)

    .ci/run                 all of it, from nothing, with some of the edits
    .ci/run --all-edits     the same with all edits, as a release needs it
    .ci/run CRATE..         these crates and those that depend on them, over what is proved

Each part is a command that you can type; CONTRIBUTING.md says which one to run after which
change. `rt ci` proves each crate from nothing, and builds the programs. What follows builds
over what it has proved. Before the check begins it removes all that was built here.

The edits of must-fail/ are tried each time, those of mutants/ by turns: scripts/dev
try-edits --help says which. The processors for which Go's module has no machine code have
turns, too. With --all-edits all are tried. If such a check passes on a tree
without changes, it leaves the release that it has built and tested in out/release, and
writes the commit into .ci/edits-tried.

It fails if one part fails. First it prints how long it will take, by the minutes in
.ci/minutes, then the processor minutes of each part, what was not run, the end of what a
failed part printed, and rt's last line. out/check has the output of each part, the results
of the tests as JUnit files, and the minutes of this run for .ci/minutes.

What is not run fails the full check if CI=true, except what needs the crates of gitoxide, which
come from a part of Debian that moves. A kit with another logic than docs/ASSURANCE.md names
fails it, unless OTHER_KIT=true.
"""

import argparse
import os
import re
import shutil
import signal
import subprocess
import sys
import time
from dataclasses import dataclass
from pathlib import Path
from xml.etree import ElementTree

ROOT = Path(__file__).resolve().parents[2]
LOGS = Path("out/check")
BUILT = "out/check/built"
RELEASE = "out/check/release"
NO_KIT = (
    ".ci/run: this needs the Rattle kit, whose `rt` isn't on the PATH: "
    'see "Build from source" in README.md'
)
# What the parts of a whole run took, in processor minutes, and the last commit for which all
# edits were tried.
MINUTES = Path(".ci/minutes")
TRIED = Path(".ci/edits-tried")
# (Of more than two processors one stays free: where four jobs shared four, each took a tenth more
# processor time than each of three, and they got no more done.)
PROCESSORS = len(os.sched_getaffinity(0))
JOBS = str(PROCESSORS - 1 if PROCESSORS > 2 else PROCESSORS)
# The tests that need nothing that is built: they run beside the proofs, and fail early.
EARLY = ("tests/scripts", "tests/test_full_check.py")
# (One process runs all tests of a group, which share a browser or a build.)
PYTEST = ("pytest", "-n", JOBS, "--dist", "loadgroup")
TRY_EDITS = ("try-edits", "--built", "--jobs", JOBS)
# What a part prints of something that it could not do, and what pytest prints of it.
NOT_RUN = re.compile(r"^(?:not run: |SKIPPED \[\d+\] )(.*)", re.MULTILINE)
# The crates of gitoxide, of which gix-error is one, may be missing: the reason says so.
MAY_BE_MISSING = re.compile(r"\bgix-error\b|\bgitoxide(?!\.py)")
# The status of a part that could not do all, and says what.
INCOMPLETE = 77


@dataclass
class Part:
    """A command that was started, and what is known of it since it ended."""

    name: str
    process: subprocess.Popen
    junit: Path | None = None
    minutes: float = 0
    passed: bool = False
    ended: str = "did not end"

    @property
    def output(self):
        return log_of(self.name).read_text("utf-8", "replace")


def log_of(name):
    return LOGS / f"{name}.txt"


def start(name, *command, **environment):
    """Starts a part. Tests get a file for their results."""
    print(f"== {name}: {' '.join(command)}", flush=True)
    junit = None
    if command[0] == "pytest":
        junit = LOGS / f"{name}.xml"
        command += (f"--junit-xml={junit}",)
    if not shutil.which(command[0]):
        why = f"not run: {command[0]} is not installed"
        command = ("sh", "-c", f"echo '{why}'; exit {INCOMPLETE}")
    with open(log_of(name), "wb") as log:
        process = subprocess.Popen(
            command,
            stdin=subprocess.DEVNULL,
            stdout=log,
            stderr=subprocess.STDOUT,
            env={**os.environ, **environment},
            start_new_session=True,
        )
    return Part(name, process, junit)


def finish(part):
    """Waits for a part, and says how it ended."""
    _, status, usage = os.wait4(part.process.pid, 0)
    part.process.returncode = os.waitstatus_to_exitcode(status)
    part.minutes = (usage.ru_utime + usage.ru_stime) / 60
    reason = why_failed(part)
    part.passed = not reason
    if not reason:
        reason = "not run" if part.process.returncode else "passed"
    part.ended = reason
    print(last_line(part.output) if part.passed else end_of(part))
    print(f"== {part.name} {part.ended}, {part.minutes:.1f} minutes", flush=True)
    return part


def run(name, *command, **environment):
    return finish(start(name, *command, **environment))


def why_failed(part):
    """What is wrong with how a part ended, if something is."""
    status = part.process.returncode
    if status == INCOMPLETE and NOT_RUN.search(part.output):
        return ""
    if status != 0:
        return f"FAILED (status {status})"
    if part.junit and not all_passed(part):
        return "FAILED: its results are not whole"
    if part.name == "gate" and not re.search(
        r"^[1-9]\d* passed, 0 failed$", last_line(part.output)
    ):
        return "FAILED: rt has no last line that says so"
    return ""


def all_passed(part):
    """Whether the last line of pytest and the file of its results agree that tests passed,
    and that none failed. (Its status is 0 if a test ends the whole process by `_exit`.)
    """
    try:
        suite = ElementTree.parse(part.junit).getroot().find("testsuite")
    except (OSError, ElementTree.ParseError):
        return False
    tests, failed, skipped = (
        int(suite.get("tests")),
        int(suite.get("failures")) + int(suite.get("errors")),
        int(suite.get("skipped")),
    )
    said = re.search(r"(?<![\d.])(\d+) passed\b.* in [\d.]+s", last_line(part.output))
    passed = tests - failed - skipped
    return failed == 0 < passed and bool(said) and int(said[1]) == passed


def last_line(text):
    return text.rstrip().rpartition("\n")[2]


def end_of(part):
    """What a reader of a failure wants: the errors of the prover, and the last lines."""
    lines = part.output.splitlines()
    error = re.compile(r"(note: )?\S+:\d+:\d+: (error|it is not proved)|rt: ")
    errors = [line for line in lines[:-60] if error.match(line)]
    return "\n".join(errors[:40] + lines[-60:])


def check_all(commit, edits):
    """The parts of the full check, in order."""
    yield run("setup", "tests/setup")
    yield run("texts", "pre-commit", "run", "--all-files", "--show-diff-on-failure")
    # (One job a crate takes the least processor time.)
    gate = start("gate", "rt", "ci", RT_JOBS=JOBS)
    yield run("early", "pytest", *EARLY)
    yield finish(gate)
    yield run("build", "scripts/build", "--after-gate")
    yield run("record", "release/dist", "--record", BUILT)
    release = []
    if commit:
        yield run("dist", "release/dist", "--built", BUILT, RELEASE)
        archives = Path(RELEASE).glob("gix-validate-*.tar.gz")
        release = [f"--release={file}" for file in archives]
    # (Several tests run at once, so each has Cargo compile one crate at a time.)
    settings = {"CARGO_BUILD_JOBS": "1"}
    if edits == ["all"]:
        settings["ALL_TARGETS"] = "true"
    early = [f"--ignore={it}" for it in EARLY]
    yield run("tests", *PYTEST, "tests", *early, "--built", *release, **settings)
    # (Not beside the tests, since then both take more of the processors' time.)
    yield run("edits", "scripts/dev", *TRY_EDITS, *edits)


def check_some(crates):
    """The parts for these crates and those that depend on them, in the order of building."""
    names = []
    for name, *below in crates_and_those_below():
        if {name, *below} & {*crates, *names}:
            names.append(name)
    for name in names:
        yield run(f"proofs of {name}", "env", "-C", f"crates/{name}", *proof_of(name))
    edited = [name for name in names if Path("crates", name, "mutants").is_dir()]
    if edited:
        yield run("edits", "scripts/dev", *TRY_EDITS, *edited)
    programs = [f"--build=crates/{it}/out/{it}" for it in names if is_program(it)]
    if programs:
        yield run("programs", *PYTEST, "tests/programs", *programs)
    if "check_push" in names:
        yield run("hook", *PYTEST, "tests/hook")
    if "gix_validate_c" in names:
        yield run("build", "bindings/build")
        yield run("bindings", *PYTEST, "tests/bindings")


def crates_and_those_below():
    """The lines of crates.txt: a crate, and what it depends on."""
    for line in Path("crates.txt").read_text("utf-8").splitlines():
        if words := re.findall(r"\w+", line.partition("#")[0]):
            yield words


def is_program(crate):
    return crate.startswith(("check_", "git_check_"))


def proof_of(crate):
    """Proves a crate and runs its tests. (Those of programs are in tests/programs.)"""
    if is_program(crate):
        return "rt", "run", "--", "--version"
    return "rt", "all", "test", "--jobs", JOBS


def commit_without_changes():
    """The commit, if nothing was changed since."""
    git = ["git", "status", "--porcelain"]
    if subprocess.run(git, capture_output=True, check=True).stdout:
        return ""
    git = ["git", "rev-parse", "HEAD"]
    return subprocess.run(
        git, capture_output=True, check=True, text=True
    ).stdout.strip()


def is_known_kit():
    """Whether the kit has the logic by which all was proved. Any build of a kit with the
    same logic proves the same."""
    wanted = re.search(
        r"logic [0-9a-f]{16}", Path("docs/ASSURANCE.md").read_text("utf-8")
    )
    kit = subprocess.run(["rt", "version"], capture_output=True, text=True).stdout
    if wanted and wanted[0] in kit:
        return True
    print(f"the kit differs: it was proved with {wanted and wanted[0]}")
    return os.environ.get("OTHER_KIT") == "true"


def say_how_long():
    """Prints how long a whole run will take here, by what the last one took."""
    machine, *lines = MINUTES.read_text("utf-8").splitlines()
    minutes = sum(float(line.split()[1]) for line in lines)
    print(
        f"about {minutes:.0f} processor minutes, which is {minutes / int(JOBS):.0f} minutes with "
        f"{JOBS} jobs here, as fast as {machine.removeprefix('# ')}",
        flush=True,
    )


def machine():
    """The processor of this machine."""
    info = Path("/proc/cpuinfo").read_text("utf-8")
    model = re.search(r"(?m)^model name\s*: (.*)", info)
    return model[1] if model else os.uname().machine


def minutes_of(parts):
    """The text of .ci/minutes after these parts."""
    lines = [f"{it.name} {it.minutes:.1f}\n" for it in parts]
    return f"# {machine()}\n{''.join(lines)}"


def what_was_not_run(parts):
    return sorted(
        {f"{it.name}: {what}" for it in parts for what in NOT_RUN.findall(it.output)}
    )


def report(parts, started):
    """Prints the processor minutes of each part, and what was not run."""
    print("processor minutes:")
    for part in parts:
        print(f"{part.name:24} {part.minutes:6.1f}  {part.ended}")
    print(f"{'all':24} {sum(part.minutes for part in parts):6.1f}")
    print(
        f"minutes on {PROCESSORS} processors: {(time.monotonic() - started) / 60:.0f}"
    )
    for line in what_was_not_run(parts):
        print(f"not run: {line}")


def stop():
    """Ends the parts that still run, with all that they have started."""
    children = Path(f"/proc/self/task/{os.getpid()}/children").read_text().split()
    for child in map(int, children):
        try:
            os.killpg(child, signal.SIGTERM)
        except ProcessLookupError:  # (it has no session of its own)
            os.kill(child, signal.SIGTERM)
    for child in map(int, children):
        os.waitpid(child, 0)


def arguments():
    parser = argparse.ArgumentParser(
        prog=".ci/run",
        description=__doc__,
        formatter_class=argparse.RawDescriptionHelpFormatter,
    )
    parser.add_argument("crates", nargs="*", metavar="CRATE")
    parser.add_argument("--all-edits", action="store_true", help="try all edits")
    given = parser.parse_args()
    known = {name for name, *_ in crates_and_those_below()}
    for crate in given.crates:
        if crate not in known:
            parser.error(f"there is no crate '{crate}'")
    if given.crates and given.all_edits:
        parser.error("--all-edits is for the whole check")
    return given


def main():
    os.chdir(ROOT)
    given = arguments()
    if not shutil.which("rt"):
        sys.exit(NO_KIT)
    started = time.monotonic()
    LOGS.mkdir(parents=True, exist_ok=True)
    is_known = is_known_kit()
    if given.crates:
        parts = [*check_some(given.crates)]
        report(parts, started)
        return 0 if is_known and parts and all(part.passed for part in parts) else 1
    say_how_long()
    subprocess.run(["release/dist", "--empty"], check=True)
    return 0 if check_whole(given.all_edits, started) and is_known else 1


def check_whole(all_edits, started):
    """Runs all parts. Returns whether the check passed."""
    commit = commit_without_changes()
    if not commit:
        print("not run: dist: the tree has changes, so no release is packed")
    parts = [*check_all(commit, ["all"] if all_edits else ["--turns"])]
    passed = all(part.passed for part in parts)
    if commit and commit_without_changes() != commit:
        print("a source has changed since the check began")
        passed = False
    if commit and passed and all_edits:
        parts.append(run("keep", "release/dist", "--keep", BUILT, RELEASE))
        passed = parts[-1].passed
    report(parts, started)
    (LOGS / "minutes").write_text(minutes_of(parts), "utf-8")
    is_whole = bool(commit) and all(map(MAY_BE_MISSING.search, what_was_not_run(parts)))
    passed = passed and (is_whole or os.environ.get("CI") != "true")
    if passed and all_edits and commit:
        TRIED.write_text(f"{commit}\n", "utf-8")
    print(last_line(log_of("gate").read_text("utf-8", "replace")))
    return passed


if __name__ == "__main__":
    signal.signal(signal.SIGTERM, lambda *_: sys.exit(1))
    try:
        sys.exit(main())
    finally:
        stop()
