"""The full check, .ci/run, with stand-ins for its parts: it passes only if each part came to
its end and says so."""

import os
import random
import shutil
import signal
import subprocess
import time
from pathlib import Path

import pytest

ROOT = Path(__file__).parent.parent
KIT = "rattle-kit logic 0123456789abcdef"
# Stands in for a command: it writes down that it was called, and does what FAULT says if it
# is the one that AT says.
STAND_IN = """\
#!/bin/sh
name=${0##*/}
echo "$name $*" >> "$CALLS"
case "$name $*" in
"$AT"*) fault=$FAULT ;;
*) fault= ;;
esac
sleep "${SECONDS_EACH:-0}"
for word; do
    case $word in
    --junit-xml=*)
        echo '<testsuites><testsuite tests="3" failures="0" errors="0" skipped="0"/></testsuites>' > "${word#*=}"
        ;;
    esac
done
case $fault in
fails) exit 1 ;;
'is killed') kill -s KILL $$ ;;
'prints nothing') exit 0 ;;
'changes a source') echo >> crates.txt ;;
?*) echo "$fault" && exit "${STATUS:-0}" ;;
esac
case "$name $1" in
'rt version') cat "$KIT_FILE" ;;
'rt ci') echo '3 passed, 0 failed' ;;
pytest*) echo '===== 3 passed in 0.10s =====' ;;
esac
"""
PARTS = [
    "setup",
    "pre-commit run --all-files",
    "pytest tests/scripts tests/test_full_check.py",
    "rt ci",
    "build",
    "dist --record",
    "dist --built",
    "dev try-edits --built --jobs {jobs} all",
    "pytest -n {jobs} --dist loadgroup tests --ignore",
    "dist --keep",
]
# How many jobs a check has at once: of more than two processors it leaves one free.
PROCESSORS = len(os.sched_getaffinity(0))
JOBS = PROCESSORS - 1 if PROCESSORS > 2 else PROCESSORS
PARTS = [part.format(jobs=JOBS) for part in PARTS]
EARLY, TESTS = PARTS[2], PARTS[-2]


class Copy:
    """A repository that has nothing but the full check and stand-ins."""

    def __init__(self, folder):
        self.folder = folder / "a copy"
        self.calls_file = folder / "calls"
        self.bin = folder / "bin"
        self.kit = folder / "kit"
        self.kit.write_text(KIT)
        scripts = ("tests/setup", "scripts/build", "scripts/dev", "release/dist")
        for part in (*scripts, "bindings/build"):
            self.stand_in(self.folder / part)
        for name in ("rt", "pytest", "pre-commit"):
            self.stand_in(self.bin / name)
        (self.folder / ".ci").mkdir()
        (self.folder / "scripts/checks").mkdir()
        for file in (".ci/run", "scripts/checks/full_check.py"):
            shutil.copy(ROOT / file, self.folder / file)
        (self.folder / ".ci/minutes").write_text(
            "# Some Processor\nsetup 4.5\ngate 95.5\n"
        )
        (self.folder / "docs").mkdir()
        (self.folder / "docs/ASSURANCE.md").write_text(f"It is `{KIT}`.\n")
        (self.folder / "crates.txt").write_text(
            "low:\ngix_validate_c staticlib: low bstr\ncheck_push: gix_validate_c\nother:\n"
        )
        for crate in ("low", "gix_validate_c", "check_push", "other"):
            (self.folder / "crates" / crate / "src").mkdir(parents=True)
        (self.folder / "crates/low/mutants").mkdir()
        (self.folder / ".gitignore").write_text("out/\n")
        self.git("init", "-q")
        self.git("add", ".")
        self.git("commit", "-q", "-m", "all")

    def stand_in(self, path):
        path.parent.mkdir(parents=True, exist_ok=True)
        path.write_text(STAND_IN)
        path.chmod(0o755)

    def git(self, *words):
        name = ["-c", "user.name=a", "-c", "user.email=a"]
        subprocess.run(["git", *name, *words], cwd=self.folder, check=True)

    def start(self, *words, by=(), **environment):
        """Starts `.ci/run`, by its name or by a program that reads it."""
        self.calls_file.write_text("")
        path = f"{self.bin}:{os.environ['PATH']}"
        environment = {"AT": "none", "CI": "", "OTHER_KIT": "", **environment}
        return subprocess.Popen(
            [*by, ".ci/run", *words],
            cwd=self.folder,
            stdout=subprocess.PIPE,
            stderr=subprocess.STDOUT,
            text=True,
            env={
                **os.environ,
                "PATH": path,
                "CALLS": self.calls_file,
                "KIT_FILE": self.kit,
                **environment,
            },
        )

    def run(self, *words, **environment):
        """Returns the status, and what was printed."""
        check = self.start(*words, **environment)
        printed, _ = check.communicate(timeout=60)
        return check.returncode, printed

    @property
    def calls(self):
        return self.calls_file.read_text().splitlines()

    @property
    def keeps_the_release(self):
        return any(call.startswith("dist --keep") for call in self.calls)


@pytest.fixture
def copy(tmp_path):
    return Copy(tmp_path)


def test_a_check_whose_parts_pass_passes_and_ends_with_the_last_line_of_rt(copy):
    status, printed = copy.run("--all-edits", CI="true")
    assert (status, printed.splitlines()[-1]) == (0, "3 passed, 0 failed")
    assert copy.calls[:2] == ["rt version", "dist --empty"]
    for part in PARTS:
        assert any(call.startswith(part) for call in copy.calls), part


def test_a_check_first_prints_how_long_it_will_take(copy):
    _, printed = copy.run()
    assert printed.splitlines()[0] == (
        f"about 100 processor minutes, which is {100 / JOBS:.0f} minutes with {JOBS} jobs here, "
        "as fast as Some Processor"
    )


def test_a_check_leaves_the_minutes_of_its_parts_in_the_form_of_those_it_reads(copy):
    copy.run()
    machine, *lines = (copy.folder / "out/check/minutes").read_text().splitlines()
    assert machine.startswith("# ")
    assert [line.split()[0] for line in lines] == [
        *(
            "setup",
            "texts",
            "early",
            "gate",
            "build",
            "record",
            "dist",
            "tests",
            "edits",
        )
    ]


def test_a_check_without_all_edits_tries_those_whose_turn_it_is_and_keeps_no_release(
    copy,
):
    assert copy.run(CI="true")[0] == 0
    assert f"dev try-edits --built --jobs {JOBS} --turns" in copy.calls
    assert not copy.keeps_the_release
    assert not (copy.folder / ".ci/edits-tried").exists()


def test_a_check_with_all_edits_writes_down_the_commit_if_it_passes(copy):
    git = ["git", "rev-parse", "HEAD"]
    commit = subprocess.check_output(git, cwd=copy.folder, text=True)
    assert copy.run("--all-edits", AT="dev", FAULT="fails")[0] == 1
    assert not (copy.folder / ".ci/edits-tried").exists()
    assert copy.run("--all-edits")[0] == 0
    assert (copy.folder / ".ci/edits-tried").read_text() == commit


def test_all_edits_of_a_crate_are_a_wrong_argument(copy):
    status, printed = copy.run("low", "--all-edits")
    assert (status, "--all-edits is for the whole check" in printed) == (2, True)


@pytest.mark.parametrize("shell", ["sh", "bash", "dash"])
def test_a_shell_that_reads_the_check_runs_it(copy, shell):
    check = copy.start(by=[shell], CI="true")
    printed, _ = check.communicate(timeout=60)
    assert (check.returncode, printed.splitlines()[-1]) == (0, "3 passed, 0 failed")


@pytest.mark.parametrize("fault", ["fails", "is killed"])
@pytest.mark.parametrize("part", PARTS)
def test_a_check_fails_and_keeps_no_release_if_one_part(copy, part, fault):
    assert copy.run("--all-edits", AT=part, FAULT=fault)[0] == 1
    assert part == "dist --keep" or not copy.keeps_the_release


@pytest.mark.parametrize(
    "said",
    [
        "prints nothing",
        "===== 2 passed in 0.10s =====",
        "===== 1 failed, 3 passed in 0.10s =====\n",
        "===== 13 passed in 0.10s =====",
    ],
)
@pytest.mark.parametrize("part", [EARLY, TESTS])
def test_tests_that_end_well_without_the_line_of_all_that_passed_fail_the_check(
    copy, part, said
):
    if said.startswith("===== 1 failed"):
        assert copy.run("--all-edits", AT=part, FAULT=said, STATUS="1")[0] == 1
    else:
        assert copy.run("--all-edits", AT=part, FAULT=said)[0] == 1
    assert not copy.keeps_the_release


@pytest.mark.parametrize(
    "said", ["prints nothing", "3 passed, 1 failed", "0 passed, 0 failed"]
)
def test_a_gate_that_ends_well_without_its_line_fails_the_check(copy, said):
    assert copy.run("--all-edits", AT="rt ci", FAULT=said)[0] == 1
    assert not copy.keeps_the_release


def test_what_was_not_run_is_listed_and_fails_the_check_in_ci(copy):
    setup = {"AT": "setup", "FAULT": "not run: a thing is missing", "STATUS": "77"}
    status, printed = copy.run(**setup)
    assert status == 0
    assert "not run: setup: a thing is missing" in printed.splitlines()
    assert copy.run(CI="true", **setup)[0] == 1


def test_the_crates_of_gitoxide_may_be_missing_in_ci(copy):
    setup = {"AT": "setup", "FAULT": "not run: gitoxide is missing", "STATUS": "77"}
    status, printed = copy.run(CI="true", **setup)
    assert status == 0
    assert "not run: setup: gitoxide is missing" in printed.splitlines()


def test_a_part_that_ends_as_if_it_could_not_run_has_to_say_why(copy):
    assert copy.run(AT="setup", FAULT="nothing else", STATUS="77")[0] == 1


def test_a_command_that_is_not_installed_was_not_run(copy):
    (copy.bin / "pre-commit").unlink()
    for tool in ("cat", "dirname", "env", "git", "python3", "sh", "sleep"):
        (copy.bin / tool).symlink_to(shutil.which(tool, path="/usr/bin:/bin"))
    status, printed = copy.run(PATH=str(copy.bin), CI="true")
    assert "not run: texts: pre-commit is not installed" in printed.splitlines()
    assert status == 1


def test_a_check_without_rt_says_in_one_line_that_it_needs_the_kit(copy):
    (copy.bin / "rt").unlink()
    for tool in ("dirname", "python3", "sh"):
        (copy.bin / tool).symlink_to(shutil.which(tool, path="/usr/bin:/bin"))
    status, printed = copy.run(PATH=str(copy.bin))
    assert (status, copy.calls) == (1, [])
    [line] = printed.splitlines()
    assert "needs the Rattle kit" in line


def test_another_kit_fails_the_check_unless_it_is_allowed(copy):
    copy.kit.write_text("rattle-kit logic ffffffffffffffff")
    status, printed = copy.run()
    assert (status, "the kit differs" in printed) == (1, True)
    assert copy.run(OTHER_KIT="true")[0] == 0


def test_a_tree_with_changes_packs_no_release_which_fails_the_check_in_ci(copy):
    (copy.folder / "a file").touch()
    status, printed = copy.run("--all-edits")
    assert (status, "not run: dist" in printed) == (0, True)
    assert not any(call.startswith("dist --built") for call in copy.calls)
    assert not copy.keeps_the_release
    assert copy.run(CI="true")[0] == 1


@pytest.mark.parametrize("words", [[], ["--all-edits"]])
def test_a_source_that_changes_during_the_check_fails_it(copy, words):
    assert copy.run(*words, AT="rt ci", FAULT="changes a source")[0] == 1
    assert not copy.keeps_the_release


def test_the_check_of_a_crate_has_the_crates_that_stand_on_it_and_no_others(copy):
    pytest_jobs = f"pytest -n {JOBS} --dist loadgroup"
    assert copy.run("low")[0] == 0
    assert [call.partition(" --junit")[0] for call in copy.calls] == [
        "rt version",
        f"rt all test --jobs {JOBS}",
        f"rt all test --jobs {JOBS}",
        "rt run -- --version",
        f"dev try-edits --built --jobs {JOBS} low",
        f"{pytest_jobs} tests/programs --build=crates/check_push/out/check_push",
        f"{pytest_jobs} tests/hook",
        "build ",
        f"{pytest_jobs} tests/bindings",
    ]


@pytest.mark.parametrize("part", ["rt all", "rt run", "dev", "pytest"])
def test_the_check_of_a_crate_fails_if_one_part_fails(copy, part):
    assert copy.run("low", AT=part, FAULT="fails")[0] == 1


@pytest.mark.parametrize("crate", ["none", "low/", "./low", ""])
def test_what_is_no_name_of_a_crate_is_a_wrong_argument(copy, crate):
    status, printed = copy.run(crate)
    assert (status, f"there is no crate '{crate}'" in printed) == (2, True)


@pytest.mark.parametrize("seed", range(8))
def test_a_check_of_which_any_process_is_killed_at_any_time_fails(copy, seed):
    chance = random.Random(seed)
    check = copy.start("--all-edits", SECONDS_EACH="0.2")
    time.sleep(chance.uniform(0.2, 1.5))
    while not is_stopped(victim := chance.choice([check.pid, *children_of(check.pid)])):
        assert check.poll() is None, "the check ended before anything was killed"
    # (It keeps the release, as its last part, if all others have passed.)
    others_passed = copy.keeps_the_release or b"--keep" in command_of(victim)
    os.kill(victim, signal.SIGKILL)
    printed, _ = check.communicate(timeout=60)
    assert check.returncode != 0, printed
    assert others_passed or not copy.keeps_the_release


def children_of(process):
    tasks = Path(f"/proc/{process}/task/{process}/children")
    return [int(it) for it in tasks.read_text().split()] if tasks.exists() else []


def is_stopped(process):
    """Stops a process, and returns whether it had not ended before. (One that is stopped
    doesn't end.)"""
    try:
        os.kill(process, signal.SIGSTOP)
        while (state := state_of(process)) not in "TZ":
            time.sleep(0.001)
    except OSError:  # (it is gone)
        return False
    return state == "T"


def command_of(process):
    return Path(f"/proc/{process}/cmdline").read_bytes()


def state_of(process):
    return Path(f"/proc/{process}/stat").read_text().rpartition(")")[2].split()[0]


def test_a_check_that_is_told_to_end_ends_its_parts(copy):
    check = copy.start(SECONDS_EACH="1")
    while "setup " not in copy.calls:
        time.sleep(0.01)
    parts = children_of(check.pid)
    check.terminate()
    assert check.wait(timeout=10) != 0
    assert not any(Path(f"/proc/{part}").exists() for part in parts)
