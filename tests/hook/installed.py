"""The hook and the scan as hook/install installs them, and two hooks on one server."""

import os
import re
import shutil
from pathlib import Path

from tests.hook.expected import Result
from tests.hook.processes import run, write_script

ROOT = Path(__file__).parents[2]
PROGRAM = "check_push"


def result(status, lines):
    """The result of the hook or the scan, which print nothing but printable ASCII,
    whatever they are given."""
    said = "".join(lines)
    if re.search(r"[^ -~\n]", said):
        raise AssertionError(f"not printable: {said!r}")
    return Result(status, said)


class Hook:
    """The hook and the scan in a folder of the test, which may break them."""

    def __init__(self, installed, room, source):
        self.original, self.home = installed, room
        self.source = source
        self.folder, self.stand_ins = room / "installed", room / "stand_ins"
        self.stand_ins.mkdir()
        shutil.copytree(installed, self.folder, copy_function=os.link)
        [self.program] = self.folder.glob(f"*/{PROGRAM}")

    def environment(self, env):
        path = f"{self.stand_ins}:{os.environ['PATH']}"
        # (a scan that is killed leaves its temporary folder, which goes with the test)
        return {"HOME": self.home, "TMPDIR": self.home, "PATH": path, **env}

    def command(self, file=None):
        return [file or self.folder / "pre-receive"]

    def run(self, lines, through=(), file=None, cwd=None, words=(), **env):
        """Runs the hook by itself on these lines, as Git does in the repository that
        gets a push. `through` is a command that runs it, as `env` would."""
        command = [*through, *self.command(file), *words]
        env = self.environment({"GIT_DIR": ".", **env})
        return result(*run(command, cwd or self.source.path, env, lines))

    def scan(self, place, *words, through=(), **env):
        """Runs the scan in a repository or a folder."""
        command = [*through, self.folder / "scan", *words]
        return result(
            *run(command, getattr(place, "path", place), self.environment(env))
        )

    def replace(self, file, content):
        """Puts a program of these bytes in the place of this one."""
        file.unlink()  # (it is a link to the original)
        file.write_bytes(content)
        file.chmod(0o755)

    def stand_in(self, part, way):
        """Puts a script in the place of a program that the hook runs; `git config` in
        that of git, where it has these words, and `check_push refs` likewise. A star
        stands for any. In `way`, "$real" "$@" is the program itself, and $grand the
        parent of its parent."""
        name, _, words = part.partition(" ")
        words = words.replace("*", "'*'")
        own = name == PROGRAM
        real = self.program if own else shutil.which(name)
        if own:
            real = self.original / self.program.relative_to(self.folder)
        write_script(
            self.program if own else self.stand_ins / name,
            f"real='{real}'",
            "# Never kills a process of another session, as the parent of an orphan.",
            "of() {",
            '    read -r pid name state parent group session rest < "/proc/$1/stat"',
            "}",
            "of $$",
            "mine=$session",
            "of $PPID",
            '[ "$session" = "$mine" ] || exit 9',
            "grand=$parent",
            'of "$grand"',
            '[ "$session" = "$mine" ] || grand=$$',
            f"""case " $*" in *' {words}'*) {way} ;; esac""",
            'exec "$real" "$@"',
        )


class TwoHooks:
    """A server that keeps another hook next to ours, as hook/README.md says. Each gets
    all lines of the push."""

    def __init__(self, server):
        self.server, self.hook = server, server.hook
        self.both = server.pre_receive
        self.own = self.both.with_name("pre-receive.own")
        self.ours = self.both.with_name("ours")
        # What a reader of the page pastes, for our place.
        page = (ROOT / "hook/README.md").read_text()
        block = re.search(r"(?ms)^To keep another hook.*?^```sh\n(.*?)^```$", page)[1]
        installed = "/usr/local/libexec/gix-validate/pre-receive"
        self.pasted = block.replace(installed, f"'{self.ours}'")

    def set_up(self, *own):
        """Keeps a hook of these lines. Returns the status and the output of what is
        pasted."""
        self.both.rename(self.ours)
        write_script(self.both, *own)
        return run(["sh", "-e"], self.server.path, {}, self.pasted)

    def run(self, lines, **how):
        return self.hook.run(lines, file=self.both, **how)
