"""The blocks of a page, and the commands that a reader runs of them."""

import re
import subprocess
from pathlib import Path
from typing import NamedTuple

ROOT = Path(__file__).resolve().parent.parent.parent

# The line before a block, a comment between them, its language, and its code.
BLOCK = re.compile(
    r"(?:^([^\n]*)\n\n?)?(?:^<!-- ([^\n]*) -->\n)?^```(\w*)\n(.*?)^```$", re.M | re.S
)

CMAKE = """for kind in static shared; do
    sed -i "s/::static/::$kind/" CMakeLists.txt
    cmake -DCMAKE_PREFIX_PATH=/usr/local . > log
    cmake --build . > log
    ./example
done"""
C = """cc -I/usr/local/include example.c /usr/local/lib/libgix_validate_c.a -o example
./example"""
CPP = """c++ -std=c++17 -I/usr/local/include example.cpp /usr/local/lib/libgix_validate_c.a -o example
./example"""

CPP = C.replace("cc ", "c++ -std=c++17 ").replace("example.c ", "example.cpp ")


class Language(NamedTuple):
    """The file in which a block is saved, the tool that it needs, and how it is built and
    run."""

    file: str
    tool: str
    command: str


LANGUAGES = {
    "sh": Language("", "bash", ""),
    "cmake": Language("CMakeLists.txt", "cmake", CMAKE),
    "toml": Language("Cargo.toml", "cargo", ""),
    "c": Language("example.c", "cc", C),
    "cpp": Language("example.cpp", "c++", CPP),
    "python": Language("example.py", "python3", "python3 example.py"),
    "js": Language("example.mjs", "node", "node example.mjs"),
    "rust": Language("src/main.rs", "cargo", "cargo run --quiet"),
    "antt": Language("Answers.antt", "rt", ""),
    "go": Language("main.go", "go", "go run ."),
    "ruby": Language("example.rb", "ruby", "ruby example.rb"),
    "java": Language("Example.java", "java", "java Example.java"),
    "csharp": Language("Example.cs", "mcs", "mcs Example.cs && mono Example.exe"),
}


class Need(NamedTuple):
    """What a block needs whose tool and code have this text, and a command that fails
    without it."""

    text: str
    what: str
    command: str


CRATES = Need(
    "bstr::ByteSlice",
    "the crates bstr and gix-error, from crates.io or by tests/gitoxide/fetch",
    "timeout 60 cargo fetch --manifest-path probe/Cargo.toml",
)

GO = Need("go mod ", "Go (Debian: golang-go)", "type go")
RUBY = Need("ruby ", "Ruby (Debian: ruby)", "type ruby")
JAVA = Need(
    "java -cp ",
    "Java with JNA (Debian: default-jdk-headless, libjna-java)",
    "type java && test -e /usr/share/java/jna.jar",
)
MONO = Need("mono ", "Mono (Debian: mono-mcs, mono-runtime)", "type mcs mono")
FILTER_REPO = Need(
    "git filter-repo ", "git-filter-repo (Debian)", "type git-filter-repo"
)
PRE_COMMIT = Need("pre-commit run", "pre-commit (Debian)", "type pre-commit")
NEEDS = [CRATES, FILTER_REPO, GO, RUBY, JAVA, MONO, PRE_COMMIT]


class Block(NamedTuple):
    before: str
    note: str
    language: str
    code: str
    # The line of its code, and the number of headings above.
    line: int
    section: int

    @property
    def is_run(self):
        return self.language != "text" and not self.note.startswith("not run: ")

    @property
    def name(self):
        """The file that the page tells the reader to write, if it does."""
        found = re.search("(?:[Ss]ave this as|Write) `([^`]*)`", self.before)
        return found[1] if found and LANGUAGES[self.language].file else ""

    @property
    def tool(self):
        return "bash" if self.name else LANGUAGES[self.language].tool

    def missing(self, folder, environment):
        """Lists what the block needs, and isn't there."""
        needs = [Need("", self.tool, f"type {self.tool}")]
        needs += [it for it in NEEDS if it.text in f"{self.tool} {self.code}"]
        return [it for it in needs if not passes(it.command, folder, environment)]

    def script(self, room):
        """The commands of a block that is run, in a shell."""
        language = LANGUAGES[self.language]
        code = self.code.replace("path/to/", f"{room}/unpacked/")
        if language.file:
            file = self.name or language.file
            command = "" if self.name else language.command
            code = f"mkdir -p $(dirname {file})\n{saved(code, file)}{command}\n"
        code = re.sub("(?=/usr/local|/srv/git)", str(room), code)
        return f"(\ncd '{ROOT}'\n{code})\n" if self.note == "in a clone" else code

    def comparison(self, room):
        """The commands that compare a text with the last lines that were printed."""
        printed = f"tail -n {len(self.code.splitlines())} '{room}/out'"
        wanted = f"{room}/wanted"
        return saved(self.code, f"'{wanted}'") + f"{printed} | diff - '{wanted}' >&2\n"


def passes(command, folder, environment):
    how = {"shell": True, "cwd": folder, "env": environment, "capture_output": True}
    return subprocess.run(command, **how).returncode == 0


def saved(code, file):
    """The command that writes this into a file."""
    return f"cat > {file} << 'END OF BLOCK'\n{code}END OF BLOCK\n"


def blocks_of(text):
    """Yields the blocks of a page that can be run, and its texts."""
    for it in BLOCK.finditer(text):
        before, note, language, code = (group or "" for group in it.groups())
        if language in (*LANGUAGES, "text") and "From `" not in before:
            above = text[: it.start(3)]
            line, section = above.count("\n") + 1, len(re.findall("(?m)^##", above))
            yield Block(before, note, language, code, line, section)
