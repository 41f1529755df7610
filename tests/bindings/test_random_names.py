"""Python, C, C++, JavaScript and Rust on the same random names."""
import importlib
import re
import subprocess
import sys
import tempfile
from unittest import mock

import pytest
from hypothesis import HealthCheck, example, given, settings
from hypothesis import strategies as st

from .tools import BINDINGS, WASM, need

pytestmark = pytest.mark.xdist_group("rust")
# What the rules speak of, and what is like it.
PARTS = [
    *(
        b"refs/",
        b"heads/",
        b"HEAD",
        b"main",
        b"/",
        b"//",
        b"/..",
        b"../",
        b".",
        b"..",
        b"@",
        b"@{",
        b"{",
    ),
    *(b".lock", b".lock/", b"*", b" ", b"~", b"^", b":", b"?", b"[", b"\\", b"\x7f"),
    *(
        b"\n",
        b"\t",
        b"-",
        b"_",
        b"A",
        b"z",
        "ä".encode(),
        "🎉".encode(),
        b"\x80",
        b"\xff",
    ),
    *(b".git", b".GIT", b"git~1", b"GIT~2", b".gitmodules", b"gitmod~1", b"gi7eb9"),
    *(b"gi7eba", b"~1", b"con", b"NUL", b"aux", b"com1", b"lpt9", b"CONIN$", b"prn"),
    *(b".txt", b"$", b"::$INDEX_ALLOCATION", b"c:", b"<", b"|", b'"', b"\xe2\x80\x8c"),
    *(b"\xef\xbb\xbf", b"\xe2\x81\xaf", b".g\xe2\x80\x8dit", b"i", b"I", b"t", b"T"),
    *(b" .", b". ", b"1", b"0", b"abcdefghijklmnop", b"some-longer-name"),
]
PIECES = st.sampled_from(PARTS) | st.binary(min_size=1, max_size=1)
NAMES = st.lists(PIECES, max_size=20).map(b"".join)
# Names with the faults that are so rare that 500 examples may have none of them.
RARE = [b"@", b"a.", b".gitmodules", b"-a"]
LETTERS = ["", "w", "h", "n", "wh", "wn", "hn", "whn"]
KINDS = "branch branch-ref tag ref partial tag-name".split()
PROTECTED = "safe-ref path symlink-path component symlink submodule".split()


class Replayer:
    """A program that replays rows from its input, and says `ok` of each that holds."""

    def __init__(self, *command, **options):
        self.command = [str(it) for it in command]
        self.options = options
        self.start()

    def start(self):
        self.errors = tempfile.TemporaryFile("w+")
        pipes = {"stdin": subprocess.PIPE, "stdout": subprocess.PIPE}
        self.process = subprocess.Popen(
            self.command, stderr=self.errors, encoding="ascii", **pipes, **self.options
        )

    def wrong(self, rows):
        """The first row that doesn't hold, and what the program says of it, or None.
        (Rows and replies of some names fit a pipe.)"""
        for at in range(0, len(rows), 24):
            some = rows[at : at + 24]
            try:
                self.process.stdin.write("".join(f"{row}\n" for row in some))
                self.process.stdin.flush()
            except BrokenPipeError:
                pass  # (it ended early, so a reply is missing)
            replies = [self.process.stdout.readline().strip() for _ in some]
            for row, reply in zip(some, replies):
                if reply != "ok":
                    said = self.end()
                    self.start()
                    return row, reply, said
        return None

    def end(self):
        """Ends the program, and returns what it said on standard error."""
        self.process.communicate()
        self.errors.seek(0)
        return f"status {self.process.returncode}: {self.errors.read()}"


@pytest.fixture(scope="module")
def replayers(rows_program, rows_program_of_cpp, rust_program):
    """A program in each language but Python, by the language."""
    need("node", WASM)
    rust_program.cargo("build", "--quiet", "--package", "git-names", "--examples")
    found = {
        "C": Replayer(rows_program, "-"),
        "C++": Replayer(rows_program_of_cpp, "-"),
        "JavaScript": Replayer("node", BINDINGS / "js/test_gix_validate.mjs", "-"),
        "Rust": Replayer(rust_program.target / "debug/examples/replay_rows"),
    }
    yield found
    assert {it.end() for it in found.values()} == {"status 0: "}


@pytest.fixture(scope="module")
def gix():
    """Python's module, with the flags of the library, since its own WINDOWS includes NTFS."""
    sys.path.append(str(BINDINGS / "python"))
    module = importlib.import_module("gix_validate")
    with mock.patch.object(module, "_flags_of", int):
        yield module


def quoted(name):
    """The bytes of a name, as rows have them."""
    escaped = re.sub(rb"[^ !#-\[\]-~]", lambda it: b"\\x%02x" % ord(it[0]), name)
    return f'"{escaped.decode()}"'


def answers(gix, name):
    """What Python's module says of a name: the call, the exception or None, and if it
    isn't that of the exception the result, as rows have them."""
    for kind in KINDS:
        yield kind, refusal(gix, kind, name), "Ok"
    for letters in LETTERS:
        flags = {"w": 1, "h": 2, "n": 4}
        protect = gix.Protect(sum(flags[letter] for letter in letters))
        for kind in PROTECTED:
            yield f"{kind}:{letters}", refusal(gix, kind, name, protect=protect), "Ok"
    suggested = gix.suggest_branch(name)
    yield "device", None, "yes" if gix.is_windows_device(name) else "no"
    yield "sanitize", None, quoted(gix.sanitize(name))
    yield "suggest", None, "none" if suggested is None else quoted(suggested)


def refusal(gix, kind, name, **options):
    """The exception with which Python's module refuses a name, or None."""
    try:
        getattr(gix, f"validate_{kind.replace('-', '_')}")(name, **options)
    except gix.InvalidName as error:
        return error


def row(gix, call, name, error, result):
    if error is not None:
        is_byte = str(error.fault) == "InvalidByte"
        byte = f":{name[error.offset]:02x}" if is_byte else ""
        text = gix._text(name, error.kind, error.protect)
        result = f"{error.fault}{byte}@{error.offset} {text}"
    return f"{call} {quoted(name)} {result}"


@pytest.fixture(scope="module")
def seen(gix):
    """The faults that the names have had; at the end each has to be among them."""
    faults = set()
    yield faults
    assert faults == {None, *gix.Fault}


@settings(
    max_examples=500,
    deadline=None,
    database=None,
    suppress_health_check=HealthCheck.all(),
)
@given(st.lists(NAMES, min_size=1, max_size=20))
@example(RARE)
def test_all_languages_return_the_same_for_random_names(gix, replayers, seen, names):
    rows = []
    for name in names:
        for call, error, result in answers(gix, name):
            seen.add(error and error.fault)
            rows.append(row(gix, call, name, error, result))
    wrong = {language: it.wrong(rows) for language, it in replayers.items()}
    assert wrong == dict.fromkeys(replayers)


@settings(
    max_examples=500,
    deadline=None,
    database=None,
    suppress_health_check=HealthCheck.all(),
)
@given(NAMES)
def test_python_returns_the_same_for_a_str_as_for_its_bytes(gix, name):
    text = as_str(name)
    for kind in gix.Kind:
        of_bytes, of_str = refusal(gix, kind, name), refusal(gix, kind, text)
        assert (of_bytes is None) is (of_str is None)
        if of_bytes:
            assert of_str.fault is of_bytes.fault
            assert of_str.offset == len(as_str(name[: of_bytes.offset]))
    suggested = gix.suggest_branch(name)
    assert gix.suggest_branch(text) == (suggested and as_str(suggested))
    assert gix.sanitize(text) == as_str(gix.sanitize(name))


def as_str(name):
    """The str that Python has for these bytes."""
    return name.decode("utf-8", "surrogateescape")
