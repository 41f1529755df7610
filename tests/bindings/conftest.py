"""What the tests of the bindings get if they name it: what is costly to make."""
import os
import subprocess
from contextlib import contextmanager

import pytest

from .cargo import program
from .tools import (
    ARCHIVE,
    BINDINGS,
    CC,
    CXX,
    OUT,
    PORTABLE,
    ROOT,
    SANITIZED,
    STRICT,
    need,
    run,
)

SOURCES = OUT / "sources"


@pytest.fixture(scope="session", autouse=True)
def bindings_are_built():
    """Fails if bindings/build hasn't built the sources that are here."""
    need(CC)
    if not SOURCES.exists():
        pytest.fail("nothing is built: run bindings/build", pytrace=False)
    check = ["sha256sum", "--check", "--quiet", SOURCES]
    done = subprocess.run(check, cwd=ROOT, capture_output=True, text=True)
    if done.returncode:
        pytest.fail(f"{done.stdout}run bindings/build", pytrace=False)


@pytest.fixture(scope="session")
def rows_program(tmp_path_factory):
    """The program that replays rows in C, with the library as LLVM builds it."""
    program = tmp_path_factory.mktemp("c") / "rows"
    source = BINDINGS / "c/rows.c"
    run(CC, "-std=c11", *STRICT, "-O2", "-o", program, source, ARCHIVE)
    return program


@pytest.fixture(scope="session")
def rows_program_of_cpp(tmp_path_factory):
    """The same in C++."""
    need(CXX)
    program = tmp_path_factory.mktemp("cpp") / "rows"
    words = ["-std=c++17", *STRICT, f"-I{BINDINGS}/cpp", "-O1", "-o", program]
    run(CXX, *words, BINDINGS / "cpp/rows.cpp", ARCHIVE)
    return program


@pytest.fixture(scope="session")
def sanitized_functions(tmp_path_factory):
    """The functions translated to C, compiled with sanitizers, because a sanitizer sees only
    reads in code that was compiled with it. (A test that takes them is in the group
    "sanitizers", so that one process compiles them for all.)"""
    need(PORTABLE)
    functions = tmp_path_factory.mktemp("sanitized") / "functions.o"
    run(CC, "-std=c99", *SANITIZED, *STRICT, "-c", "-o", functions, PORTABLE)
    return functions


@pytest.fixture(scope="session")
def wine(tmp_path_factory):
    """The environment in which programs for Windows run."""
    need("wine", "x86_64-w64-mingw32-gcc")
    settings = {
        "WINEPREFIX": str(tmp_path_factory.mktemp("wine") / "prefix"),
        "WINEDEBUG": "-all",
        # (wineserver leaves a directory there)
        "TMPDIR": str(tmp_path_factory.mktemp("wine-tmp")),
    }
    yield settings
    # (wine goes on writing there after a program has ended)
    subprocess.run(
        ["timeout", "60", "wineserver", "--wait"], env={"PATH": "/usr/bin", **settings}
    )


@pytest.fixture(scope="session")
def rust_program():
    """A program for gix-validate 0.13.1 over the Rust crate, without gix-error."""
    return program("without", default_features=False)


@pytest.fixture(scope="session")
def chromium(tmp_path_factory):
    """Starts headless Chromium, with more flags."""
    need("chromium", "chromedriver", "/usr/lib/python3/dist-packages/selenium")
    from selenium.webdriver import Chrome, ChromeOptions

    @contextmanager
    def start(*flags):
        options = ChromeOptions()
        for flag in ("--headless", "--hide-scrollbars", *flags):
            options.add_argument(flag)
        if os.getuid() == 0:
            options.add_argument("--no-sandbox")
        with Chrome(options=options) as browser:
            yield browser

    # (It leaves folders there.)
    with pytest.MonkeyPatch.context() as patch:
        patch.setenv("TMPDIR", str(tmp_path_factory.mktemp("chromium")))
        yield start
