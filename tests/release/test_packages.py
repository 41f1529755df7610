"""The packages for Python and for JavaScript, installed without a network."""

import base64
import sys

import pytest

from tests.release.commands import NUMBERS, PYTHON, ROOT, VERSION, need, run

# (One process installs them for all tests.)
pytestmark = pytest.mark.xdist_group("packages")


@pytest.fixture(scope="module")
def venv(session_room):
    # (the packages of Debian are visible in it, since the tests need pytest)
    options = ["-m", "venv", "--system-site-packages"]
    made = run(sys.executable, *options, session_room / "venv")
    if made.status:
        pytest.skip("needs python3 with venv and pip (Debian: python3-venv)")
    return session_room / "venv"


@pytest.mark.parametrize("kind", ["*.whl", "*.tar.gz"])
def test_pip_installs_the_package_and_it_passes_the_tests_of_the_module(
    tree, venv, kind
):
    [package] = (tree / "python").glob(kind)
    python = venv / "bin/python"
    options = ["--quiet", "--disable-pip-version-check", "--no-index"]
    words = ["install", *options, "--force-reinstall", package]
    assert run(python, "-m", "pip", *words) == (0, "")
    shown = run(python, "-m", "pip", "show", "gix-validate")
    assert f"\nVersion: {PYTHON}\n" in shown.said
    # (with this mode the module of the clone isn't found)
    words = ["-B", "-W", "error", "-m", "pytest", "-q", "--import-mode=importlib"]
    tested = run(python, *words, "bindings/python/test_gix_validate.py", cwd=ROOT)
    assert tested.status == 0, tested.said


# Builds the wheel as on a processor for which there is no machine code.
ELSEWHERE = """
import platform
import build_gix_validate

platform.machine = lambda: "riscv64"
print(build_gix_validate.build_wheel("."))
"""


def test_the_source_archive_has_the_functions_for_processors_without_machine_code(
    tree, room
):
    [package] = (tree / "python").glob("*.tar.gz")
    words = ["--strip-components=1", "--no-same-owner"]
    assert run("tar", "-C", room, "-xf", package, *words) == (0, "")
    built = run(sys.executable, "-B", "-c", ELSEWHERE, cwd=room)
    assert built.status == 0, built.said
    wheel, unpacked = built.said.strip(), room / "unpacked"
    words = ["-m", "zipfile", "-e", wheel, unpacked]
    assert run(sys.executable, *words, cwd=room) == (0, "")
    words = ["-B", "-m", "pytest", "-q", "--import-mode=importlib"]
    test = "bindings/python/test_gix_validate.py"
    tested = run(sys.executable, *words, test, cwd=ROOT, PYTHONPATH=unpacked)
    assert tested.status == 0, tested.said


@pytest.fixture(scope="module")
def package(tree, session_room):
    """The folder of the npm package, installed."""
    folder = session_room / "javascript"
    folder.mkdir()
    options = ["--offline", "--no-audit", "--no-fund", "--no-package-lock"]
    file = tree / "javascript" / f"gix-validate-{VERSION}.tgz"
    installed = run(
        *["npm", "install", *options, file],
        cwd=folder,
        npm_config_cache=session_room / "npm",
        npm_config_update_notifier="false",
    )
    assert installed.status == 0, installed.said
    return folder / "node_modules/gix-validate"


@need("node", "npm")
def test_the_npm_package_has_the_functions_that_the_release_has(package, prefix):
    lines = (package / "gix_validate_wasm.mjs").read_text().splitlines()
    functions = base64.b64decode("".join(lines[2:-1]), validate=True)
    released = (prefix / "lib/gix_validate.wasm").read_bytes()
    assert functions == released
    assert (package / "gix_validate.wasm").read_bytes() == released


@need("node", "npm")
def test_the_page_of_the_npm_package_links_to_no_file(package):
    page = (package / "README.md").read_text("utf-8")
    assert "`docs/BINDINGS.md`" in page
    assert "](." not in page


@need("node", "npm")
def test_the_npm_package_can_be_required(package):
    program = 'require("gix-validate").sanitize("a..b")'
    assert run("node", "-p", program, cwd=package.parent) == (0, "a.b\n")


@need("node", "npm")
def test_the_npm_package_passes_the_tests_of_the_module(package):
    text = (ROOT / "bindings/js/test_gix_validate.mjs").read_text()
    test = package.parent.parent / "test.mjs"
    test.write_text(text.replace('"./gix_validate.mjs"', '"gix-validate"'))
    tested = run("node", test, ROOT / "tests/rows", NUMBERS, cwd=test.parent)
    assert tested.status == 0, tested.said
