"""A pytest plugin: the option that names the release to be tested."""

from pathlib import Path

import pytest


def pytest_addoption(parser):
    parser.addoption(
        "--release",
        type=lambda name: Path(name).resolve(strict=True),
        metavar="FILE.tar.gz",
        help="the release for tests/release and tests/pages, its packages next to it",
    )


@pytest.fixture(scope="session")
def archive(request):
    """The release's file. Without one a test is skipped."""
    file = request.config.getoption("release")
    if not file:
        pytest.skip("needs a release: --release FILE.tar.gz")
    return file
