"""Fixtures of the tests of scripts."""

import pytest

from tests.scripts.copies import Copy


@pytest.fixture(scope="session")
def shared(tmp_path_factory):
    with Copy(tmp_path_factory.mktemp("copy")) as copy:
        yield copy


@pytest.fixture
def copy(shared):
    """A copy of the repository with nothing built. All tests have the same one, and what
    a test changes there is undone after it."""
    yield shared
    shared.restore()
