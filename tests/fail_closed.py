"""A pytest plugin: a run passes only by assertions that hold.

A test without an assertion that held fails; those of its fixtures don't count. With CI=true
a skipped test fails, too, but for those with the mark `may_be_skipped`.
"""

import os

import pytest


def pytest_assertion_pass(item):
    """Counts. (pytest calls this for each assertion that held in a test module, a conftest.py or
    a plugin, but for none in another module, such as tests/scripts/copies.py.)"""
    item.assertions = getattr(item, "assertions", 0) + 1


@pytest.hookimpl(tryfirst=True)
def pytest_runtest_call(item):
    """Begins to count when the fixtures are set up."""
    item.assertions = 0


@pytest.hookimpl(hookwrapper=True)
def pytest_runtest_makereport(item, call):
    report = (yield).get_result()
    may_be_skipped = item.get_closest_marker("may_be_skipped")
    if report.skipped and os.environ.get("CI") == "true" and not may_be_skipped:
        report.outcome = "failed"
        why = report.longrepr
        why = why[-1] if isinstance(why, tuple) else why
        report.longrepr = f"not run, which fails in CI: {why}"
        vars(report).pop("wasxfail", None)  # (which would make it count as expected)
    elif report.when == "call" and report.passed:
        if not getattr(item, "assertions", 0):
            report.outcome = "failed"
            report.longrepr = "it asserted nothing"
