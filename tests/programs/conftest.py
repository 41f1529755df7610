"""What the tests of the programs get.

Without --build these are the programs that `rt ci` has just proved and built: each as
LLVM builds it, and as Rattle's own compiler does (NAME.by-rattle). Golden files have
most of what they print; these tests are for what no clause says.

- `program`: each build in turn.
- `program`, `row`: with @rows(TABLE), each row of the table with each build of its
  program.
- `check_names` or another program's name, or `check_push_trees` for a subcommand: the
  builds of this one alone.
- `devices` of tests/conftest.py: for `program.run(.., devices=devices, READ=3)`.
"""

import functools
import os
import warnings

import pytest

from tests.programs.program import PROGRAMS, ROOT, Program, Ran, built_by
from tests.programs.program import shown as shown_as

# Stands for a build of a program of which --build has none.
NOT_CHOSEN = object()


def fixture_of(name):
    return name.replace(" ", "_")


def pytest_generate_tests(metafunc):
    crates = dict.fromkeys(name.split()[0] for name in PROGRAMS)
    builds = metafunc.config.getoption("build") or [
        ROOT / f"crates/{crate}/out/{crate}{end}"
        for crate in crates
        for end in ("", ".by-rattle")
    ]

    def parameters(name):
        chosen = [build for build in builds if name in built_by(build)]
        shown = [((build, name), shown_as(build, name)) for build in chosen]
        return shown or [(NOT_CHOSEN, name)]

    names = [name for name in PROGRAMS if fixture_of(name) in metafunc.fixturenames]
    if "row" in metafunc.fixturenames:
        metafunc.parametrize(
            "program, row",
            [
                pytest.param(build, row, id=f"{shown} {row.why}")
                for row in metafunc.function.table
                for build, shown in parameters(row.program)
            ],
            indirect=["program"],
        )
    elif "program" in metafunc.fixturenames:
        # (a build that is none of the programs is said by `program_of`)
        all_built = [
            (build, name) for build in builds for name in built_by(build) or [""]
        ]
        shown = [shown_as(*built) for built in all_built]
        metafunc.parametrize("program", all_built, ids=shown, indirect=True)
    for name in names:
        chosen, shown = zip(*parameters(name))
        metafunc.parametrize(fixture_of(name), chosen, ids=shown, indirect=True)


def pytest_collection_modifyitems(config, items):
    """A test of a program of which --build has none isn't selected, nor one of a static
    program on the devices."""
    static = config.getoption("static")

    def is_chosen(item):
        given = item.callspec.params if hasattr(item, "callspec") else {}
        is_built = all(
            given.get(it, 0) is not NOT_CHOSEN
            for it in ("program", *map(fixture_of, PROGRAMS))
        )
        return is_built and not (
            static and "devices" in getattr(item, "fixturenames", ())
        )

    config.hook.pytest_deselected(items=[it for it in items if not is_chosen(it)])
    items[:] = filter(is_chosen, items)


@functools.cache
def newest_source():
    return max(map(os.path.getmtime, ROOT.glob("crates/*/src/**/*.rt")))


@functools.cache
def program_of(build, name, is_chosen):
    if not name or not os.access(build, os.X_OK):
        pytest.fail(
            f"{build} is no program that is there: rt ci builds all; or run rt in a "
            "crate, and give what it builds with --build"
        )
    if not is_chosen and os.path.getmtime(build) < newest_source():
        warnings.warn(f"{build} is older than a source; rt ci builds it anew")
    return Program(build, name)


@pytest.fixture
def program(request):
    return program_of(*request.param, bool(request.config.getoption("build")))


check_names = git_check_names = program
check_push_trees = check_push_submodules = check_push_refs = program


def pytest_assertrepr_compare(op, left, right):
    """Shows of two outputs where they begin to differ. (One can have 16 MB.)"""
    if not (isinstance(left, Ran) and isinstance(right, Ran) and op == "=="):
        return None
    shown = ["the run differs from what is expected:"]
    if left.status != right.status:
        shown.append(f"status {left.status}, expected {right.status}")
    if left.said != right.said:
        shown += [f"said     {left.said!r}", f"expected {right.said!r}"]
    if left.output != right.output:
        same = len(os.path.commonprefix([left.output, right.output]))
        begin = max(0, same - 40)
        for what, run in ("output  ", left), ("expected", right):
            part = run.output[begin : same + 80]
            shown.append(f"{what} of {len(run.output)} bytes, from {begin}: {part!r}")
    return shown
