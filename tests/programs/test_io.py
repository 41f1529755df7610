"""Runs on a terminal, a folder, a full device or a closed pipe, and runs in which a
read, a write or an allocation fails (tests/devices.c)."""

import os
import pty
import stat

import pytest

from tests.programs.program import ID, PARTS, ZERO, Ran


# A terminal.
def test_on_a_terminal_check_names_says_what_to_type(check_names):
    terminal, side = pty.openpty()
    os.write(terminal, b"\4")  # (Ctrl-D)
    hint = (
        "type lines such as 'tag v1.2.3', and then Ctrl-D; "
        "the results are printed at the end"
    )
    ran = check_names.run(side)
    os.close(terminal)
    os.close(side)
    assert ran == check_names.fails(hint, status=0)


def test_on_a_terminal_help_is_printed_alone(program):
    terminal, side = pty.openpty()
    ran = program.run(side, "--help")
    os.close(terminal)
    os.close(side)
    assert (ran.status, ran.said) == (0, "")
    assert ran == program.run(b"", "--help")


# What can't be read or written.
def test_a_folder_can_not_be_read(program, tmp_path):
    folder = os.open(tmp_path, os.O_RDONLY)
    ran = program.run(folder, *program.words)
    os.close(folder)
    assert ran == program.fails("read failed")


def a_full_device():
    return os.open("/dev/full", os.O_WRONLY)


def a_closed_pipe():
    reader, pipe = os.pipe()
    os.close(reader)
    return pipe


@pytest.fixture(params=[a_full_device, a_closed_pipe])
def target(request):
    """What can't be written to."""
    descriptor = request.param()
    yield descriptor
    os.close(descriptor)


@pytest.mark.parametrize("size", ["small", "large"])
def test_a_report_that_can_not_be_written_is_a_failure(program, target, size):
    """If nobody reads the report any more, as after `| head -1`, nothing is said, but by
    check_names, whose messages are part of its specification."""
    given = program.given if size == "small" else program.large
    ran = program.run(given, *program.words, to=target)
    is_pipe = stat.S_ISFIFO(os.fstat(target).st_mode)
    is_quiet = is_pipe and program.name != "check_names"
    assert ran == (Ran(2, b"", "") if is_quiet else program.fails("write failed"))


@pytest.mark.parametrize("word", ["--help", "--version"])
def test_a_text_that_can_not_be_written_is_a_failure(program, target, word):
    assert program.run(b"", word, to=target) == program.fails("write failed", status=2)


# Reads and writes that move one byte, are interrupted, or fail.
def test_long_lines_and_objects_are_read_when_each_byte_comes_alone(program, devices):
    """Each byte is read after an interrupted read."""
    part = PARTS[program.name]
    header, status, before = f"{ID} blob 1 ".ljust(65535, "a"), 1, ""
    given = f"{ID} blob 100001\n{100001 * 'a'}\n{header}\na\n"
    if program.name == "check_push refs":
        given = f"{ZERO} {ID} refs/heads/".ljust(65535, "a") + "\n"
    if program.name == "check_names":
        given, status, before = f"tag {100001 * 'a'}\n", 0, "ok\n"
    if program.name == "git_check_names":
        given = 65535 * "a" + "\n"
    given = (given + part.bad).encode()
    ran = program.run(given, *program.needed, devices=devices, SLOW=1)
    assert ran == Ran(status, (before + part.line).encode(), "")


def test_a_read_that_fails_anywhere_is_said(program, devices):
    """What was read whole is reported, but by check_names, which prints nothing before
    the end."""
    wrong = {}
    for offset in range(len(program.given) + 1):
        settings = {"devices": devices, "READ": offset, "SLOW": 1}
        ran = program.run(program.given, *program.words, **settings)
        is_beginning = program.report.startswith(ran.output)
        if ran != program.fails("read failed", ran.output) or not is_beginning:
            wrong[offset] = ran
    assert wrong == {}
    assert ran.output == (program.report if program.good else b"")


@pytest.mark.parametrize("size", ["small", "large"])
def test_a_write_that_fails_anywhere_is_said(program, devices, size):
    """Writes fail once so many bytes of the report are written, or take nothing if that
    number is odd."""
    given, report = program.given, program.report
    offsets = range(len(report) + 1)
    if size == "large":
        given, report = program.large, program.large_report
        offsets = 65536, len(report) - 1, len(report)
    wrong = {}
    for offset in offsets:
        settings = {"WRITE": offset, "SLOW": 1} | ({"IDLE": 1} if offset % 2 else {})
        ran = program.run(given, *program.words, devices=devices, **settings)
        expected = program.fails("write failed", report[:offset])
        if ran != (expected if offset < len(report) else program.reports(report)):
            wrong[offset] = ran
    assert wrong == {}


# Memory.
def test_an_allocation_that_fails_stops_a_run_and_all_is_given_back(program, devices):
    """Each request for memory is refused in turn, until a run makes no other: all that
    was given is given back, and the run stops, unless it does without. (It collects the
    words of the arguments one by one then.)"""
    names = {program.command, program.executable}
    stops = {(2, f"refused\n{name}: out of memory\n") for name in names}
    if not program.good:
        stops |= {
            (1, f"refused\n{program.command}: out of memory\n"),
            (1, f"refused\n{program.command}: read failed\n"),
        }
    seen = set()
    for request in range(1, 1000):
        settings = {"devices": devices, "MEMORY": request}
        ran = program.run(program.given, *program.words, **settings)
        if not ran.said:
            break
        assert program.report.startswith(ran.output), request
        if ran != Ran(program.good, program.report, "refused\n"):
            seen.add((ran.status, ran.said))
            assert program.good or not ran.output, request
    assert ran == program.reports(program.report)
    assert seen == stops
