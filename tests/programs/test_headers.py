"""`check_push submodules` next to Git, on the headers of sections in tests/headers."""

import re

from tests.programs.program import read

# Stands for a byte in tests/headers.
BYTE = "<byte>"


def header_rows():
    """The rows of tests/headers: a place, a byte in it, and what Git reads then."""
    place = None
    for line in read("tests/headers").decode("ascii").splitlines():
        if not line.startswith("    "):
            place = line
            continue
        numbers, said = line.split(": ", 1)
        for first, _, last in (it.partition("-") for it in numbers.split()):
            for number in range(int(first, 16), int(last or first, 16) + 1):
                yield place, chr(number), said


def quoted(name):
    """The name as reports have it (docs/RULES.md, "Quoted bytes")."""
    short = {"\0": "\\0", "\t": "\\t", "\n": "\\n", "\r": "\\r"}
    short |= {'"': '\\"', "\\": "\\\\"}
    shown = (it if " " <= it <= "~" else f"\\x{ord(it):02x}" for it in name)
    return '"' + "".join(short.get(it, new) for it, new in zip(name, shown)) + '"'


def header_report(place, byte, said):
    """What check_push submodules has to print about a row of tests/headers, without the id.
    It is None if that is left open, since Git refuses the file."""
    offset = place.replace(BYTE, "?").rindex("[")
    unreadable = [f"{offset} a section can't be read"]
    refused = " Submodules names must not contains '..'"
    # What is before a section changes nothing, even if Git sees a comment or a value
    # there.
    if place.index(BYTE) < offset:
        return unreadable if "\\" in place else [f'{offset} "../x"{refused}']
    if said.startswith("refused"):
        return None
    # The old form, and a NUL or 0xFF in a name.
    if byte in "\0\xff" or byte == "." and f"e{BYTE}" in place:
        return unreadable
    names = (it.replace(BYTE, byte) for it in re.findall('"(.*?)"', said))
    return [f"{offset} {quoted(name)}{refused}" for name in names]


ROWS = list(header_rows())


def test_each_place_has_each_byte():
    assert len(ROWS) == len({*ROWS}) == 256 * len({place for place, *_ in ROWS})


def test_a_name_that_git_reads_is_reported_or_its_section_can_not_be_read(
    check_push_submodules,
):
    stream, printed = b"", {}
    for number, (place, byte, _) in enumerate(ROWS):
        file = place.replace(BYTE, byte).encode("latin-1") + b"\n\tpath = x\n"
        stream += b"%040x blob %d\n%s\n" % (number, len(file), file)
    ran = check_push_submodules.run(stream)
    assert (ran.status, ran.said) == (1, "")
    for line in ran.output.decode("ascii").splitlines():
        printed.setdefault(int(line[:40], 16), []).append(line[41:])
    expected = {number: header_report(*row) for number, row in enumerate(ROWS)}
    compared = {number for number, lines in expected.items() if lines is not None}
    assert compared
    wrong = {
        ROWS[number]: (printed.get(number, []), expected[number])
        for number in compared
        if printed.get(number, []) != expected[number]
    }
    assert wrong == {}, "printed and expected"
