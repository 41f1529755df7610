"""Tests of gix_validate, by pytest: the rows of tests/rows, and what no row says."""

import array
import ctypes.util
import doctest
import inspect
import mmap
import pickle
import re
import struct
from concurrent.futures import ThreadPoolExecutor
from pathlib import Path
from unittest import mock

import gix_validate
import pytest
from gix_validate import Fault, InvalidName, Kind, Protect

HERE = Path(__file__).resolve().parent
HEADER = (HERE.parent / "c" / "gix_validate.h").read_text(encoding="ascii")
TEXT = (HERE.parents[1] / "tests" / "rows").read_text(encoding="ascii")
ROWS = re.findall(r'(?m)^([\w-]+)(?::(\w*))?(?: ([\w-]+))? "([^"]*)" (.*)$', TEXT)
# (w is the flag of Windows' own rules, which has no name: WINDOWS includes NTFS. So a row with
# w and without n is no result of the module, but it is one of the library.)
SETTINGS = {"w": Protect(1), "h": Protect.HFS, "n": Protect.NTFS}
PROTECTED = {
    *(Kind.SAFE_REF, Kind.PATH, Kind.SYMLINK_PATH),
    *(Kind.COMPONENT, Kind.SYMLINK, Kind.SUBMODULE),
}
VALIDATE = {
    kind: getattr(gix_validate, f"validate_{kind.replace('-', '_')}") for kind in Kind
}
# The functions that take one name.
OF_A_NAME = {
    **{it.__name__: it for it in VALIDATE.values()},
    "check": lambda name: gix_validate.check(name, "tag"),
    "is_valid": lambda name: gix_validate.is_valid(name, "tag"),
    "suggest_branch": gix_validate.suggest_branch,
    "sanitize": gix_validate.sanitize,
    "is_windows_device": gix_validate.is_windows_device,
    "faults": lambda name: gix_validate.faults([name], "tag"),
}


class Lying(bytes):
    """A name that lies about its length."""

    def __len__(self):
        return 1_000_000


class LyingStr(str):
    """The same, which also lies about its bytes."""

    def __len__(self):
        return 1_000_000

    def encode(self, *_):
        return b"x"


def unquoted(text):
    """The bytes that a row quotes."""
    return re.sub(
        rb"\\x(..)", lambda found: bytes.fromhex(found[1].decode()), text.encode()
    )


def as_str(name):
    """The str that Python has for these bytes."""
    return name.decode("utf-8", "surrogateescape")


def fault_of(word):
    """The fault that a row calls by its name in the Rust crate, or None."""
    if word == "Ok":
        return None
    return Fault[re.sub("(?<=[a-z])(?=[A-Z])", "_", word).upper()]


def protection_of(letters):
    protect = Protect.NONE
    for letter in letters:
        protect |= SETTINGS[letter]
    return protect


def refusal(call, *given, **settings):
    """The exception with which a call refuses a name."""
    with pytest.raises(InvalidName) as refused:
        call(*given, **settings)
    return refused.value


def message_of(error, call, *given, **settings):
    """What a call says with this error."""
    with pytest.raises(error) as raised:
        call(*given, **settings)
    return str(raised.value)


def check_name(kind, settings, name, answer):
    """Checks what is returned of a name, which is a str or bytes, by a row's answer."""
    parts = re.fullmatch(r"(\w+)(?::(\w\w))?(?:@(\d+))? ?(.*)", answer)
    word, byte, offset, text = parts.groups()
    fault = fault_of(word)
    assert gix_validate.check(name, kind.value, **settings) is fault
    assert gix_validate.is_valid(name, kind, **settings) is (fault is None)
    assert gix_validate.faults([name], kind, **settings) == [fault]
    if fault is None:
        assert VALIDATE[kind](name, **settings) is name
        return
    error = refusal(VALIDATE[kind], name, **settings)
    assert (error.name, error.kind, error.fault) == (name, kind, fault)
    assert str(error.fault) == word
    assert str(error).startswith(text)
    at = error.offset
    if isinstance(name, str):
        at = len(name[:at].encode("utf-8", "surrogateescape"))
        name = name.encode("utf-8", "surrogateescape")
    assert 0 <= at <= len(name)
    assert not byte or name[at] == int(byte, 16)
    assert not offset or at == int(offset)


def check_buffer(kind, end, buffer, wanted, **settings):
    numbers = bytes(fault or 0 for fault in wanted)
    for given in (buffer, as_str(buffer), bytearray(buffer)):
        assert gix_validate.fault_numbers(given, kind, end, **settings) == numbers
    names = buffer.split(end)
    names = names if names[-1] else names[:-1]
    assert gix_validate.faults(iter(names), kind, **settings) == wanted
    assert gix_validate.faults(map(as_str, names), kind, **settings) == wanted


def test_each_row_is_read():
    assert len(ROWS) == len(re.findall("(?m)^[^#\n]", TEXT)) > 500


@pytest.mark.parametrize(
    "call, more, of, quoted, answer", ROWS, ids=[" ".join(row[:4]) for row in ROWS]
)
def test_a_row_holds(call, more, of, quoted, answer, monkeypatch):
    name = unquoted(quoted)
    if call in {*PROTECTED} and "w" in more and "n" not in more:
        monkeypatch.setattr(gix_validate, "_flags_of", int)
    if call == "many":
        count, *wanted = answer.split()
        assert len(wanted) == int(count)
        faults = [*map(fault_of, wanted)]
        end, none = bytes.fromhex(more), {"protect": Protect.NONE}
        check_buffer(Kind(of), end, name, faults, **none)
    elif call == "device":
        for given in (name, as_str(name)):
            assert gix_validate.is_windows_device(given) is (answer == "yes")
    elif call in ("sanitize", "suggest"):
        function = {"suggest": gix_validate.suggest_branch}.get(
            call, gix_validate.sanitize
        )
        wanted = None if answer == "none" else unquoted(answer[1:-1])
        made = function(name)
        assert made == wanted and (made is name) is (wanted == name)
        assert function(as_str(name)) == (None if wanted is None else as_str(wanted))
    else:
        kind = Kind(call)
        settings = {"protect": protection_of(more)} if kind in PROTECTED else {}
        for given in (name, as_str(name)):
            check_name(kind, settings, given, answer)


@pytest.mark.parametrize("kind", Kind)
def test_the_names_of_the_rows_have_the_same_faults_together(kind):
    letters = "whn" if kind in PROTECTED else ""
    faults = {
        unquoted(quoted): fault_of(re.match(r"\w+", answer)[0])
        for call, more, _, quoted, answer in ROWS
        if (call, more) == (kind.value, letters)
    }
    assert faults
    # (Some hold a NUL or a newline.)
    assert gix_validate.faults([*faults], kind) == [*faults.values()]
    lines = {name: fault for name, fault in faults.items() if b"\n" not in name}
    buffer = b"".join(name + b"\n" for name in lines)
    check_buffer(kind, b"\n", buffer, [*lines.values()])


MESSAGES = [
    ("branch", "", "Reference name cannot be empty"),
    (
        "tag-name",
        "a..b",
        "A ref must not contain '..' as it may be mistaken for a range ('.' at index 2)",
    ),
    (
        "branch",
        "grün/my branch",
        "Reference name contains invalid byte: \" \" (' ' at index 7, in 'my branch')",
    ),
    (
        "branch",
        "grün/my branch".encode(),
        "Reference name contains invalid byte: \" \" (b' ' at byte 8, in b'my branch')",
    ),
    (
        "branch",
        "a/b\x1b'\udcff/c",
        'Reference name contains invalid byte: "\\x1b"'
        " ('\\x1b' at index 3, in \"b\\x1b'\\udcff\")",
    ),
    (
        "branch",
        "a//b",
        "Reference name cannot contain repeated slashes ('/' at index 2)",
    ),
    (
        "branch",
        b"a/b/",
        "Reference name cannot end with a slash (b'/' at byte 3)",
    ),
    (
        "path",
        "a/",
        "A path must not be empty, start or end with a slash, or have two in a row"
        " (at the end)",
    ),
    (
        "path",
        b"a/",
        "A path must not be empty, start or end with a slash, or have two in a row"
        " (at the end)",
    ),
    (
        "path",
        "src/aux.c/x",
        "Windows device-names may have side-effects and are not allowed"
        " ('a' at index 4, in 'aux.c')",
    ),
    (
        "branch",
        "a/" + "b" * 200 + "~",
        'Reference name contains invalid byte: "~"'
        f" ('~' at index 202, in '{'b' * 200}'..)",
    ),
]


@pytest.mark.parametrize("kind, name, message", MESSAGES)
def test_the_exception_says_what_is_wrong_and_where(kind, name, message):
    assert str(refusal(VALIDATE[Kind(kind)], name)) == message


@pytest.mark.parametrize(
    "name, offset",
    [
        ("\u00e9\U0001f389a b", 3),
        ("\udcc3\udca9 b", 2),  # (these two bytes are those of one character)
        ("\u00e9\udcff\udcc3\u00e9 b", 4),
        ("a" * 1_000_000 + "\u00e9 ", 1_000_001),
    ],
)
def test_the_offset_in_a_str_counts_its_characters(name, offset):
    assert refusal(gix_validate.validate_branch, name).offset == offset
    encoded = name.encode("utf-8", "surrogateescape")
    error = refusal(gix_validate.validate_branch, encoded)
    assert error.offset == encoded.index(b" ")


def test_the_offset_is_that_under_the_protections_of_the_call():
    name = "a./.g\u200cit"
    error = refusal(gix_validate.validate_path, name, protect=Protect.HFS)
    assert (error.fault, error.offset) == (Fault.DOT_GIT_DIR, 3)
    error = refusal(gix_validate.validate_path, name)
    assert (error.fault, error.offset) == (Fault.WINDOWS_ILLEGAL_CHARACTER, 1)


def test_the_exception_is_a_value_error_that_can_be_copied():
    error = refusal(gix_validate.validate_path, "a/c:", protect=Protect.WINDOWS)
    assert isinstance(error, ValueError)
    copied = pickle.loads(pickle.dumps(error))
    assert type(copied) is InvalidName
    assert copied.args == error.args
    given = error.name, error.kind, error.fault, error.protect, error.offset
    assert copied.args == given
    assert (copied.offset, str(copied)) == (error.offset, str(error))


@pytest.mark.parametrize("call", OF_A_NAME.values(), ids=OF_A_NAME)
def test_what_is_neither_str_nor_bytes_is_no_name(call):
    for name in (None, 1, [109], bytearray(b"main"), memoryview(b"main"), Path("main")):
        message = f"a name has to be str or bytes, not {type(name).__name__}"
        assert message_of(TypeError, call, name) == message


@pytest.mark.parametrize("call", OF_A_NAME.values(), ids=OF_A_NAME)
def test_a_surrogate_that_is_no_byte_cannot_be_encoded(call):
    for name in ("a\ud800", "\udc7f", "\udd00"):
        assert "surrogates not allowed" in message_of(UnicodeEncodeError, call, name)


@pytest.mark.parametrize("name", [Lying(b"A_B"), LyingStr("A_B")])
def test_a_subclass_that_lies_about_its_length_is_a_name(name):
    for call in VALIDATE.values():
        assert call(name) is name
    assert gix_validate.sanitize(name) is name
    assert gix_validate.suggest_branch(name) is name
    assert gix_validate.faults([name], "ref") == [None]
    assert gix_validate.fault_numbers(name, "ref") == b"\0"
    assert gix_validate.is_windows_device(
        type(name)(b"nul" if name == b"A_B" else "nul")
    )


def test_a_name_that_stays_as_it_is_is_returned_itself():
    # (these two surrogates are the bytes of one character)
    for name in ("\udcc3\udca9", "main"):
        assert gix_validate.suggest_branch(name) is name
        assert gix_validate.sanitize(name) is name
    assert gix_validate.suggest_branch("\udcff ~") == "\udcff"


@pytest.mark.parametrize(
    "call",
    [
        lambda kind: gix_validate.check("a", kind),
        lambda kind: gix_validate.is_valid("a", kind),
        lambda kind: gix_validate.faults([], kind),
        lambda kind: gix_validate.fault_numbers("", kind),
        lambda kind: gix_validate.fault_numbers(bytearray(), kind),
        lambda kind: gix_validate.fault_numbers_at(b"", [], kind),
    ],
)
def test_a_kind_that_does_not_exist_is_named(call):
    said = message_of(ValueError, call, "brunch")
    assert said.startswith("'brunch' is no kind of name: branch, branch-ref, tag, ")
    assert message_of(ValueError, call, None).startswith("None is no kind of name: ")


@pytest.mark.parametrize(
    "call",
    [
        lambda **given: gix_validate.check("a", "branch", **given),
        lambda **given: gix_validate.validate_path("a", **given),
        lambda **given: gix_validate.faults([], "path", **given),
        lambda **given: gix_validate.fault_numbers(bytearray(), "path", **given),
    ],
)
@pytest.mark.parametrize("protect", [True, False, None, 7, "windows"])
def test_protections_are_a_protect(call, protect):
    said = message_of(TypeError, call, protect=protect)
    assert said == f"protect has to be a Protect, not {type(protect).__name__}"


def test_the_default_protects_against_all():
    names = {"aux.c": Protect.WINDOWS, ".g\u200cit": Protect.HFS}
    names["git~1"] = Protect.NTFS
    for name, protect in names.items():
        for kind in (Kind.PATH, Kind.SYMLINK_PATH, Kind.COMPONENT, Kind.SYMLINK):
            assert gix_validate.check(name, kind)
            assert gix_validate.faults([name], kind) != [None]
            assert gix_validate.fault_numbers(name, kind) != b"\0"
            assert gix_validate.is_valid(name, kind, protect=protect) is False
            assert gix_validate.is_valid(name, kind, protect=Protect.NONE) is True
        assert not gix_validate.is_valid(name, "submodule")
        assert not gix_validate.is_valid(f"refs/{name}", "safe-ref")
    assert Protect.WINDOWS | Protect.HFS == Protect.ALL


def test_windows_includes_ntfs():
    for name in ("aux.c", "git~1", ".git ", "a."):
        assert not gix_validate.is_valid(name, "path", protect=Protect.WINDOWS)
    assert gix_validate.is_valid("aux.c", "path", protect=Protect.HFS)
    assert Protect.WINDOWS | Protect.NTFS is Protect.WINDOWS


@pytest.mark.parametrize("whole", [Protect.ALL, Protect.WINDOWS])
def test_windows_includes_ntfs_even_if_that_is_taken_away(whole):
    taken = whole & ~Protect.NTFS
    assert taken is not whole
    names = {unquoted(quoted) for call, _, _, quoted, _ in ROWS if call in PROTECTED}
    for kind in PROTECTED:
        settings = {"kind": kind, "protect": taken}
        faults = gix_validate.faults([*names], kind, protect=whole)
        assert gix_validate.faults([*names], **settings) == faults
        assert [gix_validate.check(name, **settings) for name in names] == faults
    error = refusal(gix_validate.validate_path, "src/git~1", protect=taken)
    assert (error.fault, error.offset) == (Fault.DOT_GIT_DIR, 4)
    assert str(error).startswith("The .git name may never be used ")
    numbers = gix_validate.fault_numbers("aux.c\ngit~1", "path", protect=taken)
    assert numbers == b"\x11\x13"


def test_a_kind_is_a_str_which_may_be_passed_in_its_place():
    for kind in Kind:
        assert kind == kind.value == f"{kind}" == str(kind)
        assert gix_validate.check("", kind) is gix_validate.check("", kind.value)


def test_many_names_are_a_list_and_no_string():
    for names in ("main", b"main"):
        said = message_of(TypeError, gix_validate.faults, names, "tag")
        assert said == f"names have to be in a list, not in a {type(names).__name__}"
    assert "iterable" in message_of(TypeError, gix_validate.faults, None, "tag")
    said = message_of(TypeError, gix_validate.faults, [b"a", bytearray(b"b")], "tag")
    assert said == "a name has to be str or bytes, not bytearray"
    assert gix_validate.faults([], "tag") == []


def test_many_names_may_hold_the_byte_that_would_end_them():
    names = ["a\0b", b"", "a", b"a\0/.git"]
    wanted = [None, Fault.EMPTY, None, None]
    assert gix_validate.faults(names, "submodule", protect=Protect.NONE) == wanted
    wanted = [Fault.NUL, Fault.EMPTY_PART, None, Fault.DOT_GIT_DIR]
    assert gix_validate.faults(names, "path", protect=Protect.NONE) == wanted


def mapped(data):
    """A file's bytes, as they are in memory."""
    pages = mmap.mmap(-1, len(data))
    pages[:] = data
    return pages


BUFFERS = {
    "a bytearray": bytearray,
    "a memoryview": memoryview,
    "a part of a memoryview": lambda name: memoryview(name + b"xx")[:-2],
    "bytes that lie about their length": Lying,
    "an mmap": mapped,
    "an array": lambda data: array.array("B", data),
    "a memoryview that has gaps": lambda data: memoryview(
        bytes(it for byte in data for it in (byte, 0))
    )[::2],
    "an array of ctypes": lambda data: (ctypes.c_char * len(data))(*data),
    "a part of a bytearray": lambda data: memoryview(bytearray(b"x" + data))[1:],
}


@pytest.mark.parametrize("make", BUFFERS.values(), ids=BUFFERS)
def test_what_has_the_buffer_protocol_is_a_buffer_of_names(make):
    assert gix_validate.fault_numbers(make(b"v1\na..b"), "tag") == b"\0\4"
    assert gix_validate.fault_numbers(make(b"v1;a..b;v2"), "tag", ";") == b"\0\4\0"
    assert gix_validate.fault_numbers(make(b"a\n.git"), "component") == b"\0\x13"
    numbers = gix_validate.fault_numbers_at(make(b"v1a..b"), [0, 2, 6], "tag")
    assert numbers == b"\0\4"


def test_an_array_of_numpy_is_a_buffer_of_names_or_a_list():
    numpy = pytest.importorskip("numpy")
    buffer = numpy.frombuffer(b"v1\na..b", numpy.uint8)
    assert gix_validate.fault_numbers(buffer, "tag") == b"\0\4"
    for names in (numpy.array([b"v1", b"a..b"]), numpy.array(["v1", "a..b"])):
        assert gix_validate.faults(names, "tag") == [None, Fault.REPEATED_DOT]
    offsets = numpy.array([0, 2], numpy.int64)
    assert gix_validate.fault_numbers_at(buffer, offsets, "tag") == b"\0"
    names = numpy.array([b"v1", b"a..b"])
    assert gix_validate.fault_numbers(names, "tag", b"\0") == b"\0\x0b\4"


def test_what_is_no_buffer_has_no_names():
    for call in (
        lambda names: gix_validate.fault_numbers(names, "tag"),
        lambda names: gix_validate.fault_numbers_at(names, [0], "tag"),
    ):
        said = message_of(TypeError, call, [b"main"])
        assert said == "names have to be in a buffer, not list"


@pytest.mark.parametrize("end", [b"", b"\r\n", "\u00e9", ""])
def test_one_byte_ends_a_name(end):
    said = message_of(ValueError, gix_validate.fault_numbers, "main", "tag", end)
    assert said == f"one byte has to end a name, not {end!r}"
    message = "a name has to be str or bytes, not int"
    assert message_of(TypeError, gix_validate.fault_numbers, "", "tag", 10) == message


def test_a_buffer_without_a_byte_has_no_name():
    for empty in ("", b"", bytearray(), memoryview(b""), array.array("B")):
        assert gix_validate.fault_numbers(empty, "tag") == b""
    for empty in (None, b"", bytearray(), memoryview(b""), array.array("B")):
        assert gix_validate.fault_numbers_at(empty, [], "tag") == b""
        assert gix_validate.fault_numbers_at(empty, [0], "tag") == b""
        assert gix_validate.fault_numbers_at(empty, [0, 0], "tag") == b"\x0b"


def test_a_buffer_is_free_again_after_a_call():
    buffer = bytearray(b"v1\n")
    gix_validate.fault_numbers(buffer, "tag")
    buffer.append(97)
    assert gix_validate.fault_numbers(buffer, "tag") == b"\0\0"


@pytest.mark.parametrize("length, count", [(0, 10_000), (1, 10_000), (1_000_000, 3)])
def test_a_long_buffer_has_a_number_for_each_name(length, count):
    numbers = bytes([0 if length else Fault.EMPTY]) * count
    buffer = (b"a" * length + b"\n") * count
    assert gix_validate.fault_numbers(buffer, "tag") == numbers
    assert gix_validate.fault_numbers(buffer + b"@{", "tag") == numbers + b"\6"


def column_of(names, width, start, count):
    """The buffers of a column of Arrow: the offsets, which are of so many bytes each, and
    the names. Each is padded with zeros to a multiple of 64 bytes. It is a slice of a
    column that has other names before and after it."""
    before, after = [b"a~"] * start, [b"~"] * 3
    ends = [0]
    for name in [*before, *names, *after]:
        ends.append(ends[-1] + len(name))
    offsets = struct.pack(f"<{len(ends)}{width}", *ends)
    data = b"".join([*before, *names, *after])
    return [it + bytes(-len(it) % 64) for it in (offsets, data)]


@pytest.mark.parametrize("width", "iq")
@pytest.mark.parametrize("start", [0, 1, 5000])
def test_a_slice_of_a_padded_column_of_arrow_has_the_faults_of_its_names(width, start):
    names = [b"v1", b"", b"a..b", "gr\u00fcn".encode(), b"HEAD"] * 1500
    offsets, data = column_of(names, width, start, len(names))
    view = memoryview(offsets).cast(width)
    window = {"start": start, "count": len(names)}
    numbers = gix_validate.fault_numbers_at(data, view, "tag", **window)
    assert numbers == b"\0\x0b\4\0\x0d" * 1500
    window = {"start": start + 2, "count": 1}
    assert gix_validate.fault_numbers_at(data, view, "tag", **window) == b"\4"
    window = {"start": start + 2, "count": 0}
    assert gix_validate.fault_numbers_at(data, view, "tag", **window) == b""


@pytest.mark.parametrize("kind", Kind)
def test_names_between_offsets_have_the_faults_that_they_have_alone(kind):
    names = [b"a", b"", b"a\0b", b"a..b", b"refs/heads/a", b".git"] * 2000
    offsets = array.array("i", [0])
    for name in names:
        offsets.append(offsets[-1] + len(name))
    numbers = bytes(gix_validate.check(name, kind) or 0 for name in names)
    buffer = b"".join(names)
    assert gix_validate.fault_numbers_at(buffer, offsets, kind) == numbers
    some = gix_validate.fault_numbers_at(buffer, offsets, kind, start=5000, count=4000)
    assert some == numbers[5000:9000]
    rest = gix_validate.fault_numbers_at(buffer, iter(offsets), kind, start=5000)
    assert rest == numbers[5000:]


@pytest.mark.parametrize("offsets", [[-1, 1], [0, 3], [2, 1], [0, 2, 1]])
def test_offsets_ascend_within_the_buffer(offsets):
    call = gix_validate.fault_numbers_at
    said = message_of(ValueError, call, b"ab", offsets, "tag")
    assert said == "offsets have to ascend, and to be within the buffer"


def test_each_of_the_names_has_its_offsets():
    call = gix_validate.fault_numbers_at
    said = message_of(ValueError, call, b"ab", [0, 1, 2], "tag", start=1, count=2)
    assert said == "2 names have 3 offsets, not 2"
    message_of(ValueError, call, b"ab", [0, 1, 2], "tag", start=-1)


def test_a_fault_is_printed_as_in_the_rust_crate_and_is_no_int():
    assert f"{Fault.INVALID_BYTE} {Fault.EMPTY:>6}" == "InvalidByte  Empty"
    # (msgpack would make it one, as a key of a dict)
    assert not isinstance(Fault.EMPTY, int)


def test_the_faults_are_those_of_the_header():
    listed = HEADER.split("not a fault")[1].split("};")[0]
    told = re.findall(r"GIX_VALIDATE_(\w+) = (\d+),? +/\* (.*) \*/", listed)
    mine = [(it.name, str(it.value), it.text) for it in Fault]
    assert [it for it in told if it[0] != "UNKNOWN_KIND"] == mine


@pytest.mark.parametrize(
    "name, kinds, said",
    [
        ("@", {"ref", "partial", "branch-ref", "safe-ref"}, " @,"),
        ("HEAD", {"branch", "tag"}, " HEAD as a branch or tag,"),
        ("refs/heads/HEAD", {"branch-ref"}, " refs/heads/HEAD"),
    ],
)
def test_the_text_of_a_reserved_name_is_true_for_each_kind(name, kinds, said):
    found = {kind for kind in Kind if gix_validate.check(name, kind) is Fault.RESERVED}
    assert found == kinds
    assert said in Fault.RESERVED.text


def test_many_threads_may_call_at_once():
    with ThreadPoolExecutor(4) as pool:
        repaired = {*pool.map(gix_validate.suggest_branch, ["a//b.lock"] * 4000)}
    assert repaired == {"a/b"}


def test_the_examples_of_the_documentation_hold():
    assert doctest.testmod(gix_validate).failed == 0


def test_all_that_is_public_is_documented():
    documented = {
        name: bool(it.__doc__)
        for name, it in vars(gix_validate).items()
        if name[0] != "_"
        if inspect.isfunction(it) or inspect.isclass(it)
        if it.__module__ == "gix_validate"
    }
    assert documented == dict.fromkeys(gix_validate.__all__, True)


def test_the_version_is_that_of_the_library():
    numbers = "%d.%d.%d" % gix_validate.version()
    assert gix_validate.__version__.partition(".dev")[0] == numbers


def versions_that_do_not_fit():
    major, minor, patch = gix_validate.version()
    return [(major - 1, 999, 999), (major, minor, patch + 1), (major + 1, 0, 0)]


@pytest.mark.parametrize("wanted", versions_that_do_not_fit())
def test_a_library_that_is_older_or_of_another_major_version_is_refused(wanted):
    with mock.patch.object(gix_validate, "_VERSION", wanted):
        said = message_of(ImportError, gix_validate._library)
    assert "of the same major version that isn't older: " in said
    assert "has %d.%d.%d" % gix_validate.version() in said


def test_a_newer_library_is_taken():
    major, _, _ = gix_validate.version()
    newer = mock.Mock(gix_validate_version=lambda: major * 1_000_000 + 123_456)
    with mock.patch.object(ctypes, "CDLL", return_value=newer):
        version = gix_validate._version_of(gix_validate._library())
    assert version == (major, 123, 456)


def test_a_missing_library_is_named(monkeypatch):
    monkeypatch.setenv("GIX_VALIDATE_LIBRARY", "/none.so")
    said = message_of(ImportError, gix_validate._library)
    assert re.search("none.so.*bindings/build.*GIX_VALIDATE_LIBRARY", said)


@pytest.mark.parametrize(
    "foreign", [ctypes.util.find_library("c"), __file__], ids=["C", "a text"]
)
def test_another_library_is_refused(monkeypatch, foreign):
    monkeypatch.setenv("GIX_VALIDATE_LIBRARY", foreign)
    said = message_of(ImportError, gix_validate._library)
    assert re.search("needs its shared object.*GIX_VALIDATE_LIBRARY", said)
