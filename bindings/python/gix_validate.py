r"""Validation of the names that Git uses, and a branch name to suggest for an invalid one.

Each function calls a proved function of the Rattle crate gix_validate_c, in its shared
object. The rules are those of docs/RULES.md; docs/ASSURANCE.md says what is proved and
what is not.

>>> import gix_validate
>>> gix_validate.is_valid("main", "branch")
True
>>> gix_validate.check("v1..2", "tag")
<Fault.REPEATED_DOT: 4>
>>> gix_validate.validate_path("src/main.rs")
'src/main.rs'
>>> try:
...     gix_validate.validate_branch("feature/my branch")
... except gix_validate.InvalidName as error:
...     print(error)
...     print(error.fault, "at", error.offset)
Reference name contains invalid byte: " " (' ' at index 10, in 'my branch')
InvalidByte at 10
>>> gix_validate.suggest_branch("feature/my branch")
'feature/my-branch'

A name is a str or bytes. A str is encoded as by os.fsencode on Linux: as UTF-8, where a
surrogate of the error handler "surrogateescape" is a byte. If it has another surrogate,
there are no bytes for it, and the function raises UnicodeEncodeError.

One call for many names is much faster than a call for each:

>>> gix_validate.faults(["main", "my branch"], "branch")
[None, <Fault.INVALID_BYTE: 1>]
>>> gix_validate.fault_numbers("main\nmy branch\n", "branch")
b'\x00\x01'

The functions have no state, and may be called from any thread.

The shared object is the one next to this module, as in the wheel, or that of
bindings/out. The environment variable GIX_VALIDATE_LIBRARY may name another path. Its
major version has to be that of this module, and it may not be older; otherwise the
import raises ImportError, as it does for a library that isn't this one.
"""

import ctypes
import enum
import os
import re
from contextlib import contextmanager
from itertools import islice
from pathlib import Path
from typing import (
    TYPE_CHECKING,
    Any,
    AnyStr,
    Iterable,
    Iterator,
    List,
    Optional,
    Tuple,
    TypeVar,
    Union,
)

if TYPE_CHECKING:
    from _typeshed import ReadableBuffer as Buffer
    from typing_extensions import Literal  # (typing has it from 3.8 on)

    # fmt: off
    KindName = Union["Kind", Literal[
        "branch", "branch-ref", "tag", "ref", "partial", "tag-name", "safe-ref",
        "path", "symlink-path", "component", "symlink", "submodule",
    ]]
    # fmt: on
else:
    Buffer = KindName = Any

__all__ = [
    "check",
    "is_valid",
    "validate_branch",
    "validate_branch_ref",
    "validate_tag",
    "validate_ref",
    "validate_partial",
    "validate_tag_name",
    "validate_safe_ref",
    "validate_path",
    "validate_symlink_path",
    "validate_component",
    "validate_symlink",
    "validate_submodule",
    "suggest_branch",
    "sanitize",
    "is_windows_device",
    "faults",
    "fault_numbers",
    "fault_numbers_at",
    "version",
    "Fault",
    "InvalidName",
    "Kind",
    "Protect",
]

_VERSION = (3, 0, 0)
__version__ = "3.0.0.dev0"
_TEXT_MAX = 134

Name = TypeVar("Name", bound=Union[str, bytes])


class Kind(str, enum.Enum):
    """A kind of name. Each member equals a str, which may be passed instead: Kind.BRANCH
    equals "branch".

    Each kind has a function of the same name, which says what is valid: for BRANCH_REF
    this is `validate_branch_ref`.
    """

    BRANCH = "branch"
    BRANCH_REF = "branch-ref"
    TAG = "tag"
    REF = "ref"
    PARTIAL = "partial"
    TAG_NAME = "tag-name"
    SAFE_REF = "safe-ref"
    PATH = "path"
    SYMLINK_PATH = "symlink-path"
    COMPONENT = "component"
    SYMLINK = "symlink"
    SUBMODULE = "submodule"

    def __str__(self) -> str:
        return str(self.value)


class Protect(enum.IntFlag):
    """The systems that may not read a name as another one, or as a device.

    It counts for safe references, paths, components, symbolic links and submodules, and
    makes no difference for other kinds. The default of all functions is ALL, because a
    name that a server accepts may be checked out anywhere. Combine others by `|`.

    WINDOWS refuses devices, such as "NUL" and "aux.c", and what Windows forbids in a name,
    such as a dot at its end. It includes NTFS, because Windows has NTFS, so `ALL & ~NTFS`
    is the same as ALL. NTFS without WINDOWS accepts "a\\.git", which Windows reads as a
    path and `git fsck` refuses.
    """

    NONE = 0
    WINDOWS = 5
    HFS = 2
    NTFS = 4
    ALL = 7


_DEFAULT = Protect.ALL


class Fault(enum.Enum):
    """Why a name is invalid. The values are stable, and those of gix_validate.h.

    str() and format() return the name that other languages have for it, as "RepeatedDot".
    `text` says in English what is wrong with such a name, but not where.
    """

    # fmt: off
    # `scripts/dev update-fault-tables` writes these.
    INVALID_BYTE = 1, "it has a byte below 0x20, a space, DEL, or one of : ? [ \\ ^ ~"
    STARTS_WITH_SLASH = 2, "it starts with a slash"
    REPEATED_SLASH = 3, "it has two slashes in a row"
    REPEATED_DOT = 4, "it has two dots in a row"
    LOCK_FILE_SUFFIX = 5, "a piece between slashes ends in .lock"
    REFLOG_PORTION = 6, "it has @{"
    ASTERISK = 7, "it has a *"
    STARTS_WITH_DOT = 8, "a piece between slashes starts with a dot"
    ENDS_WITH_DOT = 9, "it ends in a dot"
    ENDS_WITH_SLASH = 10, "it ends in a slash"
    EMPTY = 11, "it is empty"
    SOME_LOWERCASE = 12, "it has no slash, and a byte other than A to Z and _, such as a digit"
    RESERVED = 13, "it is reserved: @, HEAD as a branch or tag, or refs/heads/HEAD"
    PARENT_COMPONENT = 14, "a part of it is .."
    PATH_SEPARATOR = 15, "it has a slash, or with Windows protection a backslash"
    WINDOWS_PATH_PREFIX = 16, "a colon follows its first unit, as in C:"
    WINDOWS_RESERVED_NAME = 17, "it is a device, such as NUL or com1.txt"
    WINDOWS_ILLEGAL_CHARACTER = 18, "it has a byte below 0x20 or one of <>:\"|?*, or a dot or space last"
    DOT_GIT_DIR = 19, "it is .git, or may be read as that"
    SYMLINKED_GIT_MODULES = 20, "it is a symlink, and .gitmodules, or may be read as that"
    RELATIVE = 21, "it is . or .."
    STARTS_WITH_DASH = 22, "it starts with a dash, as an option does"
    EMPTY_PART = 23, "a part is empty: a slash is first or last, or follows another one, or the path is empty"
    NUL = 24, "it has a NUL byte, although each part is a component"
    OUTSIDE_REFS = 25, "it is not below refs/, and has a byte other than A to Z and _"
    DISGUISED = 26, "a part may be taken for . or .."

    text: str
    # fmt: on

    def __new__(cls, number: int, text: str = "") -> "Fault":
        fault = object.__new__(cls)
        fault._value_, fault.text = number, text
        return fault

    def __index__(self) -> int:
        return int(self.value)

    def __str__(self) -> str:
        return "".join(word.capitalize() for word in self.name.split("_"))


class InvalidName(ValueError):
    """Raised for an invalid name. It has the `name` as it was passed, its first `fault`,
    and the `kind` and the protections (`protect`) by which it was checked.

    `offset` is where in the name the fault is, from 0. It counts code points if the name is
    a str, and bytes if it is bytes. If a part is missing at the end, it is the length of the
    name.

    str() returns one line of English: what is wrong, the character or byte at the offset,
    and the part between slashes that it is in. It shows at most 200 characters of that
    part.
    """

    __slots__ = "name", "kind", "fault", "protect", "offset"

    def __init__(
        self,
        name: Union[str, bytes],
        kind: Kind,
        fault: Fault,
        protect: Protect = _DEFAULT,
        offset: Optional[int] = None,
    ) -> None:  # (BaseException keeps the arguments itself.)
        if offset is None:
            offset = _offset(name, kind, protect)
        self.name = name
        self.kind = kind
        self.fault = fault
        self.protect = protect
        self.offset = offset

    def __str__(self) -> str:
        text = _text(self.name, self.kind, self.protect)
        return text + _place(self.name, self.offset)


def _library() -> ctypes.CDLL:
    beside = Path(__file__).resolve().with_name("libgix_validate_c.so")
    default = beside if beside.exists() else beside.parent.parent / "out" / beside.name
    path = os.environ.get("GIX_VALIDATE_LIBRARY") or str(default)
    try:
        library = ctypes.CDLL(path)
        found = _version_of(library)
    except (OSError, AttributeError) as error:  # (another library lacks the function)
        raise ImportError(
            f"gix_validate needs its shared object: {error}. "
            "The wheel has it, and bindings/build builds it; GIX_VALIDATE_LIBRARY may name its path."
        ) from error
    if found[0] != _VERSION[0] or found < _VERSION:
        raise ImportError(
            f"gix_validate {__version__} needs a shared object of the same major version that isn't older: "
            f"{path} has {'.'.join(map(str, found))}."
        )
    return library


def _version_of(library: ctypes.CDLL) -> Tuple[int, int, int]:
    version = library.gix_validate_version
    version.argtypes, version.restype = [], ctypes.c_uint32
    number = version()
    return number // 1_000_000, number // 1000 % 1000, number % 1000


def _function(library: ctypes.CDLL, name: str, result: Any, *types: Any) -> Any:
    function = library[f"gix_validate_{name}"]
    function.restype = result
    if types:
        function.argtypes = types
    return function


_loaded = _library()
# (a call that keeps the interpreter's lock is faster)
_short = ctypes.PyDLL(_loaded._name, handle=_loaded._handle)
_SIZE, _NUMBER, _BYTE = ctypes.c_size_t, ctypes.c_uint32, ctypes.c_uint8
_BYTES = ctypes.c_void_p, _SIZE  # (takes bytes, and an address)
_GIVEN = *_BYTES, _NUMBER, _NUMBER  # a name or a buffer, flags, and a kind
# (What is called for one name declares no types, with which each argument takes twice as
# long: flags and a kind are C's int, a name is a pointer, and a length is of `_size_of`.)
_fault_of = _function(_short, "fault_of", _NUMBER)
_fault_at = _function(_short, "fault_at", _NUMBER)
_text_of = _function(_short, "text_of", _SIZE)
_faults_of = _function(_loaded, "faults_of", _SIZE, *_GIVEN, _BYTE, *_BYTES)
_is_windows_device = _function(_short, "is_windows_device", ctypes.c_bool, *_BYTES)
_suggest = _function(_short, "suggest", _SIZE, *_BYTES, *_BYTES)
_sanitize = _function(_short, "sanitize", _SIZE, *_BYTES, *_BYTES)
_NUMBERS = {kind.value: number for number, kind in enumerate(Kind)}
_SIZES = [*map(_SIZE, range(256))]
_KINDS = {kind.value: kind for kind in Kind}
_FAULTS: List[Optional[Fault]] = [None, *Fault]
_Text = ctypes.c_char * _TEXT_MAX
_Place = _SIZE * 1
_PLACES: List[Any] = []  # for offsets, while no call uses them
_PART = 4096


def check(
    name: Union[str, bytes], kind: KindName, *, protect: Protect = _DEFAULT
) -> Optional[Fault]:
    """Returns None if `name` is a valid name of this kind, otherwise its first fault.

    >>> check("main", "branch") is None
    True
    >>> check("aux.c", "path")
    <Fault.WINDOWS_RESERVED_NAME: 17>
    >>> check("aux.c", "path", protect=Protect.HFS) is None
    True
    """
    return _FAULTS[_number(name, kind, protect)]


def is_valid(
    name: Union[str, bytes], kind: KindName, *, protect: Protect = _DEFAULT
) -> bool:
    """Whether `name` is a valid name of this kind: whether `check` returns None.

    >>> is_valid("refs/heads/main", "ref"), is_valid("main", "ref")
    (True, False)
    """
    return not _number(name, kind, protect)


def validate_branch(name: Name) -> Name:
    """Returns `name` if it is a valid branch name, such as "main"; otherwise raises
    InvalidName.

    "refs/heads/" with it is a valid full name. It isn't "HEAD", and doesn't start with a
    dash, as an option does.
    """
    return _validated(name, "branch")


def validate_branch_ref(name: Name) -> Name:
    """Returns `name` if it is a full name other than "refs/heads/HEAD"; otherwise raises
    InvalidName.

    This is for the full names of branches, such as "refs/heads/main", but "HEAD" and
    "refs/tags/v1" pass too.
    """
    return _validated(name, "branch-ref")


def validate_tag(name: Name) -> Name:
    """Returns `name` if it is a valid tag, such as "v1.2.3"; otherwise raises
    InvalidName.

    "refs/tags/" with it is a valid full name. It isn't "HEAD", and doesn't start with a
    dash, as an option does.
    """
    return _validated(name, "tag")


def validate_ref(name: Name) -> Name:
    """Returns `name` if it is a valid full name of a reference; otherwise raises
    InvalidName.

    A full name has a slash, like "refs/heads/main", or consists of A to Z and _, like
    "HEAD".
    """
    return _validated(name, "ref")


def validate_partial(name: Name) -> Name:
    """Returns `name` if it is a valid partial reference name, such as "heads/main";
    otherwise raises InvalidName. Each full name is a partial name, too."""
    return _validated(name, "partial")


def validate_tag_name(name: Name) -> Name:
    """Returns `name` if gix-validate accepts it as a tag name; otherwise raises
    InvalidName.

    It may be "HEAD" or "@", and start with a dash: `validate_tag` is for what people
    write.
    """
    return _validated(name, "tag-name")


def validate_safe_ref(name: Name, *, protect: Protect = _DEFAULT) -> Name:
    """Returns `name` if a store may use it as the path of a reference; otherwise raises
    InvalidName.

    It is a full name, and is below "refs/" or consists of A to Z and _. Under any
    protection each piece between slashes is also a component.
    """
    return _validated(name, "safe-ref", protect)


def validate_path(name: Name, *, protect: Protect = _DEFAULT) -> Name:
    """Returns `name` if it is a valid path of a file, such as "src/main.rs"; otherwise
    raises InvalidName.

    Each part between slashes is a component, and no byte is NUL. A slash at the end makes
    an empty part: cut off that of a directory in an archive, such as "dir/".
    """
    return _validated(name, "path", protect)


def validate_symlink_path(name: Name, *, protect: Protect = _DEFAULT) -> Name:
    """Returns `name` if it is a valid path of a symbolic link; otherwise raises
    InvalidName. It is a path, and its last part isn't ".gitmodules"."""
    return _validated(name, "symlink-path", protect)


def validate_component(name: Name, *, protect: Protect = _DEFAULT) -> Name:
    """Returns `name` if it may be one component of a path, such as "src"; otherwise
    raises InvalidName.

    It may have a NUL, unless it is protected by WINDOWS. C's open() ends a name there.
    """
    return _validated(name, "component", protect)


def validate_symlink(name: Name, *, protect: Protect = _DEFAULT) -> Name:
    """Returns `name` if it may be the component of a path that is a symbolic link;
    otherwise raises InvalidName. It is a component, and isn't ".gitmodules"."""
    return _validated(name, "symlink", protect)


def validate_submodule(name: Name, *, protect: Protect = _DEFAULT) -> Name:
    """Returns `name` if it is a valid submodule name, such as "vendor/package"; otherwise
    raises InvalidName.

    No part between slashes or backslashes is "..". Under any protection it is also a
    path, no part of which may be read as "." or "..".
    """
    return _validated(name, "submodule", protect)


def suggest_branch(name: AnyStr) -> Optional[AnyStr]:
    """Returns a valid branch name that is like `name`, or None if there is none. A valid
    name is returned as it is.

    >>> suggest_branch("Fix: it's done..")
    "Fix-it's-done"
    >>> suggest_branch("...") is None
    True
    """
    given = _encoded(name)
    length = len(given)
    buffer = ctypes.create_string_buffer(length)
    written = _suggest(given, length, buffer, length)
    return _as_given(name, given, buffer.raw[:written]) if written else None


def sanitize(name: AnyStr) -> AnyStr:
    """Repairs any name to a valid partial reference name. A valid one is returned as it
    is.

    The result may be no valid branch name: use `suggest_branch` for branches.

    >>> sanitize("refs//heads/../x.lock")
    'refs/heads/-/x'
    """
    given = _encoded(name)
    length = len(given)
    buffer = ctypes.create_string_buffer(max(1, length))
    written = _sanitize(given, length, buffer, len(buffer))
    return _as_given(name, given, buffer.raw[:written])


def is_windows_device(name: Union[str, bytes]) -> bool:
    """Whether Windows takes `name` for a device, such as "NUL" or "com1.txt"."""
    given = _encoded(name)
    return bool(_is_windows_device(given, len(given)))


def faults(
    names: Iterable[Union[str, bytes]],
    kind: KindName,
    *,
    protect: Protect = _DEFAULT,
) -> List[Optional[Fault]]:
    """Checks many names: returns None for each that is valid, and the fault of each that
    isn't, in order.

    >>> names = ["main", "-d"]
    >>> [name for name, fault in zip(names, faults(names, "branch")) if fault]
    ['-d']
    """
    if isinstance(names, (str, bytes)):
        raise TypeError(f"names have to be in a list, not in a {type(names).__name__}")
    numbers = _numbers_of_each([*names], kind, protect)
    if not numbers.strip(b"\0"):
        return [None] * len(numbers)
    return [_FAULTS[number] for number in numbers]


def fault_numbers(
    names: Union[str, Buffer],
    kind: KindName,
    end: Union[str, bytes] = b"\n",
    *,
    protect: Protect = _DEFAULT,
) -> bytes:
    """Checks the names in one str or one buffer, such as bytes, a memoryview, an mmap or
    a NumPy array: returns a byte for each, in order, which is 0 or the value of its
    Fault.

    The byte `end` ends each name. What follows the last such byte is a name too, unless
    it is empty. A buffer isn't copied, if its bytes are contiguous: nobody may change it
    during the call.
    """
    ended = _encoded(end)
    if len(ended) != 1:
        raise ValueError(f"one byte has to end a name, not {end!r}")
    if isinstance(names, (str, bytes)):
        given = _encoded(names)
        return _numbers(given, len(given), kind, protect, ended[0])
    with _held(names) as (address, length):
        return _numbers(address, length, kind, protect, ended[0])


def fault_numbers_at(
    names: Optional[Buffer],
    offsets: Iterable[int],
    kind: KindName,
    *,
    start: int = 0,
    count: Optional[int] = None,
    protect: Protect = _DEFAULT,
) -> bytes:
    """Checks names in a buffer that has nothing between them, as Arrow and pandas store
    a column of strings: returns a byte for each, which is 0 or the value of its Fault.

    A name begins at each offset but the last, and ends at the next. `start` is the index
    of the first name, and `count` the number of names, by default all. A column of Arrow
    may be a slice of another, and its offsets may be padded, so pass both:

        _, offsets, names = column.buffers()
        fault_numbers_at(names, memoryview(offsets).cast("i"), "branch",
                         start=column.offset, count=len(column))

    The offsets of a large column are cast to "q". A null is a name, too, most often an
    empty one. None instead of a buffer is one without a byte. Only a part of the buffer
    is copied at a time.
    """
    end = None if count is None else start + count + 1
    places = [*islice(offsets, start, end)]
    if count and len(places) <= count:
        raise ValueError(f"{count} names have {count + 1} offsets, not {len(places)}")
    view = _contiguous(b"" if names is None else names)
    within = not places or 0 <= places[0] <= places[-1] <= len(view)
    if not within or places != sorted(places):
        raise ValueError("offsets have to ascend, and to be within the buffer")
    parts = _names_between(view, places)
    return b"".join(_numbers_of_each(it, kind, protect) for it in parts)


def version() -> Tuple[int, int, int]:
    """The version of the library: major, minor, patch."""
    return _version_of(_loaded)


def _encoded(name: Union[str, bytes]) -> bytes:
    """The bytes of a name, which are no subclass of bytes: that may have another length."""
    if type(name) is bytes:
        return name
    if isinstance(name, str):
        return str.encode(name, "utf-8", "surrogateescape")
    if isinstance(name, bytes):
        return bytes(memoryview(name))
    raise TypeError(f"a name has to be str or bytes, not {type(name).__name__}")


def _as_given(name: AnyStr, given: bytes, result: bytes) -> AnyStr:
    """A result in the type of the name, and the name itself if it has the same bytes."""
    if result == given:
        return name
    if isinstance(name, str):
        return result.decode("utf-8", "surrogateescape")
    return result


def _size_of(name: bytes) -> ctypes.c_size_t:
    """The length of a name."""
    length = len(name)
    return _SIZES[length] if length < len(_SIZES) else _SIZE(length)


def _number_of(kind: KindName) -> int:
    """The number of a kind."""
    try:
        return _NUMBERS[kind]
    except KeyError:
        kinds = ", ".join(_NUMBERS)
        raise ValueError(f"{kind!r} is no kind of name: {kinds}") from None


def _flags_of(protect: Protect) -> int:
    """The flags of protections. WINDOWS includes NTFS, even if that was taken away."""
    if isinstance(protect, Protect):
        flags = int(protect)
        return flags | (flags & 1) << 2
    raise TypeError(f"protect has to be a Protect, not {type(protect).__name__}")


def _number(name: Union[str, bytes], kind: KindName, protect: Protect) -> int:
    """The number of a name's fault, or 0. (A call of one's own here takes a tenth of the
    time of it all.)"""
    if type(name) is str:
        given = name.encode("utf-8", "surrogateescape")
    else:
        given = name if type(name) is bytes else _encoded(name)
    flags = protect if protect is _DEFAULT else _flags_of(protect)
    number: int = _fault_of(given, _size_of(given), flags, _number_of(kind))
    return number


def _validated(name: Name, kind: KindName, protect: Protect = _DEFAULT) -> Name:
    """The name if it has no fault. (It begins as `_number` does, for the same reason.)"""
    if type(name) is str:
        given = name.encode("utf-8", "surrogateescape")
    else:
        given = name if type(name) is bytes else _encoded(name)
    flags = protect if protect is _DEFAULT else _flags_of(protect)
    try:
        place = _PLACES.pop()
    except IndexError:
        place = _Place()
    fault = _FAULTS[_fault_at(given, _size_of(given), flags, _NUMBERS[kind], place)]
    offset: int = 0 if fault is None else place[0]
    _PLACES.append(place)
    if fault is None:
        return name
    if not given.isascii():
        offset = _position(name, offset)
    raise InvalidName(name, _KINDS[kind], fault, protect, offset)


def _offset(name: Union[str, bytes], kind: KindName, protect: Protect) -> int:
    """Where a name's fault is."""
    given, place = _encoded(name), _Place()
    _fault_at(given, _size_of(given), _flags_of(protect), _number_of(kind), place)
    return _position(name, place[0])


def _position(name: Union[str, bytes], at: int) -> int:
    """The offset in a name for one in its bytes."""
    return _index(name, at) if isinstance(name, str) else at


def _text(name: Union[str, bytes], kind: KindName, protect: Protect) -> str:
    """The printed text of a name's fault."""
    given, text = _encoded(name), _Text()
    flags = _flags_of(protect)
    _text_of(given, _size_of(given), flags, _number_of(kind), text, _SIZE(_TEXT_MAX))
    return text.value.decode("ascii")


def _index(name: str, at: int) -> int:
    """The index of the character at an offset of the encoded name."""
    if name.isascii():
        return at
    # Each surrogate is a byte, and several may together be the bytes of a character.
    encoded = re.sub("[\udc80-\udcff]", "?", name).encode()
    return len(encoded[:at].decode("utf-8", "ignore"))


def _place(name: Any, at: int) -> str:
    """Where in a name an offset is, for people."""
    unit, slash = ("index", "/") if isinstance(name, str) else ("byte", b"/")
    found = name[at : at + 1]
    if not found:
        return " (at the end)" if name else ""
    piece = name[name.rfind(slash, 0, at) + 1 :].partition(slash)[0]
    within = ""
    if piece and found != slash and slash in name:
        within = f", in {piece[:200]!r}{'..' if len(piece) > 200 else ''}"
    return f" ({found!r} at {unit} {at}{within})"


def _contiguous(buffer: Buffer) -> memoryview:
    """The bytes of a buffer, or those of a copy if they have gaps, or odd items."""
    try:
        view = memoryview(buffer)
    except TypeError:
        message = f"names have to be in a buffer, not {type(buffer).__name__}"
        raise TypeError(message) from None
    try:
        return view.cast("B")
    except TypeError:
        return memoryview(bytes(view))


def _names_between(view: memoryview, places: List[int]) -> Iterator[List[bytes]]:
    """The names between offsets, some thousand at a time."""
    yield []  # (so that the kind is checked if there is no name)
    for part in range(0, len(places) - 1, _PART):
        first, *ends = places[part : part + _PART + 1]
        copied = bytes(view[first : ends[-1]])
        starts = [0, *(end - first for end in ends)]
        yield [copied[at:end] for at, end in zip(starts, starts[1:])]


class _Buffer(ctypes.Structure):
    """Python's own Py_buffer, since ctypes gives no address of what is read-only."""

    _fields_ = [
        ("buf", ctypes.c_void_p),
        ("obj", ctypes.py_object),
        ("len", ctypes.c_ssize_t),
        ("itemsize", ctypes.c_ssize_t),
        ("readonly", ctypes.c_int),
        ("ndim", ctypes.c_int),
        ("format", ctypes.c_char_p),
        *(
            (it, ctypes.c_void_p)
            for it in ("shape", "strides", "suboffsets", "internal")
        ),
    ]


@contextmanager
def _held(buffer: Buffer) -> Iterator[Tuple[int, int]]:
    """The address of a buffer's bytes, and their number, while nobody can free them."""
    view, held = _contiguous(buffer), _Buffer()
    ctypes.pythonapi.PyObject_GetBuffer(ctypes.py_object(view), ctypes.byref(held), 0)
    try:
        yield held.buf or 0, held.len
    finally:
        ctypes.pythonapi.PyBuffer_Release(ctypes.byref(held))


def _numbers(
    names: Union[bytes, int], length: int, kind: KindName, protect: Protect, end: int
) -> bytes:
    """The number of each name of a buffer, which has at most as many as bytes."""
    numbers = ctypes.create_string_buffer(length)
    given = names, length, _flags_of(protect), _number_of(kind)
    return ctypes.string_at(numbers, _faults_of(*given, end, numbers, length))


def _numbers_of_each(names: List[Any], kind: KindName, protect: Protect) -> bytes:
    """The number of each name. A name that holds a NUL can't be in a buffer in which
    NUL ends each name."""
    types = {*map(type, names)}
    if types == {str}:
        joined = _encoded("\0".join([*names, ""]))
    else:
        joined = b"\0".join(
            [*(names if types == {bytes} else map(_encoded, names)), b""]
        )
    numbers = _numbers(joined, len(joined), kind, protect, 0)
    if len(numbers) == len(names):
        return numbers
    return bytes(_number(name, kind, protect) for name in names)
