"""hand.py CALL PASSES FILE: what hand.c measures, in Python."""
import re
import sys
import timeit
from pathlib import Path

sys.path.insert(0, str(Path(__file__).resolve().parents[2] / "bindings/python"))
from gix_validate import InvalidName, validate_ref

BAD = re.compile(r"[\x00-\x20\x7f:?*\[\\^~]|\.\.|@\{")
APART = re.compile("[A-Z_]+")


class Wrong(ValueError):
    def __init__(self, name, why, offset):
        super().__init__(f"{why} at {offset}")
        self.name, self.offset = name, offset


def ref_by_hand(name):
    """The name if it is a full reference name, as one would write it in Python."""
    if found := BAD.search(name):
        raise Wrong(name, "an invalid character", found.start())
    start, pieces = 0, name.split("/")
    for piece in pieces:
        if not piece or piece[0] == ".":
            raise Wrong(name, "an empty piece or a dot at its start", start)
        if piece.endswith(".lock"):
            raise Wrong(name, ".lock at the end", start + len(piece) - 5)
        start += len(piece) + 1
    if name.endswith("."):
        raise Wrong(name, "a dot at the end", len(name) - 1)
    if len(pieces) == 1 and not APART.fullmatch(name):
        raise Wrong(name, "no slash", 0)
    return name


def refused(names, call, error):
    """How many names aren't valid."""
    count = 0
    for name in names:
        try:
            call(name)
        except error:
            count += 1
    return count


def offsets(names, call, error):
    """The same, with a look at where each has its fault."""
    count = 0
    for name in names:
        try:
            call(name)
        except error as it:
            count += it.offset >= 0
    return count


call, passes, file = sys.argv[1:]
names = Path(file).read_text().splitlines()
loop = refused if call == "here" else offsets
how = (ref_by_hand, Wrong) if call == "hand" else (validate_ref, InvalidName)
assert loop(names, *how) in (0, len(names))
taken = timeit.repeat(lambda: loop(names, *how), number=1, repeat=int(passes))
print(f"{min(taken) * 1e9 / len(names):.1f}")
