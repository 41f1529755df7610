"""A builder of packs, also of those that Git would not make, for benchmarks and tests."""

import hashlib
import struct
import zlib

KINDS = {"commit": 1, "tree": 2, "blob": 3, "tag": 4}
DELTA = 7  # (of a base that is named by its id)


def number(value, low=7):
    """A number as a pack has it: its low bits first, the high bit of a byte if more follow."""
    out = bytearray()
    while value >> low:
        out.append(value & (1 << low) - 1 | 128)
        value, low = value >> low, 7
    return bytes([*out, value])


def copied(start, size):
    """Instructions of a delta that copy bytes of its base."""
    out = b""
    for at in range(start, start + size, 0xFFFFFF):
        length = min(0xFFFFFF, start + size - at)
        out += b"\xff" + struct.pack("<I", at) + struct.pack("<I", length)[:3]
    return out


def given(data):
    """An instruction of a delta that has up to 127 bytes itself."""
    return bytes([len(data)]) + data


def header(objects):
    """How a pack with so many objects begins."""
    return b"PACK" + struct.pack(">II", 2, objects)


class Pack:
    """Objects, each added once. What adds one returns its id, in bytes."""

    def __init__(self, algorithm="sha1"):
        self.algorithm, self.parts, self.ids = algorithm, [], set()

    def sum(self, data):
        return hashlib.new(self.algorithm, data).digest()

    def add(self, kind, data, base=None, keep=0):
        """Adds an object, as it is or as a delta: what it doesn't share with the last `keep` bytes of a base, and those."""
        fresh = data[: len(data) - keep]
        made = base and given(fresh) + copied(base[1] - keep, keep)
        return self.add_made(kind, data, base, made)

    def add_made(self, kind, data, base, made):
        """Adds an object, as it is or as a delta, which are instructions for a base (its id and its size)."""
        name = self.sum(f"{kind} {len(data)}\0".encode() + data)
        if name in self.ids:
            return name
        self.ids.add(name)
        code, before, body = KINDS[kind], b"", data
        if base:
            code, before = DELTA, base[0]
            body = number(base[1]) + number(len(data)) + made
        first = bytearray(number(len(body) >> 4) if len(body) >> 4 else b"")
        head = bytes([code << 4 | len(body) & 15 | (128 if first else 0)])
        self.parts.append(head + first + before + zlib.compress(body, 1))
        return name

    def tree(self, *entries):
        return self.add("tree", b"".join(b"%o %s\0%s" % it for it in entries))

    def commit(self, tree, *parents):
        lines = [
            f"tree {tree.hex()}",
            *(f"parent {it.hex()}" for it in parents),
            "author a <b> 1 +0000",
            "committer a <b> 1 +0000",
        ]
        message = f"{len(self.parts)}\n"  # (so that no two are the same)
        return self.add("commit", "\n".join([*lines, "", message]).encode())

    def data(self):
        body = header(len(self.parts)) + b"".join(self.parts)
        return body + self.sum(body)
