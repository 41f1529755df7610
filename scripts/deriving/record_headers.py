"""Writes tests/headers, what Git reads from a submodule's section in .gitmodules.

It has each byte before, in and after the section's header. With --check it fails if the
Git that is here reads something else. It takes half a minute.
"""

import itertools
import os
import re
import subprocess
import tempfile
from concurrent.futures import ThreadPoolExecutor
from pathlib import Path
from subprocess import PIPE

from scripts.sources import Wrong, read

TABLE = "tests/headers"
# Stands for each byte in turn, in a place, and in the names that Git reads there.
BYTE = "<byte>"
# Writes the keys that Git lists of each file and of its blob. (A shell starts the thousands of
# processes in three fifths of the processor time that Python takes.)
LIST = """
keys() {
    git --git-dir=. config "$@" --list -z --name-only 2>/dev/null
}
while read -r name blob; do
    keys --file "$name" >"$name.file" || echo refused >"$name.file" || exit
    keys --blob "$blob" >"$name.blob" || echo refused >"$name.blob" || exit
done
"""
REFUSED = "refused\n"


def run(*words, room, stdin=""):
    """What a command prints in this directory. It may not read the settings of a user."""
    alone = {"GIT_CONFIG_NOSYSTEM": "1", "HOME": "/nonexistent", "LC_ALL": "C"}
    ran = subprocess.run(
        words, cwd=room, env={**os.environ, **alone}, input=stdin.encode(), stdout=PIPE
    )
    if ran.returncode:
        raise Wrong(f"{' '.join(words[:2])}: status {ran.returncode}")
    return ran.stdout.decode()


def answer(listed, place, byte):
    """The names of submodules in the keys that Git listed: between the first dot and the
    last."""
    keys = listed.read_bytes().decode("latin-1")
    if keys == REFUSED:
        return "refused"
    found = re.findall(r"(?:^|\0)submodule\.([^\0]*)\.[^.\0]*(?=\0)", keys)
    offset = place.partition('"')[2].replace("\\", "").find(BYTE)
    for index, name in enumerate(found):
        if name[offset : offset + 1] == byte:
            found[index] = name[:offset] + BYTE + name[offset + 1 :]
    return " ".join(f'"{name}"' for name in sorted({*found})) or "none"


def answers(room, place, number):
    """What Git reads from the place with this byte: in a file, and in a blob, if that
    differs."""
    listed = [room / f"{number:02x}.{source}" for source in ("file", "blob")]
    return ", ".join(dict.fromkeys(answer(it, place, chr(number)) for it in listed))


def ranges(numbers):
    """The numbers in hexadecimal, and of several in a row the first and the last."""
    rows = itertools.groupby(enumerate(numbers), lambda it: it[1] - it[0])
    for row in (list(row) for _, row in rows):
        first, last = row[0][1], row[-1][1]
        yield f"{first:02x}-{last:02x}" if first < last else f"{first:02x}"


def rows(place):
    """The lines of a place: bytes, and what Git reads with each of them."""
    with tempfile.TemporaryDirectory() as folder:
        room, names = Path(folder), [f"{number:02x}" for number in range(256)]
        run("git", "init", "--quiet", "--bare", room=room)
        for number, name in enumerate(names):
            text = place.replace(BYTE, chr(number)) + "\n\tpath = x\n"
            (room / name).write_bytes(text.encode("latin-1"))
        words = ["git", "hash-object", "-w", "--", *names]
        blobs = run(*words, room=room).split()
        lines = "".join(f"{name} {blob}\n" for name, blob in zip(names, blobs))
        run("sh", "-c", LIST, room=room, stdin=lines)
        found = [answers(room, place, number) for number in range(256)]
    table = [place]
    for said in dict.fromkeys(found):
        numbers = [number for number in range(256) if found[number] == said]
        table.append(f"    {' '.join(ranges(numbers))}: {said}")
    return table


def derived():
    """The table, with the same head and the same places."""
    lines = [it for it in read(TABLE).splitlines() if not it.startswith("    ")]
    is_place = [line != "#" and not line.startswith("# ") for line in lines]
    with ThreadPoolExecutor() as pool:
        found = pool.map(rows, itertools.compress(lines, is_place))
        table = [next(found) if it else [line] for line, it in zip(lines, is_place)]
    return [(TABLE, "".join(f"{line}\n" for line in itertools.chain(*table)))]
