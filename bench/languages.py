"""languages.py PASSES BRANCHES PATHS: the calls of languages.go, in Python."""
import os
import sys
from pathlib import Path

sys.path.insert(0, str(Path(__file__).resolve().parents[1] / "bindings/python"))
from gix_validate import validate_branch, validate_component, validate_path

times, *files = sys.argv[1:]
branches, paths = (Path(it).read_bytes().splitlines() for it in files)
passes = [
    lambda: all(map(len, branches)),
    lambda: all(map(validate_branch, branches)),
    lambda: all(map(validate_path, paths)),
    lambda: all(validate_component(part) for it in paths for part in it.split(b"/")),
]
for mark in (lambda: None, lambda: os.kill(os.getpid(), 0)):
    for each in passes:
        mark()
        for _ in range(int(times)):
            each()
    mark()
