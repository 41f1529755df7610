"""What a module of the package derives or checks, and how that is written or compared.

Its function `derived` yields, in any order:

- a file and all of its text: `(path, text)`;
- a text between two others, which the file has once: `(path, before, after, text)`;
- a sentence that says what is wrong. Then nothing is written.
"""

from pathlib import Path

from scripts.sources import Wrong, read


def put_between(path, text, before, after, new):
    """The text with `new` between `before` and `after`, which it has once. What is
    replaced has as many lines as `new`, or ends with a line."""
    head, _, rest = text.partition(before)
    old, end, tail = rest.partition(after)
    is_as_long = old.count("\n") == new.count("\n") or after[0] == "\n"
    if text.count(before) != 1 or not end or not is_as_long:
        raise Wrong(
            f"{path} does not have this once, in as many lines as are written: "
            f"{before!r} .. {after!r}"
        )
    return head + before + new + end + tail


def texts_of(parts):
    """The whole text of each file, by its path."""
    parts, texts = [*parts], {}
    if wrong := [it for it in parts if isinstance(it, str)]:
        raise Wrong("\n".join(wrong))
    for path, *around, new in parts:
        if around:
            new = put_between(path, texts.get(path) or read(path), *around, new)
        texts[path] = new
    return texts


def differing(module):
    """The text of each file that isn't as the module derives it, by its path."""
    texts = texts_of(module.derived())
    return {
        path: text
        for path, text in texts.items()
        if not Path(path).exists() or read(path) != text
    }
