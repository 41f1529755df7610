"""Writes the version of the file VERSION into the other files that have it.

Each has it in its tool's form. MAJOR.MINOR.PATCH is a release, MAJOR.MINOR.PATCH-dev is
what comes before it.
"""

import re

from scripts.sources import Wrong, read

CODE = "crates/gix_validate_c/src/version.rt"


def derived():
    found = re.fullmatch(r"((\d+)\.(\d{1,3})\.(\d{1,3}))(-dev)?\n", read("VERSION"))
    if (
        not found
        or f"\n## {'Unreleased' if found[5] else f'{found[1]} ('}"
        not in read("CHANGELOG.md")
    ):
        raise Wrong(
            "VERSION is not MAJOR.MINOR.PATCH or MAJOR.MINOR.PATCH-dev, "
            "or CHANGELOG.md has no heading of it with a date, or `Unreleased`"
        )
    version, numbers, parts = found[0].strip(), found[1], found.groups()[1:4]
    number = "".join(it.zfill(3) for it in parts).lstrip("0")
    return [
        (CODE, "version_number ", " }", " ".join(parts)),
        (CODE, "(u32, u32, u32) = (", ")", ", ".join(parts)),
        ("crates/programs/src/lib.rt", 'pub const VERSION: &str = "', '";', version),
        ("crates/check_names/src/main.rt", 'const VERSION: &str = "', '";', version),
        ("bindings/c/gix_validate.h", "#define GIX_VALIDATE_VERSION ", "u", number),
        ("bindings/c/gix_validate.pc", "\nVersion: ", "\n", version.replace("-", "~")),
        ("bindings/rust/Cargo.toml", '\nversion = "', '"', version),
        (
            "bindings/rust/gix-validate/Cargo.toml",
            'version = "0.13.1+dihareku.',
            '"',
            version,
        ),
        ("bindings/python/gix_validate.py", "\n_VERSION = (", ")", ", ".join(parts)),
        (
            "bindings/python/gix_validate.py",
            '\n__version__ = "',
            '"',
            version.replace("-dev", ".dev0"),
        ),
        ("bindings/js/package.json", '"version": "', '"', version),
        ("docs/RULES.md", "one for each patch, now ", ".\n", f"{number} for {numbers}"),
        ("bindings/c/README.md", "find_package(gix_validate ", " REQUIRED)", parts[0]),
    ]
