"""Programs that use the Rust crate, as users build them."""
import os
import re
import shutil
import subprocess
from pathlib import Path

from .tools import OUT, ROOT, need, output, run

DEBIAN = Path("/usr/share/cargo/registry")
SID = OUT / "gitoxide/crates"
# Nobody builds these again or debugs them. (So they take a quarter less processor time.)
BUILT_ONCE = {"CARGO_INCREMENTAL": "0", "CARGO_PROFILE_DEV_DEBUG": "0"}


def rustc_minor():
    """The N of Rust 1.N, or 0."""
    if not shutil.which("rustc"):
        return 0
    return int(re.match(r"rustc 1\.(\d+)", output("rustc", "--version"))[1])


def registry():
    """The crates that this Rust can take: those of tests/gitoxide/fetch, or
    Debian's."""
    is_new = any(SID.glob("bstr-*")) and rustc_minor() >= 88
    return SID if is_new else DEBIAN


class Program:
    """A copy of the program that was written for gix-validate 0.13.1, as a user has it:
    with the crate under `[patch]`, and the settings that docs/BINDINGS.md gives."""

    def __init__(self, folder, target, path, settings):
        self.folder = folder
        self.target = target
        built = {"PATH": path, "CARGO_TARGET_DIR": str(target)}
        self.environment = {**os.environ, **BUILT_ONCE, **built, **settings}

    def cargo(self, *words, **options):
        return run("cargo", *words, cwd=self.folder, env=self.environment, **options)


def cargo_settings(crates):
    """The settings for Cargo that docs/BINDINGS.md gives, with another registry."""
    page = (ROOT / "docs/BINDINGS.md").read_text()
    settings = re.search(r"(?ms)^\[source\.crates-io\]$.*?(?=^```$)", page)[0]
    assert str(DEBIAN) in settings
    return settings.replace(str(DEBIAN), str(crates.resolve()))


def program(name, default_features=True, by_debian=False, features=(), **settings):
    """Lays a program out, in a folder of this name, which takes the crate with these
    features. Cargo knows a package by its path, so the folder is the same in each run,
    and each worker has its own."""
    crates = DEBIAN if by_debian else registry()
    need("cargo", crates)
    out = OUT / "rust" / os.environ.get("PYTEST_XDIST_WORKER", "alone")
    copy = out / name
    shutil.rmtree(copy, ignore_errors=True)
    (copy / ".cargo").mkdir(parents=True)
    subprocess.run(
        ["cp", "-a", "--parents", "tests/rows", "tests/recorded/results"]
        + ["bindings/rust", copy],
        cwd=ROOT,
        check=True,
    )
    (copy / ".cargo/config.toml").write_text(cargo_settings(crates))
    folder = copy / "bindings/rust/gix-validate/drop_in"
    if not any(crates.glob("bstr-1.*")):
        # Debian 12 has bstr 0.2, which does, too.
        replace(folder / "Cargo.toml", '(?m)^(bstr = .*)"1"', r'\1"0.2"')
        replace(folder.parent / "Cargo.toml", '(?m)^(bstr = .*)"1"', r'\1"0.2"')
    if not default_features:
        replace(
            folder / "Cargo.toml",
            '(?m)^gix-validate = "0.13.1"',
            'gix-validate = { version = "0.13.1", default-features = false, '
            f"features = {[*features]} }}",
        )
    if by_debian:
        path = f"/usr/bin:{os.environ['PATH']}"
        return Program(folder, out / "target_debian", path, settings)
    return Program(folder, out / "target", os.environ["PATH"], settings)


def replace(file, pattern, text):
    changed, count = re.subn(pattern, text, file.read_text())
    assert count == 1, f"{file} has {count} times {pattern}"
    file.write_text(changed)
