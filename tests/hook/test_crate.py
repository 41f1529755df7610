"""The crate of the hook and the scan: what clippy says of it, and its build."""

import os
import shutil
import subprocess

import pytest

from tests.hook.installed import ROOT

OFFLINE = ["--quiet", "--offline", "--locked"]


def cargo(*words, cwd=ROOT / "hook", **env):
    """Runs cargo, and returns the status and what was printed."""
    ran = subprocess.run(
        ["cargo", *words], cwd=cwd, capture_output=True, text=True, env=os.environ | env
    )
    return ran.returncode, ran.stdout + ran.stderr


def test_clippy_finds_nothing():
    if not shutil.which("cargo-clippy"):
        pytest.skip("needs cargo clippy (Debian: rust-clippy)")
    status, said = cargo("clippy", "--all-targets", *OFFLINE, "--", "-D", "warnings")
    assert status == 0, said


def test_a_build_in_another_folder_gives_the_same_bytes(installed, tmp_path):
    crate = tmp_path / "another"
    shutil.copytree(
        ROOT / "hook", crate, ignore=lambda folder, names: {"target"} & set(names)
    )
    words = ["build", "--release", "--target-dir", "target", *OFFLINE]
    [release] = installed.glob("*/")
    status, said = cargo(*words, cwd=crate, GIX_VALIDATE_RELEASE=release.name)
    assert status == 0, said
    built = crate / "target/release/names-hook"
    assert built.read_bytes() == (installed / "pre-receive").read_bytes()
