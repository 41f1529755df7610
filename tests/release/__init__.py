"""Tests of a release as somebody has it who downloaded it: unpacked and installed, with
no rt on the PATH. The Debian packages are next to the archive.

    pytest tests/release --release FILE.tar.gz

They show what the tests of the programs, the bindings and the hook can't. Without a
release they are skipped.
"""
