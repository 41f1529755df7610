"""Tests of scripts: those of scripts/, the commands of the root, and what installs.

Most run in a copy of the repository, with a stand-in for rt.
"""
