"""What a contributor runs: `dev` runs a command, `build` and `program` build.

- `checks/` checks the whole repository, the must-fail edits, pages and sources.
- `deriving/` writes derived files, or compares them.

What makes a release is in release/. All modules read files of the current folder, which is
the root of the repository.
"""
