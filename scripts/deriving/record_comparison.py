"""Records in docs/COMPARISON.md what other programs and libraries say of some names.

They are Git, Debian's libgit2 (python3-pygit2), dulwich (python3-dulwich) and JGit
(libjgit-java), and the Rust crate gix-validate, which bench/crate/build builds. It also
needs check_names and git_check_names, built. Run it by /usr/bin/python3. With --check it
fails if one of them says something else now.
"""

import ctypes
import os
import re
import subprocess
import tempfile
import zipfile
from html import escape
from pathlib import Path
from typing import NamedTuple

from scripts.sources import Wrong

PAGE = "docs/COMPARISON.md"
CHECK_NAMES = "crates/check_names/out/check_names"
GIT_CHECK_NAMES = "crates/git_check_names/out/git_check_names"
CRATE = "bench/crate/out/crate.a"
JAVA = "/usr/share/java"
JGIT = f"{JAVA}/org.eclipse.jgit.jar"
ACCEPTED = "accepted"
# Windows, HFS and NTFS, as by default; and a symbolic link.
FLAGS, SYMLINK = 7, 8


class Row(NamedTuple):
    """A name, what is dangerous about it, and how the page shows it."""

    name: bytes
    why: str
    shown: str = ""


COMPONENTS = [
    Row(b".GIT", "`.git` in other letter case"),
    Row(b".g\xe2\x80\x8cit", "`.git` for HFS+", "`.g` U+200C `it`"),
    Row(b"git~1", "the short name of `.git` on NTFS"),
    Row(b".git::$INDEX_ALLOCATION", "`.git` by a stream of NTFS"),
    Row(b".git ", "`.git` for NTFS", "`.git` and a space"),
    Row(b"..", "the directory above"),
    Row(b"a\\b", "a path on Windows"),
    Row(b"C:x", "a path on Windows"),
    Row(b"aux.c", "a device of Windows"),
    Row(b"x.txt:y", "a stream of another file on NTFS"),
    Row(b".gitmodules", "a symbolic link", "`.gitmodules`, symbolic link"),
    Row(b"gi7eba~1", "its short name on NTFS", "`gi7eba~1`, symbolic link"),
    Row(b"-x", "reads as an option"),
]
REFERENCES = [
    Row(b"refs/heads/v1..v2", "reads as a range"),
    Row(b"refs/heads/a*", "reads as a pattern"),
    Row(b"refs/heads/a/../b", "leaves its directory"),
    Row(b"refs/heads/a.lock/b", "Git's own lock file"),
    Row(b"refs/heads/a@{1", "reads as an entry of a log"),
    Row(b"refs/heads/a\x1b[2J", "changes a terminal", "`refs/heads/a` ESC `[2J`"),
    Row(b"refs/heads/a\x7f", "a control byte", "`refs/heads/a` DEL"),
    Row(b"refs/heads/a//b", "two spellings of a name"),
    Row(b"refs/heads/aux", "a device of Windows"),
    Row(b"refs/heads/-x", "reads as an option"),
    Row(b"HEAD/a", "is below a file of Git"),
]
SUBMODULES = [
    Row(b"../x", "leaves `.git/modules`"),
    Row(b"a/../../x", "leaves `.git/modules`"),
    Row(b"..\\\\x", "the same on Windows", "`..\\x`"),
    Row(b"-x", "reads as an option"),
]

# What people type for a branch.
TITLES = [
    "Fix: it's done..",
    "feature/ABC: [x] done?",
    "  leading and trailing  ",
    ".hidden",
    "x.lock.",
    "a.lock/b",
    "a..b",
    "a@{b",
    "a//b/",
    "-x",
    "HEAD",
    "~",
]
NORMALIZE = """public class Normalize {
  public static void main(String[] names) {
    for (String name : names)
      System.out.println(org.eclipse.jgit.lib.Repository.normalizeBranchName(name));
  }
}
"""


def run(*words, given=b"", cwd=None):
    """What a program that sees nobody's settings prints, and its status."""
    alone = {"GIT_CONFIG_NOSYSTEM": "1", "HOME": "/nonexistent", "LC_ALL": "C"}
    names = {f"GIT_{who}_NAME": "x" for who in ("AUTHOR", "COMMITTER")}
    mails = {f"GIT_{who}_EMAIL": "x" for who in ("AUTHOR", "COMMITTER")}
    env = {**os.environ, **alone, **names, **mails}
    ran = subprocess.run(
        words,
        input=given,
        cwd=cwd,
        env=env,
        stdout=subprocess.PIPE,
        stderr=subprocess.STDOUT,
    )
    return ran.returncode, ran.stdout


def made(*words, **how):
    """What a command that has to succeed prints."""
    status, printed = run(*words, **how)
    if status:
        raise Wrong(f"{words} failed: {printed!r}")
    return printed.strip().decode()


def said(refused, text=""):
    if not refused:
        return ACCEPTED
    return f"`{text}`" if text else "refused"


def here(kind, name):
    """What check_names says."""
    printed = made(CHECK_NAMES, given=kind.encode() + b" " + name + b"\n")
    if printed == "ok":
        return ACCEPTED
    text = escape(printed.removeprefix("error: "), quote=False)
    return text.replace("|", "&#124;").replace("*", "&#42;")


def fsck(repository):
    """The names of what `git fsck` finds."""
    _, printed = run("git", "fsck", "--no-dangling", cwd=repository)
    found = re.findall(rb"(?:error|warning) in \w+ \w+: (\w+):", printed)
    return said(found, b", ".join(dict.fromkeys(found)).decode())


class Others:
    """The libraries."""

    def __init__(self, room):
        try:
            import dulwich.config
            import dulwich.index
            import dulwich.refs
            import pygit2
        except ImportError as error:
            raise Wrong(f"{PAGE} needs Debian's packages: {error}") from error
        self.dulwich, self.pygit2, self.room = dulwich, pygit2, room
        needs = {it: "scripts/build" for it in (CHECK_NAMES, GIT_CHECK_NAMES)}
        needs |= {CRATE: "bench/crate/build", JGIT: "Debian's libjgit-java"}
        for path, how in needs.items():
            if not Path(path).exists():
                raise Wrong(f"{PAGE} needs {path}: {how} makes it")
        shared = room / "crate.so"
        whole = ("-Wl,--whole-archive", CRATE, "-Wl,--no-whole-archive")
        made("cc", "-shared", "-o", shared, *whole)
        self.crate = ctypes.CDLL(str(shared))

    def libgit2_version(self):
        """The version of the library. (pygit2 itself names that of the header by which it
        was built.)"""
        library = ctypes.CDLL(self.pygit2._pygit2.__file__)
        numbers = [ctypes.c_int() for _ in range(3)]
        library.git_libgit2_version(*map(ctypes.byref, numbers))
        return ".".join(str(it.value) for it in numbers)

    def jgit_version(self):
        """The version that its file has."""
        with zipfile.ZipFile(JGIT) as jar:
            text = jar.read("META-INF/MANIFEST.MF").decode()
        return re.search(r"Bundle-Version: (\d+\.\d+\.\d+)", text)[1]

    def repository(self):
        path = Path(tempfile.mkdtemp(dir=self.room))
        made("git", "init", "--quiet", "-b", "main", path)
        return path

    def fails(self, call, *words):
        """Whether a call of pygit2 fails."""
        try:
            call(*words)
        except (KeyError, self.pygit2.GitError):
            return True
        return False

    def by_crate(self, call, name, *flags):
        return said(getattr(self.crate, call)(name, len(name), *flags))

    def component(self, row):
        """What each says of the name of an entry of a tree."""
        is_link = "symbolic link" in row.shown
        path = self.repository()
        blob = made("git", "hash-object", "-w", "--stdin", given=b"x", cwd=path)
        mode = "120000" if is_link else "100644"
        entry = f"{mode} blob {blob}\t".encode() + row.name + b"\0"
        tree = made("git", "mktree", "-z", given=entry, cwd=path)
        commit = made("git", "commit-tree", "-m", "x", tree, cwd=path)
        made("git", "update-ref", "refs/heads/main", commit, cwd=path)
        read, _ = run("git", "read-tree", tree, cwd=path)
        opened = self.pygit2.Repository(str(path))
        checks_out = self.fails(opened.checkout_tree, opened[tree])
        index = self.dulwich.index
        is_valid, on_ntfs = (
            index.validate_path(row.name, check)
            for check in (
                index.validate_path_element_default,
                index.validate_path_element_ntfs,
            )
        )
        return [
            here("symlink" if is_link else "path", row.name),
            fsck(path),
            said(read),
            said(checks_out),
            said(not is_valid) if is_valid == on_ntfs else "refused for NTFS",
            self.by_crate(
                "crate_component", row.name, FLAGS + (SYMLINK if is_link else 0)
            ),
        ]

    def reference(self, row):
        """What each says of the full name of a reference."""
        path = self.repository()
        tree = made("git", "mktree", given=b"", cwd=path)
        commit = made("git", "commit-tree", "-m", "x", tree, cwd=path)
        line = commit.encode() + b" " + row.name + b"\n"
        (path / ".git/packed-refs").write_bytes(line)
        found, _ = run("git", "fsck", cwd=path)
        refused, _ = run("git", "check-ref-format", row.name)
        is_valid = self.pygit2.reference_is_valid_name
        return [
            here("ref", row.name),
            said(refused),
            said(found),
            said(not is_valid(row.name.decode())),
            said(not self.dulwich.refs.check_ref_format(row.name)),
            self.by_crate("crate_full", row.name),
        ]

    def submodule(self, row):
        """What each says of the name of a submodule."""
        path = self.repository()
        name = row.name.replace(b"\\\\", b"\\")
        text = b'[submodule "' + row.name + b'"]\n\tpath = x\n\turl = u\n'
        (path / ".gitmodules").write_bytes(text)
        link = ("--cacheinfo", f"160000,{'1' * 40},x")
        made("git", "update-index", "--add", ".gitmodules", cwd=path)
        made("git", "update-index", "--add", *link, cwd=path)
        made("git", "commit", "--quiet", "-m", "x", cwd=path)
        _, printed = run("git", "submodule", "init", cwd=path)
        opened = self.pygit2.Repository(str(path))
        is_unknown = self.fails(opened.lookup_submodule, name.decode())
        config = self.dulwich.config
        listed = config.parse_submodules(
            config.ConfigFile.from_path(str(path / ".gitmodules"))
        )
        return [
            here("submodule", name),
            fsck(path),
            said(b"suspicious" in printed),
            said(is_unknown),
            said(not [*listed]),
            self.by_crate("crate_submodule", name),
        ]

    def suggestions(self):
        """What this library and JGit suggest for each title, by lines of a table."""
        program = self.room / "Normalize.java"
        program.write_text(NORMALIZE)
        jars = f"{JGIT}:{JAVA}/slf4j-api.jar:{JAVA}/slf4j-nop.jar"
        words = ["java", "-XX:-UsePerfData", "-cp", jars, program, *TITLES]
        java = subprocess.check_output(words)
        for title, jgit in zip(TITLES, java.decode().split("\n")):
            words = [GIT_CHECK_NAMES, "branch", "--repair", "--", title]
            how = {"stdout": subprocess.PIPE, "stderr": subprocess.DEVNULL}
            ours = subprocess.run(words, **how).stdout.decode().removesuffix("\n")
            yield [f"`{title}`", self.suggested(ours), self.suggested(jgit)]

    def suggested(self, name):
        """A suggestion, and whether Git refuses it."""
        if not name:
            return "none"
        refused, _ = run("git", "check-ref-format", "--branch", name, cwd=self.room)
        return f"`{name}`{', refused' if refused else ''}"


def table(head, rows, say):
    """A table of what each says."""
    cells = [[it.shown or f"`{it.name.decode()}`", it.why, *say(it)] for it in rows]
    return of_lines(["Name", "Why it is dangerous", *head], cells)


def of_lines(head, cells):
    """The text of a table."""
    lines = map(" | ".join, cells)
    return "\n".join([" | ".join(head), "|".join(["---"] * len(head)), *lines])


def derived():
    with tempfile.TemporaryDirectory() as room:
        others = Others(Path(room))
        ours, crate = "Dihareku", "gix-validate"
        tree = [ours, "`git fsck`", "`git read-tree`", "libgit2", "dulwich", crate]
        ref = [ours, "`git check-ref-format`", "`git fsck`", "libgit2", "dulwich"]
        modules = [ours, "`git fsck`", "`git submodule`", "libgit2", "dulwich", crate]
        tables = {
            "components": table(tree, COMPONENTS, others.component),
            "references": table([*ref, crate], REFERENCES, others.reference),
            "submodules": table(modules, SUBMODULES, others.submodule),
            "suggestions": of_lines(["Typed", ours, "JGit"], others.suggestions()),
        }
        versions = (
            f"Git {made('git', '--version').split()[2]}, "
            f"libgit2 {others.libgit2_version()}, "
            f"dulwich {'.'.join(map(str, others.dulwich.__version__))}, "
            f"JGit {others.jgit_version()}, "
            "gix-validate 0.13.0."
        )
    for name, text in {**tables, "versions": versions}.items():
        yield PAGE, f"<!-- {name} -->\n\n", "\n\n<!-- end -->", text
