"""Packs a release for x86-64 Linux: the archive, four Debian packages, the sources, and
SHA256SUMS.

    release/dist OUT                 proves and builds all from nothing, and packs it
    release/dist --sign KEY OUT      signs SHA256SUMS of a release with this key of gpg
    release/dist --empty             removes all that was built in this clone
    release/dist --record SUMS       writes the sums of what was built
    release/dist --built SUMS OUT    packs what was built, if it has these sums
    release/dist --keep SUMS OUT     moves what --built has packed to out/release

The last four are the steps of the full check (.ci/run). So what is published is what the
full check has tested, of what it has built itself: it empties, builds and records, packs,
tests what it has packed, and keeps it only if all of its parts passed, with a record of what
they printed. What is packed has to be committed. docs/RELEASES.md says how a release is made.
"""

import argparse
import hashlib
import os
import re
import shutil
import subprocess
import sys
import tarfile
import tempfile
from datetime import datetime, timezone
from pathlib import Path

from release import completion, javascript, links, manual, references
from scripts.sources import Wrong

ROOT = Path(__file__).resolve().parent.parent
KEPT = ROOT / "out/release"
# What the parts of the full check before --keep have printed.
LOGS = ROOT / "out/check"
PARTS = ["setup", "texts", "gate", "early", "build", "record", "dist", "tests", "edits"]
# What the hook and the scan run.
OF_THE_HOOK = "check_push"
PROGRAMS = ["check_names", OF_THE_HOOK, "git_check_names"]
ARCHIVE = "bindings/out/libgix_validate_c.a"
WASM = "bindings/out/gix_validate.wasm"
JAVASCRIPT = "bindings/js/gix_validate_wasm.mjs"
PAGE = "docs/names.html"
BLOCKS = ["bindings/rust/native/aarch64.s", "bindings/rust/native/x86_64.s"]
GO_BLOCKS = [
    f"bindings/go/block_{it}" for it in ("amd64.go", "amd64.s", "arm64.go", "arm64.s")
]
# The functions without machine code, and the folder of the release that has them.
IN_C = "bindings/c/gix_validate.c"
PORTABLE = {
    IN_C: "c",
    "bindings/go/portable.go": "go/gitnames",
    "bindings/rust/native/portable.rs": "rust/git-names/native",
}
# What builds leave outside `out` at the top, of crates and of bindings.
MADE = [
    *["bindings/rust/native", "bindings/go/block_*", "bindings/js/gix_validate_*.mjs"],
    *(f"bindings/js/gix_validate.{it}" for it in ("cjs", "d.cts", "wasm")),
    *[PAGE, *PORTABLE, "hook/target", "bench/crate/out"],
]
# All that is built and then packed, or tested in place of what is packed.
BUILT = [
    *(f"crates/{it}/out/{it}{end}" for it in PROGRAMS for end in ("", ".o")),
    *[ARCHIVE, "bindings/out/libgix_validate_c.so", WASM, JAVASCRIPT, PAGE, *BLOCKS],
    *GO_BLOCKS,
    *PORTABLE,
]
# Why the full check is named in MANIFEST.
IN_THE_CHECK = "passed (it packs the archive, and keeps it only if every part passes)"
ALONE = "did not run on this commit; the proofs were made when this was packed"
NO_KIT = (
    "this needs the Rattle kit, whose `rt` isn't on the PATH: "
    'see "Build from source" in README.md'
)
# Debian's Rust, whatever else there is.
CARGO, RUSTC = "/usr/bin/cargo", "/usr/bin/rustc"
# What the site has for a server on the web, for other languages than English and for
# those who change Material, and the index of which docs/search.js has a copy.
NOT_OF_THE_SITE = ("404.html", "objects.inv", "sitemap.xml*", "lunr", "*.map")
NOT_OF_THE_SITE += ("search_index.json",)
HARDENED = "-Wl,-z,relro,-z,now,-z,noexecstack,--gc-sections,--build-id=none"


def run(*command, cwd=ROOT, env=None):
    """Runs a command, which has to succeed."""
    ran = subprocess.run(command, cwd=cwd, env=env, stdin=subprocess.DEVNULL)
    if ran.returncode:
        raise Wrong(f"{' '.join(map(str, command))}: status {ran.returncode}")


def output_of(*command, cwd=ROOT):
    """What a command prints, which has to succeed and to print something."""
    ran = subprocess.run(command, cwd=cwd, stdout=subprocess.PIPE, text=True)
    if ran.returncode or not ran.stdout.strip():
        raise Wrong(f"{' '.join(map(str, command))}: status {ran.returncode}")
    return ran.stdout.strip()


def commit_without_changes():
    """The commit that the tree is, or else why it is none."""
    status = ["git", "status", "--porcelain"]
    ran = subprocess.run(status, cwd=ROOT, stdout=subprocess.PIPE)
    if ran.returncode:
        raise Wrong("git status failed")
    if ran.stdout:
        raise Wrong("the tree has changes that are not committed")
    return output_of("git", "rev-parse", "HEAD", cwd=ROOT)


def empty():
    """Removes all that was built here, so that nothing of another time is taken for it."""
    crates = [it for it in ROOT.glob("crates/*") if not it.is_symlink()]
    built = [*(it / "out" for it in crates), KEPT]
    built += [it for made in MADE for it in ROOT.glob(made)]
    # (the crates of gitoxide are fetched)
    gitoxide = ROOT / "bindings/out/gitoxide"
    fetched = {gitoxide, gitoxide / "apt", gitoxide / "crates"}
    built += {*ROOT.glob("bindings/out/*"), *gitoxide.glob("*")} - fetched
    for path in built:
        if path.is_dir() and not path.is_symlink():
            shutil.rmtree(path)
        else:
            path.unlink(missing_ok=True)


def sum_of(data):
    return hashlib.sha256(data).hexdigest()


def record(sums):
    """Writes the sums of what was built, as sha256sum does."""
    lines = []
    for file in BUILT:
        try:
            lines.append(f"{sum_of((ROOT / file).read_bytes())}  {file}\n")
        except OSError as error:
            raise Wrong(f"{file} is not built: {error.strerror}") from error
    sums.write_text("".join(lines))


def recorded(sums):
    """The sum of each file that was built."""
    lines = (line.split("  ", 1) for line in sums.read_text().splitlines())
    found = {file: sum for sum, file in lines}
    if missing := {*BUILT} - {*found}:
        raise Wrong(f"{sums} lacks {', '.join(sorted(missing))}")
    return found


class Names:
    """The forms in which tools write the version, and what has it in its name."""

    def __init__(self, version):
        self.version = version
        self.numbers = version.removesuffix("-dev")
        self.debian = version.replace("-", "~")
        self.python = version.replace("-dev", ".dev0")
        self.major = version.partition(".")[0]
        self.release = f"gix-validate-{version}-x86_64-linux"
        self.sources = f"dihareku-{version}-source.tar.gz"
        self.sdist = f"gix_validate-{self.python}"
        self.library = "libgix_validate_c.so"
        libraries = [f"libgix-validate-{it}" for it in (f"c{self.major}", "dev")]
        self.packages = [
            f"gix-validate-doc_{self.debian}_all.deb",
            *(f"{it}_{self.debian}_amd64.deb" for it in ("gix-validate", *libraries)),
        ]


class Release:
    """A release that is made in the folder `tree`."""

    def __init__(self, room, sums, check):
        self.room, self.tree, self.sums = room, room / "tree", recorded(sums)
        self.check = check
        self.commit = commit_without_changes()
        self.names = Names((ROOT / "VERSION").read_text().strip())
        time = output_of("git", "log", "-1", "--format=%ct")
        self.day = datetime.fromtimestamp(int(time), timezone.utc).date()
        os.umask(0o022)
        # Python's tools and dpkg-deb read the time of all files.
        os.environ |= {"LC_ALL": "C", "TZ": "UTC", "SOURCE_DATE_EPOCH": time}
        self.compiler = os.environ.get("CC", "cc")
        self.objects = self.tree / "objects"
        self.hook = self.tree / "libexec/gix-validate"

    def make(self, out):
        self.copy_what_is_committed()
        self.link_programs()
        self.build_hook(self.make_hook_folder())
        completion.write(self.tree)
        manual.write(self.tree, self.names.version, self.day)
        self.make_libraries()
        self.copy_go()
        self.copy_portable()
        self.pack_python()
        self.pack_javascript()
        self.build_site()
        self.write_manifest()
        self.write_sums()
        self.pack_all(out)

    def copy_built(self, file, to):
        """Copies a file that was built, if it is the one that was recorded."""
        data = (ROOT / file).read_bytes()
        if sum_of(data) != self.sums[file]:
            raise Wrong(f"{file} is not what was built")
        to.parent.mkdir(parents=True, exist_ok=True)
        to.write_bytes(data)

    def copy_what_is_committed(self):
        """Copies what release/contents lists: in each line a folder of the room, one of
        the repository, and files in it. The documents are in folders in which their links
        work, or get links that do."""
        contents = (ROOT / "release/contents").read_text()
        for line in contents.splitlines():
            folder, source, *files = line.split()
            to = self.room / folder
            to.mkdir(parents=True, exist_ok=True)
            files = [f":(glob){it}" if "*" in it else it for it in files]
            archive = [
                "git",
                "-c",
                "tar.umask=022",
                "archive",
                "-o",
                self.room / "part",
            ]
            run(*archive, "--format=tar", f"HEAD:./{source}", "--", *files)
            run("tar", "-C", to, "-xf", self.room / "part")
        places = links.places(contents)
        for page, place in places.items():
            text = (ROOT / page).read_text("utf-8")
            text = links.rewritten(text, page, places)
            (self.tree / place).write_text(text, "utf-8")
        self.copy_built(PAGE, self.tree / links.DOC / PAGE)
        # (A release has no sources for the page to lead to.)
        for page in ["README.md", "docs/PROMISES.md"]:
            file = self.tree / links.DOC / page
            link = r"\[([^\]]*)\]\((\.\./)?crates/[^)]*\.(rt|antt)[^)]*\)"
            file.write_text(re.sub(link, r"\1", file.read_text("utf-8")), "utf-8")

    def link_programs(self):
        """Links the programs with the C library in them, so that they run on any x86-64
        Linux: a dynamic one has 60 kB in place of 770 kB, but needs glibc 2.34 or later
        and doesn't run on Alpine. The objects are packed too, since glibc is under the
        LGPL: they can be linked with another C library."""
        (self.tree / "bin").mkdir()
        kit = Path(output_of("rt", "doc")).parent
        libraries = [self.objects / it for it in ("libos_c.a", "liblibc_c.a")]
        for library in libraries:
            shutil.copyfile(kit / "c" / library.name, library)
        for program in PROGRAMS:
            command = command_of(program)
            linked, code = self.tree / "bin" / command, self.objects / f"{command}.o"
            self.copy_built(f"crates/{program}/out/{program}.o", code)
            self.link(linked, code, *libraries)

    def link(self, program, *objects):
        words = ["-static-pie", HARDENED, "-o", program, *objects]
        run(self.compiler, *words)
        run("strip", "--", program)

    def make_hook_folder(self):
        """Puts what the hook and the scan run into a directory that is named after the
        version and the program's sum. The program in it is a hard link, which is a file of
        its own in a copy of it. Returns the name."""
        program = self.tree / "bin" / OF_THE_HOOK
        name = f"{self.names.version}-{sum_of(program.read_bytes())[:8]}"
        (self.hook / name).mkdir(parents=True)
        (self.hook / name / OF_THE_HOOK).hardlink_to(program)
        return name

    def build_hook(self, name):
        """Builds the hook and the scan, which are one program, from what is committed. It
        runs what is in the folder of this name. (The object has no path of this machine,
        so no folder has to be renamed in it.)"""
        foreign = ("CARGO", "RUST")
        kept = {it: os.environ[it] for it in os.environ if not it.startswith(foreign)}
        own = {
            "CARGO_HOME": self.room / "cargo",
            "CARGO_TARGET_DIR": self.room / "target",
            "CARGO_TARGET_X86_64_UNKNOWN_LINUX_GNU_LINKER": self.compiler,
            "GIX_VALIDATE_RELEASE": name,
            "RUSTC": RUSTC,
        }
        words = [CARGO, "rustc", "--quiet", "--release", "--locked", "--offline"]
        emit = ["--", "--emit=obj,link"]
        run(*words, *emit, cwd=self.room / "hook", env={**kept, **own})
        [code] = (self.room / "target/release/deps").glob("*.o")
        libraries = Path(output_of(RUSTC, "--print=target-libdir"))
        [builtins] = libraries.glob("libcompiler_builtins-*.rlib")
        whole = self.objects / "hook.o"
        run(self.compiler, "-r", "-nostdlib", "-o", whole, code, builtins)
        run("strip", "--strip-debug", "--", whole)
        self.link(self.hook / "pre-receive", whole)
        (self.hook / "scan").hardlink_to(self.hook / "pre-receive")
        command = self.tree / "bin/git-scan-names"
        command.symlink_to("../libexec/gix-validate/scan")

    def make_libraries(self):
        """Copies WebAssembly and the static library, and makes the shared object of it,
        which needs no library: the process has memcpy, memmove and memset. (LLVM code
        isn't packed: a user's compiler lacks the options with which the kit compiles it.)
        """
        lib, names = self.tree / "lib", self.names
        self.copy_built(WASM, lib / "gix_validate.wasm")
        self.copy_built(ARCHIVE, lib / "libgix_validate_c.a")
        exported = " ".join(f"{it};" for it in exports_of(lib / "libgix_validate_c.a"))
        version = f"GIX_VALIDATE_{names.major} {{ global: {exported} local: *; }};\n"
        (self.room / "map").write_text(version)
        soname = f"{names.library}.{names.major}"
        self.shared = lib / f"{names.library}.{names.numbers}"
        run(
            *[self.compiler, "-shared", "-nostdlib", "-o", self.shared, HARDENED],
            *[f"-Wl,-soname,{soname}", f"-Wl,--version-script={self.room / 'map'}"],
            *["-Wl,--whole-archive", lib / "libgix_validate_c.a"],
            "-Wl,--no-whole-archive",
        )
        run("strip", "--strip-unneeded", "--", self.shared)
        (lib / soname).symlink_to(self.shared.name)
        (lib / names.library).symlink_to(soname)

    def copy_go(self):
        for block in GO_BLOCKS:
            self.copy_built(block, self.tree / "go/gitnames" / Path(block).name)

    def copy_portable(self):
        for file, folder in PORTABLE.items():
            self.copy_built(file, self.tree / folder / Path(file).name)

    def pack_python(self):
        """Packs the module as a wheel, and as a source archive, which has the functions
        for C of each target in place of the library. C and the Rust crate have the blocks
        of code, too."""
        wheel, sdist = self.room / "wheel", self.room / "sdist"
        for block in BLOCKS:
            name = Path(block).name
            for folder in ["c", "rust/git-names/native"]:
                self.copy_built(block, self.tree / folder / name)
            self.copy_built(block, sdist / name)
        self.copy_built(IN_C, sdist / Path(IN_C).name)
        info = (wheel / "info").rename(wheel / f"{self.names.sdist}.dist-info")
        package = wheel / "gix_validate"
        package.mkdir()
        shutil.copyfile(
            ROOT / "bindings/python/gix_validate.py", package / "__init__.py"
        )
        (package / "py.typed").touch()
        shutil.copy(self.shared, package / self.names.library)
        metadata = (ROOT / "release/METADATA").read_text("utf-8")
        page = "bindings/python/README.md"
        metadata += links.alone((ROOT / page).read_text("utf-8"), page)
        metadata = metadata.replace("@VERSION@", self.names.python)
        for file in [info / "METADATA", sdist / "PKG-INFO"]:
            file.write_text(metadata, "utf-8")
        (self.tree / "python").mkdir()
        run(sys.executable, "release/wheel.py", wheel, self.tree / "python")
        shutil.copyfile(ROOT / "release/wheel.py", sdist / "build_gix_validate.py")
        (package / self.names.library).unlink()
        wheel.rename(sdist / "wheel")
        sdist.rename(self.room / self.names.sdist)
        self.pack(self.names.sdist, f"{self.tree}/python/{self.names.sdist}.tar.gz")

    def pack_javascript(self):
        """Packs the npm package, in the layout of `npm pack`."""
        package, page = self.room / "package", "bindings/js/README.md"
        text = links.alone((ROOT / page).read_text("utf-8"), page)
        (package / "README.md").write_text(text, "utf-8")
        self.copy_built(JAVASCRIPT, package / Path(JAVASCRIPT).name)
        javascript.write(package)
        (self.tree / "javascript").mkdir()
        name = f"gix-validate-{self.names.version}.tgz"
        self.pack("package", self.tree / "javascript" / name)

    def build_site(self):
        """Builds the site of the pages, with those that tools make of this release. It is
        for a browser that reads it from a disk."""
        site = self.tree / "share/doc/gix-validate/html"
        made = self.room / "references"
        references.write(self.tree, made)
        words = ["--strict", "--quiet", "--site-dir", self.room / "site"]
        run("mkdocs", "build", *words, env={**os.environ, "SITE_REFERENCES": made})
        left_out = shutil.ignore_patterns(*NOT_OF_THE_SITE)
        shutil.copytree(self.room / "site", site, ignore=left_out, dirs_exist_ok=True)

    def write_manifest(self):
        """Fills in what the texts say of this release."""
        library = self.tree / "lib" / Path(ARCHIVE).name
        comment = output_of("readelf", "-p", ".comment", library)
        logic = re.search("rattle logic=(.*)", comment)
        if not logic:
            raise Wrong(f"{ARCHIVE} does not name the logic by which it was proved")
        values = {
            "VERSION": self.names.version,
            "NUMBERS": self.names.numbers,
            "DEBIAN": self.names.debian,
            "MAJOR": self.names.major,
            "COMMIT": self.commit,
            "KIT": output_of("rt", "version"),
            "LOGIC": logic[1],
            "GATE": self.check,
            "COMPILER": output_of(self.compiler, "--version").splitlines()[0],
            "RUST": output_of(RUSTC, "--version"),
            "LIBC": output_of("getconf", "GNU_LIBC_VERSION"),
        }
        files = [self.tree / "MANIFEST", self.tree / "README.md"]
        files += self.tree.glob("lib/pkgconfig/*")
        files += self.tree.glob("lib/cmake/gix_validate/*")
        for file in files:
            text = re.sub("@([A-Z]+)@", lambda it: values[it[1]], file.read_text())
            file.write_text(text)

    def write_sums(self):
        """The sums of all files. A link has that of the file to which it leads."""
        files = [it for it in self.tree.rglob("*") if it.is_symlink() or it.is_file()]
        names = sorted(str(it.relative_to(self.tree)) for it in files)
        lines = [f"{sum_of((self.tree / it).read_bytes())}  {it}\n" for it in names]
        (self.tree / "SHA256SUMS").write_text("".join(lines))

    def pack_all(self, out):
        """Packs the archive and the Debian packages into a new folder `out`."""
        release = self.tree.rename(self.room / self.names.release)
        packed = self.room / "packed"
        packed.mkdir()
        files = [f"{release.name}.tar.gz", self.names.sources, *self.names.packages]
        self.pack(release.name, packed / files[0])
        self.pack_sources(packed / self.names.sources)
        run("release/deb", release, self.names.debian, packed)
        lines = [f"{sum_of((packed / it).read_bytes())}  {it}\n" for it in files]
        (packed / "SHA256SUMS").write_text("".join(lines))
        move_files(packed, out)
        print("".join(lines), end="")

    def pack_sources(self, archive):
        """Packs what is committed. (`git get-tar-commit-id` finds the commit in it.)"""
        folder = self.names.sources.removesuffix("-source.tar.gz")
        words = ["-c", "tar.umask=022", "archive", f"--prefix={folder}/"]
        words += ["--format=tar", "-o", self.room / "sources", "HEAD"]
        run("git", *words, cwd=ROOT)
        with open(archive, "wb") as packed:
            gzip = ["gzip", "-9nc", self.room / "sources"]
            subprocess.run(gzip, stdout=packed, check=True)

    def pack(self, folder, archive):
        """Packs a folder of the room: the same files always give the same archive."""
        time = os.environ["SOURCE_DATE_EPOCH"]
        run(
            *["tar", "-C", self.room, "--sort=name", f"--mtime=@{time}"],
            *["--owner=0", "--group=0", "--numeric-owner", "--format=ustar"],
            *["--use-compress-program=gzip -9n", "-cf", archive, folder],
        )


def exports_of(library):
    """The functions of a library, which its code names."""
    symbols = output_of("nm", "--extern-only", "--defined-only", library)
    return sorted({*re.findall(r"(?m) T (gix_validate_\w+)$", symbols)})


def command_of(program):
    """What a program is installed as: Git finds a command with dashes."""
    return program.replace("_", "-") if program.startswith("git_") else program


def move_files(folder, to):
    """Moves the files of a folder to another one, which may be there. SHA256SUMS comes
    last: what a run that was cut short leaves has none that fits."""
    to.mkdir(parents=True, exist_ok=True)
    (to / "SHA256SUMS").unlink(missing_ok=True)
    for name in [
        *(it for it in os.listdir(folder) if it != "SHA256SUMS"),
        "SHA256SUMS",
    ]:
        shutil.move(folder / name, to / name)


def pack(sums, out, check):
    """Packs what was built, if it has the sums of a file."""
    with tempfile.TemporaryDirectory() as room:
        Release(Path(room), sums, check).make(out)


def pack_anew(out):
    """Proves and builds all from nothing, and packs it."""
    if not shutil.which("rt"):
        raise Wrong(NO_KIT)
    commit_without_changes()
    empty()
    run("scripts/build")
    with tempfile.TemporaryDirectory() as room:
        record(Path(room, "sums"))
        pack(Path(room, "sums"), out, ALONE)


def keep(sums, out):
    """Moves what --built has packed to out/release, if it is of the commit that is here,
    and neither it nor what was built has changed while the tests ran. (Objects may be
    gone: the release has them.)"""
    for file, sum in recorded(sums).items():
        path = ROOT / file
        if path.suffix == ".o" and not path.exists():
            continue
        if sum_of(path.read_bytes()) != sum:
            raise Wrong(f"{file} is not what was built and packed")
    check_sums(out)
    [archive] = out.glob("gix-validate-*.tar.gz")
    with tarfile.open(archive) as opened:
        name = archive.name.removesuffix(".tar.gz")
        manifest = opened.extractfile(f"{name}/MANIFEST").read().decode()
    commit = commit_without_changes()
    if f"\ncommit:     {commit}\n" not in manifest or IN_THE_CHECK not in manifest:
        raise Wrong(f"{archive} was not packed of {commit} by the full check")
    add_the_record(out)
    if KEPT.exists():
        shutil.rmtree(KEPT)
    move_files(out, KEPT)
    print(f"{KEPT.relative_to(ROOT)} has the release")


def check_sums(out):
    run("sha256sum", "--quiet", "--strict", "--check", "SHA256SUMS", cwd=out)


def add_the_record(out):
    """Adds what the parts of the full check have printed. (It is in no archive: those are the
    same whoever builds them, and the record has times.)"""
    version = (ROOT / "VERSION").read_text().strip()
    file = out / f"gix-validate-{version}-check.txt"
    logs = ((LOGS / f"{it}.txt").read_text("utf-8", "replace") for it in PARTS)
    texts = (f"== {part}\n{text}\n" for part, text in zip(PARTS, logs))
    file.write_text("".join(texts), "utf-8")
    with open(out / "SHA256SUMS", "a") as sums:
        sums.write(f"{sum_of(file.read_bytes())}  {file.name}\n")


def sign(key, out):
    """Signs the sums of a release, if its files have them."""
    check_sums(out)
    words = ["--batch", "--yes", "--local-user", key, "--armor", "--detach-sign"]
    run("gpg", *words, "SHA256SUMS", cwd=out)
    print(f"{out / 'SHA256SUMS.asc'} has the signature")


def main(arguments=None):
    parser = argparse.ArgumentParser(
        prog="release/dist",
        description=__doc__,
        formatter_class=argparse.RawDescriptionHelpFormatter,
        usage="release/dist [--empty | --record SUMS | "
        "[--built SUMS | --keep SUMS | --sign KEY] OUT]",
    )
    step = parser.add_mutually_exclusive_group()
    step.add_argument("--empty", action="store_true", help=argparse.SUPPRESS)
    step.add_argument("--sign", metavar="KEY", help=argparse.SUPPRESS)
    for name in ["record", "built", "keep"]:
        step.add_argument(f"--{name}", type=Path, help=argparse.SUPPRESS)
    parser.add_argument("out", nargs="?", type=Path, help=argparse.SUPPRESS)
    given = parser.parse_args(arguments)
    if (given.out is None) != bool(given.empty or given.record):
        parser.error("give OUT, but not with --empty or --record")
    try:
        if given.empty:
            empty()
        elif given.record:
            record(given.record)
        elif given.built:
            pack(given.built, given.out, IN_THE_CHECK)
        elif given.keep:
            keep(given.keep, given.out)
        elif given.sign:
            sign(given.sign, given.out)
        else:
            pack_anew(given.out)
    except (Wrong, OSError) as error:
        print(f"release/dist: {error}", file=sys.stderr)
        return 1
    return 0
