"""Pushes of a hostile name while releases replace each other."""

import hashlib
import shutil
from concurrent.futures import ThreadPoolExecutor
from contextlib import contextmanager
from threading import Event

from tests.release.commands import OF_THE_HOOK, files_under, run

REFUSED = "push refused: 1 name is not allowed"
# What changes the file that git calls.
CALLS = "openat,linkat,symlinkat,unlink,unlinkat,rename,renameat,renameat2"


def folder_of(hook, name):
    """The hook's folder in a release that `rename_the_hook` has given this name. (It is as
    long as the name that the program has.)"""
    [folder] = hook.glob(f"{name}--*/")
    return folder


def rename_the_hook(hook, name):
    """Gives the hook's directory another name, also in the program that looks for it. So
    that program finds the proved program of no other release."""
    [folder] = hook.glob("*/")
    new = name.ljust(len(folder.name), "-")
    program = (hook / "pre-receive").read_bytes()
    assert program.count(folder.name.encode()) == 1
    for file in [hook / "pre-receive", hook / "scan"]:
        replace(file, program.replace(folder.name.encode(), new.encode()))
    return folder.rename(hook / new)


def replace(file, content):
    """Writes a program anew. (It may have two names.)"""
    file.unlink()
    file.write_bytes(content)
    file.chmod(0o755)


def release_of_another_name(tree, made):
    """Copies a release to another folder, and gives the hook's folder its name."""
    shutil.copytree(tree, made, symlinks=True)
    rename_the_hook(made / "libexec/gix-validate", made.name)
    sums = made / "SHA256SUMS"
    sums.unlink()
    sums.write_text("".join(f"{sum_of(made / it)}  {it}\n" for it in files_under(made)))
    return made


def package_of_another_name(package, made):
    """Makes the package of the hook again, with another name of the hook's folder."""
    unpacked = made.with_suffix("")
    run("dpkg-deb", "--raw-extract", package, unpacked)
    folder = rename_the_hook(unpacked / "usr/libexec/gix-validate", unpacked.name)
    link = unpacked / "usr/bin" / OF_THE_HOOK
    link.unlink()
    link.symlink_to(f"../libexec/gix-validate/{folder.name}/{OF_THE_HOOK}")
    packed = run("dpkg-deb", "--root-owner-group", "-Znone", "--build", unpacked, made)
    assert packed.status == 0, packed.said
    return made


def sum_of(file):
    return hashlib.sha256(file.read_bytes()).hexdigest()


class Hostile:
    """Somebody who pushes a name that isn't allowed to a server."""

    def __init__(self, repository, server):
        self.repository, self.server = repository, server
        run("git", "init", "-q", "--bare", server)

    def set_hook(self, prefix):
        """Links the hook of an installed release into the server."""
        hook = prefix / "libexec/gix-validate/pre-receive"
        (self.server / "hooks" / "pre-receive").symlink_to(hook)

    def push(self):
        words = ["push", "-q", self.server, "HEAD:refs/heads/hostile"]
        return run("git", *words, cwd=self.repository)

    @contextmanager
    def pushes_on(self):
        """Pushes one time after the other until the `with` ends. Gives a list, which has
        the results then."""
        ended = Event()
        results = []

        def push_on():
            while not ended.is_set():
                results.append(self.push())

        with ThreadPoolExecutor(1) as pool:
            pushing = pool.submit(push_on)
            try:
                yield results
            finally:
                ended.set()
            pushing.result()


def are_checked(pushes):
    """Whether ten pushes came to the check of the names. (Others ran into the removal of
    the hook that they had begun with.)"""
    return len([it for it in pushes if REFUSED in it.said]) >= 10


def rounds(least, pushes):
    """Counts upgrades: `least`, and more if ten pushes weren't checked by then, since the
    machine is slow. It gives up after ten times as many."""
    for n in range(10 * least):
        if n >= least and are_checked(pushes):
            return
        yield n


def run_slowly(root, file, *command):
    """Runs a command, and holds it up for 30 ms after each call that touches a file. The
    command may name the file by its whole path or from `root` on."""
    relative = file.relative_to(root)
    return run(
        *["strace", "-f", "-qq", "--seccomp-bpf", "-e", "signal=none"],
        *["-o", "/dev/null", "-e", f"trace={CALLS}"],
        *["-e", f"inject={CALLS}:delay_exit=30000"],
        *["-P", file, "-P", relative, "-P", f"./{relative}"],
        *command,
    )
