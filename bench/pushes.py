"""Pushes that take a careless hook more than linear time, each as a pack of its own making, for bench/run."""

import os
import random
import signal
import subprocess

from packs import Pack, copied, given


class Push(Pack):
    """A pack that a function fills, and the references that are pushed with it."""

    def __init__(self, fill, *sizes, algorithm="sha1"):
        super().__init__(algorithm)
        self.refs = []
        fill(self, *sizes)

    def commit(self, tree, *parents, ref=None):
        commit = super().commit(tree, *parents)
        self.refs += [(commit, ref)] if ref else []
        return commit


def modules(pack, count):
    """Versions of a file .gitmodules of 500 kB, each a delta of the one before, in random order."""
    rest = b'[submodule "a"]\n' + b"#\n" * 250000
    base, ids = None, []
    for n in range(count):
        text = b"#%09d\n" % n + rest
        base = pack.add("blob", text, base, len(rest)), len(text)
        ids.append(base[0])
    random.Random(1).shuffle(ids)
    commit = ()
    for it in ids:
        commit = (
            pack.commit(
                pack.tree((0o100644, b".gitmodules", it)),
                *commit,
                ref=b"main" if it is ids[-1] else None,
            ),
        )


def below(pack, count, length):
    """A tree with so many trees, below a path."""
    blob = pack.add("blob", b"x")
    trees = [
        (0o40000, b"d%06d" % n, pack.tree((0o100644, b"f%d" % n, blob)))
        for n in range(count)
    ]
    tree = pack.tree(*trees)
    for _ in range(length // 250):
        tree = pack.tree((0o40000, b"n" * 249, tree))
    return tree


def folders(pack, count):
    pack.commit(below(pack, count, 65000), ref=b"main")


def orphans(pack, count, each):
    """Commits without parents, each with the same 4,000 trees below a path of 65 kB, after references to another commit."""
    tree = below(pack, 4000, 65000)
    other = pack.commit(pack.tree((0o100644, b"f", pack.add("blob", b"x"))))
    for n in range(count):
        pack.commit(tree, ref=b"%d/first" % n)
        pack.refs += [(other, b"%d/%d" % (n, it)) for it in range(each)]


def references(pack, count):
    tree = pack.tree((0o100644, b"f", pack.add("blob", b"x")))
    commit = pack.commit(tree)
    pack.refs = [(commit, b"%06d" % n) for n in range(count)]


def small_modules(pack, count):
    trees = [
        pack.tree(
            (0o100644, b".gitmodules", pack.add("blob", b'[submodule "a%d"]\n' % n))
        )
        for n in range(count)
    ]
    pack.commit(
        pack.tree(*((0o40000, b"d%06d" % n, it) for n, it in enumerate(trees))),
        ref=b"main",
    )


def chain(pack, count):
    """Trees, each a delta of the one before."""
    base, trees = None, []
    blob = pack.add("blob", b"x")
    for n in range(count):
        data = b"100644 f%06d\0%s" % (n, blob)
        base = pack.add("tree", data, base, len(blob)), len(data)
        trees.append((0o40000, b"d%06d" % n, base[0]))
    pack.commit(pack.tree(*trees), ref=b"main")


def slow_deltas(pack, count, depth, length):
    """Trees in chains of deltas, which copy a long name byte by byte. They are listed in random order."""
    blob, base, ids = pack.add("blob", b"x"), None, []
    for n in range(count):
        start = b"100644 f%06d\0%s100644 x" % (n, blob)
        data = start + b"x" * length + b"\0" + blob
        base = base if n % depth else None
        name = copied(len(start), 1) * length
        made = given(start) + name + given(b"\0" + blob)
        base = pack.add_made("tree", data, base, made), len(data)
        ids.append(base[0])
    random.Random(1).shuffle(ids)
    pack.commit(
        pack.tree(*((0o40000, b"d%06d" % n, it) for n, it in enumerate(ids))),
        ref=b"main",
    )


def from_the_ends(pack, chains, depth, length):
    """Trees in chains of deltas. The ends of all chains are listed first, and then what is before them."""
    blob, found = pack.add("blob", b"x"), [[] for _ in range(depth)]
    rest = b"100644 x" + b"x" * length + b"\0" + blob
    for n in range(chains):
        base = None
        for ids in reversed(found):
            data = b"100644 f%06d\0%s" % (n, blob) + rest
            n += chains
            base = pack.add("tree", data, base, len(rest)), len(data)
            ids.append(base[0])
    ids = (it for ids in found for it in ids)
    pack.commit(
        pack.tree(*((0o40000, b"d%06d" % n, it) for n, it in enumerate(ids))),
        ref=b"main",
    )


def tags(pack, count):
    """A tag of a tag of a tag .., and a reference to each."""
    target, kind = (
        pack.commit(pack.tree((0o100644, b"f", pack.add("blob", b"x")))),
        "commit",
    )
    for n in range(count):
        text = (
            f"object {target.hex()}\ntype {kind}\ntag t\ntagger a <b> 1 +0000\n\n{n}\n"
        )
        target, kind = pack.add("tag", text.encode()), "tag"
        pack.refs.append((target, b"t%d" % n))


def merges(pack, count, parents):
    tree = pack.tree((0o100644, b"f", pack.add("blob", b"x")))
    commits = [pack.commit(tree) for _ in range(parents)]
    for n in range(count):
        pack.commit(tree, *commits, ref=b"m%d" % n)


def files(pack, count):
    """A first push of so many files, twenty in a folder, in a hundred commits that change one of them each."""
    commit, trees = (), [None] * (count // 20)
    texts = [pack.add("blob", b"%d\n" % n * 500) for n in range(count)]
    for n in range(100):
        changed = n * 131 % count
        texts[changed] = pack.add("blob", b"%d\n" % n * 400)
        for at in range(len(trees)) if n == 0 else [changed // 20]:
            part = texts[20 * at : 20 * at + 20]
            trees[at] = pack.tree(
                *((0o100644, b"f%02d.txt" % k, it) for k, it in enumerate(part))
            )
        commit = (
            pack.commit(
                pack.tree(*((0o40000, b"d%06d" % k, it) for k, it in enumerate(trees))),
                *commit,
            ),
        )
    pack.refs = [(*commit, b"main")]


def nested(pack, count, size):
    """Folders with files of long names, each folder in the one before."""
    blob, inner = pack.add("blob", b"x"), ()
    for _ in range(count):
        names = (b"f%06d" % n + b"x" * 60000 for n in range(size // 60000))
        entries = ((0o100644, name, blob) for name in names)
        inner = ((0o40000, b"d", pack.tree(*inner, *entries)),)
    pack.commit(pack.tree(*inner), ref=b"main")


def versions(pack, commits, files):
    """Commits that change a file each, in a folder with so many. Git packs a version of such a folder into little."""
    blob, commit = pack.add("blob", b"x"), ()
    rest = b"".join(b"100644 f%06d.txt\0%s" % (n, blob) for n in range(1, files))
    base = None
    for n in range(commits):
        data = b"100644 f%06d.txt\0%s" % (0, pack.add("blob", b"%d" % n)) + rest
        tree = pack.add("tree", data, base, len(rest))
        base = base or (tree, len(data))
        commit = (pack.commit(pack.tree((0o40000, b"folder", tree)), *commit),)
    pack.refs = [(*commit, b"main")]


def spellings(pack, count, characters):
    """A tree of files .gitmodules, each with so many characters that HFS+ ignores."""
    blob = pack.add("blob", b'[submodule "a"]\n')
    ignored = ["\u200c", "\u200d"]
    entries = []
    for n in range(count):
        digits = f"{n:0{characters}b}"
        name = ".gitmodules" + "".join(ignored[int(it)] for it in digits)
        entries.append((0o100644, name.encode(), blob))
    pack.commit(pack.tree(*entries), ref=b"main")


def refused(pack, count, length):
    """A tree of files with long names that Windows takes for a device."""
    blob = pack.add("blob", b"x")
    names = [b"aux.%06d" % n + b"x" * length for n in range(count)]
    tree = pack.tree(*((0o100644, name, blob) for name in names))
    pack.commit(tree, ref=b"main")


def refused_modules(pack, count, size):
    """Files .gitmodules that have nothing but submodules with the name `..`."""
    line = b'[submodule ".."]\n'
    trees = []
    for n in range(count):
        text = b"#%08d\n" % n + line * ((size - 10) // len(line))
        trees.append(pack.tree((0o100644, b".gitmodules", pack.add("blob", text))))
    folders = ((0o40000, b"d%02d" % n, it) for n, it in enumerate(trees))
    pack.commit(pack.tree(*folders), ref=b"main")


PUSHES = {
    "1,000 .gitmodules of 500 kB, deltas of each other": lambda: Push(modules, 1000),
    "4,000 trees below 65 kB, for 40 of 100,000 references": lambda: Push(
        orphans, 40, 2500
    ),
    "200,000 references": lambda: Push(references, 200000),
    "100,000 trees below 65 kB": lambda: Push(folders, 100000),
    "the same with SHA-256": lambda: Push(folders, 100000, algorithm="sha256"),
    "100,000 small .gitmodules": lambda: Push(small_modules, 100000),
    "a chain of 30,000 deltas": lambda: Push(chain, 30000),
    "2,500 trees of 60 kB in 10 chains of 250 deltas": lambda: Push(
        from_the_ends, 10, 250, 60000
    ),
    "17,000 trees of 2 kB that deltas copy byte by byte": lambda: Push(
        slow_deltas, 17000, 50, 2000
    ),
    "3,000 tags of tags": lambda: Push(tags, 3000),
    "10 merges of 20,000 commits": lambda: Push(merges, 10, 20000),
    "17,000 files": lambda: Push(files, 17000),
    "1,000 commits to a directory of 20,000 files": lambda: Push(versions, 1000, 20000),
    "8 nested directories of 60 MB": lambda: Push(nested, 8, 60_000_000),
    "3,000 .gitmodules in spellings of 60 kB": lambda: Push(spellings, 3000, 20000),
    "6,000 .gitmodules in spellings of 15 kB": lambda: Push(spellings, 6000, 5000),
    "300 MB of refused entries": lambda: Push(refused, 4600, 65000),
    "20 .gitmodules of 16 MB of refused names": lambda: Push(
        refused_modules, 20, 16 << 20
    ),
}


def push(server, pack, longest=None):
    """Pushes by Git's protocol, and returns whether all references were accepted, and
    what the server said. It may take so many seconds."""
    packet = lambda data: b"%04x" % (len(data) + 4) + data
    words = b"\0report-status side-band-64k" + (
        b" object-format=sha256" if pack.algorithm == "sha256" else b""
    )
    lines = [
        b"%s %s refs/pushes/%s" % (b"0" * 2 * len(it), it.hex().encode(), ref)
        for it, ref in pack.refs
    ]
    given = (
        b"".join(packet(line + words * (n == 0)) for n, line in enumerate(lines))
        + b"0000"
        + pack.data()
    )
    receiving = subprocess.Popen(
        ["git", "receive-pack", server],
        stdin=subprocess.PIPE,
        stdout=subprocess.PIPE,
        stderr=subprocess.DEVNULL,
        start_new_session=True,
    )
    try:
        said, _ = receiving.communicate(given, timeout=longest)
    except subprocess.TimeoutExpired:
        os.killpg(receiving.pid, signal.SIGKILL)
        receiving.wait()
        raise
    text = text_of(said)
    return b"unpack ok" in text and b"ng refs/" not in text, text


def text_of(packets):
    """What is in the packets of Git's protocol, without their lengths and bands."""
    text = b""
    while packets:
        size = int(packets[:4], 16)
        text += packets[4 + (packets[4:5] in (b"\1", b"\2")) : max(size, 4)]
        packets = packets[max(size, 4) :]
    return text
