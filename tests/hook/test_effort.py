"""How much work a push can make: the hook has Git list the trees once, however many
references there are. All processes have one pair of limits, which settings raise."""
import hashlib
import re
import subprocess
import sys
import tempfile
import time
from pathlib import Path

import pytest

from bench.packs import Pack, copied, header
from tests.hook.expected import (
    ACCEPT,
    ACCEPTED,
    CORRECT_THE_FILE,
    DEVICE,
    IT_MAY_BE_OLD,
    LIST_ALL,
    MORE_MEMORY,
    MORE_TIME,
    RENAME_THE_FILE,
    UNCHECKED,
    Result,
    bad_name,
    bad_ref,
    change,
    not_checked,
    refused,
)
from tests.hook.git import Repository, file, folder

SECONDS = 10  # for what takes a minute otherwise


@pytest.mark.parametrize("is_hostile", [False, True])
def test_trees_of_12000_references_are_listed_once_and_if_refused_again_with_paths(
    hook, source, room, is_hostile
):
    lines = [source.push_of(source.clean, f"refs/heads/{n}") for n in range(1, 12_001)]
    if is_hostile:
        lines[0] = source.push_of(source.device, "refs/heads/1")
        lines[-1] = source.push_of(source.bad_submodule, "refs/heads/12000")
    hook.stand_in("git -c core.warn*rev-list", f'echo "$*" >> "{room}/calls"')
    result = hook.run("".join(lines))
    assert result.status == int(is_hostile)
    assert is_hostile == ("push refused: 2 names are not allowed\n" in result.said)
    words = [line.split() for line in (room / "calls").read_text().splitlines()]
    old = ["--stdin", "--not", "--all"]
    options = ["--filter-provided-objects", "--no-object-names"]
    lists = [[*options, *old], [options[0], *old]]
    assert [it[-len(lists[n]) :] for n, it in enumerate(words)] == lists[
        : 1 + is_hostile
    ]


def test_if_the_directories_can_not_be_found_the_name_is_refused_without(hook, source):
    hook.stand_in("git -c core.warn*rev-list*provided-objects --stdin", "exit 9")
    tree = source.tree_with_device
    commit = source.commit_of(folder("a", tree), on=[source.clean])
    result = hook.run(source.push_of(commit))
    line = bad_name(f"aux.c (in the tree {tree})", DEVICE, "aux")
    assert result == refused(line, RENAME_THE_FILE, IT_MAY_BE_OLD, ACCEPT)


@pytest.mark.one_format
def test_of_quadratic_paths_of_directories_the_first_are_read(incoming, measured_push):
    """A pack of some kilobytes whose list with paths has a gigabyte."""
    names = "".join(f"100644 blob {incoming.text}\t{n}\n\n" for n in range(15_000))
    trees = incoming.git("mktree", "--batch", stdin=names).split()
    tree = incoming.tree(
        *(folder(f"d{n:05}", it) for n, it in enumerate(trees)), "aux.c"
    )
    for _ in range(260):
        tree = incoming.tree(folder("n" * 249, tree))
    began = time.monotonic()
    result, _ = measured_push(incoming.commit(tree))
    assert time.monotonic() - began < SECONDS
    assert result.status == 1
    assert "aux.c" in result.said


@pytest.mark.parametrize("part", ["git rev-list --stdin", "git diff-tree"])
def test_if_the_commits_can_not_be_found_the_name_is_refused_all_the_same(
    hook, source, part
):
    hook.stand_in(part, "exit 9")
    result = hook.run(source.push_of(source.device))
    assert result.status == 1
    assert result.said.startswith(bad_name("aux.c", DEVICE, "aux"))


@pytest.fixture
def chain(source):
    """A branch of the source with a chain of 300 deltas. (It goes again: for other
    tests the source has no reference.)"""
    files = "".join(
        f"M 100644 inline f{n}\ndata 200\n{n:0200d}\n" for n in range(1, 6001)
    )
    start = "commit refs/heads/chain\ncommitter a <a@b> 1700000000 +0000\ndata 0\n"
    source.git("fast-import", "--quiet", "--depth=300", stdin=start + files)
    yield "refs/heads/chain:refs/heads/chain"
    source.git("update-ref", "-d", "refs/heads/chain")


def test_a_long_chain_of_deltas_is_accepted(server, chain):
    """A pack that `git gc --aggressive` made once may have one, and be pushed as it is."""
    settings = {
        "GIT_CONFIG_COUNT": "1",
        "GIT_CONFIG_KEY_0": "pack.depth",
        "GIT_CONFIG_VALUE_0": "300",
    }
    assert server.push(chain, **settings) == ACCEPTED


@pytest.fixture
def dump(source):
    """A branch with thousands of files, and two versions of one of 110 MB that packs
    into little. (It goes again.)"""
    files = "".join(f"M 100644 inline f{n}\ndata 4\n{n:04}\n" for n in range(6000))
    start = "commit refs/heads/dump\ncommitter a <a@b> 1700000000 +0000\ndata 0\n"
    row = "a row of a table\n" * 6_500_000
    dump = f"M 100644 inline dump\ndata {len(row)}\n{row}\n"
    longer = f"M 100644 inline dump\ndata {len(row) + 2}\n{row}a\n\n"
    source.git("fast-import", "--quiet", stdin=start + files + dump + start + longer)
    yield "refs/heads/dump:refs/heads/dump"
    source.git("update-ref", "-d", "refs/heads/dump")


@pytest.mark.one_format
def test_a_large_file_in_a_small_pack_of_thousands_of_files_is_accepted(server, dump):
    """To unpack it, Git would need more memory than such a pack may take."""
    assert server.push(dump) == ACCEPTED


@pytest.mark.one_format
def test_all_names_in_namespaces_are_checked_however_long_they_are(hook, source):
    names = [f"refs/namespaces/a/refs/heads/{n}/{'x' * 60_000}" for n in range(300)]
    last = "refs/namespaces/a/refs/heads/HEAD"
    lines = [source.push_of(source.clean, it) for it in [*names, last]]
    result = hook.run("".join(lines))
    assert result.status == 1
    assert result.said.startswith(f"{last}: Reference name is reserved")


@pytest.mark.parametrize(
    "count, start",
    [(1_000_000, "refs/heads/"), (250_000, "refs/namespaces/z/refs/heads/")],
)
@pytest.mark.one_format
def test_a_million_references_and_many_in_a_namespace_are_checked(
    hook, source, count, start
):
    lines = [source.push_of(source.clean, f"{start}{n}") for n in range(count)]
    assert hook.run("".join(lines)) == ACCEPTED
    lines.append(source.push_of(source.clean, "refs/heads/HEAD"))
    result = hook.run("".join(lines))
    assert result.status == 1
    assert result.said.startswith(bad_ref("refs/heads/HEAD"))


@pytest.mark.one_format
def test_with_100000_replacements_each_file_is_read(server, source):
    """There is a file for each, and the last has a hostile submodule."""
    server.configure("replace = true")
    texts = [f'[submodule "{n}"]\n' for n in range(100_000)] + ['[submodule ".."]\n']
    files = "".join(
        f"blob\nmark :{n}\ndata {len(it)}\n{it}\n" for n, it in enumerate(texts, 1)
    )
    marks = server.path / "marks"
    server.git("fast-import", "--quiet", f"--export-marks={marks}", stdin=files)
    ids = [line.split()[1] for line in marks.read_text().splitlines()]
    lines = [source.push_of(it, f"refs/replace/{it}") for it in ids]
    result = server.hook.run("".join(lines), cwd=server.path)
    assert result.status == 1
    assert "push refused: 1 name is not allowed\n" in result.said


@pytest.mark.one_format
def test_a_server_with_loose_references_to_long_messages_and_many_objects_is_not_locked_out(
    server, source, measured
):
    """A fifth of a server that was locked out once: 100,000 references that are in no
    pack, each to a commit with a message of 1,500 bytes, and 400,000 objects."""
    count, message = 20_000, "m" * 1500
    history = []
    for n in range(1, count + 1):
        history.append(
            f"commit refs/heads/{n}\ncommitter a <a@b> {n} +0000\n"
            f"data {len(message)}\n{message}\n"
            f"M 100644 inline d/{n}\ndata 9\n{n:09}\n"
        )
    server.git("fast-import", "--quiet", stdin="".join(history))
    objects = server.git("count-objects", "-v")
    assert int(re.search("in-pack: (.*)", objects)[1]) == 4 * count
    assert not (server.path / "packed-refs").exists()
    lines = source.push_of(source.clean)
    env = {"GIT_ALTERNATE_OBJECT_DIRECTORIES": source.path / "objects"}
    result, megabytes, _ = measured(lines, cwd=server.path, **env)
    assert result == ACCEPTED
    # (so a process of the whole server has less than half of what it may take)
    assert megabytes < 1024 / 2 / 5


# What a process may take. It writes its limits into a file, after what it reads has come.
LIMITS = """read -r line; echo "$(ulimit -t) $(ulimit -d)" > '{}'"""
PARTS = [
    "check_push refs",
    "check_push trees",
    "check_push submodules",
    "git -c core.warn*rev-list",
    "git cat-file*%(rest)",
    "git cat-file*size) --buffer",
]


@pytest.fixture
def objects(server):
    """The directory of objects of a server, with an empty one for those of a push."""
    (server.path / "objects/incoming").mkdir()
    return server.path / "objects"


@pytest.fixture
def limits(hook, source, room, objects):
    """Runs the hook, and returns the seconds and megabytes that a part of it may take."""

    def run(part):
        hook.stand_in(part, LIMITS.format(room / "limits"))
        hook.run(
            source.pushes["submodule"].lines,
            cwd=objects.parent,
            GIT_OBJECT_DIRECTORY=objects / "incoming",
            GIT_ALTERNATE_OBJECT_DIRECTORIES=source.path / "objects",
        )
        seconds, kilobytes = map(int, (room / "limits").read_text().split())
        return seconds, kilobytes / 1024

    return run


def write_pack(path, objects, size=100):
    """A file that begins as a pack with so many objects. (Git takes it for none.)"""
    path.parent.mkdir(parents=True, exist_ok=True)
    with open(path, "wb") as file:
        file.write(header(objects))
        file.truncate(size)


@pytest.mark.parametrize("part", PARTS)
@pytest.mark.one_format
def test_each_part_has_the_same_limits_and_more_time_for_each_4000_objects(
    limits, objects, server, part
):
    assert limits(part) == (60, 1024)
    write_pack(objects / "incoming/pack/a.pack", 64_000, 1 << 30)
    assert limits(part) == (60 + 16, 1024)
    server.configure("seconds = 100", "megabytes = 2000")
    assert limits(part) == (100 + 16, 2000)


@pytest.mark.one_format
def test_objects_in_files_of_their_own_count_too(limits, objects):
    (objects / "incoming/ab").mkdir()
    for n in range(4_000):
        (objects / f"incoming/ab/{n}").touch()
    assert limits("git -c core.warn*rev-list") == (61, 1024)


@pytest.mark.one_format
def test_what_a_wrapper_called_git_starts_has_the_same_limits(hook, source, room):
    """Also in the background, after a fork."""
    write = f"""(echo "$(ulimit -t) $(ulimit -d)" > '{room}/limits') & wait"""
    hook.stand_in("git -c core.warn*rev-list", write)
    assert hook.run(source.push_of(source.clean)) == ACCEPTED
    assert (room / "limits").read_text() == f"60 {1024 * 1024}\n"


@pytest.mark.one_format
def test_no_part_leaves_a_core_file(hook, source, room):
    hook.stand_in("check_push trees", f"""ulimit -c > '{room}/limit'""")
    hook.run(
        source.push_of(source.clean),
        through=["prlimit", "--core=unlimited:unlimited"],
    )
    assert (room / "limit").read_text() == "0\n"


@pytest.mark.parametrize("part", PARTS)
@pytest.mark.one_format
def test_a_part_that_takes_too_long_refuses_the_push_and_the_setting_is_named(
    hook, server, source, part
):
    server.configure("seconds = 1")
    hook.stand_in(part, "while :; do :; done")
    result = hook.run(
        source.pushes["submodule"].lines,
        cwd=server.path,
        GIT_OBJECT_DIRECTORY=source.path / "objects",
    )
    name = part if part.startswith("check") else "git cat-file"
    name = "git rev-list" if part.endswith("rev-list") else name
    why = f"{name} needs too much processor time"
    assert result == not_checked(why, MORE_TIME.format(1))


@pytest.fixture
def limited(source):
    """Gives the source, in which the hook runs, these settings until the test ends."""

    def limit(**settings):
        for name, value in settings.items():
            source.git("config", f"names.{name}", str(value))

    yield limit
    for name in "seconds", "megabytes":
        subprocess.run(["git", "config", "--unset", f"names.{name}"], cwd=source.path)


# What Git holds whole while it lists trees.
def large_commit(source, size, *parents):
    """A commit with a message of so many bytes. It packs into little."""
    lines = "".join(f"parent {it}\n" for it in parents)
    ends = "author a <b> 1 +0000\ncommitter a <b> 1 +0000\n"
    message = f"{size}".ljust(size)
    words = ["hash-object", "--literally", "-t", "commit", "-w", "--stdin"]
    content = f"tree {source.tree('a')}\n{lines}{ends}\n{message}"
    return source.git(*words, stdin=content)


def tag_text(target, kind, name):
    return f"object {target}\ntype {kind}\ntag {name}\ntagger a <b> 1 +0000\n\n"


# How git hash-object takes a tag that git mktag would refuse.
HASH_TAG = ["hash-object", "--literally", "-t", "tag", "-w"]


def tag(source, target, kind, name, message=""):
    text = tag_text(target, kind, name) + message
    return source.git(*HASH_TAG, "--stdin", stdin=text)


def commits(incoming):
    return [large_commit(incoming, 50_000_000 + n) for n in range(3)]


def commits_in_a_chain(incoming):
    """Git keeps the parents of each, which are a million."""
    commit = incoming.commit_of("a")
    for n in range(4):
        count = 60_000_000 // len(f"parent {commit}\n")
        commit = large_commit(incoming, n, *[commit] * count)
    return [commit]


def smaller_commits(incoming):
    """Git packs them into little."""
    parents = [incoming.commit_of("a")] * 25_000
    return [large_commit(incoming, n, *parents) for n in range(105)]


def tags_with_long_names(incoming):
    """One tags the other. Git keeps the names of both."""
    first = tag(incoming, incoming.commit_of("a"), "commit", "x" * 62_000_000)
    return [tag(incoming, first, "tag", "x" * 62_000_000)]


def tags_of_tags(incoming):
    """Git keeps the chain of each."""
    target, kind, texts = incoming.commit_of("a"), "commit", []
    for n in range(3000):
        texts.append(tag_text(target, kind, f"{n}"))
        of_git = f"tag {len(texts[n])}\0{texts[n]}".encode()
        target, kind = hashlib.new(incoming.object_format, of_git).hexdigest(), "tag"
    with tempfile.TemporaryDirectory() as room:
        paths = [Path(room, f"{n}") for n in range(len(texts))]
        for path, text in zip(paths, texts):
            path.write_text(text)
        listed = "".join(f"{path}\n" for path in paths)
        tags = incoming.git(*HASH_TAG, "--stdin-paths", stdin=listed).split()
    assert tags[-1] == target
    return tags


def nested(incoming, count, size, *inner):
    """A tree of so many bytes, in one of so many bytes, and so on; the inmost has these
    entries, too."""
    for n in range(count):
        files = (f"{n}-{k:06d}".ljust(60_000, "x") for k in range(size // 60_000))
        inner = [folder("a", incoming.tree(*inner, *files))]
    return inner[0].id


def trees(incoming):
    return [nested(incoming, 1, 45_000_000 + n * 60_000) for n in range(4)]


def tags_of_trees(incoming):
    return [tag(incoming, it, "tree", "large") for it in trees(incoming)]


def folders_in_each_other(incoming):
    return [incoming.commit(nested(incoming, 4, 45_000_000))]


def small_folders_in_each_other(incoming):
    return [incoming.commit(nested(incoming, 300, 600_000))]


@pytest.mark.parametrize(
    "make",
    [
        commits,
        commits_in_a_chain,
        smaller_commits,
        tags_with_long_names,
        tags_of_tags,
        trees,
        tags_of_trees,
        folders_in_each_other,
        small_folders_in_each_other,
    ],
)
@pytest.mark.one_format
def test_if_git_needs_too_much_memory_the_push_is_refused_and_the_setting_is_named(
    incoming, measured_push, limited, make
):
    limited(megabytes=100)
    result, megabytes = measured_push(*make(incoming))
    assert is_out_of_memory(result, "git rev-list", 100)
    assert megabytes < 192


def is_out_of_memory(result, process, megabytes):
    why = rf"{process} failed \(status 128\): .*[Mm]emory.*"
    pattern = rf"{UNCHECKED}: {why}\n{re.escape(MORE_MEMORY.format(megabytes))}"
    return result.status > 0 and re.fullmatch(pattern, result.said) is not None


@pytest.mark.one_format
def test_nine_branches_with_messages_of_12_MB_are_accepted(incoming, measured_push):
    large = [large_commit(incoming, 12_000_000 + n) for n in range(9)]
    assert measured_push(*large)[0] == ACCEPTED


@pytest.mark.one_format
def test_directories_in_each_other_that_have_100_MB_are_accepted(
    incoming, measured_push
):
    commit = incoming.commit(nested(incoming, 200, 500_000))
    assert measured_push(commit)[0] == ACCEPTED


@pytest.mark.one_format
def test_many_versions_of_a_large_directory_are_accepted(incoming, measured_push):
    folders = []
    for n in range(20):
        version = folder("folder", nested(incoming, 1, 6_000_000 + 60_000 * n))
        folders.append(folder(f"{n}", incoming.tree(version)))
    assert measured_push(incoming.commit_of(*folders))[0] == ACCEPTED


@pytest.mark.one_format
def test_large_files_take_no_memory_in_directories_and_as_references(
    incoming, measured_push
):
    blob = incoming.blob("x" * 150_000_000)
    commit = incoming.commit_of(file("large", blob))
    tags = tag(incoming, commit, "commit", "v1"), tag(incoming, blob, "blob", "large")
    result, megabytes = measured_push(blob, commit, *tags)
    assert result == ACCEPTED
    assert megabytes < 64


@pytest.mark.one_format
def test_a_tree_whose_delta_needs_much_more_than_the_tree_refuses_the_push(
    incoming, measured_push, limited
):
    """It is a tree with a long name, of which each byte is copied by itself."""
    id_ = bytes.fromhex(incoming.text)
    start, length = b"100644 x", 25_000_000
    base, tree = start + b"\0" + id_, start + b"x" * (length - 1) + b"\0" + id_
    made = copied(0, 7) + copied(7, 1) * length + copied(8, len(id_) + 1)
    pack = Pack(incoming.object_format)
    large = pack.add_made("tree", tree, (pack.add("tree", base), len(base)), made)
    path = incoming.path / "objects/pack/pack-a.pack"
    path.write_bytes(pack.data())
    incoming.git("index-pack", str(path))
    limited(megabytes=136)
    result, megabytes = measured_push(incoming.commit(large.hex()))
    assert is_out_of_memory(result, "git rev-list", 136)
    assert megabytes < 192


@pytest.mark.one_format
def test_a_server_with_large_commits_accepts_pushes_and_a_setting_can_raise_the_limit(
    server, source
):
    """Git reads the commit of each reference for each push, and keeps its message."""
    large = [large_commit(source, 80_000_000 + n) for n in range(2)]
    server.already_has(*(f"{it}:refs/heads/{n}" for n, it in enumerate(large)))
    assert server.push(f"{source.clean}:refs/heads/first") == ACCEPTED
    server.configure("megabytes = 100")
    result = server.push(f"{source.clean}:refs/heads/second")
    assert is_out_of_memory(result, "git rev-list", 100)
    server.git("config", "names.megabytes", "300")
    assert server.push(f"{source.clean}:refs/heads/second") == ACCEPTED
    server.git("config", "names.megabytes", "100")
    assert server.push(":refs/heads/0") == ACCEPTED  # (a delete needs no list)


# A command that runs another, and writes what it took into a file: the memory of the
# largest process below it, and the processor time of all.
MEASURE = """
import resource, subprocess, sys
status = subprocess.run(sys.argv[2:], check=False).returncode
used = resource.getrusage(resource.RUSAGE_CHILDREN)
with open(sys.argv[1], "w") as file:
    file.write(f"{used.ru_maxrss / 1024} {used.ru_utime + used.ru_stime}")
sys.exit(status)
"""


@pytest.fixture
def measured(hook, source, room):
    """Runs the hook on a commit, or on the lines of a push. Returns its result, the
    megabytes of the largest process, and the seconds of processor time of all."""

    def run(pushed, **env):
        file = room / "used"
        through = [sys.executable, "-c", MEASURE, file]
        lines = pushed if " " in pushed else source.push_of(pushed)
        result = hook.run(lines, through=through, **env)
        return result, *map(float, file.read_text().split())

    return run


@pytest.fixture
def incoming(room, source):
    """A repository whose objects are those that a push brings."""
    return Repository(room / "incoming", source.object_format, "--bare")


@pytest.fixture
def measured_push(measured, source, incoming):
    """Runs the hook on a push of a reference to each of these objects."""

    def run(*ids):
        refs = (source.push_of(it, f"refs/pushes/{n}") for n, it in enumerate(ids))
        objects = incoming.path / "objects"
        result, megabytes, _ = measured("".join(refs), GIT_OBJECT_DIRECTORY=objects)
        return result, megabytes

    return run


@pytest.fixture
def chain_of(incoming):
    """Makes a commit of trees in a chain of so many deltas. The pack has each after its
    base, or before it."""

    def make(deltas, order):
        pack, base, trees = Pack(incoming.object_format), None, []
        blob = bytes.fromhex(incoming.text)
        for n in range(deltas + 1):
            tree = b"100644 f%06d\0%s" % (n, blob)
            base = pack.add("tree", tree, base, len(blob)), len(tree)
            trees.append((0o40000, b"d%06d" % n, base[0]))
        pack.parts = pack.parts[::order]
        commit = pack.commit(pack.tree(*trees))
        path = incoming.path / f"objects/pack/pack-{deltas}.pack"
        path.write_bytes(pack.data())
        incoming.git("index-pack", str(path))
        return commit.hex()

    return make


@pytest.mark.parametrize("order", [1, -1], ids=["forwards", "backwards"])
def test_a_chain_with_more_deltas_than_git_makes_is_refused_and_no_shorter_one(
    hook, source, incoming, chain_of, order
):
    """Git would follow the whole chain of each tree that it prints."""

    def result(deltas):
        return hook.run(
            source.push_of(chain_of(deltas, order)),
            GIT_OBJECT_DIRECTORY=incoming.path / "objects",
            GIT_ALTERNATE_OBJECT_DIRECTORIES=source.path / "objects",
        )

    reason = "the push has a chain of more than 4095 deltas, which Git never makes"
    if order == 1:
        assert result(4095) == ACCEPTED
    assert result(4096) == not_checked(reason)


@pytest.mark.parametrize(
    "way, reason",
    [
        ("kill -9 $$", "git cat-file failed (signal 9)"),
        ("exit 3", "git cat-file failed (status 3)"),
        ("echo 12; exit 0", "the deltas of the push could not be listed"),
    ],
    ids=["killed", "failed", "cut"],
)
@pytest.mark.one_format
def test_if_the_deltas_of_a_push_are_not_listed_it_is_refused(
    hook, source, incoming, chain_of, way, reason
):
    hook.stand_in("git cat-file*deltabase", way)
    result = hook.run(
        source.push_of(chain_of(4095, 1)),
        GIT_OBJECT_DIRECTORY=incoming.path / "objects",
        GIT_ALTERNATE_OBJECT_DIRECTORIES=source.path / "objects",
    )
    assert result == not_checked(reason)


def spellings(source, count, size):
    """A tree with so many spellings of .gitmodules for HFS+, which ignores some
    characters, each of so many bytes."""
    ignored = "\u200c\u200d\u200e\u200f"
    names = (
        "".join(ignored[n >> 2 * place & 3] for place in range(8))
        + ".gitmodules"
        + ignored[0] * (size // 3)
        for n in range(count)
    )
    return source.tree(*(file(name, source.good_modules) for name in sorted(names)))


@pytest.mark.one_format
def test_thousands_of_spellings_of_gitmodules_take_little_memory(source, measured):
    """The report about them has 180 MB. They took gigabytes once, and a minute."""
    commit = source.commit(spellings(source, 3000, 15_000))
    result, megabytes, seconds = measured(commit)
    assert result == ACCEPTED
    assert megabytes < 192
    assert seconds < 20


@pytest.mark.one_format
def test_of_very_many_refused_names_the_first_are_read(source, measured):
    devices = [f"aux.{n:06d}" for n in range(200_000)]
    commit = source.commit_of(*devices)
    result, megabytes, seconds = measured(commit)
    names = (bad_name(name, DEVICE, "aux", commit) for name in devices[:10])
    assert result == Result(
        1,
        "".join(names)
        + "push refused: at least 10000 names are not allowed (10 of them shown)\n"
        + LIST_ALL
        + RENAME_THE_FILE
        + change(commit)
        + ACCEPT,
    )
    assert megabytes < 192
    assert seconds < 10


@pytest.mark.one_format
def test_of_very_many_refused_submodules_the_first_are_read(source, measured):
    modules = source.blob('[submodule ".."]\n' * 200_000)
    commit = source.commit_of(file(".gitmodules", modules))
    result, megabytes, seconds = measured(commit)
    assert result == Result(
        1,
        bad_name(
            '.gitmodules: submodule ".."',
            "Submodules names must not contains '..'",
            None,
            commit,
        )
        + "push refused: at least 1 name is not allowed\n"
        + CORRECT_THE_FILE
        + change(commit),
    )
    assert megabytes < 96
    assert seconds < 10


@pytest.mark.one_format
def test_a_file_of_some_hundred_megabytes_is_not_read_into_memory(source, measured):
    """A few kilobytes of pack."""
    modules = source.blob(b"#" * 200_000_000)
    commit = source.commit_of(file(".gitmodules", modules))
    result, megabytes, _ = measured(commit)
    line = bad_name(
        ".gitmodules", "the file is larger than 16777216 bytes", None, commit
    )
    assert result == refused(line, CORRECT_THE_FILE, change(commit))
    assert megabytes < 96
