"""The lists of names that are measured, the same in each run."""
LENGTHS = (
    4,
    8,
    12,
    16,
    20,
    24,
    28,
    32,
    40,
    48,
    56,
    64,
    80,
    96,
    128,
    192,
    256,
    512,
    1024,
    2048,
    4096,
    16384,
    65536,
)
SIZE = 1 << 20
WORDS = "core util parser index object config remote branch commit pack tree blob status merge diff attributes"
seed = 1


def below(most):
    global seed
    seed = seed * 16807 % 2147483647
    return seed % most


def one_of(*words):
    """One word of each of these texts, together."""
    return "".join(it.split()[below(len(it.split()))] for it in words)


def reference(is_full):
    """A valid reference of 25 bytes on average; one with a dash after `refs` is no full name."""
    name, wanted = "refs", 17 + below(17)
    while len(name) < wanted:
        name += "/" if is_full and name == "refs" or below(3) else "-"
        name += one_of(
            "refs heads tags remotes origin feature release topic fix docs"
        ) + str(below(100))
    return name[: wanted - 1] + "x"


def file():
    """A name of 8 to 40 bytes, without a slash, which begins with any letter."""
    name = one_of(
        "read Makefile compress test_ user-guide network Pipeline attribute checksum_of lib object-store print "
        "null com config index_ README. date xdiff zlib-"
    )
    while below(5) < 3:
        name += one_of(
            "list -table _cache reader Options s2 node-walk _util .core -x86_64 Visitor"
        )
    name += one_of(".c .h .rs .txt .json .md _test.go .py .html .toml")
    return name + ".expect" if len(name) < 8 else name


def with_fault(name):
    place = 5 + below(len(name) - 6)
    return name[:place] + one_of("~ : ? .. @{ * // ^ /. .lock/") + name[place:]


def made(start, of, count=5000):
    """So many names, by random numbers that start there."""
    global seed
    seed = start
    return [of(n) for n in range(count)]


def filled(part, end=""):
    """1 MiB of the part again and again, with this end."""
    return (part * (SIZE // len(part) + 1))[: SIZE - len(end)] + end


def write(folder):
    """Writes each list, one name a line. The last lists have one name of 1 MiB each, without a newline."""
    refs = made(1, lambda _: reference(False))
    hostile = [
        it.replace("o", "..").replace("e", ".lock/").replace("a", "*") for it in refs
    ]
    whole = "/".join(refs)
    lists = {
        "refs": refs,
        "hostile": hostile,
        "full_refs": made(1, lambda _: reference(True)),
        "files": made(4, lambda _: file()),
        "one_fault": made(7, lambda n: with_fault(refs[n])),
        # (a `k` stands before a slash or a dot)
        "refs_k": made(
            2,
            lambda _: one_of(
                "refs/heads/task/ refs/fork/ refs/heads/desk/ origin/stack/ refs/tags/pack. feature/bank/",
                "update main parser-2 v1.0 new-lists index",
                "-a -b2 /wip /check.1",
            )
            + str(below(1000)),
        ),
        "short": made(
            3,
            lambda _: one_of(
                "HEAD main v1.0 dev next wip master origin trunk v2 x v1.12 stable 1.0 release7 fix-12 FETCH topic/a"
            ),
        ),
        "branches": made(
            8,
            lambda _: one_of(
                "main develop feature/ fix/issue- release/v topic/new_ wip- user/a. hotfix/ dependabot/npm-",
                "parser login 1.2 config-4 http2 cache api tests",
            ),
        ),
        "three_parts": made(
            6, lambda _: "/".join([one_of(WORDS), one_of(WORDS), file()])
        ),
        "dotfiles": made(
            5,
            lambda _: one_of(
                ".gitignore .gitattributes .editorconfig .clang-format .travis.yml .mailmap .github .env .eslintrc.json .dockerignore "
                ".vscode .gitkeep .rustfmt.toml"
            ),
        ),
        "components": 500
        * "README.md src-main.c Makefile Cargo.toml index.html config.yml util_test.go lib.rs package.json main.py".split(),
        "evil": 500
        * ".git GIT~1 .git.. nul.txt COM1 a:b .gitmodules gi7eba~1 con.c a|b".split(),
        "packed": made(
            1,
            lambda n: "{2}{0}/{1}-{3}".format(
                one_of(WORDS),
                one_of(WORDS),
                one_of("refs/heads/ refs/tags/ refs/remotes/origin/ refs/pull/"),
                n + 1,
            ),
            99999,
        ),
        "paths": made(
            1,
            lambda n: "/".join(
                [
                    one_of(WORDS),
                    one_of(WORDS),
                    *(one_of(WORDS) for _ in range(below(3))),
                ]
            )
            + f"_{n + 1}"
            + one_of(".rs .c .h .md"),
            50000,
        ),
    }
    for length in LENGTHS:
        starts = [
            n * 797 % (len(whole) - length) for n in range(64) if n * length < 600000
        ]
        lists[f"length_{length}"] = [
            f"r/a{whole[it:it + length]}"[: length - 1] + "x" for it in starts
        ]
        lists[f"length_file_{length}"] = [
            it.replace("/", "-") for it in lists[f"length_{length}"]
        ]

    joined, joined_hostile = ("/".join([*it, ""]) for it in (refs, hostile))
    long = {
        "long": filled(joined, "x"),
        "late": "main\n" + filled(joined, "x"),
        "long_hostile": filled(joined_hostile, "x"),
        "long_file": filled(joined.replace("/", "-"), "x"),
        "slash_at_start": "src/" + filled(joined.replace("/", "-"), "x"),
        "fault_at_end": filled(joined, "x~x"),
        "parent_at_end": filled(joined, "x/.."),
        "braces": filled("{"),
        "k_dot_slashes": filled("k./"),
        "two_dots": filled("..x/"),
        "last_dots": filled("x../"),
        "dot_l": filled(".lo"),
        "backslashes": filled("\\"),
    }
    for name, text in {
        **{it: "".join(f"{name}\n" for name in names) for it, names in lists.items()},
        **long,
    }.items():
        (folder / name).write_text(text)
