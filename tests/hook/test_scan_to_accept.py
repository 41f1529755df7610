"""`scan --to-accept` prints commands that make the hook accept what is there."""
from tests.hook.expected import ACCEPTED, ALL_IS_WELL, Result
from tests.hook.git import file, folder
from tests.hook.processes import run


def test_after_the_printed_commands_the_names_are_accepted(scan, server, source):
    names = ["-aux", "aux.c", b"aux.\"'%s\t\1\xc3\xa9 ", "con .h", "HEA?"]
    tree = source.tree(*names)
    old = source.commit_of(folder("a", tree), "x", on=[source.commit_of(*names, "x")])
    server.already_has(f"{old}:refs/heads/main")
    commands = scan(server, "--to-accept")
    assert commands == Result(
        0,
        r"""git config --add names.accept "$(printf -- 'HEA?')"
git config --add names.accept "$(printf -- 'aux.\042\047\045s\011\001\303\251 ')"
git config --add names.accept aux.c
git config --add names.accept "$(printf -- 'con .h')"
""",
    )
    assert run(["sh", "-e"], server.path, {}, commands.said) == (0, [])
    # Nothing is left to accept, and a change in the directory is accepted.
    assert scan(server, "--settings", "--to-accept") == ALL_IS_WELL
    assert server.push(source.commit_of("new", *names)) == ACCEPTED


def test_what_can_not_be_accepted_has_no_command_and_is_said_on_standard_error(
    scan, server, source, room
):
    """A name with a backslash could be, but is a path to Windows."""
    tree = source.tree(
        r"a\b",
        "com1",
        "com1\nx",
        b"com1.\xff",
        ".GIT",
        file(".gitmodules", source.bad_modules),
    )
    server.already_has(f"{source.commit(tree)}:refs/heads/HEAD")
    rest = room / "rest"
    result = scan(
        server, "--to-accept", through=["bash", "-c", f'exec "$@" 2> "{rest}"', "-"]
    )
    assert result == Result(1, "git config --add names.accept com1\n")
    assert len(rest.read_text().splitlines()) == 6
