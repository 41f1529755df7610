"""Go's module, by its own tests and as a user builds it: with the blocks of machine code, and in pure Go."""

import os
import re

import pytest

from .tools import (
    AARCH64_ARCHIVE,
    AARCH64_BLOCK,
    ARCHIVE,
    BINDINGS,
    BLOCK,
    CC,
    OUT,
    PORTABLE_GO,
    ROOT,
    need,
    output,
    run,
)

# (One process runs them all: Go compiles its library for each system, and two at once would both
# compile what they share.)
pytestmark = pytest.mark.xdist_group("go")
MODULE = BINDINGS / "go"
PATH = "dihareku.example/gitnames"
# The blocks by the processor, as Go calls it.
BLOCKS = {"amd64": BLOCK, "arm64": AARCH64_BLOCK}
# What a user needs to build for a processor: nothing that is C's.
PURE_GO = {"CGO_ENABLED": "0", "CC": "false"}
# Processors without a block, of both sizes of addresses and both orders of bytes, and what runs
# a program for them. (qemu-i386 doesn't run Go's programs, but a processor for x86-64 does.)
OTHER_PROCESSORS = {
    "386": [],
    "mips": ["-exec=qemu-mips"],
    "riscv64": ["-exec=qemu-riscv64"],
    "s390x": ["-exec=qemu-s390x"],
}
ENVIRONMENT = {
    **os.environ,
    "GOCACHE": str(OUT / "go"),
    "GOFLAGS": "",
    "GOPROXY": "off",
    "GOTOOLCHAIN": "local",
    "CGO_ENABLED": "1",
}
# The commands that compile, and how they run the compiler and the linker: without garbage
# collection, since these end soon, which takes a fifth less processor time. (Programs have it.)
# Next to other tests they run one at a time.
BUILDING = ("build", "run", "test", "vet")
HOW = ["-toolexec", "env GOGC=off"]
if "PYTEST_XDIST_WORKER" in os.environ:
    HOW = ["-p=1", "-toolexec", "env GOGC=off GOMAXPROCS=1"]
FIRST_CHECK = """package main

import (
	"fmt"

	"dihareku.example/gitnames"
)

func main() {
	fmt.Println(gitnames.CheckTag("v1..2"))
}
"""
SAYS = "gitnames: Reference name cannot contain repeated dots ('.' at byte 3)\n"


@pytest.fixture(autouse=True)
def module_is_built():
    """Fails if the module has other blocks than the Rust crate."""
    need("go", CC)
    for processor, block in BLOCKS.items():
        made = MODULE / f"block_{processor}.s"
        if block.exists() != made.exists():
            pytest.fail("run bindings/go/make", pytrace=False)
        if made.exists() and bytes_in_assembler(made) != bytes_of(block):
            pytest.fail("run bindings/go/make", pytrace=False)


def bytes_of(block):
    """The machine code of a block."""
    words = re.findall("0x([0-9a-f]{16})", block.read_text())
    return b"".join(bytes.fromhex(it)[::-1] for it in words)


def bytes_in_assembler(file):
    numbers = re.findall(r"(?:LONG|WORD) \$0x([0-9a-f]+)", file.read_text())
    return b"".join(bytes.fromhex(it[-8:].rjust(8, "0"))[::-1] for it in numbers)


def go(command, *words, cwd=MODULE, status=0, **environment):
    """What a command of Go prints, and what it says on standard error. It has to end with
    this status."""
    variables = {**ENVIRONMENT, **environment}
    if command in BUILDING:
        words = (*HOW, *words)
    done = run("go", command, *words, status=status, cwd=cwd, env=variables)
    return done.stdout, done.stderr


def minor_version():
    """That of Go, as 19."""
    printed, _ = go("env", "GOVERSION")
    return int(re.match(r"go1\.(\d+)", printed)[1])


def run_tests(*flags, chosen="Test|Example", least=16, **environment):
    """Fails unless the tests and examples of the package whose names have this run, and pass,
    and are at least so many."""
    listed, _ = go("test", f"-list={chosen}", *flags, ".", **environment)
    wanted = re.findall(r"(?m)^(?:Test|Example)\w*", listed)
    how = ["-count=1", "-v", f"-run={chosen}", *flags]
    printed, _ = go("test", *how, ".", **environment)
    assert len(wanted) >= least
    assert re.findall(r"(?m)^--- PASS: (\w+)", printed) == wanted


def program(folder):
    """Makes a user's program, which takes the module from where it is."""
    (folder / "main.go").write_text(FIRST_CHECK)
    go("mod", "init", "example", cwd=folder)
    go("mod", "edit", f"-replace={PATH}={MODULE}", cwd=folder)
    go("mod", "tidy", cwd=folder)
    return folder


def test_go_vet_finds_nothing():
    assert go("vet", "./...") == ("", "")


def test_its_tests_pass_without_cgo():
    run_tests(**PURE_GO)


def test_its_tests_pass_under_the_race_detector():
    run_tests("-race")


def test_its_tests_pass_in_pure_go():
    need(PORTABLE_GO)
    run_tests("-tags=purego", **PURE_GO)


def test_its_tests_with_goroutines_pass_in_pure_go_under_the_race_detector():
    need(PORTABLE_GO)
    run_tests("-race", "-tags=purego", chosen="Goroutines|Stacks", least=2)


def test_its_tests_pass_for_windows(wine):
    run_tests("-exec=wine", GOOS="windows", CGO_ENABLED="0", **wine)


def test_its_tests_pass_for_arm64():
    need("qemu-aarch64", AARCH64_BLOCK)
    run_tests("-exec=qemu-aarch64", GOARCH="arm64", **PURE_GO)


def in_turn():
    """The processors whose turn it is: one, by the commit's hash, since Go compiles its
    library for each. With ALL_TARGETS=true it is the turn of all."""
    if os.environ.get("ALL_TARGETS") == "true":
        return [*OTHER_PROCESSORS]
    commit = output("git", "rev-parse", "HEAD", cwd=ROOT)
    return [[*OTHER_PROCESSORS][int(commit, 16) % len(OTHER_PROCESSORS)]]


@pytest.mark.parametrize("processor", in_turn())
def test_its_tests_pass_for_a_processor_without_a_block(processor):
    need("qemu-s390x", PORTABLE_GO)
    words = ["-vet=off", *OTHER_PROCESSORS[processor]]
    run_tests(*words, GOARCH=processor, **PURE_GO)


def test_each_target_of_go_has_the_block_or_pure_go_and_no_c():
    need(PORTABLE_GO, AARCH64_BLOCK)
    targets, _ = go("tool", "dist", "list")
    assert len(targets.split()) > 40
    for target in targets.split():
        system, processor = target.split("/")
        words = ["list", "-f", "{{.GoFiles}} {{.SFiles}} {{.CgoFiles}} {{.CFiles}}"]
        files, _ = go(*words, ".", GOOS=system, GOARCH=processor)
        has_block = "calls_block.go" in files
        assert has_block == (processor in BLOCKS), target
        assert has_block != ("portable.go" in files), target
        if has_block:
            made = f"[block_{processor}.s calls_{processor}.s]"
            assert files.endswith(f"] {made} [] []\n"), target
        else:
            assert files.endswith("] [] [] []\n"), target


# For each processor how its objdump shows that a function takes bytes of the stack, that it
# calls another, and that it calls what isn't known, and how many bytes a call takes.
STACKS = {
    "amd64": (
        r"\t(?:sub +\$(?P<size>0x[0-9a-f]+),%rsp|(?P<eight>push )|(?P<half>add +\$0xf+80,%rsp))",
        r" R_X86_64_PLT32\t(?:\.text\.)?(.*)-0x4$",
        r"\tcall +\*",
        8,
    ),
    "arm64": (
        r"\tsub\tsp, sp, #(?P<size>0x[0-9a-f]+)$|\tst[pr]\t.*\[sp, #-(?P<pushed>\d+)\]!$",
        r" R_AARCH64_(?:CALL|JUMP)26\t(?:\.text\.)?(.*)$",
        r"\tblr\t|\tsub\tsp, sp, (?!#0x[0-9a-f]+$)|\tst[pr]\t.*\[sp\], #-",
        0,
    ),
}


def stack_of_functions(processor, objdump, archive):
    """How many bytes of the stack each function takes, with those that it calls."""
    takes, called, unknown, of_call = STACKS[processor]
    frames, calls, name = {}, {}, ""
    for line in output(objdump, "-dr", "--no-show-raw-insn", archive).splitlines():
        assert not re.search(unknown, line)
        if found := re.fullmatch(r"[0-9a-f]+ <(.*)>:", line):
            name = found[1]
            frames[name], calls[name] = of_call, set()
        elif found := re.search(takes, line):
            of = found.groupdict()
            frames[name] += int(of["size"] or "0", 16) + int(of.get("pushed") or 0)
            frames[name] += 8 * bool(of.get("eight")) + 128 * bool(of.get("half"))
        elif found := re.search(called, line):
            calls[name].add(found[1])

    def depth(name, above=()):
        assert name not in above
        below = [depth(it, (*above, name)) for it in calls.get(name, ())]
        return frames.get(name, of_call) + max(below, default=0)

    return {name: depth(name) for name in frames}


@pytest.mark.parametrize(
    "processor, objdump, archive",
    [
        ("amd64", "objdump", ARCHIVE),
        ("arm64", "aarch64-linux-gnu-objdump", AARCH64_ARCHIVE),
    ],
)
def test_the_functions_take_less_of_the_stack_than_go_gives_them(
    processor, objdump, archive
):
    need(objdump, archive)
    stacks = stack_of_functions(processor, objdump, archive)
    assert stacks["gix_validate_text_of"] > 300
    calls = (MODULE / f"calls_{processor}.s").read_text()
    frames = re.findall(r"(?m)^TEXT ·call.*\$(\d+)-\d+$", calls)
    assert frames == ["2048"] * 4
    # The stack pointer is moved up, since below a frame Go promises only 800 bytes. (A function
    # may also use 128 bytes below its stack, and 16 are lost to what is aligned.)
    up, down = re.findall(r"\tADJSP +\$-?(\d+)|\t(?:ADD|SUB) +\$(\d+), RSP", calls)
    assert up == down
    assert max(stacks.values()) + 128 + 16 < int("".join(up)) < 2048


@pytest.mark.parametrize("processor", BLOCKS)
def test_a_program_has_the_bytes_of_the_block(processor, tmp_path):
    # (Go's assembler for arm64 writes `WORD $0` wrongly.)
    block = BLOCKS[processor]
    need(block)
    words = ["build", "-o", "program", "."]
    go(*words, cwd=program(tmp_path), GOARCH=processor, **PURE_GO)
    assert bytes_of(block) in (tmp_path / "program").read_bytes()


@pytest.mark.parametrize("tags", ["", "purego"])
def test_random_names_have_the_results_of_the_library_for_c(tags):
    fuzz = ["-run=^$", "-fuzz=FuzzNextToC", "-fuzztime=5000x", "-parallel=2"]
    printed, _ = go("test", f"-tags={tags}", *fuzz, ".")
    assert re.search(r"execs: 50\d\d ", printed)
    assert "\nPASS\n" in printed


def test_a_program_that_replaces_the_module_runs(tmp_path):
    printed, _ = go("run", ".", cwd=program(tmp_path))
    assert printed == SAYS


def test_a_vendored_copy_is_whole(tmp_path):
    folder = program(tmp_path)
    go("mod", "vendor", cwd=folder)
    vendored = folder / "vendor" / PATH / "block_amd64.s"
    assert vendored.read_bytes() == (MODULE / "block_amd64.s").read_bytes()
    printed, _ = go("run", "-mod=vendor", ".", cwd=folder)
    assert printed == SAYS


def test_an_older_processor_is_a_panic_that_says_what_is_needed(tmp_path):
    need("qemu-x86_64")
    go("build", "-o", "program", ".", cwd=program(tmp_path))
    old = ["qemu-x86_64", "-cpu", "core2duo", tmp_path / "program"]
    said = run(*old, status=2).stderr
    assert "panic: gitnames needs a processor with SSE 4.2 (x86-64-v2)" in said
    go("build", "-tags=purego", "-o", "program", ".", cwd=tmp_path)
    assert output(*old) == SAYS
