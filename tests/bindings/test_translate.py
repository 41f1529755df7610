"""Each instruction on numbers, as release/translate.py writes it in C, Go and Rust, does what Node's WebAssembly does."""
import os
import re
import sys

import pytest

from release.languages import at_name

from .tools import BINDINGS, CC, OUT, ROOT, need, output, run

WIDTHS = {"i32": 32, "i64": 64}
TWO = "add sub mul and or xor shl shr_u shr_s rotl eq ne lt_u lt_s gt_u gt_s le_u le_s ge_u ge_s".split()
ONE = {
    "i32": "i32.eqz i32.ctz i32.extend8_s i32.extend16_s i32.wrap_i64".split(),
    "i64": "i64.eqz i64.ctz i64.extend8_s i64.extend16_s i64.extend32_s i64.extend_i32_u i64.extend_i32_s".split(),
}
# The operand is of the other type.
OTHER_OPERAND = {"i32.wrap_i64", "i64.extend_i32_u", "i64.extend_i32_s"}
C_TYPES = {"i32": "uint32_t", "i64": "size_t"}
CONSTANTS = (0, 1, 7, 31, 33, -1)


def values(kind):
    """Numbers at which instructions go wrong: the ends of the types, and counts of bits."""
    bits = WIDTHS[kind]
    ends = [(1 << n) + d for n in (7, 8, 15, 16, 31, 32, 63) for d in (-1, 0, 1)]
    all_of = {0, 1, 2, 5, bits - 1, bits, bits + 1, 0xA5C3F00F1234567, *ends}
    low = {it % (1 << bits) for it in all_of}
    return sorted(low | {(1 << bits) - it for it in low if it})


def cases():
    """For each instruction the name of a function, the types of its parameters and of its result, and its steps. Of two
    numbers the second may be a constant, and two conditions may be in one."""
    for kind in WIDTHS:
        for op in TWO:
            is_condition = re.match("(eq|ne|lt|gt|le|ge)", op)
            result = "i32" if is_condition else kind
            name = f"{kind}_{op}"
            both = ["local.get 0", "local.get 1", f"{kind}.{op}"]
            yield name, [kind, kind], result, both
            for at, number in enumerate(CONSTANTS):
                steps = ["local.get 0", f"{kind}.const {number}", f"{kind}.{op}"]
                yield f"{name}_c{at}", [kind], result, steps
            if is_condition:
                yield f"{name}_not", [kind, kind], "i32", [*both, "i32.eqz"]
                chosen = ["local.get 0", "local.get 1", *both, "select"]
                yield f"{name}_select", [kind, kind], kind, chosen
        for op in ONE[kind]:
            operand = ({*WIDTHS} - {kind}).pop() if op in OTHER_OPERAND else kind
            result = "i32" if op.endswith("eqz") else kind
            yield op.replace(".", "_"), [operand], result, ["local.get 0", op]


CASES = [(f"gix_validate_{it[0]}", *it[1:]) for it in cases()]


def module():
    """The text of the module, as it is written by hand."""
    for name, params, result, steps in CASES:
        head = f'(func ${name} (export "{name}") (param {" ".join(params)}) (result {result})'
        yield "\n    ".join([head, *steps]) + ")"


def arrays(text):
    """The numbers of each type, as a language has them."""
    for kind in WIDTHS:
        yield text(kind, values(kind))


def calls(one, two):
    """A call of each function with each of its numbers, as a language has it, by whether it has one or two."""
    for name, params, _, _ in CASES:
        text = two if params[1:] else one
        yield text.format(
            name=name,
            kind=params[0],
            number=at_name(name),
        )


@pytest.fixture(scope="module")
def folder(tmp_path_factory):
    """A folder with the module, its text, a header, and what Node computes."""
    need("node", "wat2wasm", "wasm2wat")
    room = tmp_path_factory.mktemp("instructions")
    code = "\n".join(module())
    (room / "node.wat").write_text(f"(module\n{code})")
    run("wat2wasm", "--enable-all", "node.wat", cwd=room)
    base = '(import "env" "memory" (memory i64 0))\n(import "env" "__memory_base" (global $__memory_base i64))'
    data = '(data $numbers (global.get $__memory_base) "\\01\\02")'
    (room / "text.wat").write_text(f"(module\n{base}\n{code}\n{data})")
    run("wat2wasm", "--enable-all", "--debug-names", "text.wat", cwd=room)
    run("wasm2wat", "--enable-all", "text.wasm", "-o", "module.wat", cwd=room)
    declared = (
        f"{C_TYPES[result]} {name}({', '.join(f'{C_TYPES[it]} {x}' for it, x in zip(params, 'ab'))});\n"
        for name, params, result, _ in CASES
    )
    includes = "#include <stdint.h>\n#include <stddef.h>\n#include <string.h>\n"
    (room / "gix_validate.h").write_text(f"{includes}{''.join(declared)}")
    lines = [
        "import {readFileSync} from 'node:fs';\n",
        "const module = new WebAssembly.Module(readFileSync('node.wasm'));\n",
        "const f = new WebAssembly.Instance(module).exports;\n",
        "const lines = [];\nconst say = it => lines.push(it);\n",
        *arrays(in_javascript),
        *calls(
            "for (const a of {kind}) say(unsigned(f.{name}(a)));\n",
            "for (const a of {kind}) for (const b of {kind}) say(unsigned(f.{name}(a, b)));\n",
        ),
        "function unsigned(it) { return typeof it == 'bigint' ? BigInt.asUintN(64, it) : it >>> 0; }\n",
        "console.log(lines.join('\\n'));\n",
    ]
    (room / "node.mjs").write_text("".join(lines))
    return room


def in_javascript(kind, numbers):
    end = "n" if kind == "i64" else ""
    return f"const {kind} = [{', '.join(f'{it}{end}' for it in numbers)}];\n"


@pytest.fixture(scope="module")
def expected(folder):
    numbers = output("node", "node.mjs", cwd=folder)
    assert len({*numbers.split()}) > 500
    return numbers


def translate(language, folder, file):
    words = [sys.executable, "-m", "release.translate", language]
    words += [folder / "module.wat", folder / "gix_validate.h"]
    (folder / file).write_text(output(*words, cwd=ROOT))


def test_in_c(folder, expected):
    translate("c", folder, "functions.c")
    lines = [
        '#include "functions.c"\n#include <inttypes.h>\n#include <stdio.h>\n',
        'static void say(uint64_t it) { printf("%" PRIu64 "\\n", it); }\n',
        *arrays(
            lambda kind, numbers: f"static const {C_TYPES[kind]} {kind}s[] = {{{', '.join(f'{it}u' for it in numbers)}}};\n"
        ),
        "#define EACH(i, list) for (size_t i = 0; i < sizeof list / sizeof *list; i++)\n",
        "int main(void) {\n",
        *calls(
            "  EACH(i, {kind}s) say({name}({kind}s[i]));\n",
            "  EACH(i, {kind}s) EACH(j, {kind}s) say({name}({kind}s[i], {kind}s[j]));\n",
        ),
        "}\n",
    ]
    (folder / "main.c").write_text("".join(lines))
    run(CC, "-w", f"-I{folder}", "-o", folder / "program", folder / "main.c")
    assert output(folder / "program") == expected


def test_in_rust(folder, expected):
    need("rustc")
    translate("rust", folder, "functions.rs")
    types = {"i32": "u32", "i64": "usize"}
    lines = [
        '#![allow(unused)]\nmod functions { include!("functions.rs"); }\nuse functions::*;\n',
        'fn say(it: u64) { println!("{it}"); }\n',
        *arrays(
            lambda kind, numbers: f"const {kind.upper()}: [{types[kind]}; {len(numbers)}] = {numbers};\n"
        ),
        "fn main() { unsafe {\n",
        *calls(
            "    for a in {kind} {{ say({name}(a) as u64) }}\n",
            "    for a in {kind} {{ for b in {kind} {{ say({name}(a, b) as u64) }} }}\n",
        ),
        "} }\n",
    ]
    code = (
        "".join(lines).replace(" in i32 ", " in I32 ").replace(" in i64 ", " in I64 ")
    )
    (folder / "main.rs").write_text(code)
    words = ["--edition=2021", "-C", "overflow-checks=on", "-o", folder / "program_rs"]
    run("rustc", *words, folder / "main.rs")
    assert output(folder / "program_rs") == expected


def test_in_go(folder, expected):
    need("go")
    go = folder / "go"
    go.mkdir()
    translate("go", folder, "go/portable.go")
    parts = (BINDINGS / "go/calls_portable.go").read_text()
    (go / "calls_portable.go").write_text(parts)
    lines = [
        'package gitnames\n\nimport (\n\t"fmt"\n\t"testing"\n)\n\n',
        "func say(it uint64) { fmt.Println(it) }\n\n",
        *arrays(
            lambda kind, numbers: f"var {kind} = []uint64{{{', '.join(map(str, numbers))}}}\n"
        ),
        'func TestAll(t *testing.T) {\n\ts, _ := stateWith("", nil)\n',
        *calls(
            "\tfor _, a := range {kind} {{ say(s.call({number}, [7]uint64{{a}})) }}\n",
            "\tfor _, a := range {kind} {{ for _, b := range {kind} {{ say(s.call({number}, [7]uint64{{a, b}})) }} }}\n",
        ),
        "}\n",
    ]
    (go / "main_test.go").write_text("".join(lines))
    (go / "go.mod").write_text("module example\n\ngo 1.19\n")
    words = ["go", "test", "-count=1", "-vet=off", "-v", "-tags=purego", "."]
    settings = {**os.environ, "GOCACHE": str(OUT / "go"), "GOFLAGS": ""}
    said = output(*words, cwd=go, env=settings)
    assert "\n".join(re.findall(r"(?m)^\d+$", said)) + "\n" == expected
