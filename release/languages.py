"""How C, Go and Rust write what release/translate.py translates: the expressions, the statements and the whole file.

An expression may stand before and after an operator. A number is of one of the types u8, u16, u32 and u64, or of the signed
ones, which begin with i. A condition is true or false.
"""

import re
from pathlib import Path

HERE = Path(__file__).resolve().parent
# (WebAssembly's stack and constants are at multiples of 16.)
ROW = 16


def exports(header):
    """The functions that the header declares: the type of the result, the name, and the parameters, each with its type and
    its name, which begins with `*` if it is a pointer."""
    text = re.sub(r"/\*.*?\*/", "", header, flags=re.S)
    declared = r"(?m)^(\w+) (gix_validate_\w+)\(([^)]*)\);"
    for result, name, params in re.findall(declared, text):
        split = [it.split() for it in params.split(",")]
        yield result, name, [(" ".join(it[:-1]), it[-1]) for it in split if it[:-1]]


def written_sizes(params):
    """The parameters to which a function writes a size, which has 64 bits in WebAssembly."""
    return [word[1:] for kind, word in params if kind == "size_t" and word[0] == "*"]


def without_unused(prelude, code):
    """The prelude without the functions that neither the code nor another one calls: compilers warn of these."""
    inline = r"(?m)^static inline \w+ (\w+)\(.*\{(?:.*\}\n|.*\n(?:  .*\n)*\}\n)"
    for found in reversed([*re.finditer(inline, prelude)]):
        others = re.sub(inline, lambda it: "" if it[1] == found[1] else it[0], prelude)
        if not re.search(rf"\b{found[1]}\(", others + code):
            prelude = prelude.replace(found[0], "")
    return prelude


class C:
    """C99."""

    END = ";"
    COMMENT = "/* {} */"
    GIVEN = ["top"]
    STACK_POINTER = "*top"
    BASE = "BASE"
    TRAP = "TRAP();"

    def __init__(self, header):
        self.exports = [*exports(header)]
        self.exported = {name for _, name, _ in self.exports}

    def head(self, name, params, result):
        params = [f"{kind} x{at}" for at, kind in enumerate(params)]
        return f"static {result or 'void'} {name}({', '.join(['u64 *top', *params])})"

    def constant(self, kind, number):
        text = f"{number:#x}" if number > 9 else str(number)
        return text + ("u" if kind == "u32" else "ull")

    def cast(self, kind, text):
        return f"({kind}){text}"

    def signed(self, value):
        return self.cast(f"i{value.bits}", value.text)

    def as_number(self, condition):
        return f"(u32)({condition})"

    def wrapping(self, sign, left, right):
        return f"({left} {sign} {right})"

    def rotated(self, bits, value, by):
        return f"rotated{bits}({value}, {by})"

    def zeros(self, bits, value):
        return f"zeros{bits}({value})"

    def chosen(self, condition, yes, no):
        return f"({condition} ? {yes} : {no})"

    def load(self, bits, at):
        return f"load{bits}({at})"

    def store(self, bits, at, value):
        return f"store{bits}({at}, {value});"

    def bulk(self, what, *arguments):
        return f"{what}_bytes({', '.join(arguments)});"

    def when(self, condition, statement):
        return f"if ({condition}) {statement}"

    def opened(self, kind, label):
        return [f"{label}:;"] if kind == "loop" else []

    def closed(self, kind, label, _is_reached):
        return [f"{label}:;"] if kind == "block" else []

    def jump(self, _kind, label):
        return f"goto {label};"

    def switch(self, number, jumps, otherwise):
        yield f"switch ({number}) {{"
        yield from (f"case {at}: {jump}" for at, jump in jumps)
        yield f"default: {otherwise}"
        yield "}"

    def declared(self, kind, names):
        return [f"{kind} {', '.join(f'{it} = 0' for it in names)};"]

    def finished(self, function):
        """What is below the last line of a function, if something has to be."""
        return ["L0:;", "return;"] if "L0" in function.targets else []

    def unused(self, body):
        return [] if re.search(r"\btop\b", body) else ["(void)top;"]

    def whole(self, module):
        """The lines of the file."""
        prelude = (HERE / "prelude.c").read_text()
        texts = [it.text() for it in module.functions]
        yield without_unused(prelude, "\n".join(texts))
        yield f"#define STACK {module.stack}\n"
        yield f"static ALIGNED const u8 constants[{len(module.constants)}] = {{"
        for row in rows_of(module):
            yield f"  {', '.join(map(str, row))},"
        yield "};\n"
        yield from (f"{it.head()};" for it in module.functions)
        yield from (f"\n{it}" for it in texts)
        for result, name, params in self.exports:
            yield from self.export(module, result, name, params)

    def export(self, module, result, name, params):
        sizes = written_sizes(params)
        given = [
            f"P(&{it[1:]}_written)"
            if it[1:] in sizes
            else f"P({it[1:]})"
            if it.startswith("*")
            else f"(u64){it}"
            if kind == "size_t"
            else it
            for kind, it in params
        ]
        call = f"({result}){module.name_of(name)}({', '.join(['&top', *given])})"
        taken = ", ".join(f"{kind} {it}" for kind, it in params) or "void"
        yield f"\n{result} {name}({taken}) {{\n  CALL;"
        yield from (f"  u64 {it}_written = 0;" for it in sizes)
        if sizes:
            yield f"  {result} returned = {call};"
            yield from (f"  *{it} = (size_t)load64(P(&{it}_written));" for it in sizes)
            call = "returned"
        yield f"  return {call};\n}}"


class Rust(C):
    """Rust 2021, in a module of a crate. A block is a loop that ends at its end."""

    COMMENT = "// {}"
    STACK_POINTER = "(*top)"
    BASE = "base()"
    TRAP = "unreachable!();"
    TYPES = {"uint32_t": "u32", "uint8_t": "u8", "size_t": "usize", "bool": "bool"}

    def head(self, name, params, result):
        params = [f"mut x{at}: {kind}" for at, kind in enumerate(params)]
        arrow = f" -> {result}" if result else ""
        return f"unsafe fn {name}({', '.join(['top: &mut u64', *params])}){arrow}"

    def constant(self, kind, number):
        return (f"{number:#x}" if number > 9 else str(number)) + kind

    def cast(self, kind, text):
        return f"({text} as {kind})"

    def as_number(self, condition):
        return f"(({condition}) as u32)"

    def wrapping(self, sign, left, right):
        name = {"+": "add", "-": "sub", "*": "mul"}.get(sign)
        return (
            f"{left}.wrapping_{name}({right})" if name else f"({left} {sign} {right})"
        )

    def rotated(self, bits, value, by):
        return f"{value}.rotate_left(({by} & {bits - 1}) as u32)"

    def zeros(self, bits, value):
        return f"({value}.trailing_zeros() as u{bits})"

    def chosen(self, condition, yes, no):
        return f"(if {condition} {{ {yes} }} else {{ {no} }})"

    def when(self, condition, statement):
        return f"if {condition} {{ {statement} }}"

    def opened(self, _kind, label):
        return [f"'{label}: loop {{"]

    def closed(self, _kind, label, is_reached):
        return [f"break '{label}; }}"] if is_reached else ["}"]

    def jump(self, kind, label):
        if label == "L0":
            return "return;"
        return f"{'break' if kind == 'block' else 'continue'} '{label};"

    def switch(self, number, jumps, otherwise):
        yield f"match {number} {{"
        yield from (f"{at} => {{ {jump} }}" for at, jump in jumps)
        yield f"_ => {{ {otherwise} }}"
        yield "}"

    def declared(self, kind, names):
        return [f"let mut {it}: {kind} = 0;" for it in names]

    def finished(self, function):
        # (A function with a result ends in a loop only if that doesn't end.)
        is_loop = function.lines[-1].endswith("}")
        return [self.TRAP] if function.result and is_loop else []

    def unused(self, _body):
        return []

    def whole(self, module):
        yield (HERE / "prelude.rs").read_text()
        yield f"const STACK: usize = {module.stack};"
        yield f"static CONSTANTS: Aligned<[u8; {len(module.constants)}]> = Aligned(["
        for row in rows_of(module):
            yield f"    {', '.join(map(str, row))},"
        yield "]);"
        yield from (f"\n{it.text()}" for it in module.functions)
        for result, name, params in self.exports:
            yield from self.export(module, self.TYPES[result], name, params)

    def export(self, module, result, name, params):
        taken, given, sizes = [], ["&mut top"], written_sizes(params)
        for kind, word in params:
            if word[1:] in sizes:
                taken.append(f"{word[1:]}: *mut usize")
                given.append(f"&mut {word[1:]}_written as *mut u64 as usize as u64")
            elif word.startswith("*"):
                pointer = "*const" if kind.startswith("const ") else "*mut"
                taken.append(f"{word[1:]}: {pointer} u8")
                given.append(f"{word[1:]} as usize as u64")
            else:
                taken.append(f"{word}: {self.TYPES[kind]}")
                given.append(f"{word} as {'u64' if kind == 'size_t' else 'u32'}")
        call = f"{module.name_of(name)}({', '.join(given)})"
        call += " != 0" if result == "bool" else f" as {result}"
        yield f"\npub(super) unsafe fn {name}({', '.join(taken)}) -> {result} {{"
        yield "    let mut stack = core::mem::MaybeUninit::<Aligned<[u8; STACK]>>::uninit();"
        yield "    let mut top = stack.as_mut_ptr() as usize as u64 + STACK as u64;"
        yield from (f"    let mut {it}_written = 0u64;" for it in sizes)
        if sizes:
            yield f"    let returned = {call};"
            yield from (
                f"    *{it} = u64::from_le({it}_written) as usize;" for it in sizes
            )
            call = "returned"
        yield f"    {call}\n}}"


class Go(C):
    """Go 1.19. The memory is a slice: the constants, the stack, and what a call is about, so an index outside it panics."""

    END = ""
    COMMENT = "// {}"
    GIVEN = ["s", "m"]
    STACK_POINTER = "s.top"
    BASE = "uint64(0)"
    TRAP = 'panic("unreachable")'

    def head(self, name, params, result):
        params = [f"x{at} {go_type(kind)}" for at, kind in enumerate(params)]
        result = f" {go_type(result)}" if result else ""
        return f"func {name}({', '.join(['s *state', 'm []byte', *params])}){result}"

    def constant(self, kind, number):
        return self.cast(kind, f"{number:#x}" if number > 9 else number)

    def cast(self, kind, text):
        return f"{go_type(kind)}({text})"

    def signed(self, value):
        # (Go wants a constant to fit its type.)
        if value.number is not None and value.number >> (value.bits - 1):
            return self.cast(f"i{value.bits}", value.number - (1 << value.bits))
        return super().signed(value)

    def as_number(self, condition):
        return f"bit({condition})"

    def rotated(self, bits, value, by):
        return f"bits.RotateLeft{bits}({value}, int({by} & {bits - 1}))"

    def zeros(self, bits, value):
        return f"uint{bits}(bits.TrailingZeros{bits}({value}))"

    def chosen(self, condition, yes, no):
        return None

    def load(self, bits, at):
        return f"m[{at}]" if bits == 8 else f"le.Uint{bits}(m[{at}:])"

    def store(self, bits, at, value):
        if bits == 8:
            return f"m[{at}] = {value}"
        return f"le.PutUint{bits}(m[{at}:], {value})"

    def bulk(self, what, *arguments):
        return f"{what}Bytes(m, {', '.join(arguments)})"

    def when(self, condition, statement):
        return f"if {condition} {{ {statement} }}"

    def opened(self, kind, label):
        return [f"{label}:"] if kind == "loop" else []

    def closed(self, kind, label, _is_reached):
        return [f"{label}:"] if kind == "block" else []

    def jump(self, _kind, label):
        return f"goto {label}"

    def switch(self, number, jumps, otherwise):
        yield f"switch {number} {{"
        yield from (f"case {at}: {jump}" for at, jump in jumps)
        yield f"default: {otherwise}"
        yield "}"

    def declared(self, kind, names):
        # (Go wants each variable to be used.)
        used = f"{', '.join('_' * len(names))} = {', '.join(names)}"
        return [f"var {', '.join(names)} {go_type(kind)}", used]

    def finished(self, function):
        if "L0" in function.targets:
            return ["L0:", "return"]
        ends = ("return", "panic", "goto")
        return [] if function.lines[-1].startswith(ends) else [self.TRAP]

    def unused(self, _body):
        return []

    def whole(self, module):
        yield "// Code generated by release/portable of the proved functions. DO NOT EDIT.\n"
        yield "//go:build (!amd64 && !arm64) || !gc || purego\n\npackage gitnames\n"
        yield 'import (\n\t"encoding/binary"\n\t"math/bits"\n)\n'
        yield "var le = binary.LittleEndian\n"
        yield f'const (\n\tstackSize = {module.stack}\n\tconstants = "" +'
        rows = ("".join(f"\\x{it:02x}" for it in row) for row in rows_of(module))
        yield " +\n".join(f'\t\t"{row}"' for row in rows)
        yield ")\n\nvar _ = bits.TrailingZeros32"
        yield from (f"\n{it.text()}" for it in module.functions)
        yield from self.calls(module, self.exports)

    def calls(self, module, functions):
        """The functions by their numbers, which are those of no other form."""
        yield "\n// The functions, as call knows them.\nconst ("
        for at, (_, name, _) in enumerate(functions):
            yield f"\t{at_name(name)}{' = iota' if at == 0 else ''}"
        yield ")\n\n// call calls a function: its arguments and its result are numbers."
        yield "func (s *state) call(at uintptr, x [7]uint64) uint64 {\n\tm := s.m\n\tswitch at {"
        for _, name, params in functions:
            given = [
                f"x[{at}]"
                if word.startswith("*") or kind == "size_t"
                else f"uint32(x[{at}])"
                for at, (kind, word) in enumerate(params)
            ]
            called = f"{module.name_of(name)}({', '.join(['s', 'm', *given])})"
            yield f"\tcase {at_name(name)}:\n\t\treturn uint64({called})"
        yield '\t}\n\tpanic("unreachable")\n}'


def go_type(kind):
    return {"i": "int", "u": "uint"}[kind[0]] + kind[1:]


def at_name(name):
    """What Go's calls name a function of the header."""
    return "at" + name.removeprefix("gix_validate_").title().replace("_", "")


def rows_of(module):
    """The constants, sixteen bytes at a time."""
    return (
        module.constants[at : at + ROW] for at in range(0, len(module.constants), ROW)
    )


LANGUAGES = {"c": C, "go": Go, "rust": Rust}
