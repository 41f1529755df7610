"""wasm.py lookups|addresses: rewrites code between the tools of release/wasm, from standard input to standard output.

lookups     of LLVM code: rattle's target wasm64 has no vectors, so sixteen bytes of a table are looked up one by one.
            WebAssembly's `i8x16.swizzle` does the same at once. What isn't exactly what rattle writes for that stays.
addresses   of WebAssembly's text: wasm-opt 108, which Debian 12 has, makes all addresses 32 bits wide except those of the
            instructions that load a part of a vector, and those that exports take and return. (In JavaScript a number of
            64 bits is a BigInt, which takes as long as a part of a call.)
"""
import re
import sys


def swizzled(found):
    """A lookup at once, if this is what rattle writes for one, from register `first` on. The bytes of the index count by
    their low four bits, and those with the highest bit set give 0."""
    first, index, table = map(int, found.groups())
    values = [f"and <16 x i8> %r{index}, splat (i8 15)"]
    for lane in range(16):
        at = first + len(values)
        values += [
            f"extractelement <16 x i8> %r{first}, i32 {lane}",
            f"zext i8 %r{at} to i64",
            f"add i64 %r{at + 1}, 0",
            f"mul i64 %r{at + 2}, 1",
            f"getelementptr i8, ptr %r{table}, i64 %r{at + 3}",
            f"load i8, ptr %r{at + 4}, align 1, !noundef !1",
        ]
    joined = "zeroinitializer"
    for lane in range(16):
        values.append(
            f"insertelement <16 x i8> {joined}, i8 %r{first + 6 * lane + 6}, i32 {lane}"
        )
        joined = f"%r{first + len(values) - 1}"
    result = first + len(values) + 1
    values += [
        f"icmp sge <16 x i8> %r{index}, zeroinitializer",
        f"select <16 x i1> %r{result - 1}, <16 x i8> {joined}, <16 x i8> zeroinitializer",
    ]
    if found[0] != "".join(
        f"  %r{at} = {value}\n" for at, value in enumerate(values, first)
    ):
        return found[0]
    return (
        f"  %l{result} = load <16 x i8>, ptr %r{table}, align 1\n"
        f"  %i{result} = and <16 x i8> %r{index}, splat (i8 -113)\n"  # (0x8F; from 16 on `swizzle` gives 0)
        f"  %r{result} = call <16 x i8> @llvm.wasm.swizzle(<16 x i8> %l{result}, <16 x i8> %i{result})\n"
    )


def lookups(code):
    code = re.sub(
        r"  %r(\d+) = and <16 x i8> %r(\d+), splat \(i8 15\)\n"
        r"(?:.*\n){4}.* = getelementptr i8, ptr %r(\d+), .*\n(?:.*\n){109}",
        swizzled,
        code,
    )
    if "@llvm.wasm.swizzle" not in code:
        raise SystemExit("wasm.py: the code has no lookup as rattle wrote it")
    return code + "\ndeclare <16 x i8> @llvm.wasm.swizzle(<16 x i8>, <16 x i8>)\n"


def exported(text, name, function):
    """An export of this name that calls a function, with 32 bits wherever that has 64."""
    head = re.search(rf"(?m)^ \(func {re.escape(function)} (.*)$", text)[1]
    params = re.findall(r"\(param \S+ (\w+)\)", head)
    given = (f"(local.get {at})" for at in range(len(params)))
    wide = (
        f"(i64.extend_i32_u {it})" if kind == "i64" else it
        for it, kind in zip(given, params)
    )
    call = f"(call {function} {' '.join(wide)})"
    if "(result i64)" in head:
        call = f"(i32.wrap_i64 {call})"
    types = f"(param {' '.join('i32' for _ in params)}) (result i32)"
    return f' (export "{name}" (func ${name}))\n (func ${name} {types} {call})\n'


def heap_base(text, name):
    """The export of an address that is this global, as 32 bits."""
    [at] = re.findall(rf"\(global {re.escape(name)} i64 \(i64\.const (\d+)\)\)", text)
    return f' (export "__heap_base" (global $heap_base))\n (global $heap_base i32 (i32.const {at}))\n'


def addresses(text):
    """Puts `i32.wrap_i64` around the first operand of these instructions, unless it is there. (wasm-opt writes an
    operand on lines of its own, whose first and last have one space more.) Each export becomes a function of its own.
    """
    operand = r"\2 \((?!i32\.wrap_i64).*\n(?:\2  .*\n)*(?:\2 \)\n)?"
    text = re.sub(
        rf"(?m)^(( *)\(v128\.load\d+_(?:splat|zero|lane).*\n)({operand})",
        r"\1(i32.wrap_i64\n\3)\n",
        text,
    )
    text = re.sub(
        r'(?m)^ \(export "(gix_validate_\w+)" \(func (\S+)\)\)\n',
        lambda it: exported(text, *it.groups()),
        text,
    )
    return re.sub(
        r'(?m)^ \(export "__heap_base" \(global (\S+)\)\)\n',
        lambda it: heap_base(text, it[1]),
        text,
    )


sys.stdout.write(
    {"lookups": lookups, "addresses": addresses}[sys.argv[1]](sys.stdin.read())
)
