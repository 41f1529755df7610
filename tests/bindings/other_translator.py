"""The functions for C by another translator, wasm2c, from the same WebAssembly as release/translate.py reads.

Debian's wasm2c has no memory of 64-bit addresses, so it gets a module without memory: loads and stores are calls of functions,
which the file in C that is made here defines. It also defines the functions of the header.
"""
import re

from release.languages import exports
from release.translate import constants_of

from .tools import HEADER, run

ACCESS = re.compile(
    r"(?m)^( +)(i32|i64)\.(load|store)(8|16|32)?(_[su])?((?: \w+=\d+)*)(\)*)$"
)
BULK = re.compile(r"(?m)^( +)memory\.(copy|fill)(\)*)$")
BEFORE = """\
#include "gix_validate.h"
#include <stdlib.h>
#include "module.h"
#define wasm_rt_trap(code) abort()
#define wasm_rt_is_initialized() 1
#define wasm_rt_register_func_type(...) 0
#define IN struct Z_env_instance_t *unused __attribute__((unused))
u32 Z_envZ___rattle_enter(IN) { return 0; }
void Z_envZ___rattle_leave(IN) {}
void Z_envZ___rattle_trap(IN) { abort(); }
/* (The functions below fill in the module's globals themselves.) */
u64 *Z_envZ___memory_base(IN) { abort(); }
u64 *Z_envZ___stack_pointer(IN) { abort(); }
u64 *Z_envZ___table_base(IN) { abort(); }
"""
# What a load or a store does: the address and the offset are added.
LOAD = """\
{kind} Z_envZ_{name}(IN, u64 at, u64 offset) {{
    {type} value = 0;
    for (unsigned i = 0; i < sizeof value; i++)
        value |= ({type})(({type})((const u8 *)(uintptr_t)(at + offset))[i] << 8 * i);
    return ({kind}){signed}value;
}}
"""
STORE = """\
void Z_envZ_{name}(IN, u64 at, {kind} value, u64 offset) {{
    for (unsigned i = 0; i < sizeof({type}); i++)
        ((u8 *)(uintptr_t)(at + offset))[i] = (u8)(value >> 8 * i);
}}
"""
IN_BULK = {
    "copy": "void Z_envZ_memory_copy(IN, u64 to, u64 from, u64 length) {{\n"
    "    if (length) memmove((u8 *)(uintptr_t)to, (u8 *)(uintptr_t)from, length);\n}}\n",
    "fill": "void Z_envZ_memory_fill(IN, u64 to, u32 byte, u64 length) {{\n"
    "    if (length) memset((u8 *)(uintptr_t)to, (int)byte, length);\n}}\n",
}
# The start of a function of the header: its stack, and its copy of the module.
START = """\
{result} {name}({params}) {{
    u64 stack[512], top = (u64)(uintptr_t)(stack + 512) & ~15ull;
    u64 base = (u64)(uintptr_t)constants;
    Z_module_instance_t module = {{
        .Z_envZ___memory_base = &base, .Z_envZ___stack_pointer = &top}};
    return ({result})Z_moduleZ_{name}({given});
}}
"""


def without_memory(text):
    """The text of the module without memory, and of the functions that it gets in its place."""
    imports, functions = {}, {}

    def access(found):
        before, kind, what, bits, sign, words, after = found.groups("")
        name = f"{kind}_{what}{bits}{sign}"
        kinds = f"u{bits or kind[1:]}", f"u{kind[1:]}"
        if what == "load":
            imports[name] = f"(param i64 i64) (result {kind})"
            signed = f"({kinds[1].replace('u', 's')})(s{bits})" if sign == "_s" else ""
            functions[name] = LOAD.format(
                kind=kinds[1], type=kinds[0], name=name, signed=signed
            )
        else:
            imports[name] = f"(param i64 {kind} i64)"
            functions[name] = STORE.format(kind=kinds[1], type=kinds[0], name=name)
        offset = re.search(r"offset=(\d+)", words)
        offset = f"{before}i64.const {offset[1] if offset else 0}"
        return f"{offset}\n{before}call ${name}{after}"

    def bulk(found):
        name = f"memory_{found[2]}"
        kind = "i64" if found[2] == "copy" else "i32"
        imports[name] = f"(param i64 {kind} i64)"
        functions[name] = IN_BULK[found[2]].format()
        return f"{found[1]}call ${name}{found[3]}"

    text = BULK.sub(bulk, ACCESS.sub(access, text))
    text = re.sub(r'(?m)^  \((?:data|import "env" "memory") .*\n?', "", text)
    lines = (
        f'  (import "env" "{name}" (func ${name} {kind}))\n'
        for name, kind in sorted(imports.items())
    )
    text = text.replace("  (import", f"{''.join(lines)}  (import", 1)
    # (The last line may have ended with the bracket of the module.)
    text += ")" * (text.count("(") - text.count(")"))
    return text, functions


def write(module, folder):
    """Writes the C file of a module's text, and what it includes, into the folder. Returns
    its path."""
    whole = module.read_text("latin-1")
    text, functions = without_memory(whole)
    (folder / "module.wat").write_text(text, "latin-1")
    run("wat2wasm", "--enable-all", "--debug-names", "module.wat", cwd=folder)
    run("wasm2c", "--module-name=module", "module.wasm", "-o", "module.c", cwd=folder)
    constants = ", ".join(map(str, constants_of(whole)))
    lines = [BEFORE, *functions.values(), '#include "module.c"\n']
    lines.append(
        f"__attribute__((aligned(16))) static const u8 constants[] = {{{constants}}};\n"
    )
    for result, name, params in exports(HEADER.read_text()):
        given = (
            f"(u64)(uintptr_t){it.lstrip('*')}" if it.startswith("*") else it
            for _, it in params
        )
        lines.append(
            START.format(
                result=result,
                name=name,
                params=", ".join(f"{kind} {it}" for kind, it in params) or "void",
                given=", ".join(["&module", *given]),
            )
        )
    file = folder / "by_wasm2c.c"
    file.write_text("".join(lines))
    return file
