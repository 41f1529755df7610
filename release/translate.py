"""Translates the functions for C from WebAssembly to C99, Go or Rust, for targets without machine code.

    python3 -m release.translate c|go|rust MODULE.wat HEADER > FILE

MODULE.wat is what `wasm2wat --enable-all` writes of the module that release/portable makes: its addresses have 64 bits, it
is position-independent and has no vectors. HEADER is gix_validate.h, which says what is exported.

WebAssembly's instructions work on a stack. Here each value on it is an expression, which is written to a variable (i or j,
for 32 and 64 bits, and its depth) before anything changes that it depends on. A jump stays one. An instruction that isn't
known is an error.
"""

import argparse
import re
import sys
from dataclasses import dataclass
from pathlib import Path

from release.languages import LANGUAGES

OPERATORS = {"add": "+", "sub": "-", "mul": "*", "and": "&", "or": "|", "xor": "^"}
COMPARISONS = {"eq": "==", "ne": "!=", "lt": "<", "gt": ">", "le": "<=", "ge": ">="}
LETTERS = {"u32": "i", "u64": "j"}
ACCESS = re.compile(r"(i32|i64)\.(load|store)(8|16|32)?(?:_([su]))?")
# What rattle calls of its runtime. The functions for C aren't called by each other.
ENTER, LEAVE, TRAP = "$__rattle_enter", "$__rattle_leave", "$__rattle_trap"
# Functions of the linker and of the runtime, which nothing else needs.
FOREIGN = {"$__wasm_call_ctors", "$__wasm_apply_data_relocs", ENTER, LEAVE, TRAP}
MEMORY, STACK_POINTER = "memory", "stack pointer"


class Unknown(Exception):
    """What the module has, and this can't translate."""


@dataclass(frozen=True)
class Value:
    """An expression, its type (u32 or u64), and the variables and the state that it depends on. It may be known to be a
    constant, or the number of a condition."""

    kind: str
    text: str
    needs: frozenset = frozenset()
    condition: str = ""
    number: int | None = None

    @property
    def bits(self):
        return int(self.kind[1:])

    @property
    def is_true(self):
        return self.condition or f"{self.text} != 0"


@dataclass
class Code:
    """A function, as the module has it."""

    name: str
    params: list
    result: str
    locals: list
    steps: list


class Function:
    """A function, as far as it is translated."""

    def __init__(self, module, code, language):
        self.module, self.code, self.language = module, code, language
        self.types = code.params + code.locals
        self.result = code.result
        self.lines, self.stack = [], []
        # Of each open block its kind, its label, and how many values were on the stack.
        self.blocks = [("block", "L0", 0)]
        self.labels, self.targets, self.variables = 0, set(), {}
        # How many blocks have to end until a step is reached again.
        self.unreached = 0
        self.calls = set()
        for step in code.steps:
            self.step(*step)
        if not self.unreached:
            self.give_back()
        if "L0" in self.targets and self.result:
            raise Unknown("a branch out of a function with a result")

    def step(self, op, *words):
        if self.unreached and not self.is_reached_again(op):
            return
        if found := ACCESS.fullmatch(op):
            kind, what, bits, sign = found.groups()
            offset = next((int(it[7:]) for it in words if it.startswith("offset=")), 0)
            access = self.load if what == "load" else self.store
            access(unsigned(kind), int(bits or kind[1:]), sign == "s", offset)
        elif op in STEPS:
            STEPS[op](self, *words)
        else:
            kind, _, name = op.partition(".")
            if kind not in ("i32", "i64"):
                raise Unknown(f"the instruction {op}")
            self.compute(unsigned(kind), name, *words)

    def is_reached_again(self, op):
        """Whether this step, to which nothing leads, ends the block that nothing leaves here."""
        self.unreached += op in ("block", "loop")
        if self.unreached > 1:
            self.unreached -= op == "end"
            return False
        return op == "end"

    def emit(self, *lines):
        self.lines += lines

    # Values.

    def push(self, kind, text, *of, **known):
        needs = frozenset().union(*(it.needs for it in of))
        self.stack.append(Value(kind, text, needs, **known))

    def push_constant(self, kind, number):
        number &= (1 << int(kind[1:])) - 1
        self.push(kind, self.language.constant(kind, number), number=number)

    def push_condition(self, condition, *of):
        self.push("u32", self.language.as_number(condition), *of, condition=condition)

    def push_now(self, kind, text):
        """Pushes a value that is computed here, once."""
        self.spill(f"{LETTERS[kind]}{len(self.stack)}")
        self.stack.append(Value(kind, text))
        self.write(len(self.stack) - 1)

    def write(self, depth):
        """Writes a value to the variable of its depth."""
        value = self.stack[depth]
        own = f"{LETTERS[value.kind]}{depth}"
        if any(own in lower.needs for lower in self.stack[:depth]):
            raise Unknown(f"a value that {own} would change")
        self.variables[own] = value.kind
        self.emit(f"{own} = {value.text}{self.language.END}")
        self.stack[depth] = Value(value.kind, own, frozenset([own]))

    def spill(self, changes=None):
        """Writes the values to variables that depend on what changes, or all but constants."""
        for depth, value in enumerate(self.stack):
            own = f"{LETTERS[value.kind]}{depth}"
            is_asked = (
                value.number is None if changes is None else changes in value.needs
            )
            if is_asked and value.text != own:
                self.write(depth)

    # Blocks and jumps.

    def open(self, kind):
        self.spill()
        self.labels += 1
        label = f"L{self.labels}"
        self.blocks.append((kind, label, len(self.stack)))
        self.emit(*self.language.opened(kind, label))

    def end(self):
        is_reached = not self.unreached
        self.unreached = 0
        if is_reached:
            self.spill()
        kind, label, height = self.blocks.pop()
        del self.stack[height:]
        self.emit(*self.language.closed(kind, label, is_reached))

    def jump(self, relative):
        kind, label, _ = self.blocks[-1 - int(relative)]
        self.targets.add(label)
        return self.language.jump(kind, label)

    def br(self, relative):
        self.spill()
        self.emit(self.jump(relative))
        self.unreached = 1

    def br_if(self, relative):
        asked = self.stack.pop()
        if asked.number is not None:
            if asked.number:
                self.br(relative)
            return
        self.spill()
        self.emit(self.language.when(asked.is_true, self.jump(relative)))

    def br_table(self, *targets):
        asked = self.stack.pop()
        self.spill()
        *cases, otherwise = targets
        jumps = [(at, self.jump(it)) for at, it in enumerate(cases) if it != otherwise]
        self.emit(*self.language.switch(asked.text, jumps, self.jump(otherwise)))
        self.unreached = 1

    def give_back(self):
        result = f" {self.stack[-1].text}" if self.result else ""
        self.emit(f"return{result}{self.language.END}")
        self.unreached = 1

    def trap(self):
        self.emit(self.language.TRAP)
        self.unreached = 1

    # Locals, globals and calls.

    def drop(self):
        self.stack.pop()

    def local_get(self, at):
        name = f"x{at}"
        self.stack.append(Value(self.types[int(at)], name, frozenset([name])))

    def local_set(self, at):
        self.assign(f"x{at}", self.stack.pop())

    def local_tee(self, at):
        self.local_set(at)
        self.local_get(at)

    def assign(self, name, value):
        self.spill(name)
        if value.text != name:
            self.emit(f"{name} = {value.text}{self.language.END}")

    def global_get(self, name):
        if name == "$__memory_base":
            self.push("u64", self.language.BASE)
        elif name == "$__stack_pointer":
            needs = frozenset([STACK_POINTER])
            self.stack.append(Value("u64", self.language.STACK_POINTER, needs))
        else:
            raise Unknown(f"the global {name}")

    def global_set(self, name):
        if name != "$__stack_pointer":
            raise Unknown(f"the global {name}, which is set")
        value = self.stack.pop()
        self.spill(STACK_POINTER)
        self.emit(f"{self.language.STACK_POINTER} = {value.text}{self.language.END}")

    def call(self, name):
        if name == ENTER:
            self.push_constant("u32", 0)  # (no call is inside another)
        elif name == TRAP:
            self.trap()  # (it doesn't return)
        elif name != LEAVE:
            self.call_own(name)

    def call_own(self, name):
        called = self.module.codes[name]
        height = len(self.stack) - len(called.params)
        given = [it.text for it in self.stack[height:]]
        del self.stack[height:]
        self.spill(MEMORY)
        self.spill(STACK_POINTER)
        self.calls.add(name)
        words = ", ".join([*self.language.GIVEN, *given])
        text = f"{self.module.name_of(name[1:])}({words})"
        if called.result:
            self.push_now(called.result, text)
        else:
            self.emit(text + self.language.END)

    # Memory.

    def address(self, offset):
        at = self.stack.pop()
        if not offset:
            return at.text, at
        by = self.language.constant("u64", offset)
        return self.language.wrapping("+", at.text, by), at

    def load(self, kind, bits, is_signed, offset):
        at, address = self.address(offset)
        text = self.language.load(bits, at)
        if is_signed:
            text = self.language.cast(f"i{bits}", text)
        if is_signed or bits != int(kind[1:]):
            text = self.language.cast(kind, text)
        needs = address.needs | {MEMORY}
        self.stack.append(Value(kind, text, needs))

    def store(self, kind, bits, _is_signed, offset):
        value = self.stack.pop()
        at, _ = self.address(offset)
        self.spill(MEMORY)
        text = value.text
        if bits != int(kind[1:]):
            text = self.language.cast(f"u{bits}", text)
        self.emit(self.language.store(bits, at, text))

    def bulk(self, what):
        arguments = [it.text for it in self.stack[-3:]]
        del self.stack[-3:]
        self.spill(MEMORY)
        self.emit(self.language.bulk(what, *arguments))

    # Numbers.

    def select(self):
        asked, no, yes = self.stack.pop(), self.stack.pop(), self.stack.pop()
        text = self.language.chosen(asked.is_true, yes.text, no.text)
        if text:
            self.push(no.kind, text, asked, no, yes)
            return
        chosen, end = f"{LETTERS[no.kind]}s", self.language.END
        self.variables[chosen] = no.kind
        self.emit(f"{chosen} = {no.text}{end}")
        self.emit(self.language.when(asked.is_true, f"{chosen} = {yes.text}{end}"))
        self.push_now(no.kind, chosen)

    def compute(self, kind, name, *words):
        if name == "const":
            self.push_constant(kind, int(words[0]))
        elif name in UNARY:
            UNARY[name](self, kind, self.stack.pop())
        elif len(self.stack) > 1:
            right, left = self.stack.pop(), self.stack.pop()
            self.compute_of_two(kind, name, left, right)
        else:
            raise Unknown(f"the instruction {name}")

    def compute_of_two(self, kind, name, left, right):
        language = self.language
        compared, _, sign = name.partition("_")
        if name in OPERATORS:
            text = language.wrapping(OPERATORS[name], left.text, right.text)
            self.push(kind, text, left, right)
        elif name in ("shl", "shr_u", "shr_s"):
            self.push(kind, self.shifted(kind, name, left, right), left, right)
        elif name == "rotl":
            text = language.rotated(left.bits, left.text, right.text)
            self.push(kind, text, left, right)
        elif compared in COMPARISONS and sign in ("", "u", "s"):
            texts = [
                language.signed(it) if sign == "s" else it.text for it in (left, right)
            ]
            self.push_condition(f" {COMPARISONS[compared]} ".join(texts), left, right)
        else:
            raise Unknown(f"the instruction {name}")

    def shifted(self, kind, name, value, by):
        mask = value.bits - 1
        count = f"({by.text} & {mask})" if by.number is None else str(by.number & mask)
        if name == "shr_s":
            signed = self.language.cast(f"i{value.bits}", value.text)
            return self.language.cast(kind, f"({signed} >> {count})")
        return f"({value.text} {'<<' if name == 'shl' else '>>'} {count})"

    def eqz(self, _kind, value):
        if value.number is not None:
            self.push_constant("u32", value.number == 0)
            return
        condition = f"!({value.condition})" if value.condition else f"{value.text} == 0"
        self.push_condition(condition, value)

    def ctz(self, kind, value):
        self.push(kind, self.language.zeros(value.bits, value.text), value)

    def converted(self, kind, value, *through):
        text = value.text
        for it in [*through, kind]:
            text = self.language.cast(it, text)
        self.push(kind, text, value)

    # What is written.

    def frame(self):
        """How many bytes of the stack it takes itself. It subtracts them from the pointer. (It also looks whether that is
        above the end of the stack, as it is.)"""
        steps, sizes = self.code.steps, [0]
        for at, step in enumerate(steps):
            if step == ["global.get", "$__stack_pointer"]:
                following = [
                    it for it in steps[at + 1 : at + 4] if it[0] != "local.tee"
                ]
                (op, *size), (after, *_) = following[:2]
                if op != "i64.const" or after not in (
                    "i64.sub",
                    "i64.lt_s",
                    "i64.gt_s",
                ):
                    raise Unknown(f"a stack of another form in {self.code.name}")
                sizes.append(int(size[0]))
        return max(sizes)

    def head(self):
        """The line that its text begins with, without the brace."""
        name = self.module.name_of(self.code.name[1:])
        return self.language.head(name, self.code.params, self.result)

    def text(self):
        language = self.language
        lines = [*self.lines, *language.finished(self)]
        # (Compilers warn of labels that nothing jumps to.)
        label = re.compile(r"(L\d+):;?")
        lines = [
            it
            for it in lines
            if not (found := label.fullmatch(it)) or found[1] in self.targets
        ]
        body = "".join(f"\t{it}\n" for it in lines)
        words = {*re.findall(r"\b[xij][0-9s]+\b", body)}
        declared = "".join(f"\t{it}\n" for it in self.declared(words, body))
        comment = language.COMMENT.format(self.code.name[1:])
        return f"{comment}\n{self.head()} {{\n{declared}{body}}}"

    def declared(self, words, body):
        """The lines that declare the variables which are used."""
        given = len(self.code.params)
        names = {f"x{at}": kind for at, kind in enumerate(self.types) if at >= given}
        names.update(self.variables)
        for kind in LETTERS:
            if those := [it for it, of in names.items() if of == kind and it in words]:
                yield from self.language.declared(kind, those)
        yield from self.language.unused(body)


def unsigned(kind):
    """The type that i32 or i64 is here."""
    return f"u{kind[1:]}"


# The steps that are no operation on numbers.
STEPS = {
    "block": lambda it: it.open("block"),
    "loop": lambda it: it.open("loop"),
    "end": Function.end,
    "br": Function.br,
    "br_if": Function.br_if,
    "br_table": Function.br_table,
    "return": Function.give_back,
    "unreachable": Function.trap,
    "drop": Function.drop,
    "select": Function.select,
    "call": Function.call,
    "local.get": Function.local_get,
    "local.set": Function.local_set,
    "local.tee": Function.local_tee,
    "global.get": Function.global_get,
    "global.set": Function.global_set,
    "memory.copy": lambda it: it.bulk("copy"),
    "memory.fill": lambda it: it.bulk("fill"),
}
# The operations on one number.
UNARY = {
    "eqz": Function.eqz,
    "ctz": Function.ctz,
    "wrap_i64": Function.converted,
    "extend_i32_u": Function.converted,
    "extend_i32_s": lambda it, kind, value: it.converted(kind, value, "i32"),
    "extend8_s": lambda it, kind, value: it.converted(kind, value, "i8"),
    "extend16_s": lambda it, kind, value: it.converted(kind, value, "i16"),
    "extend32_s": lambda it, kind, value: it.converted(kind, value, "i32"),
}


class Module:
    """The functions and the constants of a module."""

    def __init__(self, text, language, exported):
        self.constants = constants_of(text)
        self.codes = {it.name: it for it in codes_of(text)}
        self.exported = exported
        self.numbers = {name[1:]: at for at, name in enumerate(self.codes)}
        if missing := exported - {*self.numbers}:
            raise Unknown(f"a module without {', '.join(sorted(missing))}")
        self.functions = [Function(self, it, language) for it in self.codes.values()]
        frames = {it.code.name: it for it in self.functions}
        # (Each call may begin in the middle of sixteen bytes.)
        need = max(depth(frames, it) for it in frames)
        self.stack = (need + 63) // 16 * 16

    def name_of(self, name):
        if name in self.exported:
            return "do_" + name.removeprefix("gix_validate_")
        return f"f{self.numbers[name]}"


def depth(functions, name, above=()):
    """How many bytes of the stack a function takes, with those that it calls."""
    if name in above:
        raise Unknown("a function that calls itself")
    it = functions[name]
    below = (depth(functions, called, (*above, name)) for called in it.calls)
    return it.frame() + max(below, default=0)


def constants_of(text):
    """The bytes of the one part of the memory that has some."""
    parts = re.findall(
        r'(?m)^  \(data \$\S+ \(global\.get \$__memory_base\) "(.*)"\)', text
    )
    if len(parts) != 1 or text.count("\n  (data ") != 1:
        raise Unknown("a module whose constants are in several parts")

    def byte(found):
        return bytes([int(found[1], 16)]) if found[1] else found[2]

    return re.sub(rb"\\([0-9a-f]{2})|\\(.)", byte, parts[0].encode("latin-1"))


def codes_of(text):
    """The functions that are translated."""
    whole = r"(?m)^  \(func (\S+) \(type \d+\)(.*)\n((?:    .*\n)*)"
    for name, head, body in re.findall(whole, text.replace("\n)", "\n  )")):
        if name in FOREIGN:
            continue
        params, results, own = (
            [unsigned(it) for it in " ".join(re.findall(pattern, lines)).split()]
            for pattern, lines in [
                (r"\(param ([^)]*)\)", head),
                (r"\(result ([^)]*)\)", head),
                (r"(?m)^    \(local ([^)]*)\)", body),
            ]
        )
        if len(results) > 1:
            raise Unknown(f"{name}, which has several results")
        steps = re.sub(r"\(;.*?;\)|;;.*|\(local .*\)|\)+$", "", body, flags=re.M)
        steps = [it.split() for it in steps.splitlines() if it.strip()]
        yield Code(name, params, *(results or [""]), own, steps)


def main():
    parser = argparse.ArgumentParser(
        prog="python3 -m release.translate",
        description=__doc__,
        formatter_class=argparse.RawDescriptionHelpFormatter,
    )
    parser.add_argument("language", choices=[*LANGUAGES])
    parser.add_argument("module", type=Path, metavar="MODULE.wat")
    parser.add_argument("header", type=Path, metavar="HEADER")
    given = parser.parse_args()
    language = LANGUAGES[given.language](given.header.read_text())
    try:
        module = Module(given.module.read_text("latin-1"), language, language.exported)
    except Unknown as error:
        sys.exit(f"release/translate.py: it can't translate {error}")
    print("\n".join(language.whole(module)))


if __name__ == "__main__":
    main()
