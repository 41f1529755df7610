"""A program in C that passes random names to all functions of the header, for each kind of name, in several shared objects,
and compares what they return and write: `compare COUNT SEED LIBRARY..`. At last it says how many differ, and how many faults
there were."""
from release.languages import exports

from .tools import HEADER

# How many kinds there are.
KINDS = 12
# What the rules speak of, as C has it.
PARTS = r"""
/ . .. @{ @ * .lock lock refs/ heads/ HEAD a B _ - ~1 git GIT~1 .git .gitmodules gitmod gi7eba \\ : con NUL aux com1
lpt\xc2\xb9 conin$ \x20 \xe2\x80\x8c \xef\xbb\xbf \xe2 \x7f \x01 \xff \xc3\xa9 ~4 ::$INDEX_ALLOCATION x abcdefgh
0123456789abcdef \n
""".split()
PROGRAM = r"""
#define _GNU_SOURCE
#include "gix_validate.h"
#include <dlfcn.h>
#include <inttypes.h>
#include <stdio.h>
#include <stdlib.h>

enum {{ SIZE = 256, MOST = 8, KINDS = {kinds}, CALLS = {count} }};
static const char *const names[] = {{{names}}};
static const bool returns_fault[] = {{{returns_fault}}};
static const char *const parts[] = {{{parts}}};

static uint64_t state;
static uint32_t random_number(void) {{
  state ^= state << 13;
  state ^= state >> 7;
  state ^= state << 17;
  return (uint32_t)(state >> 11);
}}
static bool one_of(uint32_t count) {{ return random_number() % count == 0; }}

/* What a call is given, and what it returns and writes. */
struct given {{
  uint8_t name[SIZE];
  size_t length, room;
  uint32_t number, kind;
}};
struct outcome {{
  uint64_t result;
  uint8_t buffer[SIZE];
}};

static void call(unsigned number, void *at, const struct given *it, struct outcome *out) {{
  memcpy(out->buffer, it->name, SIZE);
  switch (number) {{
{cases}
  }}
}}

/* Some parts of what the rules speak of, some bytes, some in capitals. */
static void make_up(struct given *it) {{
  memset(it, 1, sizeof *it);
  it->length = 0;
  for (uint32_t left = random_number() % 9; left > 0; left--) {{
    const char *part = parts[random_number() % (sizeof parts / sizeof *parts)];
    size_t size = strlen(part);
    memcpy(it->name + it->length, part, size);
    if (one_of(8)) {{
      it->name[it->length] = (uint8_t)random_number();
      size = 1;
    }}
    it->length += size;
  }}
  for (size_t i = 0; i < it->length; i++)
    if (it->name[i] >= 'a' && it->name[i] <= 'z' && one_of(16))
      it->name[i] -= 32;
  it->room = one_of(4) ? random_number() % SIZE : SIZE;
  it->number = one_of(2) ? it->name[0] : random_number();
  it->kind = random_number() % (KINDS + 1);
}}

int main(int count, char **arguments) {{
  void *functions[MOST][CALLS];
  int libraries = count - 3;
  if (libraries < 2 || libraries > MOST)
    return 2;
  for (int l = 0; l < libraries; l++) {{
    void *library = dlopen(arguments[l + 3], RTLD_NOW | RTLD_LOCAL);
    for (unsigned f = 0; f < CALLS; f++)
      if (library == NULL || (functions[l][f] = dlsym(library, names[f])) == NULL) {{
        puts(dlerror());
        return 2;
      }}
  }}
  state = strtoull(arguments[2], NULL, 10) | 1;
  uint64_t differ = 0, faults = 0;
  struct given it;
  for (long left = atol(arguments[1]); left > 0; left--) {{
    make_up(&it);
    for (unsigned f = 0; f < CALLS; f++) {{
      struct outcome first, other;
      call(f, functions[0][f], &it, &first);
      if (returns_fault[f] && first.result < 64)
        faults |= 1ull << first.result;
      for (int l = 1; l < libraries; l++) {{
        call(f, functions[l][f], &it, &other);
        if (first.result != other.result || memcmp(first.buffer, other.buffer, SIZE) != 0)
          if (differ++ < 5) {{
            printf("%s, call %u of %s, kind %" PRIu32 ", number %" PRIu32 ", room %zu:", arguments[l + 3], f, names[f],
                   it.kind, it.number, it.room);
            for (size_t i = 0; i < it.length; i++)
              printf(" %02x", it.name[i]);
            puts("");
          }}
      }}
    }}
  }}
  printf("%" PRIu64 " differ, %d faults\n", differ, __builtin_popcountll(faults >> 1));
  return differ != 0;
}}
"""


def given_to(params, of):
    """What a function gets for its parameters: a length is that of the pointer before it."""
    pointer = ""
    for kind, word in params:
        if word.startswith("*"):
            pointer = "it->name" if kind.startswith("const ") else "out->buffer"
            yield f"({kind} *){pointer}"
        elif kind == "size_t":
            yield "it->room" if pointer == "out->buffer" else "it->length"
            pointer = ""
        else:
            yield of if word == "kind" else f"({kind})it->number"


def calls():
    """The functions and what they get. The fault is compared for each kind, and for a number that is none. What else
    has a kind gets one of these."""
    for _, name, params in exports(HEADER.read_text()):
        is_each = name == "gix_validate_fault_of"
        for of in range(KINDS + 1) if is_each else ["it->kind"]:
            yield name, ", ".join(given_to(params, str(of)))


def program():
    """The text of the program."""
    every = [*calls()]
    cases = [
        f"  case {at}:\n    out->result = ((__typeof__({name}) *)at)({given});\n    break;"
        for at, (name, given) in enumerate(every)
    ]
    return PROGRAM.format(
        kinds=KINDS,
        count=len(every),
        names=", ".join(f'"{name}"' for name, _ in every),
        parts=", ".join(f'"{it}"' for it in PARTS),
        cases="\n".join(cases),
        returns_fault=", ".join(
            str(name == "gix_validate_fault_of").lower() for name, _ in every
        ),
    )
