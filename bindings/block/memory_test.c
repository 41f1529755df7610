/* Tests memory.c, under other names, at each length and overlap up to some: the
   bytes that are written, those around them, and the result. What is wanted is
   read from a copy of all bytes as they were before. */
#define memcpy block_memcpy
#define memmove block_memmove
#define memset block_memset
#include "memory.c"
#include <stdio.h>

enum { SIZE = 200, MOST = 70 };
static unsigned char bytes[SIZE], before[SIZE];
static int failures;

static void fill(void) {
  for (size_t i = 0; i < SIZE; i++) {
    bytes[i] = before[i] = (unsigned char)(i + 1);
  }
}

/* Each byte from `to` on, as many as `length`, is that which was at `from`, or
   `byte` if there is no `from`. All others are as they were. */
static void check(const char *call, const void *result, size_t to,
                  const size_t *from, int byte, size_t length) {
  int wrong = result != bytes + to;
  for (size_t i = 0; i < SIZE; i++) {
    int copied = i >= to && i - to < length;
    int wanted = !copied        ? before[i]
                 : from == NULL ? (unsigned char)byte
                                : before[*from + i - to];
    wrong += bytes[i] != wanted;
  }
  if (wrong != 0) {
    fprintf(stderr, "%s, length %zu, to %zu: %d wrong\n", call, length, to,
            wrong);
    failures++;
  }
}

int main(void) {
  for (size_t length = 0; length <= MOST; length++) {
    for (size_t to = 0; to + length <= 2 * MOST; to++) {
      size_t from = MOST;
      fill();
      check("memmove", memmove(bytes + to, bytes + from, length), to, &from, 0,
            length);
      if (to + length <= from) {
        fill();
        check("memcpy", memcpy(bytes + to, bytes + from, length), to, &from, 0,
              length);
      }
      fill();
      check("memset", memset(bytes + to, 0x1A5, length), to, NULL, 0x1A5,
            length);
    }
  }
  printf("%d wrong\n", failures);
  return failures != 0;
}
