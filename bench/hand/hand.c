/*
 * hand CALL PASSES FILE: the nanoseconds of a call on the names of the file,
 * one on a line, in the best pass. All are valid, or none. The call is `here`,
 * that of the library; `offset`, the same with the offset of what is wrong; or
 * `hand`, a check that is written by hand, which always has it.
 */
#include "gix_validate.h"
#include <stdio.h>
#include <stdlib.h>
#include <string.h>
#include <time.h>

enum { NAMES = 10000 };
static gix_validate_name names[NAMES];

/* What is wrong with a piece, which begins with this byte of the name. */
static const char *piece_by_hand(const char *name, size_t start, size_t end,
                                 size_t *at) {
  *at = start;
  if (start == end) {
    return "an empty piece";
  }
  if (name[start] == '.') {
    return "a dot at the start";
  }
  *at = end - 5;
  if (end - start >= 5 && memcmp(name + end - 5, ".lock", 5) == 0) {
    return ".lock at the end";
  }
  return NULL;
}

static bool is_bad(unsigned char byte) {
  return byte <= ' ' || byte == 0x7F || strchr(":?[\\^~*", byte) != NULL;
}

/* What is wrong with a byte and the one before it. */
static const char *byte_by_hand(unsigned char byte, char before) {
  if (is_bad(byte)) {
    return "an invalid byte";
  }
  if (byte == '.' && before == '.') {
    return "two dots in a row";
  }
  return byte == '{' && before == '@' ? "@{" : NULL;
}

/* What is wrong with a full name, and where, or NULL. */
static const char *ref_by_hand(const char *name, size_t length, size_t *at) {
  const char *why = NULL;
  size_t start = 0;
  bool is_apart = true;
  for (size_t i = 0; i < length && why == NULL; i++) {
    if (name[i] == '/') {
      why = piece_by_hand(name, start, i, at);
      start = i + 1;
    } else {
      why = byte_by_hand((unsigned char)name[i], i > 0 ? name[i - 1] : '/');
      *at = i;
    }
    is_apart =
        is_apart && (name[i] == '_' || (name[i] >= 'A' && name[i] <= 'Z'));
  }
  if (why != NULL) {
    return why;
  }
  if ((why = piece_by_hand(name, start, length, at)) != NULL) {
    return why;
  }
  *at = length - 1;
  if (name[length - 1] == '.') {
    return "a dot at the end";
  }
  *at = 0;
  return start == 0 && !is_apart ? "no slash" : NULL;
}

static bool is_valid_by_hand(gix_validate_name it) {
  size_t at;
  return ref_by_hand(it.name, it.len, &at) == NULL;
}

static bool is_valid(gix_validate_name it) {
  return gix_validate_ref(it.name, it.len) == GIX_VALIDATE_OK;
}

static bool is_valid_with_offset(gix_validate_name it) {
  gix_validate_result result;
  return gix_validate_check(GIX_VALIDATE_KIND_REF, it.name, it.len, 0,
                            &result) == GIX_VALIDATE_OK;
}

static double now(void) {
  struct timespec it;
  clock_gettime(CLOCK_MONOTONIC, &it);
  return (double)it.tv_sec * 1e9 + (double)it.tv_nsec;
}

/* Reads the names of a file, and returns how many there are. */
static size_t read_names(const char *path) {
  static char bytes[1 << 20];
  FILE *file = fopen(path, "rb");
  size_t length = file == NULL ? 0 : fread(bytes, 1, sizeof bytes - 1, file);
  size_t count = 0;
  bytes[length] = '\0';
  for (char *it = strtok(bytes, "\n"); it != NULL && count < NAMES;
       it = strtok(NULL, "\n")) {
    names[count].name = it;
    names[count++].len = strlen(it);
  }
  return count;
}

/* The nanoseconds of a call in the best pass. */
static double best(bool (*call)(gix_validate_name), long passes, size_t count) {
  double least = 1e18;
  for (long pass = 0; pass < passes; pass++) {
    double start = now();
    size_t valid = 0;
    for (size_t i = 0; i < count; i++) {
      valid += call(names[i]);
    }
    double taken = (now() - start) / (double)count;
    least = taken < least ? taken : least;
    if (count == 0 || (valid != count && valid != 0)) {
      exit(1);
    }
  }
  return least;
}

int main(int count, char **arguments) {
  if (count != 4) {
    return 2;
  }
  bool (*call)(gix_validate_name) =
      strcmp(arguments[1], "hand") == 0     ? is_valid_by_hand
      : strcmp(arguments[1], "offset") == 0 ? is_valid_with_offset
                                            : is_valid;
  size_t read = read_names(arguments[3]);
  printf("%.1f\n", best(call, atol(arguments[2]), read));
  return 0;
}
