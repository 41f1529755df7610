/* Makes one call on each name of a file, one name a line, so that callgrind can
   count the instructions: the call of libgix_validate_c.a, and the same of the
   Rust crate and of libgit2, as far as they are linked in and have one. With a
   number of milliseconds it makes passes over all names for that long with each
   library, and prints the nanoseconds a name of the best pass of each, or a
   dash. Without one it sends itself the signal 0 before and after the calls,
   for count.c.

   driver CALL NAMES [MILLISECONDS] */
#include <math.h>
#include <signal.h>
#include <stdio.h>
#include <stdlib.h>
#include <string.h>
#include <time.h>
#include <unistd.h>

#include "crate/crate.h"
#include "gix_validate.h"
#ifdef LIBGIT2
#include <git2.h>
#endif

enum { LIBRARIES = 3, ROOM = 1 << 21 };
static uint8_t our_buffer[ROOM], crate_buffer[ROOM];

struct name {
  const uint8_t *bytes;
  size_t len;
};
typedef size_t pass(const struct name *names, size_t count);

/* A call on each name, and the sum of the results, so that no call can be left
   out. */
#define EACH(pass, result)                                                     \
  static size_t pass(const struct name *names, size_t count) {                 \
    size_t sum = 0;                                                            \
    for (size_t i = 0; i < count; i++) {                                       \
      const uint8_t *bytes = names[i].bytes;                                   \
      size_t len = names[i].len;                                               \
      sum += (result);                                                         \
    }                                                                          \
    return sum;                                                                \
  }
EACH(our_tag, gix_validate_tag_name(bytes, len))
EACH(crates_tag, crate_tag(bytes, len))
EACH(our_full, gix_validate_ref(bytes, len))
EACH(crates_full, crate_full(bytes, len))
EACH(our_submodule, gix_validate_submodule(bytes, len, 0))
EACH(crates_submodule, crate_submodule(bytes, len))
EACH(our_component, gix_validate_component(bytes, len, 7))
EACH(crates_component, crate_component(bytes, len, 7))
EACH(our_length, len)
EACH(our_short_branch, gix_validate_branch(bytes, len))
EACH(our_path, gix_validate_path(bytes, len, 7))
EACH(our_sanitize, gix_validate_sanitize(bytes, len, our_buffer, len + 1))
EACH(crates_sanitize, crate_sanitize(bytes, len, crate_buffer))
EACH(in_place, (memcpy(our_buffer, bytes, len),
                gix_validate_sanitize_in_place(our_buffer, len + 1, len)))

/* What is to be done without a call for a path: a call of this function on each
   part between slashes. */
typedef uint32_t component(const uint8_t *name, size_t len, uint32_t flags);
static uint32_t components(component *of, const uint8_t *path, size_t len) {
  uint32_t sum = 0;
  for (const uint8_t *end; (end = memchr(path, '/', len)); path = end + 1) {
    sum += of(path, (size_t)(end - path), 7);
    len -= (size_t)(end - path) + 1;
  }
  return sum + of(path, len, 7);
}
static uint32_t our_part(const uint8_t *name, size_t len, uint32_t flags) {
  return gix_validate_component(name, len, flags);
}
EACH(our_each_component, components(our_part, bytes, len))
EACH(crates_each_component, components(crate_component, bytes, len))
#ifdef CRATE
#define OF_CRATE(pass) pass
#else
#define OF_CRATE(pass) NULL
#endif
#ifdef LIBGIT2
#define OF_LIBGIT2(pass) pass
static bool is_valid(int (*valid)(int *, const char *), const uint8_t *bytes) {
  int result = 0;
  return valid(&result, (const char *)bytes) == 0 && result;
}
EACH(libgit2_tag, ((void)len, is_valid(git_tag_name_is_valid, bytes)))
EACH(libgit2_full, ((void)len, is_valid(git_reference_name_is_valid, bytes)))
EACH(libgit2_short_branch,
     ((void)len, is_valid(git_branch_name_is_valid, bytes)))
#else
#define OF_LIBGIT2(pass) NULL
#endif

static const struct call {
  const char *name;
  pass *passes[LIBRARIES];
} calls[] = {
    {"tag", {our_tag, OF_CRATE(crates_tag), OF_LIBGIT2(libgit2_tag)}},
    {"full", {our_full, OF_CRATE(crates_full), OF_LIBGIT2(libgit2_full)}},
    {"submodule", {our_submodule, OF_CRATE(crates_submodule)}},
    {"component", {our_component, OF_CRATE(crates_component)}},
    {"length", {our_length}},
    {"short_branch",
     {our_short_branch, NULL, OF_LIBGIT2(libgit2_short_branch)}},
    {"path", {our_path}},
    {"each_component", {our_each_component, OF_CRATE(crates_each_component)}},
    {"sanitize", {our_sanitize, OF_CRATE(crates_sanitize)}},
    {"sanitize_in_place", {in_place, OF_CRATE(crates_sanitize)}},
};

static const struct call *find(const char *name) {
  for (const struct call *call = calls;
       call < calls + sizeof calls / sizeof *calls; call++)
    if (!strcmp(call->name, name))
      return call;
  fprintf(stderr, "no such call: %s\n", name);
  exit(2);
}

/* The time in nanoseconds. */
static double now(void) {
  struct timespec time;
  clock_gettime(CLOCK_MONOTONIC, &time);
  return (double)time.tv_sec * 1e9 + (double)time.tv_nsec;
}

/* The nanoseconds a name of a pass. */
static double nanoseconds(pass *pass, const struct name *names, size_t count) {
  static volatile size_t sum;
  double start = now();
  sum += pass(names, count);
  return (now() - start) / (double)count;
}

int main(int argc, char **argv) {
  if (argc < 3) {
    fprintf(stderr, "usage: driver CALL NAMES [MILLISECONDS]\n");
    return 2;
  }
  const struct call *call = find(argv[1]);
  struct name *names = NULL;
  char *line = NULL;
  size_t count = 0, room = 0;
  FILE *file = fopen(argv[2], "rb");
  if (!file) {
    perror(argv[2]);
    return 2;
  }
  for (ssize_t len; (len = getline(&line, &room, file)) > 0;) {
    names = realloc(names, (count + 1) * sizeof *names);
    len -= line[len - 1] == '\n';
    names[count++] =
        (struct name){(uint8_t *)strndup(line, (size_t)len), (size_t)len};
  }
#ifdef LIBGIT2
  git_libgit2_init();
#endif
  for (int i = 0; i < LIBRARIES; i++) {
    pass *pass = call->passes[i];
    double best = INFINITY;
    if (pass && argc == 3) {
      kill(getpid(), 0);
      size_t sum = pass(names, count);
      kill(getpid(), 0);
      printf("%zu\n", sum);
    } else if (argc > 3) {
      for (double end = now() + 1e6 * atof(argv[3]); pass && now() < end;)
        best = fmin(best, nanoseconds(pass, names, count));
      printf(pass ? "%.2f\n" : "-\n", best);
    }
  }
  return 0;
}
