/*
 * Replays the rows of tests/rows through the functions of gix_validate.h, and
 * checks what no row can say: texts, repairs, suggestions and numbers into
 * buffers that are too small, large enough and larger; flags with other bits;
 * unknown kinds; NULL with length 0; reads and writes past either end of a
 * name, a buffer and an array; the version. Each name and each buffer is a
 * block of its exact size, so that valgrind sees any byte beyond it.
 *
 *     rows FILE
 *     rows -
 *
 * It prints how many rows were replayed. The status is 1 if a result is wrong.
 * In the place of all this, `rows -` replays rows from standard input, and
 * prints for each `ok` or `wrong`.
 */
#define _DEFAULT_SOURCE /* MAP_ANONYMOUS */
#include "gix_validate.h"

#include <stdio.h>
#include <stdlib.h>
#include <sys/mman.h>
#include <unistd.h>

enum { MORE = 8, CANARY = 0xA5 };

static const char *place = "";
static int failures = 0;

static void expect(bool holds, const char *what) {
  if (!holds) {
    fprintf(stderr, "%s\n    does not hold: %s\n", place, what);
    failures++;
  }
}
#define EXPECT(condition) expect((condition), #condition)

/* A block of its exact size, which has no byte that may be read where that is
   0. */
struct bytes {
  uint8_t *start;
  size_t length;
};

static struct bytes block(size_t length, int fill) {
  struct bytes made = {(uint8_t *)malloc(length), length};
  /* A C library that has no empty blocks is of no use here. */
  if (made.start == NULL) {
    perror("a block of memory");
    exit(1);
  }
  memset(made.start, fill, length);
  return made;
}

static bool all_are(const uint8_t *start, size_t length, int byte) {
  return length == 0 ||
         (*start == byte && memcmp(start, start + 1, length - 1) == 0);
}

static bool same(const uint8_t *left, const void *right, size_t length) {
  return memcmp(left, right, length) == 0;
}

/* The kinds by their words in the rows. Each has its own functions, for bytes
   and for a C string; some of them have flags. */
struct kind {
  const char *word;
  uint32_t number;
  uint32_t (*plain)(const void *, size_t);
  uint32_t (*plain_str)(const char *);
  uint32_t (*under)(const void *, size_t, uint32_t);
  uint32_t (*under_str)(const char *, uint32_t);
};
#define PLAIN(word, KIND, function)                                            \
  { word, GIX_VALIDATE_KIND_##KIND, function, function##_str, NULL, NULL }
#define UNDER(word, KIND, function)                                            \
  { word, GIX_VALIDATE_KIND_##KIND, NULL, NULL, function, function##_str }

static const struct kind kinds[] = {
    PLAIN("branch", BRANCH, gix_validate_branch),
    PLAIN("branch-ref", BRANCH_REF, gix_validate_branch_ref),
    PLAIN("tag", TAG, gix_validate_tag),
    PLAIN("ref", REF, gix_validate_ref),
    PLAIN("partial", PARTIAL, gix_validate_partial),
    PLAIN("tag-name", TAG_NAME, gix_validate_tag_name),
    UNDER("safe-ref", SAFE_REF, gix_validate_safe_ref),
    UNDER("path", PATH, gix_validate_path),
    UNDER("symlink-path", SYMLINK_PATH, gix_validate_symlink_path),
    UNDER("component", COMPONENT, gix_validate_component),
    UNDER("symlink", SYMLINK, gix_validate_symlink),
    UNDER("submodule", SUBMODULE, gix_validate_submodule),
};
enum { KINDS = sizeof kinds / sizeof *kinds };

/* A kind, and the flags under which it is checked. */
struct question {
  const struct kind *kind;
  uint32_t flags;
};

static uint32_t code_of(struct question asked, struct bytes name) {
  return gix_validate_fault_of(name.start, name.length, asked.flags,
                               asked.kind->number);
}

static size_t offset_of(struct question asked, struct bytes name) {
  size_t offset = SIZE_MAX;
  EXPECT(gix_validate_fault_at(name.start, name.length, asked.flags,
                               asked.kind->number,
                               &offset) == code_of(asked, name));
  return offset;
}

static size_t text_of(struct question asked, struct bytes name,
                      struct bytes text) {
  size_t length =
      gix_validate_text_of(name.start, name.length, asked.flags,
                           asked.kind->number, text.start, text.length);
  GIX_VALIDATE_UNPOISON(text.start, text.length);
  return length;
}

static size_t many_of(struct question asked, struct bytes names, uint8_t end,
                      uint8_t *faults, size_t size) {
  return gix_validate_faults_of(names.start, names.length, asked.flags,
                                asked.kind->number, end, faults, size);
}

/* Whatever the buffer's size, the call returns the length of the text. It
   writes the same text into each buffer that the text fits, and changes nothing
   else. */
static void check_texts(struct question asked, struct bytes name,
                        const char *wanted) {
  struct bytes none = {NULL, 0};
  size_t length = text_of(asked, name, none);
  EXPECT(length <= GIX_VALIDATE_TEXT_MAX);
  EXPECT((length == 0) == (code_of(asked, name) == GIX_VALIDATE_OK));
  struct bytes exact = block(length, CANARY);
  EXPECT(text_of(asked, name, exact) == length);
  EXPECT(memchr(exact.start, CANARY, length) == NULL);
  if (*wanted != '\0') {
    EXPECT(length == strlen(wanted) && same(exact.start, wanted, length));
  }
  for (size_t size = 0; size <= GIX_VALIDATE_TEXT_MAX + MORE; size++) {
    struct bytes text = block(size, CANARY);
    size_t written = size < length ? 0 : length;
    EXPECT(text_of(asked, name, text) == length);
    EXPECT(same(text.start, exact.start, written));
    EXPECT(all_are(text.start + written, size - written, CANARY));
    free(text.start);
  }
  free(exact.start);
}

/* Whatever the array's size, the call returns how many names there are. It
   writes the numbers that fit, and changes nothing else. */
static void check_many(struct question asked, struct bytes names, uint8_t end,
                       struct bytes wanted) {
  for (size_t size = 0; size <= wanted.length + MORE; size++) {
    struct bytes faults = block(size, CANARY);
    size_t written = size < wanted.length ? size : wanted.length;
    EXPECT(many_of(asked, names, end, faults.start, size) == wanted.length);
    EXPECT(same(faults.start, wanted.start, written));
    EXPECT(all_are(faults.start + written, size - written, CANARY));
    free(faults.start);
  }
}

/* The name three times in one buffer, each time with a byte after it that it
   doesn't hold, and the last time without: each has the number that it has
   alone. So it has in an array, which needs no such byte. */
static void check_thrice(struct question asked, struct bytes name,
                         uint32_t code) {
  unsigned end = '\n';
  while (name.length > 0 && memchr(name.start, (int)end, name.length) != NULL) {
    end = (end + 1) % 256;
  }
  struct bytes names = block(3 * (name.length + 1), (int)end);
  for (size_t i = 0; i < 3; i++) {
    memcpy(names.start + i * (name.length + 1), name.start, name.length);
  }
  struct bytes numbers = block(3, (int)code);
  EXPECT(code <= UINT8_MAX);
  check_many(asked, names, (uint8_t)end, numbers);
  struct bytes less = block(names.length - 1, 0);
  memcpy(less.start, names.start, less.length);
  numbers.length = name.length == 0 ? 2 : 3;
  check_many(asked, less, (uint8_t)end, numbers);
  gix_validate_name one = {name.start, name.length};
  gix_validate_name array[] = {one, {NULL, 0}, one};
  uint8_t faults[4] = {CANARY, CANARY, CANARY, CANARY};
  struct bytes none = {NULL, 0};
  EXPECT(gix_validate_check_array(asked.kind->number, array, 3, asked.flags,
                                  faults) == 3);
  EXPECT(faults[0] == code && faults[1] == code_of(asked, none) &&
         faults[2] == code && faults[3] == CANARY);
  free(less.start);
  free(numbers.start);
  free(names.start);
}

static void check_sanitized(struct bytes name, struct bytes wanted) {
  size_t least = name.length == 0 ? 1 : name.length;
  for (size_t more = 0; more <= MORE; more += MORE) {
    struct bytes copied = block(least + more, CANARY);
    struct bytes repaired = block(least + more, CANARY);
    memcpy(repaired.start, name.start, name.length);
    EXPECT(gix_validate_sanitize(name.start, name.length, copied.start,
                                 copied.length) == wanted.length);
    EXPECT(gix_validate_sanitize_in_place(repaired.start, repaired.length,
                                          name.length) == wanted.length);
    EXPECT(same(copied.start, wanted.start, wanted.length));
    EXPECT(same(repaired.start, wanted.start, wanted.length));
    EXPECT(all_are(copied.start + least, more, CANARY));
    EXPECT(all_are(repaired.start + least, more, CANARY));
    free(copied.start);
    free(repaired.start);
  }
  struct bytes small = block(least - 1, CANARY);
  EXPECT(gix_validate_sanitize(name.start, name.length, small.start,
                               small.length) == 0);
  EXPECT(gix_validate_sanitize_in_place(small.start, small.length,
                                        name.length) == 0);
  EXPECT(gix_validate_sanitize_in_place(small.start, small.length, SIZE_MAX) ==
         0);
  EXPECT(all_are(small.start, small.length, CANARY));
  free(small.start);
}

/* A buffer that is smaller than the name stays as it is. There may be no
   suggestion. */
static void check_suggested(struct bytes name, struct bytes wanted) {
  for (size_t more = 0; more <= MORE; more += MORE) {
    struct bytes room = block(name.length + more, CANARY);
    EXPECT(gix_validate_suggest(name.start, name.length, room.start,
                                room.length) == wanted.length);
    EXPECT(same(room.start, wanted.start, wanted.length));
    EXPECT(all_are(room.start + name.length, more, CANARY));
    free(room.start);
  }
  if (name.length > 0) {
    struct bytes small = block(name.length - 1, CANARY);
    EXPECT(gix_validate_suggest(name.start, name.length, small.start,
                                small.length) == 0);
    EXPECT(all_are(small.start, small.length, CANARY));
    free(small.start);
  }
  struct question branch = {kinds, 0};
  bool is_valid = code_of(branch, name) == GIX_VALIDATE_OK;
  bool is_itself = wanted.length == name.length &&
                   same(wanted.start, name.start, name.length);
  EXPECT(wanted.length == 0 ? !is_valid : is_valid == is_itself);
  EXPECT(wanted.length == 0 || code_of(branch, wanted) == GIX_VALIDATE_OK);
}

/* Takes the quoted text at *at into a block of its size, and moves *at after
   its closing quote. */
static struct bytes quoted(const char **at) {
  uint8_t decoded[4096];
  size_t length = 0;
  const char *next = *at + 1;
  const char *end = strchr(next, '"');
  if (**at != '"' || end == NULL) {
    fprintf(stderr, "%s\n    has no quoted text here: %s\n", place, *at);
    exit(1);
  }
  while (next < end) {
    unsigned byte = (unsigned char)*next;
    if (byte == '\\' && sscanf(next, "\\x%2x", &byte) == 1) {
      next += 3;
    }
    decoded[length++] = (uint8_t)byte;
    next++;
  }
  *at = end + 1;
  struct bytes exact = block(length, 0);
  memcpy(exact.start, decoded, length);
  return exact;
}

/* The bits of a row's letters. (w is that of Windows' own rules, which has no
   constant: GIX_VALIDATE_PROTECT_WINDOWS also has that of NTFS.) */
static uint32_t flags_of(const char *letters) {
  static const uint32_t values[] = {1, GIX_VALIDATE_PROTECT_HFS,
                                    GIX_VALIDATE_PROTECT_NTFS};
  uint32_t flags = 0;
  for (; *letters != ' ' && *letters != '\0'; letters++) {
    const char *found = strchr("whn", *letters);
    EXPECT(found != NULL);
    flags |= found == NULL ? 0u : values[found - "whn"];
  }
  return flags;
}

/* The number that the header has for a fault. */
static uint32_t number_of(const char *fault, size_t length) {
  for (uint32_t number = 0; number <= UINT8_MAX; number++) {
    const char *name = gix_validate_fault_name(number);
    if (strlen(name) == length && memcmp(name, fault, length) == 0) {
      return number;
    }
  }
  expect(false, "the header has the fault");
  return UINT32_MAX;
}

/* All ways to ask for one number. */
static void check_same(struct question asked, struct bytes name,
                       uint32_t code) {
  const struct kind *kind = asked.kind;
  gix_validate_result result = {UINT32_MAX, SIZE_MAX};
  EXPECT(gix_validate_check(kind->number, name.start, name.length, asked.flags,
                            &result) == code);
  EXPECT(result.fault == code && result.offset == offset_of(asked, name));
  EXPECT(gix_validate_check(kind->number, name.start, name.length, asked.flags,
                            NULL) == code);
  char *string = (char *)block(name.length + 1, '\0').start;
  memcpy(string, name.start, name.length);
  bool is_string = strlen(string) == name.length;
  if (kind->plain != NULL) {
    struct question others = {kind, UINT32_MAX};
    EXPECT(kind->plain(name.start, name.length) == code);
    EXPECT(!is_string || kind->plain_str(string) == code);
    EXPECT(code_of(others, name) == code);
  } else {
    struct question others = {kind, asked.flags | 0xFFFFFFF8u};
    EXPECT(kind->under(name.start, name.length, asked.flags) == code);
    EXPECT(!is_string || kind->under_str(string, asked.flags) == code);
    EXPECT(code_of(others, name) == code);
    EXPECT(offset_of(others, name) == result.offset);
  }
  free(string);
}

/* answer is the fault's name, with a colon and the byte where that is
   InvalidByte, and perhaps `@` and the offset. */
static void check_code(struct question asked, struct bytes name,
                       const char *answer, const char *text) {
  uint32_t code = code_of(asked, name);
  size_t offset = offset_of(asked, name);
  size_t word = strcspn(answer, ":@");
  const char *at = strchr(answer, '@');
  EXPECT(code == number_of(answer, word));
  EXPECT(code == GIX_VALIDATE_OK ? offset == name.length
                                 : offset <= name.length);
  EXPECT(at == NULL || offset == (size_t)strtoul(at + 1, NULL, 10));
  EXPECT((answer[word] == ':') == (code == GIX_VALIDATE_INVALID_BYTE));
  if (answer[word] == ':') {
    unsigned byte = 0;
    EXPECT(sscanf(answer + word, ":%2x", &byte) == 1);
    EXPECT(offset < name.length && name.start[offset] == byte);
  }
  check_same(asked, name, code);
  check_thrice(asked, name, code);
  check_texts(asked, name, text);
}

/* The kind and the flags at the start of a row. */
static struct question question_of(const char *row) {
  struct question asked = {NULL, 0};
  for (size_t i = 0; i < KINDS; i++) {
    size_t length = strlen(kinds[i].word);
    if (strncmp(kinds[i].word, row, length) == 0 &&
        (row[length] == ' ' || row[length] == ':')) {
      asked.kind = &kinds[i];
      asked.flags = row[length] == ':' ? flags_of(row + length + 1) : 0;
    }
  }
  return asked;
}

/* answer is how many names there are, and their faults. */
static void check_row_of_many(struct question asked, unsigned end,
                              struct bytes names, const char *answer) {
  uint8_t decoded[256];
  size_t read = 0;
  size_t count = (size_t)strtoul(answer, NULL, 10);
  for (answer += strcspn(answer, " "); *answer == ' ' && read < sizeof decoded;
       read++) {
    size_t length = strcspn(answer + 1, " ");
    decoded[read] = (uint8_t)number_of(answer + 1, length);
    answer += 1 + length;
  }
  EXPECT(read == count && *answer == '\0');
  struct bytes wanted = {decoded, read};
  check_many(asked, names, (uint8_t)end, wanted);
}

/* A row that is of no kind: it has the result of another function. */
static void check_other(const char *row, struct bytes name,
                        const char *answer) {
  struct bytes wanted = {NULL, 0};
  if (strncmp(row, "sanitize ", 9) == 0) {
    wanted = quoted(&answer);
    check_sanitized(name, wanted);
  } else if (strncmp(row, "suggest ", 8) == 0) {
    wanted = strcmp(answer, "none") == 0 ? block(0, 0) : quoted(&answer);
    check_suggested(name, wanted);
  } else {
    EXPECT(strncmp(row, "device ", 7) == 0);
    bool is_device = gix_validate_is_windows_device(name.start, name.length);
    EXPECT(strcmp(answer, is_device ? "yes" : "no") == 0);
  }
  free(wanted.start);
}

static void check_row(const char *row) {
  const char *at = strchr(row, '"');
  unsigned end = 0;
  bool is_many = sscanf(row, "many:%2x ", &end) == 1;
  struct question asked = question_of(is_many ? row + strlen("many:00 ") : row);
  place = row;
  EXPECT(at != NULL && at > row);
  if (at == NULL) {
    return;
  }
  struct bytes name = quoted(&at);
  const char *answer = at + 1;
  if (is_many && asked.kind != NULL) {
    check_row_of_many(asked, end, name, answer);
  } else if (asked.kind != NULL) {
    char word[64] = "";
    size_t length = strcspn(answer, " ");
    EXPECT(length < sizeof word);
    memcpy(word, answer, length < sizeof word ? length : 0);
    check_code(asked, name, word,
               answer[length] == ' ' ? answer + length + 1 : "");
  } else {
    check_other(row, name, answer);
  }
  free(name.start);
}

/* Passes a name to every function; the results are ignored. */
static void ask_all(struct bytes name) {
  struct bytes none = {NULL, 0};
  uint8_t copy[512];
  for (size_t i = 0; i < KINDS; i++) {
    for (uint32_t flags = 0; flags < (kinds[i].plain == NULL ? 8u : 1u);
         flags++) {
      struct question asked = {&kinds[i], flags};
      (void)code_of(asked, name);
      (void)offset_of(asked, name);
      (void)text_of(asked, name, none);
    }
  }
  (void)gix_validate_is_windows_device(name.start, name.length);
  (void)gix_validate_sanitize(name.start, name.length, copy, sizeof copy);
  (void)gix_validate_suggest(name.start, name.length, copy, sizeof copy);
}

/* Three pages, of which only the one in the middle may be read and written.
   Returns its start. */
static uint8_t *page_alone(size_t page) {
  uint8_t *start = (uint8_t *)mmap(NULL, 3 * page, PROT_NONE,
                                   MAP_PRIVATE | MAP_ANONYMOUS, -1, 0);
  if (start == MAP_FAILED ||
      mprotect(start + page, page, PROT_READ | PROT_WRITE) != 0) {
    perror("pages that may not be read");
    exit(1);
  }
  return start + page;
}

/* Checks the names with each array that is smaller or as large as wanted, and
   ends or starts at the end of a page. */
static void check_arrays(struct bytes names, uint8_t end, uint8_t *page_start,
                         size_t page, size_t wanted) {
  for (size_t i = 0; i < KINDS; i++) {
    struct question asked = {&kinds[i], GIX_VALIDATE_PROTECT_ALL};
    for (size_t size = 0; size <= wanted; size++) {
      EXPECT(many_of(asked, names, end, page_start, size) == wanted);
      EXPECT(many_of(asked, names, end, page_start + page - size, size) ==
             wanted);
    }
  }
}

/* Buffers of names, and arrays of faults, that end or start at a page that may
   not be touched. */
static void check_ends_of_many(void) {
  static const char *const fills[] = {"a\n", "refs/heads/a\n", "\n",
                                      "a.lock/b..\n\n"};
  static const size_t counts[] = {1, 1, 1, 2};
  size_t page = (size_t)sysconf(_SC_PAGESIZE);
  uint8_t *names = page_alone(page);
  uint8_t *faults = page_alone(page);
  place = "buffers and arrays beside pages that may not be read";
  for (size_t f = 0; f < sizeof fills / sizeof *fills; f++) {
    size_t once = strlen(fills[f]);
    for (size_t length = 0; length <= 70; length++) {
      struct bytes at_front = {names, length};
      struct bytes at_end = {names + page - length, length};
      size_t wanted = length / once * counts[f] + (length % once == 0 ? 0 : 1);
      for (size_t i = 0; i < length; i++) {
        at_front.start[i] = at_end.start[i] = (uint8_t)fills[f][i % once];
      }
      check_arrays(at_front, '\n', faults, page, wanted);
      check_arrays(at_end, '\n', faults, page, wanted);
    }
  }
  munmap(names - page, 3 * page);
  munmap(faults - page, 3 * page);
}

/* Names of each length that end or start at a page that may not be read: a read
   past either end stops the program. */
static void check_ends(void) {
  static const char *const fills[] = {"a",  "refs/", "k/",           "x.lock/",
                                      "..", "nul ",  "\xe2\x80\x8c", ".git\\"};
  size_t page = (size_t)sysconf(_SC_PAGESIZE);
  uint8_t *start = page_alone(page) - page;
  place = "names beside pages that may not be read";
  for (size_t f = 0; f < sizeof fills / sizeof *fills; f++) {
    for (size_t length = 0; length <= 130; length++) {
      struct bytes at_front = {start + page, length};
      struct bytes at_end = {start + 2 * page - length, length};
      for (size_t i = 0; i < length; i++) {
        at_front.start[i] = at_end.start[i] =
            (uint8_t)fills[f][i % strlen(fills[f])];
      }
      ask_all(at_front);
      ask_all(at_end);
      (void)gix_validate_sanitize_in_place(at_end.start, length, length);
      (void)gix_validate_sanitize_in_place(at_front.start, length, length);
    }
  }
  munmap(start, 3 * page);
}

/* No pointer is the empty name, and an empty buffer. */
static void check_null(void) {
  place = "NULL with length 0";
  EXPECT(!gix_validate_is_windows_device(NULL, 0));
  uint8_t buffer[4] = {CANARY, CANARY, CANARY, CANARY};
  EXPECT(gix_validate_sanitize(NULL, 0, buffer, sizeof buffer) == 1);
  EXPECT(buffer[0] == '-' && all_are(buffer + 1, 3, CANARY));
  EXPECT(gix_validate_sanitize(NULL, 0, NULL, 0) == 0);
  EXPECT(gix_validate_sanitize_in_place(NULL, 0, 0) == 0);
  EXPECT(gix_validate_sanitize_in_place(NULL, 0, 1) == 0);
  EXPECT(gix_validate_sanitize("a", 1, NULL, 0) == 0);
  EXPECT(gix_validate_suggest(NULL, 0, NULL, 0) == 0);
  EXPECT(gix_validate_suggest("a", 1, NULL, 0) == 0);
  uint8_t text[GIX_VALIDATE_TEXT_MAX];
  EXPECT(gix_validate_text_of(NULL, 0, 0, GIX_VALIDATE_KIND_SUBMODULE, text,
                              sizeof text) ==
         strlen("Submodule names cannot be empty"));
  struct bytes none = {NULL, 0};
  struct bytes three = {(uint8_t *)(uintptr_t) "a\n\nb", 4};
  for (size_t i = 0; i < KINDS; i++) {
    struct question asked = {&kinds[i], GIX_VALIDATE_PROTECT_ALL};
    uint32_t empty = strstr(kinds[i].word, "path") != NULL
                         ? (uint32_t)GIX_VALIDATE_EMPTY_PART
                         : (uint32_t)GIX_VALIDATE_EMPTY;
    EXPECT(code_of(asked, none) == empty);
    EXPECT(offset_of(asked, none) == 0);
    EXPECT(many_of(asked, none, '\n', NULL, 0) == 0);
    EXPECT(many_of(asked, none, '\n', text, sizeof text) == 0);
    EXPECT(many_of(asked, three, '\n', NULL, 0) == 3);
    EXPECT(gix_validate_check_array(kinds[i].number, NULL, 0, 0, NULL) == 0);
  }
}

/* Numbers that are no kind. */
static void check_unknown(void) {
  static const uint32_t numbers[] = {KINDS, KINDS + 1, 255, 256, UINT32_MAX};
  place = "an unknown kind";
  for (size_t i = 0; i < sizeof numbers / sizeof *numbers; i++) {
    uint32_t kind = numbers[i];
    gix_validate_result result = {0, SIZE_MAX};
    uint8_t text[GIX_VALIDATE_TEXT_MAX];
    memset(text, CANARY, sizeof text);
    EXPECT(gix_validate_fault_of("a", 1, 7, kind) == GIX_VALIDATE_UNKNOWN_KIND);
    EXPECT(gix_validate_fault_at("a", 1, 7, kind, &result.offset) ==
           GIX_VALIDATE_UNKNOWN_KIND);
    EXPECT(result.offset == 0);
    result.offset = SIZE_MAX;
    EXPECT(gix_validate_text_of("a", 1, 7, kind, text, sizeof text) == 0);
    EXPECT(all_are(text, sizeof text, CANARY));
    EXPECT(gix_validate_faults_of("a\nb", 3, 7, kind, '\n', text, 4) == 2);
    EXPECT(all_are(text, 2, GIX_VALIDATE_UNKNOWN_KIND));
    EXPECT(all_are(text + 2, sizeof text - 2, CANARY));
    EXPECT(gix_validate_check(kind, "a", 1, 7, &result) ==
           GIX_VALIDATE_UNKNOWN_KIND);
    EXPECT(result.fault == GIX_VALIDATE_UNKNOWN_KIND && result.offset == 0);
  }
}

/* What a name with a NUL is under each set of flags, as the header says. */
static void check_nul(void) {
  static const char name[] = "a\0b";
  place = "a name with a NUL";
  for (uint32_t flags = 0; flags < 8; flags++) {
    bool is_refused = (flags & 5) == 5;
    EXPECT((gix_validate_component(name, 3, flags) != 0) == is_refused);
    EXPECT((gix_validate_symlink(name, 3, flags) != 0) == is_refused);
    EXPECT((gix_validate_submodule(name, 3, flags) != 0) == (flags != 0));
    EXPECT(gix_validate_path(name, 3, flags) != 0);
    EXPECT(gix_validate_symlink_path(name, 3, flags) != 0);
    EXPECT(gix_validate_safe_ref(name, 3, flags) != 0);
  }
}

/* The helpers of the header, and its constants. */
static void check_helpers(void) {
  place = "the helpers for C strings";
  EXPECT(gix_validate_is_windows_device_str("nul.txt"));
  char name[] = "refs//heads/../x.lock";
  EXPECT(gix_validate_sanitize_str(name) == 14 &&
         strcmp(name, "refs/heads/-/x") == 0);
  char empty[] = "";
  EXPECT(gix_validate_sanitize_str(empty) == 0 && *empty == '\0');
  char typed[] = "Fix: it's done..";
  char suggested[sizeof typed];
  EXPECT(gix_validate_suggest_str(typed, suggested, sizeof suggested) == 13);
  EXPECT(strcmp(suggested, "Fix-it's-done") == 0);
  EXPECT(gix_validate_suggest_str("...", suggested, sizeof suggested) == 0);
  EXPECT(*suggested == '\0');
  EXPECT(gix_validate_suggest_str(typed, suggested, sizeof typed - 1) == 0);
  EXPECT(gix_validate_suggest_str(typed, NULL, 0) == 0);
  EXPECT(gix_validate_text_of("a.", 2, GIX_VALIDATE_PROTECT_ALL,
                              GIX_VALIDATE_KIND_COMPONENT, NULL,
                              0) == GIX_VALIDATE_TEXT_MAX);
  EXPECT(gix_validate_version() == GIX_VALIDATE_VERSION);
  place = "Windows includes NTFS";
  EXPECT(gix_validate_path_str("aux.c", GIX_VALIDATE_PROTECT_WINDOWS) ==
         GIX_VALIDATE_WINDOWS_RESERVED_NAME);
  EXPECT(gix_validate_path_str("git~1", GIX_VALIDATE_PROTECT_WINDOWS) ==
         GIX_VALIDATE_DOT_GIT_DIR);
  EXPECT(gix_validate_path_str("aux.c", GIX_VALIDATE_PROTECT_HFS) ==
         GIX_VALIDATE_OK);
  place = "the names and texts of faults";
  EXPECT(number_of("Unknown", 7) > GIX_VALIDATE_DISGUISED);
  EXPECT(number_of("UnknownKind", 11) == GIX_VALIDATE_UNKNOWN_KIND);
  EXPECT(strcmp(gix_validate_fault_name(UINT32_MAX), "Unknown") == 0);
  EXPECT(strcmp(gix_validate_fault_text(GIX_VALIDATE_REPEATED_DOT),
                "it has two dots in a row") == 0);
  for (uint32_t fault = 1; fault <= UINT8_MAX; fault++) {
    bool is_unknown = strcmp(gix_validate_fault_name(fault), "Unknown") == 0;
    EXPECT(*gix_validate_fault_text(fault) != '\0');
    EXPECT((strstr(gix_validate_fault_text(fault), "doesn't know") != NULL) ==
           is_unknown);
  }
}

/* Replays the rows of a file, and prints the outcome of each if this is set.
   Returns how many there are. */
static int check_rows(FILE *file, bool each) {
  char row[4096];
  int rows = 0;
  while (fgets(row, sizeof row, file) != NULL) {
    int before = failures;
    row[strcspn(row, "\n")] = '\0';
    if (*row == '\0' || *row == '#') {
      continue;
    }
    check_row(row);
    rows++;
    if (each) {
      puts(failures == before ? "ok" : "wrong");
      fflush(stdout);
    }
  }
  return rows;
}

int main(int count, char **arguments) {
  if (count == 2 && strcmp(arguments[1], "-") == 0) {
    (void)check_rows(stdin, true);
    return failures == 0 ? 0 : 1;
  }
  FILE *file = count == 2 ? fopen(arguments[1], "r") : NULL;
  if (file == NULL) {
    fprintf(stderr, "usage: rows FILE\n");
    return 2;
  }
  int rows = check_rows(file, false);
  fclose(file);
  check_ends();
  check_ends_of_many();
  check_null();
  check_unknown();
  check_nul();
  check_helpers();
  printf("%d rows, %d wrong\n", rows, failures);
  return failures == 0 && rows > 0 ? 0 : 1;
}
