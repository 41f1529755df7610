/* Devices that are slow or fail, for tests/programs and tests/memory. Loaded
   before the C library (LD_PRELOAD), this stands in a program for reads of
   standard input, writes to standard output and requests for memory, as these
   variables say:

   DEVICES_SLOW=1      each read and each write moves one byte, and is
                       interrupted once before it does
   DEVICES_READ=N      reads fail once N bytes were read
   DEVICES_WRITE=N     writes fail once N bytes were written
   DEVICES_IDLE=1      where a write would fail, it takes no byte and says that
                       nothing is wrong
   DEVICES_MEMORY=N    the Nth request for memory is refused. Standard error
                       gets a line `refused` then, and a line `kept` at the end
                       of a program that has not given back all that it was
                       given */
#define _DEFAULT_SOURCE
#include <errno.h>
#include <stdlib.h>
#include <sys/syscall.h>
#include <unistd.h>

/* What the C library itself calls malloc and realloc. */
extern void *__libc_malloc(size_t size);
extern void *__libc_realloc(void *block, size_t size);
extern void __libc_free(void *block);

/* How many bytes may still be moved (-1: any number), and whether the last call
   was interrupted. */
struct device {
  long left;
  int was_interrupted;
};

static struct device input = {-1, 0}, output = {-1, 0};
static int is_slow, is_idle;
/* The requests until one is refused, and the blocks that were given and not
   given back. */
static long requests = -1, blocks;

static long number(const char *name) {
  const char *text = getenv(name);
  return text == NULL ? -1 : strtol(text, NULL, 10);
}

/* Before main begins: requests that come earlier are not the program's. */
__attribute__((constructor)) static void read_settings(void) {
  is_slow = getenv("DEVICES_SLOW") != NULL;
  is_idle = getenv("DEVICES_IDLE") != NULL;
  input.left = number("DEVICES_READ");
  output.left = number("DEVICES_WRITE");
  blocks = 0;
  requests = number("DEVICES_MEMORY");
}

/* A call that was to move so many bytes: how many it moves, which count, or -1
   where it is interrupted. */
static ssize_t may_move(struct device *device, size_t count) {
  if (is_slow && count > 0) {
    device->was_interrupted = !device->was_interrupted;
    if (device->was_interrupted) {
      errno = EINTR;
      return -1;
    }
    count = 1;
  }
  if (device->left >= 0 && count > (size_t)device->left)
    count = (size_t)device->left;
  if (device->left > 0)
    device->left -= (long)count;
  return (ssize_t)count;
}

ssize_t read(int descriptor, void *bytes, size_t count) {
  if (descriptor != 0)
    return syscall(SYS_read, descriptor, bytes, count);
  ssize_t some = may_move(&input, count);
  if (some < 0)
    return -1;
  if (some == 0 && count > 0) {
    errno = EIO;
    return -1;
  }
  return syscall(SYS_read, descriptor, bytes, some);
}

ssize_t write(int descriptor, const void *bytes, size_t count) {
  if (descriptor != 1)
    return syscall(SYS_write, descriptor, bytes, count);
  ssize_t some = may_move(&output, count);
  if (some < 0)
    return -1;
  if (some == 0 && count > 0) {
    errno = ENOSPC;
    return is_idle ? 0 : -1;
  }
  return syscall(SYS_write, descriptor, bytes, some);
}

static void note(const char *line, size_t length) {
  syscall(SYS_write, 2, line, length);
}

static int is_refused(void) {
  if (requests <= 0 || --requests > 0)
    return 0;
  note("refused\n", 8);
  errno = ENOMEM;
  return 1;
}

void *malloc(size_t size) {
  void *block = is_refused() ? NULL : __libc_malloc(size);
  blocks += block != NULL;
  return block;
}

void *realloc(void *block, size_t size) {
  void *moved_block = is_refused() ? NULL : __libc_realloc(block, size);
  blocks += block == NULL && moved_block != NULL;
  return moved_block;
}

void free(void *block) {
  blocks -= block != NULL;
  __libc_free(block);
}

__attribute__((destructor)) static void count_blocks(void) {
  if (requests >= 0 && blocks > 0)
    note("kept\n", 5);
}
