/* What rows.c needs of Unix, on Windows. */
#include <windows.h>

enum {
  PROT_NONE = PAGE_NOACCESS,
  PROT_READ = 0,
  PROT_WRITE = PAGE_READWRITE,
  MAP_PRIVATE,
  MAP_ANONYMOUS,
  _SC_PAGESIZE
};
#define MAP_FAILED NULL

static long sysconf(int name) {
  SYSTEM_INFO info;
  (void)name;
  GetSystemInfo(&info);
  return (long)info.dwPageSize;
}

static void *mmap(void *at, size_t length, int access, int flags, int file,
                  long offset) {
  (void)flags, (void)file, (void)offset;
  return VirtualAlloc(at, length, MEM_COMMIT | MEM_RESERVE, (DWORD)access);
}

static int mprotect(void *at, size_t length, int access) {
  DWORD before;
  return VirtualProtect(at, length, (DWORD)access, &before) ? 0 : -1;
}

static int munmap(void *at, size_t length) {
  (void)length;
  return VirtualFree(at, 0, MEM_RELEASE) ? 0 : -1;
}
