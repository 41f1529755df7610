/*
 * The functions of gix_validate.h in C99, for targets without machine code.
 * release/portable made this file of the proved functions; don't edit it.
 *
 * It needs no other file but the header, and copies no name: an address is a
 * number of 64 bits, the constants are below, and each call has its own stack
 * on that of C.
 */
#include "gix_validate.h"

typedef uint8_t u8;
typedef uint16_t u16;
typedef uint32_t u32;
typedef uint64_t u64;
typedef int8_t i8;
typedef int16_t i16;
typedef int32_t i32;
typedef int64_t i64;

#if defined(__GNUC__)
#define ALIGNED __attribute__((aligned(16)))
#define TRAP() __builtin_trap()
#else
#include <stdlib.h>
#define TRAP() abort()
#if defined(_MSC_VER)
#define ALIGNED __declspec(align(16))
#else
#define ALIGNED _Alignas(16)
#endif
#endif

/* The constants, and the byte at an address. */
#define BASE ((u64)(uintptr_t)constants)
#define AT(address) ((u8 *)(uintptr_t)(address))

/* WebAssembly has the low byte of a number first. (Compilers read and write
   such a number at once where the processor can.) */
static inline u8 load8(u64 at) { return *AT(at); }
static inline u16 load16(u64 at) {
  const u8 *b = AT(at);
  return (u16)(b[0] | b[1] << 8);
}
static inline u32 load32(u64 at) {
  const u8 *b = AT(at);
  return (u32)b[0] | (u32)b[1] << 8 | (u32)b[2] << 16 | (u32)b[3] << 24;
}
static inline u64 load64(u64 at) {
  return (u64)load32(at) | (u64)load32(at + 4) << 32;
}
static inline void store8(u64 at, u8 value) { *AT(at) = value; }
static inline void store16(u64 at, u16 value) {
  store8(at, (u8)value);
  store8(at + 1, (u8)(value >> 8));
}
static inline void store32(u64 at, u32 value) {
  store16(at, (u16)value);
  store16(at + 2, (u16)(value >> 16));
}
static inline void store64(u64 at, u64 value) {
  store32(at, (u32)value);
  store32(at + 4, (u32)(value >> 32));
}
/* (C's functions may not get NULL, even if the length is 0.) */
static inline void copy_bytes(u64 to, u64 from, u64 length) {
  if (length != 0)
    memmove(AT(to), AT(from), (size_t)length);
}
static inline void fill_bytes(u64 to, u32 byte, u64 length) {
  if (length != 0)
    memset(AT(to), (u8)byte, (size_t)length);
}

static inline u32 rotated32(u32 value, u32 by) {
  return value << (by & 31) | value >> ((32 - by) & 31);
}
static inline u64 rotated64(u64 value, u64 by) {
  return value << (by & 63) | value >> ((64 - by) & 63);
}
#if defined(__GNUC__)
static inline u32 zeros32(u32 value) {
  return value == 0 ? 32 : (u32)__builtin_ctz(value);
}
static inline u64 zeros64(u64 value) {
  return value == 0 ? 64 : (u64)__builtin_ctzll(value);
}
#else
static inline u32 zeros32(u32 value) {
  u32 count = 0;
  while (count < 32 && (value >> count & 1) == 0)
    count++;
  return count;
}
static inline u64 zeros64(u64 value) {
  return (u32)value != 0 ? zeros32((u32)value)
                         : 32u + (u64)zeros32((u32)(value >> 32));
}
#endif

/* The stack of a call grows down from `top`, which is a multiple of 16. */
#define CALL                                                                   \
  u64 stack[STACK / 8 + 2];                                                    \
  u64 top = (u64)(uintptr_t)(stack + STACK / 8 + 2) & ~(u64)15
#define P(pointer) ((u64)(uintptr_t)(pointer))
