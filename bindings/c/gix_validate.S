/*
 * The functions of gix_validate.h as machine code, for x86-64 and AArch64. The
 * block of the processor has to be next to this file. On Linux and other
 * systems with ELF it doesn't make the stack executable, which a file of
 * machine code does otherwise.
 *
 * On x86-64 the functions have the calling convention of Unix, which is not
 * that of Windows.
 */

/* Begins a function. (macOS has names with `_`.) */
.macro gix_validate_function name
    .globl gix_validate_\name, _gix_validate_\name
    .p2align 4
gix_validate_\name:
_gix_validate_\name:
.endm

#if defined(__x86_64__) && !defined(_WIN32)
#include "x86_64.s"
#elif defined(__aarch64__)
#include "aarch64.s"
#else
#error "here compile gix_validate.c"
#endif
#if defined(__ELF__)
.section .note.GNU-stack,"",%progbits
#endif
