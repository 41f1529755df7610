//go:build gc && !purego

#include "textflag.h"

// The functions have the calling convention of C on Unix, on each system, and keep BX.
// They need more of the stack than the 800 bytes that Go promises below a frame. So they get
// the frame itself, which is large enough, as tests/bindings computes.

// ADDRESS is where the function is.
#define ADDRESS \
	LEAQ ·block(SB), AX; \
	ADDQ at+0(FP), AX

// CALL_ADDRESS calls it on an aligned stack. R10 is its seventh argument, if it has one.
#define CALL_ADDRESS \
	ADJSP $-2016; \
	MOVQ  SP, BX; \
	ANDQ  $~15, SP; \
	MOVQ  R10, 0(SP); \
	CALL  AX; \
	MOVQ  BX, SP; \
	ADJSP $2016

// func callForNumber(at uintptr, name unsafe.Pointer, length, flags, kind uintptr) uintptr
TEXT ·callForNumber(SB), 0, $2048-48
	ADDRESS
	MOVQ name+8(FP), DI
	MOVQ length+16(FP), SI
	MOVQ flags+24(FP), DX
	MOVQ kind+32(FP), CX
	CALL_ADDRESS
	MOVQ AX, ret+40(FP)
	RET

// func callOfKind(at uintptr, name unsafe.Pointer, length, flags, kind uintptr, out unsafe.Pointer, room uintptr) uintptr
TEXT ·callOfKind(SB), 0, $2048-64
	ADDRESS
	MOVQ name+8(FP), DI
	MOVQ length+16(FP), SI
	MOVQ flags+24(FP), DX
	MOVQ kind+32(FP), CX
	MOVQ out+40(FP), R8
	MOVQ room+48(FP), R9
	CALL_ADDRESS
	MOVQ AX, ret+56(FP)
	RET

// func callOfMany(at uintptr, names unsafe.Pointer, length, flags, kind, end uintptr, out unsafe.Pointer, room uintptr) uintptr
TEXT ·callOfMany(SB), 0, $2048-72
	ADDRESS
	MOVQ names+8(FP), DI
	MOVQ length+16(FP), SI
	MOVQ flags+24(FP), DX
	MOVQ kind+32(FP), CX
	MOVQ end+40(FP), R8
	MOVQ out+48(FP), R9
	MOVQ room+56(FP), R10
	CALL_ADDRESS
	MOVQ AX, ret+64(FP)
	RET

// func callOfName(at uintptr, name unsafe.Pointer, length uintptr, out unsafe.Pointer, room uintptr) uintptr
TEXT ·callOfName(SB), 0, $2048-48
	ADDRESS
	MOVQ name+8(FP), DI
	MOVQ length+16(FP), SI
	MOVQ out+24(FP), DX
	MOVQ room+32(FP), CX
	CALL_ADDRESS
	MOVQ AX, ret+40(FP)
	RET

// func hasSSE42() bool
TEXT ·hasSSE42(SB), NOSPLIT, $0-1
	MOVL $1, AX
	XORL CX, CX
	CPUID
	SHRL $20, CX
	ANDL $1, CX
	MOVB CX, ret+0(FP)
	RET
