//go:build gc && !purego

#include "textflag.h"

// The functions have the calling convention of C. They need more of the stack than the 800
// bytes that Go promises below a frame. So they get the frame itself, which is large enough,
// as tests/bindings computes. They don't touch R18, which is the system's, and R28: a handler
// of signals finds the goroutine there if there is no cgo.

// ADDRESS is where the function is.
#define ADDRESS \
	MOVD $·block(SB), R9; \
	MOVD at+0(FP), R10; \
	ADD  R10, R9

// CALL_ADDRESS calls it.
#define CALL_ADDRESS \
	ADD  $2032, RSP; \
	CALL (R9); \
	SUB  $2032, RSP

// func callForNumber(at uintptr, name unsafe.Pointer, length, flags, kind uintptr) uintptr
TEXT ·callForNumber(SB), 0, $2048-48
	ADDRESS
	MOVD name+8(FP), R0
	MOVD length+16(FP), R1
	MOVD flags+24(FP), R2
	MOVD kind+32(FP), R3
	CALL_ADDRESS
	MOVD R0, ret+40(FP)
	RET

// func callOfKind(at uintptr, name unsafe.Pointer, length, flags, kind uintptr, out unsafe.Pointer, room uintptr) uintptr
TEXT ·callOfKind(SB), 0, $2048-64
	ADDRESS
	MOVD name+8(FP), R0
	MOVD length+16(FP), R1
	MOVD flags+24(FP), R2
	MOVD kind+32(FP), R3
	MOVD out+40(FP), R4
	MOVD room+48(FP), R5
	CALL_ADDRESS
	MOVD R0, ret+56(FP)
	RET

// func callOfMany(at uintptr, names unsafe.Pointer, length, flags, kind, end uintptr, out unsafe.Pointer, room uintptr) uintptr
TEXT ·callOfMany(SB), 0, $2048-72
	ADDRESS
	MOVD names+8(FP), R0
	MOVD length+16(FP), R1
	MOVD flags+24(FP), R2
	MOVD kind+32(FP), R3
	MOVD end+40(FP), R4
	MOVD out+48(FP), R5
	MOVD room+56(FP), R6
	CALL_ADDRESS
	MOVD R0, ret+64(FP)
	RET

// func callOfName(at uintptr, name unsafe.Pointer, length uintptr, out unsafe.Pointer, room uintptr) uintptr
TEXT ·callOfName(SB), 0, $2048-48
	ADDRESS
	MOVD name+8(FP), R0
	MOVD length+16(FP), R1
	MOVD out+24(FP), R2
	MOVD room+32(FP), R3
	CALL_ADDRESS
	MOVD R0, ret+40(FP)
	RET
