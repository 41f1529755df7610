//go:build (amd64 || arm64) && gc && !purego

package gitnames

import "unsafe"

// block is the machine code, which make writes, and is no function of Go's.
func block()

// These call the function of C that is at an offset of the block. The stack has room for it,
// and nothing that it is passed outlives it. (So pointers may lead to a stack. Each has to be
// declared as one, since Go moves stacks.)

//go:noescape
func callForNumber(at uintptr, name unsafe.Pointer, length, flags, kind uintptr) uintptr

//go:noescape
func callOfKind(at uintptr, name unsafe.Pointer, length, flags, kind uintptr, out unsafe.Pointer, room uintptr) uintptr

//go:noescape
func callOfMany(at uintptr, names unsafe.Pointer, length, flags, kind, end uintptr, out unsafe.Pointer, room uintptr) uintptr

//go:noescape
func callOfName(at uintptr, name unsafe.Pointer, length uintptr, out unsafe.Pointer, room uintptr) uintptr

// numberOf calls a function that is about a name of a kind.
func numberOf(at uintptr, name string, flags, kind uintptr) uintptr {
	needProcessor()
	return callForNumber(at, start(name), uintptr(len(name)), flags, kind)
}

// invokeOfKind calls a function that is about a name of a kind, and may write.
func invokeOfKind(at uintptr, name string, flags, kind uintptr, out []byte) uintptr {
	needProcessor()
	return callOfKind(at, start(name), uintptr(len(name)), flags, kind, startOf(out), uintptr(len(out)))
}

// invokeOfMany calls a function that is about many names of a kind, and writes.
func invokeOfMany(at uintptr, names string, flags, kind uintptr, end byte, out []byte) uintptr {
	needProcessor()
	return callOfMany(at, start(names), uintptr(len(names)), flags, kind, uintptr(end), startOf(out), uintptr(len(out)))
}

// invokeOfName calls a function that is about a name, and may write.
func invokeOfName(at uintptr, name string, out []byte) uintptr {
	needProcessor()
	return callOfName(at, start(name), uintptr(len(name)), startOf(out), uintptr(len(out)))
}

func start(name string) unsafe.Pointer {
	return *(*unsafe.Pointer)(unsafe.Pointer(&name))
}

func startOf(out []byte) unsafe.Pointer {
	return *(*unsafe.Pointer)(unsafe.Pointer(&out))
}

// needProcessor panics on a processor that lacks what the functions need, before that
// would be an illegal instruction.
func needProcessor() {
	if !isSupported {
		panic("gitnames needs a processor with SSE 4.2 (x86-64-v2), or to be built with -tags purego")
	}
}
