//go:build (!amd64 && !arm64) || !gc || purego

package gitnames

import "sync"

// The functions in Go, which release/portable translated. They work on a memory of their
// own, as WebAssembly does: first the constants, then the stack, then the name and what is
// written.

type state struct {
	top uint64 // of the stack
	m   []byte
}

const nameAt = (len(constants)+15)/16*16 + stackSize

var states = sync.Pool{New: func() any {
	s := &state{m: make([]byte, nameAt+1024)}
	copy(s.m, constants)
	return s
}}

// stateWith returns a state whose memory has the name, and then what a function writes to, which
// begins there.
func stateWith(name string, out []byte) (*state, uint64) {
	s := states.Get().(*state)
	to := nameAt + len(name)
	if size := to + len(out); size > len(s.m) {
		s.m = make([]byte, size+size/2)
		copy(s.m, constants)
	}
	copy(s.m[nameAt:], name)
	copy(s.m[to:], out)
	s.top = uint64(nameAt)
	return s, uint64(to)
}

// invoke calls a function with these arguments, and copies what it has written.
func (s *state) invoke(at uintptr, x [7]uint64, from uint64, out []byte) uintptr {
	result := s.call(at, x)
	copy(out, s.m[from:])
	if len(s.m) <= 1<<16 { // (A large one is left to the garbage collector.)
		states.Put(s)
	}
	return uintptr(result)
}

// numberOf calls a function that is about a name of a kind.
func numberOf(at uintptr, name string, flags, kind uintptr) uintptr {
	return invokeOfKind(at, name, flags, kind, nil)
}

// invokeOfKind calls a function that is about a name of a kind, and may write.
func invokeOfKind(at uintptr, name string, flags, kind uintptr, out []byte) uintptr {
	s, to := stateWith(name, out)
	x := [7]uint64{uint64(nameAt), uint64(len(name)), uint64(flags), uint64(kind), to, uint64(len(out))}
	return s.invoke(at, x, to, out)
}

// invokeOfMany calls a function that is about many names of a kind, and writes.
func invokeOfMany(at uintptr, names string, flags, kind uintptr, end byte, out []byte) uintptr {
	s, to := stateWith(names, out)
	x := [7]uint64{
		uint64(nameAt), uint64(len(names)), uint64(flags), uint64(kind), uint64(end), to, uint64(len(out)),
	}
	return s.invoke(at, x, to, out)
}

// invokeOfName calls a function that is about a name, and may write.
func invokeOfName(at uintptr, name string, out []byte) uintptr {
	s, to := stateWith(name, out)
	return s.invoke(at, [7]uint64{uint64(nameAt), uint64(len(name)), to, uint64(len(out))}, to, out)
}

func bit(condition bool) uint32 {
	if condition {
		return 1
	}
	return 0
}

func copyBytes(m []byte, to, from, length uint64) {
	copy(m[to:to+length], m[from:from+length])
}

func fillBytes(m []byte, to uint64, value uint32, length uint64) {
	part := m[to : to+length]
	for i := range part {
		part[i] = byte(value)
	}
}
