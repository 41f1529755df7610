//go:build linux

// Package clibrary calls the shared object for C, with which the fuzz target compares.
package clibrary

/*
#cgo LDFLAGS: -ldl
#define _GNU_SOURCE
#include <dlfcn.h>
#include <stdbool.h>
#include <stddef.h>
#include <stdint.h>
#include <stdlib.h>

// (The shared object calls its own functions, and not those of this program's block.)
static void *opened(const char *path) { return dlopen(path, RTLD_NOW | RTLD_LOCAL | RTLD_DEEPBIND); }

static uint32_t fault(void *function, _GoString_ name, uint32_t flags, uint32_t kind) {
    uint32_t (*call)(const void *, size_t, uint32_t, uint32_t) = function;
    return call(_GoStringPtr(name), _GoStringLen(name), flags, kind);
}

static size_t offset(void *function, _GoString_ name, uint32_t flags, uint32_t kind) {
    uint32_t (*call)(const void *, size_t, uint32_t, uint32_t, size_t *) = function;
    size_t offset = SIZE_MAX;
    call(_GoStringPtr(name), _GoStringLen(name), flags, kind, &offset);
    return offset;
}

static size_t text(void *function, _GoString_ name, uint32_t flags, uint32_t kind, char *text, size_t room) {
    size_t (*call)(const void *, size_t, uint32_t, uint32_t, char *, size_t) = function;
    return call(_GoStringPtr(name), _GoStringLen(name), flags, kind, text, room);
}

static size_t faults(void *function, _GoString_ names, uint32_t flags, uint32_t kind, uint8_t end, char *faults,
                     size_t room) {
    size_t (*call)(const void *, size_t, uint32_t, uint32_t, uint8_t, char *, size_t) = function;
    return call(_GoStringPtr(names), _GoStringLen(names), flags, kind, end, faults, room);
}

static size_t changed(void *function, _GoString_ name, char *buffer, size_t room) {
    size_t (*call)(const void *, size_t, char *, size_t) = function;
    return call(_GoStringPtr(name), _GoStringLen(name), buffer, room);
}

static bool device(void *function, _GoString_ name) {
    bool (*call)(const void *, size_t) = function;
    return call(_GoStringPtr(name), _GoStringLen(name));
}
*/
import "C"

import (
	"fmt"
	"unsafe"
)

// A Library is the shared object.
type Library struct{ handle unsafe.Pointer }

// Open opens the shared object that is at the path.
func Open(path string) (Library, error) {
	file := C.CString(path)
	defer C.free(unsafe.Pointer(file))
	handle := C.opened(file)
	if handle == nil {
		return Library{}, fmt.Errorf("%s", C.GoString(C.dlerror()))
	}
	return Library{handle}, nil
}

func (l Library) function(name string) unsafe.Pointer {
	symbol := C.CString("gix_validate_" + name)
	defer C.free(unsafe.Pointer(symbol))
	function := C.dlsym(l.handle, symbol)
	if function == nil {
		panic("the shared object lacks gix_validate_" + name)
	}
	return function
}

// Fault is the number of the fault of a name of the kind.
func (l Library) Fault(kind uint32, name string, flags uint32) uint32 {
	return uint32(C.fault(l.function("fault_of"), name, C.uint32_t(flags), C.uint32_t(kind)))
}

// Offset is where that fault is.
func (l Library) Offset(kind uint32, name string, flags uint32) int {
	return int(C.offset(l.function("fault_at"), name, C.uint32_t(flags), C.uint32_t(kind)))
}

// Text is the text of that fault.
func (l Library) Text(kind uint32, name string, flags uint32) string {
	var buffer [256]C.char
	length := C.text(l.function("text_of"), name, C.uint32_t(flags), C.uint32_t(kind), &buffer[0], C.size_t(len(buffer)))
	return C.GoStringN(&buffer[0], C.int(length))
}

// Faults are the numbers of the faults of the names in a buffer.
func (l Library) Faults(kind uint32, names string, flags uint32, end byte) []byte {
	buffer := make([]C.char, len(names)+1)
	count := C.faults(l.function("faults_of"), names, C.uint32_t(flags), C.uint32_t(kind), C.uint8_t(end),
		&buffer[0], C.size_t(len(buffer)))
	return C.GoBytes(unsafe.Pointer(&buffer[0]), C.int(count))
}

// IsWindowsDevice reports whether Windows takes the name for a device.
func (l Library) IsWindowsDevice(name string) bool {
	return bool(C.device(l.function("is_windows_device"), name))
}

// Sanitize repairs a name.
func (l Library) Sanitize(name string) string { return l.changed("sanitize", name) }

// Suggest is the branch name to suggest, or empty if there is none.
func (l Library) Suggest(name string) string { return l.changed("suggest", name) }

func (l Library) changed(function, name string) string {
	buffer := make([]C.char, len(name)+1)
	length := C.changed(l.function(function), name, &buffer[0], C.size_t(len(buffer)))
	return C.GoStringN(&buffer[0], C.int(length))
}
