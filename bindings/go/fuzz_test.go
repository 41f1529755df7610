//go:build linux && cgo

package gitnames

import (
	"bytes"
	"errors"
	"strings"
	"testing"

	"dihareku.example/gitnames/internal/clibrary"
)

// FuzzNextToC compares each call with the library for C, which bindings/build builds.
func FuzzNextToC(f *testing.F) {
	library, err := clibrary.Open("../out/libgix_validate_c.so")
	if err != nil {
		f.Fatal(err)
	}
	for _, name := range []string{
		"", "HEAD", "refs/heads/a..b", "a\n\n.b/c.lock", "NUL .txt", ".git\u200c", "@{\x00", "a/.. /b", "hooks/x", "-x",
	} {
		f.Add([]byte(name), uint8(ProtectAll), byte('\n'))
	}
	f.Fuzz(func(t *testing.T, name []byte, flags uint8, end byte) {
		text, protect := string(name), Protections(flags) // (other bits say nothing)
		if flags&1 != 0 {
			flags |= 4 // (the library has a bit for Windows without NTFS, and this package hasn't)
		}
		for _, call := range calls {
			for _, err := range []error{call.ofBytes(name, protect), call.ofString(text, protect)} {
				compare(t, library, call.kind, text, uint32(flags), err)
			}
			compareMany(t, library, call.kind, name, protect, uint32(flags), end)
		}
		if IsWindowsDevice(name) != library.IsWindowsDevice(text) {
			t.Error("the device")
		}
		repaired := string(Sanitize(name))
		if repaired != library.Sanitize(text) || repaired != Sanitize(text) || CheckPartialRef(repaired) != nil {
			t.Errorf("it is repaired to %q", repaired)
		}
		suggested, ok := SuggestBranch(name)
		if string(suggested) != library.Suggest(text) || ok != (CheckBranch(suggested) == nil) {
			t.Errorf("%q is suggested", suggested)
		}
		if string(name) != text {
			t.Errorf("it has changed to %q", name)
		}
	})
}

func compare(t *testing.T, library clibrary.Library, kind Kind, name string, flags uint32, err error) {
	number := uint32(kind)
	fault := library.Fault(number, name, flags)
	var invalid *Error
	if errors.As(err, &invalid) != (fault != 0) {
		t.Errorf("%v: %v, not %d", kind, err, fault)
	}
	if invalid == nil {
		return
	}
	text, offset := library.Text(number, name, flags), library.Offset(number, name, flags)
	if uint32(invalid.Fault) != fault || invalid.Offset() != offset || !strings.HasPrefix(err.Error(), "gitnames: "+text) {
		t.Errorf("%v: %#v, not %d at %d: %s", kind, invalid, fault, offset, text)
	}
}

func compareMany(t *testing.T, library clibrary.Library, kind Kind, names []byte, protect Protections, flags uint32, end byte) {
	wanted := library.Faults(uint32(kind), string(names), flags, end)
	if found := Faults(kind, names, end, protect); !bytes.Equal(bytesOf(found), wanted) {
		t.Errorf("%v: %v", kind, found)
	}
	list := bytes.Split(names, []byte{end})
	for i, fault := range FaultsOf(kind, list, protect) {
		if uint32(fault) != library.Fault(uint32(kind), string(list[i]), flags) {
			t.Errorf("%v %q: %v", kind, list[i], fault)
		}
	}
}
