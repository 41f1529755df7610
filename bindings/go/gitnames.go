// Package gitnames validates the names that Git uses: branches, tags, references, submodules
// and paths. It says why a name is invalid and where, suggests a valid branch name, and
// repairs reference names.
//
// A name is a string or a []byte of any bytes. A function whose name begins with Check
// returns nil if the name is valid, otherwise an *[Error]. [errors.Is] compares that with
// variables such as [ErrRepeatedDot]. [FaultOf] returns the [Fault] alone, and never
// allocates. [Faults] and [FaultsOf] check many names.
//
// The functions are proved. For amd64 and arm64 the package has them as machine code, for
// other processors, and with the build tag purego, as Go that was translated from them.
// docs/RULES.md has the rules, docs/ASSURANCE.md what is proved. Any goroutine may call them
// at any time.
package gitnames

import (
	"strings"
	"unsafe"
)

// A Name is a string or a []byte. No function changes or keeps the bytes: an [Error] has its
// own copy of a []byte.
type Name interface{ ~string | ~[]byte }

// Protections say on which systems a path, a component, a submodule name or a safe reference name
// has to be harmless.
//
// A server passes [ProtectAll], because it doesn't know where a name will be checked out.
// [ProtectWindows] refuses devices, such as NUL and aux.c, and what Windows forbids in a name,
// such as a dot at its end. It includes [ProtectNTFS], because Windows has NTFS, so ProtectAll
// &^ ProtectNTFS is the same as ProtectAll. [ProtectNTFS] alone accepts `a\.git`, which Windows
// reads as a path and git fsck refuses.
type Protections uint8

// The protections, which are combined by |.
const (
	ProtectNone    Protections = 0
	ProtectWindows Protections = 5
	ProtectHFS     Protections = 2
	ProtectNTFS    Protections = 4
	ProtectAll     Protections = 7
)

// whole has NTFS if it has Windows, even if that was taken away.
func (p Protections) whole() Protections {
	return p | (p&1)<<2
}

// CheckBranch checks a branch as people write it, such as main or feature/x. It can't be
// HEAD, and can't begin with a dash.
func CheckBranch[T Name](name T) error {
	return check(Branch, name, 0)
}

// CheckBranchRef checks the full name of a branch, such as refs/heads/main: any full
// reference name but refs/heads/HEAD. So HEAD and refs/tags/v1 are valid, and main isn't.
func CheckBranchRef[T Name](name T) error {
	return check(BranchRef, name, 0)
}

// CheckTag checks a tag as people write it, such as v1.2.3. It may have slashes. It can't be
// HEAD, and can't begin with a dash.
func CheckTag[T Name](name T) error {
	return check(Tag, name, 0)
}

// CheckRef checks the full name of a reference. It has a slash, like refs/heads/main, or
// no byte but A to Z and _, like HEAD.
func CheckRef[T Name](name T) error {
	return check(Ref, name, 0)
}

// CheckPartialRef checks a name that may be the end of a reference name, such as main or
// heads/main.
func CheckPartialRef[T Name](name T) error {
	return check(PartialRef, name, 0)
}

// CheckTagName checks a tag name by the rule of the Rust crate gix-validate, which also
// accepts HEAD, @ and a leading dash. Use [CheckTag] for a tag that a person typed.
func CheckTagName[T Name](name T) error {
	return check(TagName, name, 0)
}

// CheckSafeRef checks a full reference name that a store may use as the path of a file: it is below
// refs/, or has no byte but A to Z and _, and each part between slashes is a component under the
// protections.
func CheckSafeRef[T Name](name T, protect Protections) error {
	return check(SafeRef, name, protect)
}

// CheckPath checks a whole path, such as src/main.rs: each part between slashes is a component. A
// slash at the end is refused, so cut off that of a directory in an archive. A NUL byte is refused,
// too.
func CheckPath[T Name](name T, protect Protections) error {
	return check(Path, name, protect)
}

// CheckSymlinkPath checks the path of a symbolic link: a path whose last part can't be
// .gitmodules either.
func CheckSymlinkPath[T Name](name T, protect Protections) error {
	return check(SymlinkPath, name, protect)
}

// CheckComponent checks one component of a path, such as src: the part between two slashes. A valid
// one may have a NUL byte, unless [ProtectWindows] is set.
func CheckComponent[T Name](name T, protect Protections) error {
	return check(Component, name, protect)
}

// CheckSymlink checks the name of a symbolic link: a component that isn't .gitmodules either.
func CheckSymlink[T Name](name T, protect Protections) error {
	return check(Symlink, name, protect)
}

// CheckSubmodule checks a submodule name, such as vendor/package. Clients keep its repository
// in .git/modules/ followed by the name. So with a protection set the name is also a valid
// path, and no part of it is one that some system reads as . or .. there.
func CheckSubmodule[T Name](name T, protect Protections) error {
	return check(Submodule, name, protect)
}

// IsWindowsDevice reports whether Windows takes the name for a device, such as NUL,
// com1.txt or CONIN$.
func IsWindowsDevice[T Name](name T) bool {
	return isWindowsDevice(view(name))
}

// SuggestBranch returns a branch name for one that a person typed, such as Fix-it's-done for "Fix:
// it's done..". It returns a valid name unchanged. For any other it allocates once, and returns
// false if there is no suggestion, as for "..." and HEAD.
func SuggestBranch[T Name](name T) (suggestion T, ok bool) {
	typed := view(name)
	if faultOf(Branch, typed, 0) == Valid {
		return name, true
	}
	suggested := make([]byte, len(typed))
	suggested = suggested[:suggest(typed, suggested)]
	return asName[T](suggested), len(suggested) > 0
}

// Sanitize repairs any bytes to a name that [CheckPartialRef] accepts. That needn't be a valid
// branch: use [SuggestBranch] for one. It returns a valid name unchanged, and otherwise allocates
// once.
func Sanitize[T Name](name T) T {
	given := view(name)
	if faultOf(PartialRef, given, 0) == Valid {
		return name
	}
	repaired := make([]byte, len(given)+1) // an empty name becomes one byte
	return asName[T](repaired[:sanitize(given, repaired)])
}

// Version is that of the functions, such as 3.0.0.
func Version() (major, minor, patch int) {
	number := version()
	return number / 1_000_000, number / 1000 % 1000, number % 1000
}

func check[T Name](kind Kind, name T, protect Protections) error {
	return checkView(kind, view(name), protect.whole(), unsafe.Sizeof(name) > unsafe.Sizeof(""))
}

// checkView checks a name. That of a []byte may change later.
func checkView(kind Kind, name string, protect Protections, mayChange bool) error {
	if fault, offset := faultAt(kind, name, protect); fault != Valid {
		return newError(Error{Kind: kind, Fault: fault, protect: protect, offset: offset, Name: name}, mayChange)
	}
	return nil
}

// shortName is the length of names that newError allocates together with the error.
const shortName = 64

// newError allocates an error, and copies its name if that may change.
func newError(it Error, mayChange bool) *Error {
	if !mayChange || len(it.Name) > shortName {
		alone := it
		if mayChange {
			alone.Name = strings.Clone(it.Name)
		}
		return &alone
	}
	both := &struct {
		Error
		bytes [shortName]byte
	}{Error: it}
	both.Name = view(both.bytes[:copy(both.bytes[:], it.Name)])
	return &both.Error
}

// view is the name's bytes. A string is a pointer and a length, with which a []byte
// begins, too.
func view[T Name](name T) string {
	return *(*string)(unsafe.Pointer(&name))
}

// asName is the same memory, as [strings.Builder] makes its string. Nothing else has it.
func asName[T Name](bytes []byte) T {
	return *(*T)(unsafe.Pointer(&bytes))
}

// bytesOf is the same memory: a Fault is a byte.
func bytesOf(faults []Fault) []byte {
	return *(*[]byte)(unsafe.Pointer(&faults))
}
