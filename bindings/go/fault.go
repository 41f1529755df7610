package gitnames

import "strconv"

// A Fault is the reason why a name is invalid, or [Valid]. The numbers are stable. A Fault isn't an
// error: see [Error], and variables such as [ErrRepeatedDot].
type Fault uint8

// Valid is not a fault: the name is valid.
const Valid Fault = 0

// The faults.
const (
	InvalidByte             Fault = 1  // it has a byte below 0x20, a space, DEL, or one of : ? [ \ ^ ~
	StartsWithSlash         Fault = 2  // it starts with a slash
	RepeatedSlash           Fault = 3  // it has two slashes in a row
	RepeatedDot             Fault = 4  // it has two dots in a row
	LockFileSuffix          Fault = 5  // a piece between slashes ends in .lock
	ReflogPortion           Fault = 6  // it has @{
	Asterisk                Fault = 7  // it has a *
	StartsWithDot           Fault = 8  // a piece between slashes starts with a dot
	EndsWithDot             Fault = 9  // it ends in a dot
	EndsWithSlash           Fault = 10 // it ends in a slash
	Empty                   Fault = 11 // it is empty
	SomeLowercase           Fault = 12 // it has no slash, and a byte other than A to Z and _, such as a digit
	Reserved                Fault = 13 // it is reserved: @, HEAD as a branch or tag, or refs/heads/HEAD
	ParentComponent         Fault = 14 // a part of it is ..
	PathSeparator           Fault = 15 // it has a slash, or with Windows protection a backslash
	WindowsPathPrefix       Fault = 16 // a colon follows its first unit, as in C:
	WindowsReservedName     Fault = 17 // it is a device, such as NUL or com1.txt
	WindowsIllegalCharacter Fault = 18 // it has a byte below 0x20 or one of <>:"|?*, or a dot or space last
	DotGitDir               Fault = 19 // it is .git, or may be read as that
	SymlinkedGitModules     Fault = 20 // it is a symlink, and .gitmodules, or may be read as that
	Relative                Fault = 21 // it is . or ..
	StartsWithDash          Fault = 22 // it starts with a dash, as an option does
	EmptyPart               Fault = 23 // a part is empty: a slash is first or last, or follows another one, or the path is empty
	Nul                     Fault = 24 // it has a NUL byte, although each part is a component
	OutsideRefs             Fault = 25 // it is not below refs/, and has a byte other than A to Z and _
	Disguised               Fault = 26 // a part may be taken for . or ..
)

var faultNames = [...]string{
	"Valid",
	"InvalidByte", "StartsWithSlash", "RepeatedSlash", "RepeatedDot", "LockFileSuffix", "ReflogPortion", "Asterisk",
	"StartsWithDot", "EndsWithDot", "EndsWithSlash", "Empty", "SomeLowercase", "Reserved", "ParentComponent",
	"PathSeparator", "WindowsPathPrefix", "WindowsReservedName", "WindowsIllegalCharacter", "DotGitDir",
	"SymlinkedGitModules", "Relative", "StartsWithDash", "EmptyPart", "Nul", "OutsideRefs", "Disguised",
}

// String is the fault's name, such as RepeatedDot, and Valid for 0.
func (f Fault) String() string {
	if int(f) < len(faultNames) {
		return faultNames[f]
	}
	return "Fault(" + strconv.Itoa(int(f)) + ")"
}

// The errors that [errors.Is] finds, one for each fault.
var (
	ErrInvalidByte             error = faultError(InvalidByte)
	ErrStartsWithSlash         error = faultError(StartsWithSlash)
	ErrRepeatedSlash           error = faultError(RepeatedSlash)
	ErrRepeatedDot             error = faultError(RepeatedDot)
	ErrLockFileSuffix          error = faultError(LockFileSuffix)
	ErrReflogPortion           error = faultError(ReflogPortion)
	ErrAsterisk                error = faultError(Asterisk)
	ErrStartsWithDot           error = faultError(StartsWithDot)
	ErrEndsWithDot             error = faultError(EndsWithDot)
	ErrEndsWithSlash           error = faultError(EndsWithSlash)
	ErrEmpty                   error = faultError(Empty)
	ErrSomeLowercase           error = faultError(SomeLowercase)
	ErrReserved                error = faultError(Reserved)
	ErrParentComponent         error = faultError(ParentComponent)
	ErrPathSeparator           error = faultError(PathSeparator)
	ErrWindowsPathPrefix       error = faultError(WindowsPathPrefix)
	ErrWindowsReservedName     error = faultError(WindowsReservedName)
	ErrWindowsIllegalCharacter error = faultError(WindowsIllegalCharacter)
	ErrDotGitDir               error = faultError(DotGitDir)
	ErrSymlinkedGitModules     error = faultError(SymlinkedGitModules)
	ErrRelative                error = faultError(Relative)
	ErrStartsWithDash          error = faultError(StartsWithDash)
	ErrEmptyPart               error = faultError(EmptyPart)
	ErrNul                     error = faultError(Nul)
	ErrOutsideRefs             error = faultError(OutsideRefs)
	ErrDisguised               error = faultError(Disguised)
)

// A faultError is what errors.Is compares with. (A Fault isn't an error, because Valid would be
// one.)
type faultError Fault

// Error has the fault's name.
func (f faultError) Error() string {
	return "gitnames: " + Fault(f).String()
}
