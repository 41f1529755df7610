package gitnames

import "strconv"

// A Kind of name, for [FaultOf], [Faults] and [FaultsOf]. Each is what the function checks
// whose name is Check followed by its own. The numbers are stable.
type Kind uint8

// The kinds.
const (
	Branch      Kind = 0
	BranchRef   Kind = 1
	Tag         Kind = 2
	Ref         Kind = 3
	PartialRef  Kind = 4
	TagName     Kind = 5
	SafeRef     Kind = 6
	Path        Kind = 7
	SymlinkPath Kind = 8
	Component   Kind = 9
	Symlink     Kind = 10
	Submodule   Kind = 11

	kinds = 12
)

var kindNames = [kinds]string{
	"Branch", "BranchRef", "Tag", "Ref", "PartialRef", "TagName", "SafeRef", "Path", "SymlinkPath", "Component",
	"Symlink", "Submodule",
}

// String is the kind's name, such as BranchRef.
func (k Kind) String() string {
	if k < kinds {
		return kindNames[k]
	}
	return "Kind(" + strconv.Itoa(int(k)) + ")"
}

// FaultOf checks a name and returns its fault, or [Valid]. It never allocates. It is for kinds
// that are known only at run time, and for loops in which names are often invalid. Kinds whose
// Check function has no protections ignore them. It panics if there is no such kind.
func FaultOf[T Name](kind Kind, name T, protect Protections) Fault {
	protect = protect.whole()
	needKind(kind)
	return Fault(numberOf(atFaultOf, view(name), uintptr(protect), uintptr(kind)))
}
