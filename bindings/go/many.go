package gitnames

import "strings"

// Faults checks the names in a buffer as [FaultOf] does: it returns the fault of each, in
// order, or [Valid]. It allocates once.
//
// The byte end ends each name, such as '\n' or 0. What follows the last such byte is a
// name too, unless it is empty.
func Faults[T Name](kind Kind, names T, end byte, protect Protections) []Fault {
	joined := view(names)
	faults := make([]Fault, strings.Count(joined, string([]byte{end}))+1)
	return faults[:faultsOf(kind, joined, protect.whole(), end, faults)]
}

// FaultsOf checks the names in a list as [FaultOf] does: it returns the fault of each, in
// order, or [Valid]. It allocates once.
func FaultsOf[T Name](kind Kind, names []T, protect Protections) []Fault {
	needKind(kind)
	faults := make([]Fault, len(names))
	for i, name := range names {
		faults[i] = faultOf(kind, view(name), protect.whole())
	}
	return faults
}
