package gitnames

import "encoding/binary"

// The functions. (A name of one here is its offset in the block, or its number in pure Go.)

func faultOf(kind Kind, name string, protect Protections) Fault {
	return Fault(numberOf(atFaultOf, name, uintptr(protect), uintptr(kind)))
}

// faultAt is the same, and where that fault is.
func faultAt(kind Kind, name string, protect Protections) (Fault, int) {
	var offset [8]byte
	number := invokeOfKind(atFaultAt, name, uintptr(protect), uintptr(kind), offset[:])
	return Fault(number), int(binary.LittleEndian.Uint64(offset[:]))
}

// textMax is how many bytes the text of a fault has at most.
const textMax = 134

// appendText appends the text of that fault.
func appendText(to []byte, kind Kind, name string, protect Protections) []byte {
	var text [textMax]byte
	return append(to, text[:invokeOfKind(atTextOf, name, uintptr(protect), uintptr(kind), text[:])]...)
}

// faultsOf writes the fault of each name, and returns how many names there are.
func faultsOf(kind Kind, names string, protect Protections, end byte, faults []Fault) int {
	needKind(kind)
	return int(invokeOfMany(atFaultsOf, names, uintptr(protect), uintptr(kind), end, bytesOf(faults)))
}

func isWindowsDevice(name string) bool {
	return uint8(invokeOfName(atIsWindowsDevice, name, nil)) != 0
}

// sanitize writes the repaired name, which is never longer than one byte or the name, and
// returns its length.
func sanitize(name string, repaired []byte) int {
	return int(invokeOfName(atSanitize, name, repaired))
}

// suggest writes the branch name to suggest, which is never longer than the name, and returns
// its length, or 0 if there is none.
func suggest(name string, suggested []byte) int {
	return int(invokeOfName(atSuggest, name, suggested))
}

func version() int {
	return int(uint32(invokeOfName(atVersion, "", nil)))
}

func needKind(kind Kind) {
	if kind >= kinds {
		panic("gitnames: there is no such Kind")
	}
}
