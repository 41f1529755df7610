//go:build !race

package gitnames

import (
	"errors"
	"strings"
	"testing"
)

// (The race detector has pure Go allocate more often.)
func TestEachCallAllocatesNoMoreThanItsDocumentationSays(t *testing.T) {
	const valid, invalid = "refs/heads/topic/00000000", "refs/heads/topic..00000000"
	short, long := []byte(invalid), []byte(strings.Repeat(invalid, 4))
	names, joined := []string{valid, invalid, valid}, strings.Repeat(invalid+"\n", 3)
	err := CheckRef(invalid)
	var found error
	for what, it := range map[string]struct {
		allocs float64
		call   func()
	}{
		"a valid name":              {0, func() { found = CheckRef(valid) }},
		"valid bytes":               {0, func() { found = CheckRef(short[:12]) }},
		"an invalid name":           {1, func() { found = CheckRef(invalid) }},
		"short invalid bytes":       {1, func() { found = CheckRef(short) }},
		"long invalid bytes":        {2, func() { found = CheckRef(long) }},
		"the fault of a name":       {0, func() { FaultOf(Ref, invalid, 0) }},
		"the fault of bytes":        {0, func() { FaultOf(Ref, short, 0) }},
		"errors.Is":                 {0, func() { errors.Is(err, ErrRepeatedDot) }},
		"many names":                {1, func() { Faults(Ref, joined, '\n', 0) }},
		"many names in a list":      {1, func() { FaultsOf(Ref, names, 0) }},
		"a valid name's suggestion": {0, func() { SuggestBranch(valid) }},
		"a suggestion":              {1, func() { SuggestBranch(invalid) }},
		"a suggestion for bytes":    {1, func() { SuggestBranch(short) }},
		"no suggestion":             {1, func() { SuggestBranch("...") }},
		"a valid name's repair":     {0, func() { Sanitize(valid) }},
		"a repair":                  {1, func() { Sanitize(invalid) }},
		"whether it is a device":    {0, func() { IsWindowsDevice(valid) }},
		"the text of an error":      {1, func() { _ = err.Error() }},
	} {
		if allocs := testing.AllocsPerRun(1000, it.call); allocs > it.allocs {
			t.Errorf("%s: %v", what, allocs)
		}
	}
	_ = found
}
