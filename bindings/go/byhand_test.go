package gitnames

import (
	"fmt"
	"strings"
	"testing"
)

// A handError is what a check by hand returns.
type handError struct {
	why    string
	offset int
}

func (e *handError) Error() string {
	return fmt.Sprintf("%s at byte %d", e.why, e.offset)
}

// isBad says which bytes no reference has.
var isBad = func() (bad [256]bool) {
	for c := range bad {
		bad[c] = c <= ' ' || c == 0x7F || strings.IndexByte(`:?[\^~*`, byte(c)) >= 0
	}
	return bad
}()

// checkRefByHand is CheckRef as one would write it in Go, to compare its time.
func checkRefByHand(name string) error {
	if name == "" || name == "@" {
		return &handError{"it is empty or reserved", 0}
	}
	start, hasSlash := 0, false
	for at := 0; at < len(name); at++ {
		switch c := name[at]; {
		case c == '/':
			if err := checkPieceByHand(name, start, at); err != nil {
				return err
			}
			start, hasSlash = at+1, true
		case isBad[c]:
			return &handError{"an invalid byte", at}
		case c == '.' && at > 0 && name[at-1] == '.':
			return &handError{"two dots in a row", at}
		case c == '{' && at > 0 && name[at-1] == '@':
			return &handError{"@{", at}
		}
	}
	if err := checkPieceByHand(name, start, len(name)); err != nil {
		return err
	}
	if name[len(name)-1] == '.' {
		return &handError{"a dot at the end", len(name) - 1}
	}
	if !hasSlash && strings.Trim(name, "ABCDEFGHIJKLMNOPQRSTUVWXYZ_") != "" {
		return &handError{"it has no slash", 0}
	}
	return nil
}

func checkPieceByHand(name string, start, end int) error {
	switch piece := name[start:end]; {
	case piece == "":
		return &handError{"an empty piece", start}
	case piece[0] == '.':
		return &handError{"a dot at the start", start}
	case strings.HasSuffix(piece, ".lock"):
		return &handError{".lock at the end", end - len(".lock")}
	}
	return nil
}

func TestACheckByHandAcceptsTheSameReferences(t *testing.T) {
	for _, it := range rowsOf(t) {
		if it.call == "ref" && (checkRefByHand(it.name) == nil) != (it.answer == "Ok") {
			t.Errorf("%q: %v", it, checkRefByHand(it.name))
		}
	}
}

func BenchmarkCheckRefByHand(b *testing.B) {
	b.ReportAllocs()
	name := refs(1)[0]
	for i := 0; i < b.N; i++ {
		if err := checkRefByHand(name); err != nil {
			b.Fatal(err)
		}
	}
}

func BenchmarkCheckRefByHandOfAnInvalidName(b *testing.B) {
	b.ReportAllocs()
	for i := 0; i < b.N; i++ {
		if err := checkRefByHand(invalidRef); err == nil {
			b.Fatal("it is valid")
		}
	}
}
