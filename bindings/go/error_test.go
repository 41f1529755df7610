package gitnames

import (
	"errors"
	"fmt"
	"os"
	"regexp"
	"strings"
	"testing"
)

func TestAnErrorSaysWhyAndWhere(t *testing.T) {
	const notInPaths = "A path must not be empty, start or end with a slash, or have two in a row"
	for _, it := range []struct {
		err  error
		said string
	}{
		{CheckBranch(""), "Reference name cannot be empty"},
		{CheckBranch("a..b"), "Reference name cannot contain repeated dots ('.' at byte 2)"},
		{CheckBranch("feature/.hidden"), `Reference name cannot start with a dot ('.' at byte 8, in ".hidden")`},
		{CheckBranch("a\nb"), `Reference name contains invalid byte: "\n" ('\n' at byte 1)`},
		{CheckBranch("a/é\x7f\xff\n"), `Reference name contains invalid byte: "\x7f" ('\x7f' at byte 4, in "é\x7f\xff\n")`},
		{CheckRef("'"), `Standalone references must be all uppercased, like 'HEAD' ('\'' at byte 0)`},
		{CheckRef("é"), `Standalone references must be all uppercased, like 'HEAD' ('\xc3' at byte 0)`},
		{CheckPath("a/", 0), notInPaths + " (at the end)"},
		{CheckPath("a//b", 0), notInPaths + " ('/' at byte 2)"},
		{CheckPath("a/\"\x00", 0), `A path must not have a NUL byte ('\x00' at byte 3, in "\"\x00")`},
	} {
		if found := fmt.Sprint(it.err); found != "gitnames: "+it.said {
			t.Errorf("%s, not %s", found, it.said)
		}
	}
}

func TestAnErrorOfBytesKeepsTheNameAsItWas(t *testing.T) {
	for _, length := range []int{4, shortName, shortName + 1, 4096} {
		name := []byte(strings.Repeat("a", length-3) + "..b")
		given, err := string(name), CheckBranch(name)
		copy(name, "xxxx")
		var invalid *Error
		if !errors.As(err, &invalid) || invalid.Name != given {
			t.Errorf("%d: %#v", length, err)
		}
	}
}

func TestAnErrorThatIsWrappedIsFound(t *testing.T) {
	err := fmt.Errorf("it can't be pushed: %w", CheckTag("v1..2"))
	if !errors.Is(err, ErrRepeatedDot) || errors.Is(err, ErrInvalidByte) {
		t.Error(err)
	}
}

func TestEachFaultHasAnErrorOfItsName(t *testing.T) {
	source, err := os.ReadFile("fault.go")
	if err != nil {
		t.Fatal(err)
	}
	found := regexp.MustCompile(`(?m)^\tErr(\w+) +error = faultError\((\w+)\)$`).FindAllStringSubmatch(string(source), -1)
	if len(found) != len(faultNames)-1 {
		t.Errorf("there are %d", len(found))
	}
	for at, it := range found {
		if it[1] != faultNames[at+1] || it[2] != it[1] {
			t.Errorf("%s", it)
		}
	}
	if said := ErrDisguised.Error(); said != "gitnames: Disguised" {
		t.Error(said)
	}
}

// A function that returns a Fault as an error doesn't compile. (So Valid is none.)
func TestAFaultIsNoError(t *testing.T) {
	if _, isError := any(Valid).(error); isError {
		t.Error("it is")
	}
}

func TestANumberWithoutANameIsPrinted(t *testing.T) {
	if said := fmt.Sprint(Fault(99), Kind(99), Valid, Disguised, Branch, Submodule); said != "Fault(99) Kind(99) Valid Disguised Branch Submodule" {
		t.Error(said)
	}
}

func TestAKindThatThereIsNotPanics(t *testing.T) {
	for what, call := range map[string]func(){
		"FaultOf":  func() { FaultOf(kinds, "a", 0) },
		"Faults":   func() { Faults(kinds, "a", 0, 0) },
		"FaultsOf": func() { FaultsOf(255, []string{"a"}, 0) },
	} {
		func() {
			defer func() {
				if said := recover(); said != "gitnames: there is no such Kind" {
					t.Errorf("%s: %v", what, said)
				}
			}()
			call()
		}()
	}
}
