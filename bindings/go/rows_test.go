package gitnames

import (
	"errors"
	"fmt"
	"os"
	"strconv"
	"strings"
	"testing"
)

// A call for one name, as tests/rows has it, with a string and with a []byte.
type call struct {
	kind     Kind
	ofString func(string, Protections) error
	ofBytes  func([]byte, Protections) error
}

var calls = map[string]call{
	"branch":       unprotected(Branch, CheckBranch[string], CheckBranch[[]byte]),
	"branch-ref":   unprotected(BranchRef, CheckBranchRef[string], CheckBranchRef[[]byte]),
	"tag":          unprotected(Tag, CheckTag[string], CheckTag[[]byte]),
	"ref":          unprotected(Ref, CheckRef[string], CheckRef[[]byte]),
	"partial":      unprotected(PartialRef, CheckPartialRef[string], CheckPartialRef[[]byte]),
	"tag-name":     unprotected(TagName, CheckTagName[string], CheckTagName[[]byte]),
	"safe-ref":     {SafeRef, CheckSafeRef[string], CheckSafeRef[[]byte]},
	"path":         {Path, CheckPath[string], CheckPath[[]byte]},
	"symlink-path": {SymlinkPath, CheckSymlinkPath[string], CheckSymlinkPath[[]byte]},
	"component":    {Component, CheckComponent[string], CheckComponent[[]byte]},
	"symlink":      {Symlink, CheckSymlink[string], CheckSymlink[[]byte]},
	"submodule":    {Submodule, CheckSubmodule[string], CheckSubmodule[[]byte]},
}

func unprotected(kind Kind, ofString func(string) error, ofBytes func([]byte) error) call {
	return call{
		kind,
		func(name string, _ Protections) error { return ofString(name) },
		func(name []byte, _ Protections) error { return ofBytes(name) },
	}
}

// The calls that are about no kind.
var others = map[string]func(*testing.T, row){
	"device": testDevice, "many": testMany, "sanitize": testSanitize, "suggest": testSuggest,
}

// letters are those of the settings. (w is the bit of Windows' own rules, which has no name:
// [ProtectWindows] also has that of NTFS.)
var letters = map[rune]Protections{'w': 1, 'h': ProtectHFS, 'n': ProtectNTFS}

// A row of tests/rows: its call with what follows a colon, the kind of many names, its name,
// and the rest.
type row struct{ call, setting, kind, name, answer string }

// quoted splits a text that begins with a quoted one into its bytes and the rest.
func quoted(t *testing.T, text string) (string, string) {
	inner, rest, found := strings.Cut(strings.TrimPrefix(text, `"`), `"`)
	if !found || text[0] != '"' {
		t.Fatalf("this has no quoted text: %s", text)
	}
	bytes, err := strconv.Unquote(`"` + inner + `"`)
	if err != nil {
		t.Fatalf("%s: %v", text, err)
	}
	return bytes, strings.TrimPrefix(rest, " ")
}

func rowsOf(t *testing.T) []row {
	file, err := os.ReadFile("../../tests/rows")
	if err != nil {
		t.Fatal(err)
	}
	var rows []row
	for _, line := range strings.Split(string(file), "\n") {
		if line == "" || line[0] == '#' {
			continue
		}
		words, _, _ := strings.Cut(line, ` "`)
		name, answer := quoted(t, line[len(words)+1:])
		words, kind, _ := strings.Cut(words, " ")
		call, setting, _ := strings.Cut(words, ":")
		rows = append(rows, row{call, setting, kind, name, answer})
	}
	return rows
}

// faultNamed is the fault that has the name.
func faultNamed(t *testing.T, name string) Fault {
	for number, known := range faultNames {
		if known == name || name == "Ok" && number == 0 {
			return Fault(number)
		}
	}
	t.Fatalf("no fault has the name %s", name)
	return Valid
}

// protectionsOf are those of the row's letters.
func protectionsOf(t *testing.T, it row) Protections {
	var protect Protections
	for _, letter := range it.setting {
		if letters[letter] == 0 {
			t.Fatalf("%q: this setting is unknown", it)
		}
		protect |= letters[letter]
	}
	return protect
}

func TestEachCallReturnsWhatItsRowsSay(t *testing.T) {
	seen := map[string]int{}
	for _, it := range rowsOf(t) {
		if call, isKind := calls[it.call]; isKind {
			testCall(t, it, call)
		} else if test := others[it.call]; test != nil {
			test(t, it)
		} else {
			t.Fatalf("%q: this call is unknown", it)
		}
		seen[it.call]++
	}
	if len(seen) != len(calls)+len(others) {
		t.Errorf("there are only rows of %v", seen)
	}
}

// testCall fails unless each call for a kind returns what the row says: a fault, perhaps with
// its byte and its offset, and perhaps its text.
func testCall(t *testing.T, it row, call call) {
	protect := protectionsOf(t, it)
	word, text, _ := strings.Cut(it.answer, " ")
	word, offset, _ := strings.Cut(word, "@")
	word, digits, _ := strings.Cut(word, ":")
	fault := faultNamed(t, word)
	if protect != protect.whole() { // (no call returns this, but the functions below the calls do)
		if found := faultOf(call.kind, it.name, protect); found != fault {
			t.Errorf("%q: %v", it, found)
		}
		return
	}
	for _, err := range []error{call.ofString(it.name, protect), call.ofBytes([]byte(it.name), protect)} {
		if fault == Valid {
			if err != nil {
				t.Errorf("%q: %v", it, err)
			}
			continue
		}
		invalid := errorOf(t, it, err)
		at := invalid.Offset()
		if *invalid != (Error{Kind: call.kind, Fault: fault, Name: it.name, protect: protect, offset: at}) {
			t.Errorf("%q: %#v", it, invalid)
		}
		if !errors.Is(err, faultError(fault)) || errors.Is(err, faultError(fault+1)) {
			t.Errorf("%q: it is another error", it)
		}
		if offset != "" && fmt.Sprint(at) != offset {
			t.Errorf("%q: the offset is %d", it, at)
		}
		if digits != "" && fmt.Sprintf("%02x", it.name[at]) != digits {
			t.Errorf("%q: the byte at %d is %x", it, at, it.name[at])
		}
		if said := strings.TrimPrefix(err.Error(), "gitnames: "+text); said == err.Error() || (text != "" && said != place(it.name, at)) {
			t.Errorf("%q: it prints %s", it, err)
		}
	}
	testManyOf(t, it, call.kind, protect, fault)
}

// errorOf is the error, whose offset is in the name or at its end.
func errorOf(t *testing.T, it row, err error) *Error {
	var invalid *Error
	if !errors.As(err, &invalid) || invalid.Offset() < 0 || invalid.Offset() > len(it.name) {
		t.Fatalf("%q: %#v", it, err)
	}
	return invalid
}

// place is what an error says of the offset, after the text.
func place(name string, offset int) string {
	if name == "" {
		return ""
	}
	if offset == len(name) {
		return " (at the end)"
	}
	char := fmt.Sprintf("%+q", name[offset:offset+1])
	char = strings.NewReplacer(`\"`, `"`, `'`, `\'`).Replace(char[1 : len(char)-1])
	start := strings.LastIndex("/"+name[:offset], "/")
	piece := strings.Split(name[start:], "/")[0]
	if piece == "" || piece == name || char == "/" {
		return fmt.Sprintf(" ('%s' at byte %d)", char, offset)
	}
	return fmt.Sprintf(" ('%s' at byte %d, in %q)", char, offset, piece)
}

// testManyOf fails unless many names which are the row's have the fault.
func testManyOf(t *testing.T, it row, kind Kind, protect Protections, fault Fault) {
	end := byte(0)
	for strings.IndexByte(it.name, end) >= 0 {
		end++
	}
	last := string([]byte{end})
	joined, bytes := it.name+last+it.name+last, []byte(it.name)
	for _, found := range [][]Fault{
		{FaultOf(kind, it.name, protect), FaultOf(kind, bytes, protect)},
		Faults(kind, joined, end, protect),
		FaultsOf(kind, []string{it.name, it.name}, protect),
		FaultsOf(kind, [][]byte{bytes, bytes}, protect),
	} {
		if len(found) != 2 || found[0] != fault || found[1] != fault {
			t.Errorf("%q: %v", it, found)
		}
	}
}

func testMany(t *testing.T, it row) {
	end, err := strconv.ParseUint(it.setting, 16, 8)
	call, isKind := calls[it.kind]
	if err != nil || !isKind {
		t.Fatalf("%q: %v", it, err)
	}
	words := strings.Fields(it.answer)
	for _, found := range [][]Fault{
		Faults(call.kind, it.name, byte(end), 0), Faults(call.kind, []byte(it.name), byte(end), 0),
	} {
		if fmt.Sprint(len(found)) != words[0] || len(found) != len(words)-1 {
			t.Fatalf("%q: %v", it, found)
		}
		for i, word := range words[1:] {
			if found[i] != faultNamed(t, word) {
				t.Errorf("%q: %v", it, found)
			}
		}
	}
}

func testDevice(t *testing.T, it row) {
	answer := map[bool]string{true: "yes", false: "no"}
	if answer[IsWindowsDevice(it.name)] != it.answer || answer[IsWindowsDevice([]byte(it.name))] != it.answer {
		t.Errorf("%q", it)
	}
}

func testSanitize(t *testing.T, it row) {
	wanted, _ := quoted(t, it.answer)
	given := []byte(it.name)
	if Sanitize(it.name) != wanted || string(Sanitize(given)) != wanted {
		t.Errorf("%q: %q, %q", it, Sanitize(it.name), Sanitize(given))
	}
	if string(given) != it.name {
		t.Errorf("%q: the name has changed to %q", it, given)
	}
}

func testSuggest(t *testing.T, it row) {
	wanted, isWanted := "", it.answer != "none"
	if isWanted {
		wanted, _ = quoted(t, it.answer)
	}
	given := []byte(it.name)
	if suggested, ok := SuggestBranch(it.name); suggested != wanted || ok != isWanted {
		t.Errorf("%q: %q, %v", it, suggested, ok)
	}
	if suggested, ok := SuggestBranch(given); string(suggested) != wanted || ok != isWanted || string(given) != it.name {
		t.Errorf("%q: %q, %v, %q", it, suggested, ok, given)
	}
}
