package gitnames

import (
	"bytes"
	"errors"
	"fmt"
	"os"
	"strings"
	"testing"
)

func TestAnEmptyNameIsInvalidWhateverItsPointer(t *testing.T) {
	for _, name := range [][]byte{nil, {}, make([]byte, 0, 8), []byte("a")[1:]} {
		for called, call := range calls {
			if err := call.ofBytes(name, 0); !errors.Is(err, ErrEmpty) && !errors.Is(err, ErrEmptyPart) {
				t.Errorf("%s: %v", called, err)
			}
			if found := Faults(call.kind, name, '\n', 0); len(found) != 0 {
				t.Errorf("%s: %v", called, found)
			}
		}
		if repaired := Sanitize(name); string(repaired) != "-" {
			t.Errorf("it is repaired to %q", repaired)
		}
		if suggested, ok := SuggestBranch(name); len(suggested) != 0 || ok {
			t.Errorf("%q is suggested", suggested)
		}
	}
}

func TestAListWithoutNamesHasNoFaults(t *testing.T) {
	if found := FaultsOf(Tag, []string(nil), 0); len(found) != 0 {
		t.Errorf("%v", found)
	}
}

func TestAListMayHaveNamesWithNULs(t *testing.T) {
	found := FaultsOf(Submodule, []string{"a\x00..", "", "..", "a\x00/.."}, 0)
	if wanted := "[Valid Empty ParentComponent ParentComponent]"; fmt.Sprint(found) != wanted {
		t.Errorf("%v", found)
	}
}

func TestProtectionsCountForManyNames(t *testing.T) {
	for protect, wanted := range map[Protections]string{
		0:              "[Valid Valid DotGitDir]",
		ProtectWindows: "[PathSeparator WindowsReservedName DotGitDir]",
		ProtectHFS:     "[Valid Valid DotGitDir]",
		ProtectAll:     "[PathSeparator WindowsReservedName DotGitDir]",
	} {
		names := []string{`a\b`, "a/aux.c", ".git/x"}
		if found := FaultsOf(Path, names, protect); fmt.Sprint(found) != wanted {
			t.Errorf("%d: %v", protect, found)
		}
		if found := Faults(Path, strings.Join(names, "\x00"), 0, protect); fmt.Sprint(found) != wanted {
			t.Errorf("%d: %v", protect, found)
		}
	}
}

func TestWindowsIncludesNTFS(t *testing.T) {
	names := []string{"aux.c", "git~1", "src"}
	for protect, wanted := range map[Protections]string{
		ProtectWindows: "[WindowsReservedName DotGitDir Valid]",
		ProtectHFS:     "[Valid Valid Valid]",
	} {
		if found := FaultsOf(Path, names, protect); fmt.Sprint(found) != wanted {
			t.Errorf("%d: %v", protect, found)
		}
	}
}

func TestWindowsIncludesNTFSEvenIfThatIsTakenAway(t *testing.T) {
	for taken, whole := range map[Protections]Protections{
		ProtectAll &^ ProtectNTFS:     ProtectAll,
		ProtectWindows &^ ProtectNTFS: ProtectWindows,
	} {
		for _, it := range rowsOf(t) {
			if call, isKind := calls[it.call]; isKind {
				testSame(t, it, call, taken, whole)
			}
		}
	}
}

// testSame fails unless all calls return the same of the row's name under both protections.
func testSame(t *testing.T, it row, call call, taken, whole Protections) {
	said, wanted := call.ofString(it.name, taken), call.ofString(it.name, whole)
	if fmt.Sprint(said) != fmt.Sprint(wanted) {
		t.Errorf("%v %q: %v, not %v", call.kind, it.name, said, wanted)
	}
	testManyOf(t, it, call.kind, taken, FaultOf(call.kind, it.name, whole))
}

func TestAValidNameIsNotCopiedByARepairOrASuggestion(t *testing.T) {
	name := []byte("main")
	if repaired := Sanitize(name); &repaired[0] != &name[0] {
		t.Error("it is")
	}
	if suggested, _ := SuggestBranch(name); &suggested[0] != &name[0] {
		t.Error("it is")
	}
}

func TestARepairedOrSuggestedNameIsOfTheTypeOfTheName(t *testing.T) {
	type refName string
	if repaired := Sanitize(refName("a..b")); repaired != refName("a.b") {
		t.Errorf("%q", repaired)
	}
	if suggested, ok := SuggestBranch(refName("a b")); suggested != refName("a-b") || !ok {
		t.Errorf("%q", suggested)
	}
}

func TestNamesOfAMebibyteAreChecked(t *testing.T) {
	name := bytes.Repeat([]byte("a"), 1<<20)
	if err := CheckTag(name); err != nil {
		t.Error(err)
	}
	name[1<<20-1] = '*'
	var invalid *Error
	if !errors.As(CheckTag(name), &invalid) || invalid.Offset() != 1<<20-1 {
		t.Errorf("%#v", invalid)
	}
	if suggested, ok := SuggestBranch(name); !ok || !bytes.Equal(suggested, name[:1<<20-1]) {
		t.Errorf("a branch of %d bytes is suggested", len(suggested))
	}
}

func TestTheVersionIsThatOfTheRepository(t *testing.T) {
	file, err := os.ReadFile("../../VERSION")
	if err != nil {
		t.Fatal(err)
	}
	major, minor, patch := Version()
	version := strings.TrimSuffix(strings.TrimSpace(string(file)), "-dev")
	if found := fmt.Sprintf("%d.%d.%d", major, minor, patch); found != version {
		t.Errorf("%s, not %s", found, version)
	}
}

func TestCallsFromManyGoroutinesDoNotDisturbEachOther(t *testing.T) {
	const goroutines, rounds = 8, 1000
	wrong := make(chan string, goroutines)
	for g := 0; g < goroutines; g++ {
		go func() {
			said := ""
			for i := 0; i < rounds; i++ {
				name := fmt.Sprintf("refs/heads/%d..x", i)
				var invalid *Error
				if !errors.As(CheckRef(name), &invalid) || invalid.Offset() != len(name)-2 {
					said = name
				}
			}
			wrong <- said
		}()
	}
	for g := 0; g < goroutines; g++ {
		if said := <-wrong; said != "" {
			t.Error(said)
		}
	}
}
