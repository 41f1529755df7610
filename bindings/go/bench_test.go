package gitnames

import (
	"fmt"
	"strings"
	"testing"
)

// refs are valid full names of 25 bytes.
func refs(count int) []string {
	names := make([]string, count)
	for i := range names {
		names[i] = fmt.Sprintf("refs/heads/topic/%08d", i)
	}
	return names
}

func BenchmarkCheckRef(b *testing.B) {
	b.ReportAllocs()
	name := refs(1)[0]
	for i := 0; i < b.N; i++ {
		if err := CheckRef(name); err != nil {
			b.Fatal(err)
		}
	}
}

func BenchmarkCheckRefOfBytes(b *testing.B) {
	b.ReportAllocs()
	name := []byte(refs(1)[0])
	for i := 0; i < b.N; i++ {
		if err := CheckRef(name); err != nil {
			b.Fatal(err)
		}
	}
}

const invalidRef = "refs/heads/topic..00000000"

func BenchmarkCheckRefOfAnInvalidName(b *testing.B) {
	b.ReportAllocs()
	for i := 0; i < b.N; i++ {
		if err := CheckRef(invalidRef); err == nil {
			b.Fatal("it is valid")
		}
	}
}

func BenchmarkCheckRefAndItsOffset(b *testing.B) {
	b.ReportAllocs()
	for i := 0; i < b.N; i++ {
		if err := CheckRef(invalidRef); err.(*Error).Offset() != 17 {
			b.Fatal("it is elsewhere")
		}
	}
}

func BenchmarkCheckRefOfInvalidBytes(b *testing.B) {
	b.ReportAllocs()
	name := []byte(invalidRef)
	for i := 0; i < b.N; i++ {
		if err := CheckRef(name); err == nil {
			b.Fatal("it is valid")
		}
	}
}

func BenchmarkFaultOfAnInvalidName(b *testing.B) {
	b.ReportAllocs()
	for i := 0; i < b.N; i++ {
		if FaultOf(Ref, invalidRef, 0) != RepeatedDot {
			b.Fatal("it is valid")
		}
	}
}

func BenchmarkTheTextOfAnError(b *testing.B) {
	b.ReportAllocs()
	err := CheckRef(invalidRef)
	for i := 0; i < b.N; i++ {
		if err.Error() == "" {
			b.Fatal("it has none")
		}
	}
}

func BenchmarkCheckComponent(b *testing.B) {
	b.ReportAllocs()
	for i := 0; i < b.N; i++ {
		if err := CheckComponent("main_test.go", ProtectAll); err != nil {
			b.Fatal(err)
		}
	}
}

func BenchmarkCheckBranch(b *testing.B) {
	b.ReportAllocs()
	for i := 0; i < b.N; i++ {
		if err := CheckBranch("feature/login-12"); err != nil {
			b.Fatal(err)
		}
	}
}

// threeParts is a path.
const threeParts = "crates/git_names/path.rs"

func BenchmarkCheckPath(b *testing.B) {
	b.ReportAllocs()
	for i := 0; i < b.N; i++ {
		if err := CheckPath(threeParts, ProtectAll); err != nil {
			b.Fatal(err)
		}
	}
}

// BenchmarkCheckParts is what a path takes by a call for each part.
func BenchmarkCheckParts(b *testing.B) {
	b.ReportAllocs()
	for i := 0; i < b.N; i++ {
		for _, part := range strings.Split(threeParts, "/") {
			if err := CheckComponent(part, ProtectAll); err != nil {
				b.Fatal(err)
			}
		}
	}
}

func BenchmarkSanitize(b *testing.B) {
	b.ReportAllocs()
	for i := 0; i < b.N; i++ {
		if Sanitize("refs//heads/../x.lock") != "refs/heads/-/x" {
			b.Fatal("it isn't repaired")
		}
	}
}

func BenchmarkSuggestBranch(b *testing.B) {
	b.ReportAllocs()
	for i := 0; i < b.N; i++ {
		if name, _ := SuggestBranch("Fix: it's done.."); name != "Fix-it's-done" {
			b.Fatal(name)
		}
	}
}

func BenchmarkFaultsOfAName(b *testing.B) {
	b.ReportAllocs()
	names := strings.Join(refs(10_000), "\n")
	b.ResetTimer()
	for i := 0; i < b.N; i += 10_000 {
		if found := Faults(Ref, names, '\n', 0); found[0] != Valid {
			b.Fatal(found[0])
		}
	}
}

func BenchmarkFaultsOfANameInAList(b *testing.B) {
	b.ReportAllocs()
	names := refs(10_000)
	b.ResetTimer()
	for i := 0; i < b.N; i += 10_000 {
		if found := FaultsOf(Ref, names, 0); found[0] != Valid {
			b.Fatal(found[0])
		}
	}
}
