package gitnames_test

import (
	"errors"
	"fmt"

	"dihareku.example/gitnames"
)

func Example() {
	for _, name := range []string{"main", "feature/.hidden"} {
		if err := gitnames.CheckBranch(name); err != nil {
			fmt.Println(err)
		}
	}
	// Output: gitnames: Reference name cannot start with a dot ('.' at byte 8, in ".hidden")
}

func ExampleError() {
	err := gitnames.CheckRef("refs/heads/a b")
	fmt.Println(errors.Is(err, gitnames.ErrInvalidByte))
	var invalid *gitnames.Error
	if errors.As(err, &invalid) {
		fmt.Println(invalid.Kind, invalid.Fault, invalid.Offset())
	}
	// Output:
	// true
	// Ref InvalidByte 12
}

func ExampleCheckBranch() {
	fmt.Println(gitnames.CheckBranch("main"))
	fmt.Println(gitnames.CheckBranch("-d"))
	// Output:
	// <nil>
	// gitnames: Branch or tag name cannot start with a dash, as it may be mistaken for an option ('-' at byte 0)
}

func ExampleCheckComponent() {
	fmt.Println(gitnames.CheckComponent("aux.c", gitnames.ProtectAll))
	fmt.Println(gitnames.CheckComponent("aux.c", gitnames.ProtectHFS))
	// Output:
	// gitnames: Windows device-names may have side-effects and are not allowed ('a' at byte 0)
	// <nil>
}

func ExampleCheckPath() {
	fmt.Println(gitnames.CheckPath("src/.GIT /config", gitnames.ProtectAll))
	// Output: gitnames: The .git name may never be used ('.' at byte 4, in ".GIT ")
}

func ExampleCheckSafeRef() {
	err := gitnames.CheckSafeRef("hooks/post-update", gitnames.ProtectAll)
	fmt.Println(errors.Is(err, gitnames.ErrOutsideRefs))
	// Output: true
}

func ExampleCheckSymlink() {
	err := gitnames.CheckSymlink([]byte(".gitmodules"), gitnames.ProtectAll)
	fmt.Println(errors.Is(err, gitnames.ErrSymlinkedGitModules))
	// Output: true
}

func ExampleFaultOf() {
	kind := gitnames.Tag // which may depend on a setting
	fmt.Println(kind, gitnames.FaultOf(kind, "v1..2", 0))
	// Output: Tag RepeatedDot
}

func ExampleFaults() {
	for i, fault := range gitnames.Faults(gitnames.Ref, "HEAD\nmain\n", '\n', 0) {
		fmt.Println(i, fault)
	}
	// Output:
	// 0 Valid
	// 1 SomeLowercase
}

func ExampleFaultsOf() {
	names := []string{"src/main.rs", "src/aux.c"}
	for i, fault := range gitnames.FaultsOf(gitnames.Path, names, gitnames.ProtectAll) {
		if fault != gitnames.Valid {
			fmt.Println(names[i], fault)
		}
	}
	// Output: src/aux.c WindowsReservedName
}

func ExampleSuggestBranch() {
	fmt.Println(gitnames.SuggestBranch("Fix: it's done.."))
	fmt.Println(gitnames.SuggestBranch("..."))
	// Output:
	// Fix-it's-done true
	//  false
}

func ExampleSanitize() {
	fmt.Println(gitnames.Sanitize("refs//heads/../x.lock"))
	// Output: refs/heads/-/x
}
