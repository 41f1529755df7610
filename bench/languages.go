// languages.go PASSES BRANCHES PATHS: the calls of bench/run's part `languages`, in Go. Each
// file has a name on each line. A loop takes the length of each branch, one checks the
// branches, one the paths, and one the paths by a call for each part. Each loop runs PASSES
// times to warm up. Then each runs so often again, with a mark for bench/count.c before each
// loop and at the end.
package main

import (
	"os"
	"runtime"
	"strconv"
	"strings"
	"syscall"

	"dihareku.example/gitnames"
)

func must(err error) {
	if err != nil {
		panic(err)
	}
}

func names(file string) []string {
	text, err := os.ReadFile(file)
	must(err)
	return strings.Fields(string(text))
}

func mark() {
	must(syscall.Kill(os.Getpid(), 0))
}

func main() {
	runtime.GOMAXPROCS(1) // No thread waits in a loop, whose instructions would count.
	times, err := strconv.Atoi(os.Args[1])
	must(err)
	branches, paths := names(os.Args[2]), names(os.Args[3])
	passes := []func(){
		func() {
			for _, branch := range branches {
				if len(branch) == 0 {
					panic("no name")
				}
			}
		},
		func() {
			for _, branch := range branches {
				must(gitnames.CheckBranch(branch))
			}
		},
		func() {
			for _, path := range paths {
				must(gitnames.CheckPath(path, gitnames.ProtectAll))
			}
		},
		func() {
			for _, path := range paths {
				for _, part := range strings.Split(path, "/") {
					must(gitnames.CheckComponent(part, gitnames.ProtectAll))
				}
			}
		},
	}
	for _, mark := range []func(){func() {}, mark} {
		for _, pass := range passes {
			mark()
			for n := 0; n < times; n++ {
				pass()
			}
		}
		mark()
	}
}
