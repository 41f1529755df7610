package gitnames

import (
	"bytes"
	"errors"
	"fmt"
	"runtime"
	"runtime/pprof"
	"sync"
	"testing"
)

// A new goroutine has a small stack, which has to grow, and moves, as it calls the
// functions. What is passed may be on that stack. Meanwhile signals of the profiler
// arrive, and garbage is collected.
func TestNamesOnStacksThatGrowAreChecked(t *testing.T) {
	var profile bytes.Buffer
	if err := pprof.StartCPUProfile(&profile); err != nil {
		t.Fatal(err)
	}
	defer pprof.StopCPUProfile()
	done := make(chan bool)
	go func() {
		for {
			select {
			case <-done:
				return
			default:
				runtime.GC()
			}
		}
	}()
	var waiting sync.WaitGroup
	for g := 0; g < 2000; g++ {
		waiting.Add(1)
		go func(g int) {
			defer waiting.Done()
			checkOnStack(t, g%200)
		}(g)
	}
	waiting.Wait()
	close(done)
}

// checkOnStack checks a name of this length and one byte more, which is on the stack.
func checkOnStack(t *testing.T, length int) {
	var name [201]byte
	for i := range name {
		name[i] = 'a'
	}
	name[length] = '*'
	var invalid *Error
	for round := 0; round < 10; round++ {
		err := CheckTag(name[:length+1])
		if !errors.As(err, &invalid) || invalid.Fault != Asterisk || invalid.Offset() != length {
			t.Errorf("%d: %v", length, err)
		}
		said := fmt.Sprintf("gitnames: Reference name cannot contain '*' ('*' at byte %d)", length)
		if err.Error() != said {
			t.Errorf("%d: %v", length, err)
		}
		if found := Faults(Tag, name[:length+1], 'a', 0); len(found) != length+1 || found[length] != Asterisk {
			t.Errorf("%d: %v", length, found)
		}
		if suggested, ok := SuggestBranch(name[:length+1]); ok != (length > 0) || len(suggested) != length {
			t.Errorf("%d: %q", length, suggested)
		}
		if repaired := Sanitize(name[:length+1]); repaired[length] != '-' {
			t.Errorf("%d: %q", length, repaired)
		}
	}
}
