//go:build gc && !purego

package gitnames

// hasSSE42 asks the processor.
func hasSSE42() bool

var isSupported = hasSSE42()
