//go:build gc && !purego

package gitnames

const isSupported = true
