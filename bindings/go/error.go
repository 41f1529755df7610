package gitnames

import (
	"strconv"
	"strings"
	"unicode/utf8"
)

// An Error says why a name is invalid, and where. The text is made when you call Error.
type Error struct {
	// Kind is what the name was checked as.
	Kind Kind
	// Fault is the first one, in the order of docs/RULES.md. [errors.Is] finds it, by the
	// variable whose name is Err followed by its own.
	Fault Fault

	protect Protections
	offset  int

	// Name is the name.
	Name string
}

// Error is one line: why the name is invalid, and, unless it is empty, at which byte. If the name
// has slashes, the part between them follows that has the byte.
func (e *Error) Error() string {
	text := append(make([]byte, 0, 256), "gitnames: "...)
	text = appendText(text, e.Kind, e.Name, e.protect)
	if e.Name == "" {
		return string(text)
	}
	return string(append(e.appendPlace(append(text, " ("...)), ')'))
}

// Is reports whether the target is the error of the same fault, such as [ErrRepeatedDot].
func (e *Error) Is(target error) bool {
	return target == faultError(e.Fault)
}

// Offset is where the fault is in the name, in bytes: in a..b that of the second dot. If
// something is missing at the end, it is the length of the name.
func (e *Error) Offset() int {
	return e.offset
}

func (e *Error) appendPlace(text []byte) []byte {
	at := e.offset
	if at == len(e.Name) {
		return append(text, "at the end"...)
	}
	text = append(appendByte(text, e.Name[at]), " at byte "...)
	text = strconv.AppendInt(text, int64(at), 10)
	start := strings.LastIndexByte(e.Name[:at], '/') + 1
	piece, _, _ := strings.Cut(e.Name[start:], "/")
	if piece != "" && piece != e.Name && e.Name[at] != '/' {
		text = strconv.AppendQuote(append(text, ", in "...), piece)
	}
	return text
}

// appendByte appends the byte as Go writes a rune.
func appendByte(text []byte, b byte) []byte {
	if b < utf8.RuneSelf {
		return strconv.AppendQuoteRune(text, rune(b))
	}
	const digits = "0123456789abcdef"
	return append(text, '\'', '\\', 'x', digits[b>>4], digits[b&15], '\'')
}
