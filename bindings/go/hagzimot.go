// Package hagzimot relays, shows and compares Cap'n Proto messages in your process, by the proved code of libhagzimot.
//
// A Relay edits messages under a schema. Canonical, IsCanonical and FirstBreak need no relay. hagzimot.h has the
// interface below.
package hagzimot

/*
#cgo LDFLAGS: -lhagzimot
#include <hagzimot.h>
*/
import "C"

import (
	"fmt"
	"unsafe"
)

// Room for the text of a call. A longer text is cut.
const textRoom = 4096

// Limits are those of following a message.
type Limits struct {
	// Words is the most words that a message has, and that following its pointers costs.
	Words uint32
	// Levels is the most levels of pointers.
	Levels uint32
}

// DefaultLimits returns the limits of a calls file that names none.
func DefaultLimits() Limits {
	return Limits{Words: 8388608, Levels: 64}
}

// Code says why a call failed. The codes are the statuses of hagzimot.h.
type Code uint32

const (
	// Memory was refused, or a value is too deep for the stack.
	Memory Code = C.HAGZIMOT_MEMORY
	// Closed says that the relay was closed.
	Closed Code = C.HAGZIMOT_CLOSED
	// Refused is the code of a schema, calls or renames that are refused.
	Refused Code = C.HAGZIMOT_REFUSED
	// Framing says that the input, or the rest of it, doesn't begin with a message within the limits.
	Framing Code = C.HAGZIMOT_FRAMING
	// Value says that a message has no value within the limits, or can't be read.
	Value Code = C.HAGZIMOT_VALUE
	// Size says that a message is too large to be answered or shown.
	Size Code = C.HAGZIMOT_SIZE
	// Form says that a flag is unknown, or the root's name is not UTF-8.
	Form Code = C.HAGZIMOT_FORM
)

var texts = map[Code]string{
	Memory:  "memory: an allocation was refused, or a value is too deep",
	Closed:  "relay: it is closed",
	Framing: "input: it doesn't begin with a message",
	Value:   "message: it has no value within the limits",
	Size:    "message: it is too large",
	Form:    "arguments: a flag is unknown, or the root is not UTF-8",
}

// Error is a call that failed.
type Error struct {
	// Code says which failure it is.
	Code Code
	// Text is the sentence of a refusal, or says what the code means.
	Text string
}

func (e *Error) Error() string {
	return e.Text
}

// Is reports whether another error has the same code, for errors.Is.
func (e *Error) Is(other error) bool {
	it, ok := other.(*Error)
	return ok && it.Code == e.Code
}

// failure returns the error of a status, or nil.
func failure(status C.hagzimot_status) error {
	if status == C.HAGZIMOT_OK {
		return nil
	}
	code := Code(status)
	text, ok := texts[code]
	if !ok {
		text = fmt.Sprintf("libhagzimot: status %d", status)
	}
	return &Error{Code: code, Text: text}
}

// at returns where bytes are; nil if there are none.
func at(bytes []byte) *C.uint8_t {
	if len(bytes) == 0 {
		return nil
	}
	return (*C.uint8_t)(unsafe.Pointer(&bytes[0]))
}

// size returns how many bytes there are.
func size(bytes []byte) C.size_t {
	return C.size_t(len(bytes))
}

// cut returns the text of a call, which may be longer than its room.
func cut(room []byte, length C.size_t) string {
	if length < size(room) {
		room = room[:length]
	}
	return string(room)
}

// Version returns the version of the library's interface.
func Version() uint32 {
	return uint32(C.hagzimot_version())
}

// Canonical returns the canonical form of the first message, framed. The error's code is Framing if the bytes don't begin
// with a message within the limits, and Value if the message has no value within them.
func Canonical(message []byte, limits Limits) ([]byte, error) {
	// No form within the limits is longer.
	most := uint64(limits.Words) + 2
	count := uint64(len(message)/8) + 2
	for {
		if count > most {
			count = most
		}
		out := make([]byte, 8*count)
		var words C.size_t
		cells := (*[8]C.uint8_t)(unsafe.Pointer(&out[0]))
		status := C.hagzimot_canonical(at(message), size(message), C.uint32_t(limits.Words), C.uint32_t(limits.Levels),
			cells, C.size_t(count), &words)
		if status != C.HAGZIMOT_ROOM || count == most {
			return out[:8*words], failure(status)
		}
		count *= 2
	}
}

// IsCanonical reports whether the first message is canonical. Its errors are those of Canonical.
func IsCanonical(message []byte, limits Limits) (bool, error) {
	status := C.hagzimot_is_canonical(at(message), size(message), C.uint32_t(limits.Words), C.uint32_t(limits.Levels))
	if status == C.HAGZIMOT_NO {
		return false, nil
	}
	return status == C.HAGZIMOT_OK, failure(status)
}

// FirstBreak returns the sentence of the first break between two versions of a schema; it is empty if they are compatible.
// A schema is what `capnp compile -o-` writes, or a JSON schema file. The root names a struct of both; if it is empty, the
// root is the one struct at the top. Renames are a renames file, or empty.
func FirstBreak(older, newer []byte, root string, renames []byte) (string, error) {
	text, name := make([]byte, textRoom), []byte(root)
	var length C.size_t
	status := C.hagzimot_compatible(at(older), size(older), at(newer), size(newer), at(renames), size(renames),
		at(name), size(name), at(text), size(text), &length)
	switch status {
	case C.HAGZIMOT_NO:
		return cut(text, length), nil
	case C.HAGZIMOT_REFUSED:
		return "", &Error{Code: Refused, Text: cut(text, length)}
	}
	return "", failure(status)
}
