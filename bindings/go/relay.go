package hagzimot

/*
#include <hagzimot.h>
#include <stdlib.h>
*/
import "C"

import (
	"runtime"
	"sync"
	"unsafe"
)

// Flags are the forms of a relay's messages, added up. Without flags they come framed, and go out framed and canonical.
type Flags uint32

const (
	// PackedIn says that messages come packed.
	PackedIn Flags = C.HAGZIMOT_PACKED_IN
	// PackedOut says that messages go out packed.
	PackedOut Flags = C.HAGZIMOT_PACKED_OUT
	// Plain says that messages go out as they are built, and not in canonical form.
	Plain Flags = C.HAGZIMOT_PLAIN
)

// A Relay is a schema, the struct at the root of messages, calls and limits.
//
// A handle of the library is used in the thread that opened it. So each relay has a goroutine with a thread of its own,
// which makes its calls one by one. Any goroutine may call the relay's methods, also at the same time.
type Relay struct {
	thread *thread
}

// thread takes calls for the thread that opened a handle.
type thread struct {
	// calls get what the thread runs; it ends when calls is closed.
	calls chan func(*C.hagzimot)
	// lock guards isClosed.
	lock     sync.Mutex
	isClosed bool
}

// serve runs calls on a handle in C's memory, and then closes it.
func serve(calls chan func(*C.hagzimot)) {
	// The thread isn't unlocked: it ends with the goroutine.
	runtime.LockOSThread()
	handle := (*C.hagzimot)(C.calloc(1, C.sizeof_hagzimot))
	for call := range calls {
		call(handle)
	}
	C.hagzimot_close(handle)
	C.free(unsafe.Pointer(handle))
}

// run has the thread make a call, and waits for its end. It returns false if the relay is closed.
func (t *thread) run(call func(*C.hagzimot)) bool {
	t.lock.Lock()
	defer t.lock.Unlock()
	if t.isClosed {
		return false
	}
	done := make(chan struct{})
	t.calls <- func(handle *C.hagzimot) {
		defer close(done)
		call(handle)
	}
	<-done
	return true
}

// end lets the thread end, once.
func (t *thread) end() {
	t.lock.Lock()
	defer t.lock.Unlock()
	if !t.isClosed {
		t.isClosed = true
		close(t.calls)
	}
}

// Open opens a relay. The schema is what `capnp compile -o-` writes, or a JSON schema file. The root names a struct by its
// name or id; if it is empty, the root is the one struct at the top of the schema. The calls are a calls file, which also
// has the limits. The error's code is Refused if a file is refused; its text says why.
func Open(schema []byte, root string, calls []byte, flags Flags) (*Relay, error) {
	text, name := make([]byte, textRoom), []byte(root)
	var length C.size_t
	var status C.hagzimot_status
	it := &thread{calls: make(chan func(*C.hagzimot))}
	go serve(it.calls)
	it.run(func(handle *C.hagzimot) {
		if handle == nil {
			status = C.HAGZIMOT_MEMORY
			return
		}
		status = C.hagzimot_open(handle, at(schema), size(schema), at(name), size(name), at(calls), size(calls),
			C.uint32_t(flags), at(text), size(text), &length)
	})
	if status != C.HAGZIMOT_OK {
		it.end()
		if status == C.HAGZIMOT_REFUSED {
			return nil, &Error{Code: Refused, Text: cut(text, length)}
		}
		return nil, failure(status)
	}
	relay := &Relay{thread: it}
	runtime.SetFinalizer(relay, (*Relay).Close)
	return relay, nil
}

// Close returns the memory of the relay. Later calls return an error whose code is Closed. A relay that nobody holds any
// more is closed by the garbage collector, at some time.
func (r *Relay) Close() {
	r.thread.end()
	runtime.SetFinalizer(r, nil)
}

// Relay answers messages that are one after the other, any number of them. It returns the messages that were written, and
// the log: a line for each message that was read.
//
// The error's code is Framing if the input, or the rest of it, doesn't begin with a message, Size if a message is too
// large, and Memory if memory is refused. Then out and log have the answers to the messages before.
func (r *Relay) Relay(messages []byte) (out []byte, log []byte, err error) {
	out, log = make([]byte, len(messages)+256), make([]byte, 256)
	var outLen, logLen C.size_t
	var status C.hagzimot_status = C.HAGZIMOT_CLOSED
	r.thread.run(func(handle *C.hagzimot) {
		status = C.hagzimot_relay(handle, at(messages), size(messages), at(out), size(out), &outLen,
			at(log), size(log), &logLen)
		if outLen > size(out) || logLen > size(log) {
			out, log = make([]byte, outLen), make([]byte, logLen)
			taken := C.hagzimot_take(handle, at(out), size(out), &outLen, at(log), size(log), &logLen)
			if status == C.HAGZIMOT_ROOM {
				status = taken
			}
		}
	})
	runtime.KeepAlive(r)
	return out[:outLen], log[:logLen], failure(status)
}

// Show returns the record of the first message as text on one line. The error's code is Framing if the bytes don't begin
// with a message, Value if the message has no value within the limits or can't be read, Size if it is too large to be
// shown, and Memory if memory is refused.
func (r *Relay) Show(message []byte) (string, error) {
	text := make([]byte, 1024)
	var length, none C.size_t
	var status C.hagzimot_status = C.HAGZIMOT_CLOSED
	r.thread.run(func(handle *C.hagzimot) {
		status = C.hagzimot_show(handle, at(message), size(message), at(text), size(text), &length)
		if status == C.HAGZIMOT_ROOM {
			text = make([]byte, length)
			status = C.hagzimot_take(handle, at(text), size(text), &length, nil, 0, &none)
		}
	})
	runtime.KeepAlive(r)
	return cut(text, length), failure(status)
}
