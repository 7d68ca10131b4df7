package hagzimot

import (
	"bytes"
	"errors"
	"runtime"
	"strings"
	"sync"
	"testing"
)

const (
	schema = `[{"id": 1, "name": "P", "data": 1, "pointers": 1, "fields": [
    {"name": "a", "type": "UInt16", "offset": 0}, {"name": "t", "type": "Text", "offset": 0}]}]`
	other = `[{"id": 1, "name": "P", "data": 1, "pointers": 1, "fields": [
    {"name": "a", "type": "UInt16", "offset": 1}, {"name": "t", "type": "Text", "offset": 0}]}]`
	calls = `{"calls": [{"path": ["a"], "verb": "set", "value": {"number": 9}}, {"path": ["t"], "verb": "get"}]}`
)

var (
	// (a = 7, t = "hi"), framed, in canonical form.
	message = []byte{
		0, 0, 0, 0, 4, 0, 0, 0, 0, 0, 0, 0, 1, 0, 1, 0, 7, 0, 0, 0, 0, 0, 0, 0, 1, 0, 0, 0, 26, 0, 0, 0,
		'h', 'i', 0, 0, 0, 0, 0, 0,
	}
	// (a = 7), with a second data word of zeros, and its canonical form.
	wide   = []byte{0, 0, 0, 0, 3, 0, 0, 0, 0, 0, 0, 0, 2, 0, 0, 0, 7, 0, 0, 0, 0, 0, 0, 0, 0, 0, 0, 0, 0, 0, 0, 0}
	narrow = []byte{0, 0, 0, 0, 2, 0, 0, 0, 0, 0, 0, 0, 1, 0, 0, 0, 7, 0, 0, 0, 0, 0, 0, 0}
)

func edited(count int) []byte {
	it := append([]byte{}, message...)
	it[16] = 9
	return bytes.Repeat(it, count)
}

func open(t *testing.T, flags Flags) *Relay {
	t.Helper()
	relay, err := Open([]byte(schema), "P", []byte(calls), flags)
	if err != nil {
		t.Fatal(err)
	}
	return relay
}

// hasCode fails the test if an error hasn't a code.
func hasCode(t *testing.T, err error, code Code) {
	t.Helper()
	if !errors.Is(err, &Error{Code: code}) {
		t.Fatalf("the error is %v, and its code isn't %d", err, code)
	}
}

func TestVersion(t *testing.T) {
	if Version() != 1 {
		t.Fatalf("version %d", Version())
	}
}

func TestRelay(t *testing.T) {
	relay := open(t, 0)
	defer relay.Close()
	out, log, err := relay.Relay(message)
	if err != nil || !bytes.Equal(out, edited(1)) || string(log) != "message 1 written; done; \"hi\"\n" {
		t.Fatalf("%v, %q, %v", out, log, err)
	}
	out, log, err = relay.Relay(nil)
	if err != nil || len(out) != 0 || len(log) != 0 {
		t.Fatalf("%v, %q, %v", out, log, err)
	}
}

func TestManyMessages(t *testing.T) {
	relay := open(t, 0)
	defer relay.Close()
	out, log, err := relay.Relay(bytes.Repeat(message, 1000))
	if err != nil || !bytes.Equal(out, edited(1000)) || bytes.Count(log, []byte("\n")) != 1000 {
		t.Fatal(err)
	}
}

func TestCutInput(t *testing.T) {
	relay := open(t, 0)
	defer relay.Close()
	out, log, err := relay.Relay(bytes.Repeat(message, 200)[:7990])
	hasCode(t, err, Framing)
	if !bytes.Equal(out, edited(199)) || bytes.Count(log, []byte("\n")) != 199 {
		t.Fatalf("%d bytes, %q", len(out), log)
	}
	if out, _, err = relay.Relay(message); err != nil || !bytes.Equal(out, edited(1)) {
		t.Fatal(err)
	}
}

func TestForms(t *testing.T) {
	relay := open(t, PackedOut)
	defer relay.Close()
	packed, _, err := relay.Relay(message)
	if err != nil || len(packed) >= len(message) {
		t.Fatalf("%v, %v", packed, err)
	}
	again := open(t, PackedIn)
	defer again.Close()
	if out, _, err := again.Relay(packed); err != nil || !bytes.Equal(out, edited(1)) {
		t.Fatalf("%v, %v", out, err)
	}
	_, err = Open([]byte(schema), "P", []byte(calls), 8)
	hasCode(t, err, Form)
}

func TestShow(t *testing.T) {
	relay := open(t, 0)
	defer relay.Close()
	if text, err := relay.Show(message); err != nil || text != "(a = 7, t = \"hi\")" {
		t.Fatalf("%q, %v", text, err)
	}
	_, err := relay.Show(message[:39])
	hasCode(t, err, Framing)
	// The pointer of the text leads out of the message.
	far := append([]byte{}, message...)
	far[24] = 101
	_, err = relay.Show(far)
	hasCode(t, err, Value)
	long := strings.Repeat("z", 5000)
	setting := `{"calls": [{"path": ["t"], "verb": "set", "value": {"text": "` + long + `"}}]}`
	setter, err := Open([]byte(schema), "", []byte(setting), 0)
	if err != nil {
		t.Fatal(err)
	}
	defer setter.Close()
	out, _, err := setter.Relay(message)
	if err != nil {
		t.Fatal(err)
	}
	if text, err := relay.Show(out); err != nil || text != "(a = 7, t = \""+long+"\")" {
		t.Fatalf("%q, %v", text, err)
	}
}

func TestRefusals(t *testing.T) {
	for _, it := range []struct{ schema, root, calls, text string }{
		{"no schema", "P", calls, "schema: "}, {schema, "P", "{", "calls: "}, {schema, "Q", calls, ""},
	} {
		_, err := Open([]byte(it.schema), it.root, []byte(it.calls), 0)
		hasCode(t, err, Refused)
		if !strings.HasPrefix(err.Error(), it.text) || err.Error() == "" {
			t.Fatalf("%q", err.Error())
		}
	}
}

func TestClose(t *testing.T) {
	relay := open(t, 0)
	relay.Close()
	relay.Close()
	_, _, err := relay.Relay(message)
	hasCode(t, err, Closed)
	_, err = relay.Show(message)
	hasCode(t, err, Closed)
}

func TestFinalizer(t *testing.T) {
	before := runtime.NumGoroutine()
	for i := 0; i < 50; i++ {
		open(t, 0)
	}
	for i := 0; i < 1000 && runtime.NumGoroutine() > before+5; i++ {
		runtime.GC()
		runtime.Gosched()
	}
	if runtime.NumGoroutine() > before+5 {
		t.Fatalf("%d goroutines are left", runtime.NumGoroutine()-before)
	}
}

func TestCanonical(t *testing.T) {
	limits := DefaultLimits()
	if out, err := Canonical(wide, limits); err != nil || !bytes.Equal(out, narrow) {
		t.Fatalf("%v, %v", out, err)
	}
	if is, err := IsCanonical(wide, limits); err != nil || is {
		t.Fatalf("%v, %v", is, err)
	}
	if is, err := IsCanonical(narrow, limits); err != nil || !is {
		t.Fatalf("%v, %v", is, err)
	}
	_, err := IsCanonical(nil, limits)
	hasCode(t, err, Framing)
	_, err = Canonical(message, Limits{Words: 1000, Levels: 0})
	hasCode(t, err, Value)
}

func TestFirstBreak(t *testing.T) {
	if why, err := FirstBreak([]byte(schema), []byte(schema), "P", nil); err != nil || why != "" {
		t.Fatalf("%q, %v", why, err)
	}
	why, err := FirstBreak([]byte(schema), []byte(other), "P", nil)
	if err != nil || why != "P: field \"a\" lies elsewhere in the newer schema" {
		t.Fatalf("%q, %v", why, err)
	}
	_, err = FirstBreak([]byte(schema), []byte("x"), "P", nil)
	hasCode(t, err, Refused)
}

// Four goroutines have relays of their own, and four share one.
func TestGoroutines(t *testing.T) {
	shared := open(t, 0)
	defer shared.Close()
	var group sync.WaitGroup
	for i := 0; i < 8; i++ {
		relay := shared
		if i%2 == 0 {
			relay = open(t, 0)
			defer relay.Close()
		}
		group.Add(1)
		go func() {
			defer group.Done()
			for k := 1; k < 20; k++ {
				if out, _, err := relay.Relay(bytes.Repeat(message, k)); err != nil || !bytes.Equal(out, edited(k)) {
					t.Error(err)
				}
			}
		}()
	}
	group.Wait()
}

func BenchmarkRelay(b *testing.B) {
	relay, err := Open([]byte(schema), "P", []byte(calls), 0)
	if err != nil {
		b.Fatal(err)
	}
	defer relay.Close()
	for _, count := range []int{1, 100} {
		input := bytes.Repeat(message, count)
		b.Run(map[int]string{1: "1", 100: "100"}[count], func(b *testing.B) {
			for i := 0; i < b.N; i++ {
				if _, _, err := relay.Relay(input); err != nil {
					b.Fatal(err)
				}
			}
		})
	}
}
