// Edits a message: sets its field a, and shows it before and after.
package main

import (
	"fmt"
	"log"

	"hagzimot.invalid/hagzimot"
)

const schema = `[{"id": 1, "name": "P", "data": 1, "pointers": 1, "fields": [
    {"name": "a", "type": "UInt16", "offset": 0}, {"name": "t", "type": "Text", "offset": 0}]}]`
const calls = `{"calls": [{"path": ["a"], "verb": "set", "value": {"number": 9}}]}`

// The framed message (a = 7, t = "hi").
var message = []byte{
	0, 0, 0, 0, 4, 0, 0, 0, 0, 0, 0, 0, 1, 0, 1, 0, 7, 0, 0, 0, 0, 0, 0, 0, 1, 0, 0, 0, 26, 0, 0, 0,
	'h', 'i', 0, 0, 0, 0, 0, 0,
}

func main() {
	relay, err := hagzimot.Open([]byte(schema), "P", []byte(calls), 0)
	if err != nil {
		log.Fatal(err)
	}
	defer relay.Close()
	before, err := relay.Show(message)
	if err != nil {
		log.Fatal(err)
	}
	out, lines, err := relay.Relay(message)
	if err != nil {
		log.Fatal(err)
	}
	after, err := relay.Show(out)
	if err != nil {
		log.Fatal(err)
	}
	fmt.Printf("%s\n%s%s\n", before, lines, after)
}
