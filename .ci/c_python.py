#!/usr/bin/env python3
"""Tries the Python module over the library for C: results and errors of each call, kinds of bytes, and threads.

usage: c_python.py FOLDER     (FOLDER has hagzimot.py and libhagzimot.so.1)

Ends with status 1, and a line for each check that fails.
"""
import gc
import json
import sys
import threading
import warnings

SCHEMA = json.dumps([{"id": 1, "name": "P", "data": 1, "pointers": 1, "fields": [
    {"name": "a", "type": "UInt16", "offset": 0}, {"name": "t", "type": "Text", "offset": 0}]}]).encode()
OTHER = SCHEMA.replace(b'"UInt16", "offset": 0', b'"UInt16", "offset": 1')
CALLS = [{"path": ["a"], "verb": "set", "value": {"number": 9}}, {"path": ["t"], "verb": "get"}]
# (a = 7, t = "hi") in canonical form, that with a = 9, and (a = 7) with a second data word.
MESSAGE = bytes.fromhex("0000000004000000 0000000001000100 0700000000000000 010000001a000000 6869000000000000")
EDITED = MESSAGE.replace(b"\x07", b"\x09")
WIDE = bytes.fromhex("0000000003000000 0000000002000000 0700000000000000 0000000000000000")
FAULTS, COUNTS = [], []


def expect(is_well, what):
    COUNTS.append(what)
    if not is_well:
        FAULTS.append(what)


def error_of(call, *arguments, **named):
    """The error that a call raises, or nothing."""
    try:
        call(*arguments, **named)
    except Exception as error:
        return error
    return None


def try_relay(library):
    """Relays one message and many, of each kind of bytes, and a stream that is cut."""
    with library.Relay(SCHEMA, "P", CALLS) as relay:
        for kind in (bytes, bytearray, memoryview):
            expect(relay.relay(kind(MESSAGE)).out == EDITED, f"a message as {kind.__name__} is edited")
        many = relay.relay(MESSAGE * 1000)
        expect(many.out == EDITED * 1000 and many.log.count("\n") == 1000, "a thousand messages are edited")
        expect(relay.relay(b"") == (b"", ""), "no message has no answer")
        error = error_of(relay.relay, MESSAGE * 3 + MESSAGE[:9])
        expect(isinstance(error, library.Error) and error.answers.out == EDITED * 3, "a cut stream has the answers before")
        expect(relay.show(EDITED) == '(a = 9, t = "hi")', "a message is shown")
        expect(error_of(relay.show, MESSAGE[:39]).status == 6, "a cut message isn't shown")
        expect(error_of(relay.show, MESSAGE.replace(b"\x01\0\0\0\x1a", b"\x65\0\0\0\x1a")).status == 7, "a message out of kind isn't shown")
    expect(error_of(relay.show, MESSAGE).status == 2 and error_of(relay.close) is None, "a closed relay is closed")


def try_open(library):
    """Opens relays under files that are refused, and in other forms."""
    for schema, root, calls, begin in ((b"no", "P", CALLS, "schema: "), (SCHEMA, "P", b"{", "calls: "), (SCHEMA, "Q", CALLS, 'schema: no struct "Q"')):
        error = error_of(library.Relay, schema, root, calls)
        expect(isinstance(error, library.Error) and error.status == 5 and str(error).startswith(begin), f"a refusal begins with {begin}")
    with library.Relay(SCHEMA, "1", CALLS, library.PACKED_OUT) as packing, library.Relay(SCHEMA, "", (), library.PACKED_IN) as unpacking:
        expect(unpacking.relay(packing.relay(MESSAGE).out).out == EDITED, "a packed message is unpacked")
    with library.Relay(SCHEMA, "P", (), nesting=0) as shallow:
        expect(shallow.relay(MESSAGE) == (b"", "message 1 refused: value\n"), "a limit of levels holds")
    expect(error_of(library.Relay, SCHEMA, "P", CALLS, 8).status == 10, "an unknown flag is refused")


def try_frames(library):
    """Compares canonical forms and versions."""
    narrow = library.canonical(WIDE)
    expect(len(narrow) == 24 and library.is_canonical(narrow) and not library.is_canonical(WIDE), "a canonical form is one")
    expect(library.canonical(MESSAGE) == MESSAGE, "a canonical message stays")
    expect(error_of(library.canonical, MESSAGE[:3]).status == 6 and error_of(library.is_canonical, b"").status == 6, "a cut message has no form")
    expect(error_of(library.canonical, MESSAGE, levels=0).status == 7, "a deep message has no form")
    expect(library.first_break(SCHEMA, SCHEMA, "P") is None, "a schema is compatible with itself")
    expect("lies elsewhere" in library.first_break(SCHEMA, OTHER, "P"), "a field that moves is a break")
    expect(error_of(library.first_break, SCHEMA, b"no").status == 5 and library.version() == 1, "a schema is refused")


def try_threads(library):
    """Four threads have relays of their own. A relay of another thread raises an error, and is closed by its own."""
    results = []

    def relay_many():
        with library.Relay(SCHEMA, "P", CALLS) as relay:
            results.append([relay.relay(MESSAGE * count) for count in range(200)])

    threads = [threading.Thread(target=relay_many) for _ in range(4)]
    for thread in threads:
        thread.start()
    for thread in threads:
        thread.join()
    expect(len(results) == 4 and all(it == results[0] for it in results), "four threads have equal results")
    errors, held = [], [library.Relay(SCHEMA, "P", CALLS)]

    def use():
        # An error itself would hold the relay.
        errors.extend(type(error_of(getattr(held[0], name), *given)) for name, *given in (("relay", MESSAGE), ("show", MESSAGE), ("close",)))
        with warnings.catch_warnings(record=True) as said:
            warnings.simplefilter("always")
            held.clear()
            gc.collect()
        errors.extend(it.category for it in said)

    thread = threading.Thread(target=use)
    thread.start()
    thread.join()
    expect(errors[:3] == [RuntimeError] * 3, "another thread can't use a relay")
    expect(errors[3:] == [ResourceWarning], "a relay that another thread drops is reported")


def main(folder):
    sys.path.insert(0, folder)
    import hagzimot

    for part in (try_relay, try_open, try_frames, try_threads):
        part(hagzimot)
    print("\n".join(f"it isn't so: {it}" for it in FAULTS) or f"{len(COUNTS)} checks of the Python module hold")
    return 1 if FAULTS else 0


if __name__ == "__main__":
    sys.dont_write_bytecode = True
    sys.exit(main(sys.argv[1]) if len(sys.argv) == 2 else __doc__)
