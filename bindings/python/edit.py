"""Edits a message: sets its field `a`, and shows it before and after.

usage: HAGZIMOT_LIBRARY=FOLDER/libhagzimot.so.1 python3 edit.py     FOLDER: what tools/c_library.py made
"""
import json

import hagzimot

SCHEMA = json.dumps(
    [
        {
            "id": 1,
            "name": "P",
            "data": 1,
            "pointers": 1,
            "fields": [{"name": "a", "type": "UInt16", "offset": 0}, {"name": "t", "type": "Text", "offset": 0}],
        }
    ]
).encode()
# The framed message (a = 7, t = "hi").
MESSAGE = bytes.fromhex("00000000 04000000 00000000 01000100 0700000000000000 01000000 1a000000 6869000000000000")

with hagzimot.Relay(SCHEMA, "P", [{"path": ["a"], "verb": "set", "value": {"number": 9}}]) as relay:
    print(relay.show(MESSAGE))
    out, log = relay.relay(MESSAGE)
    print(log, end="")
    print(relay.show(out))
