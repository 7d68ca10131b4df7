#!/usr/bin/env python3
"""Runs the programs on long messages, many messages, and long files, with ample memory.

usage: long_inputs.py RELAY COMMAND

RELAY is capnp_relay_cli, COMMAND is hagzimot. What is written and logged is worked out by hand. A schema file with a long name,
a long default, or thousands of nodes, fields and enumerants is printed as it is; one whose last part has another form is refused
for its form. So is a calls file with a long text, long data, or thousands of calls and steps. Ends with status 1 if not.
"""
import json
import os
import struct
import subprocess
import sys
import tempfile

LIMIT, MANY, MEBIBYTE = 100, 5000, 1 << 20
# A struct of a number, a text and data.
RECORD = [{"id": 1, "name": "P", "data": 1, "pointers": 2, "fields": [
    {"name": "a", "type": "UInt16", "offset": 0},
    {"name": "t", "type": "Text", "offset": 0},
    {"name": "d", "type": "Data", "offset": 1}]}]
NULL = bytes.fromhex("00000000 01000000 0000000000000000")
SET_A = {"path": ["a"], "verb": "set", "value": {"number": 7}}
# The status and the line of the command for a schema that can't be taken.
REFUSED = 4


class Differs(Exception):
    """A program does something else than it should."""


def words(*numbers):
    return struct.pack(f"<{len(numbers)}Q", *numbers)


def list_pointer(offset, size, count):
    return 1 | offset << 2 | size << 32 | count << 35


def struct_pointer(offset, data, pointers):
    return offset << 2 | data << 32 | pointers << 48


def relayed(program, schema, calls, form, given):
    """The status, output and log of a run; files are JSON values or texts."""
    with tempfile.TemporaryDirectory() as folder:
        for name, value in (("schema", schema), ("calls", calls)):
            with open(os.path.join(folder, name), "w", encoding="utf-8") as file:
                file.write(value if isinstance(value, str) else json.dumps(value))
        run = subprocess.run([program, "schema", "calls", "1", form], cwd=folder, input=given, capture_output=True, timeout=LIMIT, check=False)
    return run.returncode, run.stdout, run.stderr


def is_so(what, got, wanted):
    """Ends the run where a result isn't the wanted one."""
    if got != wanted:
        short = [repr(it)[:200] for it in (got, wanted)]
        raise Differs(f"{what}: {short[0]}, and not {short[1]}")


def long_message(relay):
    """A message with a mebibyte of bytes 255 behind a pointer that the schema doesn't name, from each form to each."""
    front = words((MEBIBYTE // 8 + 4) << 32, struct_pointer(0, 1, 2), 7, 0, list_pointer(0, 2, MEBIBYTE))
    framed = front + b"\xff" * MEBIBYTE
    # The words of 255 are in runs of 256: the first with its tag, and the count of those behind it.
    run = b"\xff" + b"\xff" * 8 + b"\xff" + b"\xff" * 8 * 255
    packed = bytes([0x50, 4, 2, 0x50, 1, 2, 1, 7, 0, 0, 0x51, 1, 2, 0x80]) + run * (MEBIBYTE // 8 // 256)
    for form, given, wanted in (("framed", framed, framed), ("framed-packed", framed, packed), ("packed-framed", packed, framed), ("packed", packed, packed)):
        got = relayed(relay, RECORD, {"calls": [], "words": 262144}, form, given)
        is_so(f"a long message, {form}", got, (0, wanted, b"message 1 written\n"))
    return 4


def many_messages(relay):
    """A thousand messages, each of which is answered."""
    seven = words(2 << 32, struct_pointer(0, 1, 0), 7)
    log = b"".join(b"message %d written; done\n" % it for it in range(1, 1001))
    is_so("many messages", relayed(relay, RECORD, {"calls": [SET_A]}, "framed", NULL * 1000), (0, seven * 1000, log))
    return 1


def long_text(relay):
    """A text of a mebibyte that is set and shown, and one of a thousand zeros."""
    text = "seventh." * (MEBIBYTE // 8)
    at = {"path": ["t"]}
    calls = [{**at, "verb": "set", "value": {"text": text}}, {**at, "verb": "get"}, {**at, "verb": "initn", "size": 1000}, {**at, "verb": "get"}]
    log = f'message 1 written; done; "{text}"; done; "'.encode() + b"\\0" * 1000 + b'"\n'
    # The root word, its pointers, and 1001 bytes of zero in 126 words.
    out = words(128 << 32, struct_pointer(0, 0, 1), list_pointer(0, 2, 1001)) + bytes(126 * 8)
    is_so("a long text", relayed(relay, RECORD, {"calls": calls, "words": 262144}, "framed", NULL), (0, out, log))
    return 1


def schema_files():
    """Long schema files, each with the text that makes the last part another form."""
    field = {"name": "t", "type": "Data", "offset": 0}
    names = [f"n{it}" for it in range(MANY)]
    return {
        "a default": ([{"id": 1, "name": "P", "data": 0, "pointers": 1, "fields": [{**field, "default": "0a1b2c3d4e5f6a7b" * (1 << 16)}]}], '"}]}]', '0"}]}]'),
        "a name": ([{"id": 1, "name": "EnumerantsOfEnum" * (1 << 16), "enumerants": ["x"]}], ', "enumerants": ["x"]}]', "}]"),
        "nodes": ([{"id": 1 + at, "name": name, "enumerants": ["x"]} for at, name in enumerate(names)], ', "enumerants": ["x"]}]', "}]"),
        "fields": ([{"id": 1, "name": "P", "data": MANY // 8, "pointers": 0, "fields": [{"name": name, "type": "Int8", "offset": at} for at, name in enumerate(names)]}], f', "offset": {MANY - 1}}}]}}]', "}]}]"),
        "enumerants": ([{"id": 1, "name": "E", "enumerants": names}], f'"n{MANY - 1}"]}}]', "1]}]"),
    }


def schema_of(command, text):
    run = subprocess.run([command, "schema", "-"], input=text.encode(), capture_output=True, timeout=LIMIT, check=False)
    return run.returncode, run.stdout, run.stderr


def long_schemas(relay, command):
    """Long schema files are printed as they are, and refused for the form of their last part."""
    files = schema_files()
    for name, (nodes, end, other) in files.items():
        text = json.dumps(nodes)
        status, out, _ = schema_of(command, text)
        is_so(f"a schema with long {name}", (status, json.loads(out or "0")), (0, nodes))
        if not text.endswith(end):
            raise Differs(f"a schema with long {name} ends with {text[-60:]}")
        broken = text.removesuffix(end) + other
        is_so(f"a schema with long {name} and another form", schema_of(command, broken)[:2], (REFUSED, b""))
        is_so("a relay under it", relayed(relay, broken, {"calls": []}, "framed", NULL), (1, b"", b"fault: schema file\n"))
    return 3 * len(files)


def calls_files():
    """Long calls files, each with its log, and the text that makes the last part another form."""
    at, letters, digits = {"path": ["t"]}, "a text of 16 by " * (1 << 16), "0a1b2c3d4e5f6a7b" * (1 << 16)
    get = {**at, "verb": "get"}
    return {
        "text": ([{**at, "verb": "set", "value": {"text": letters}}], b"message 1 written; done\n", '"}}]', '", "bool": true}}]'),
        "data": ([{"path": ["d"], "verb": "set", "value": {"data": digits}}], b"message 1 written; done\n", '"}}]', '0"}}]'),
        "message": ([{**at, "verb": "set", "value": {"message": digits}}], b"fault: call 1\n", '"}}]', '0"}}]'),
        "calls": ([get] * (MANY + 1), b"message 1 written" + b'; ""' * (MANY + 1) + b"\n", ', "verb": "get"}]', "}]"),
        "path": ([{"path": ["t", 0] * MANY + ["t"], "verb": "get"}], b"message 1 written; refused WrongStep\n", '"t"], "verb": "get"}]', '-1], "verb": "get"}]'),
    }


def long_calls(relay):
    """Long calls files are read, and refused for the form of their last part."""
    files = calls_files()
    for name, (calls, log, end, other) in files.items():
        text = json.dumps(calls)
        status, _, said = relayed(relay, RECORD, f'{{"calls": {text}, "words": 262144}}', "framed", NULL)
        is_so(f"calls with long {name}", (status, said), (int(log.startswith(b"fault")), log))
        if not text.endswith(end):
            raise Differs(f"calls with long {name} end with {text[-60:]}")
        broken = text.removesuffix(end) + other
        got = relayed(relay, RECORD, f'{{"calls": {broken}, "words": 262144}}', "framed", NULL)
        is_so(f"calls with long {name} and another form", got, (1, b"", b"fault: calls file\n"))
    return 2 * len(files)


def main(relay, command):
    """Prints the count, and returns the status."""
    relay, command = os.path.abspath(relay), os.path.abspath(command)
    try:
        count = long_message(relay) + many_messages(relay) + long_text(relay) + long_schemas(relay, command) + long_calls(relay)
    except Differs as differs:
        print(differs)
        return 1
    print(f"long inputs: {count} runs are as they should be")
    return 0


if __name__ == "__main__":
    if sys.argv[1:] in (["-h"], ["--help"]):
        sys.exit(print(__doc__))
    sys.exit(main(*sys.argv[1:]))
