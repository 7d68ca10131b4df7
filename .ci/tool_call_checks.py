"""Compares which calls `hagzimot relay` refuses before it reads a message with those that every record refuses.

    python3 .ci/tool_call_checks.py [PROGRAM]

The schema has a field of each type, lists of each, a group and a union. Each path is tried with each verb and with values of each sort, one call at a time. What a call does is asked of the relay itself by --lenient, on an empty message and on messages in which
each pointer and each list element is there, with each member of the union active. The check has to refuse a call exactly if all of these refuse it, also one that sets a message. A call on which the two differ is shown, and the status is 1.
"""
import json
import pathlib
import struct
import subprocess
import sys
import tempfile

TOP = pathlib.Path(__file__).resolve().parent.parent
PROGRAM = TOP / "crates" / "hagzimot" / "out" / "hagzimot"
USAGE = 2
PLAIN = [("void", "Void", 0), ("flag", "Bool", 0), ("i8", "Int8", 1), ("i16", "Int16", 1), ("u8", "UInt8", 4), ("u16", "UInt16", 3), ("i32", "Int32", 2), ("u32", "UInt32", 3), ("i64", "Int64", 2), ("u64", "UInt64", 3), ("hue", {"enum": 9}, 16)]
POINTERS = ["Text", "Data", {"struct": 2}, "AnyPointer", "Capability", {"list": "Void"}, {"list": "Bool"}, {"list": "UInt8"}, {"list": "Int64"}, {"list": {"enum": 9}}, {"list": "Text"}, {"list": "Data"}, {"list": {"struct": 2}}, {"list": "AnyPointer"}, {"list": {"list": "UInt8"}}]
NAMES = ["text", "data", "kid", "any", "cap", "voids", "flags", "bytes", "longs", "hues", "texts", "datas", "kids", "anys", "lists"]
WORDS, FIRST_FREE = 6, len(POINTERS)


def slot(name, kind, offset, member=None):
    """A slot, which is a member of the union if it has a number there."""
    field = {"name": name, "type": kind, "offset": offset}
    return field if member is None else {**field, "discriminant": member}


SCHEMA = [
    {
        "id": 1,
        "name": "Root",
        "data": WORDS,
        "pointers": FIRST_FREE + 3,
        "union": 17,
        "fields": [
            *(slot(*it) for it in PLAIN),
            *(slot(name, kind, place) for place, (name, kind) in enumerate(zip(NAMES, POINTERS))),
            {"name": "group", "group": 3},
            slot("nothing", "Void", 0, 0),
            slot("word", "Text", FIRST_FREE, 1),
            slot("count", "UInt16", 18, 2),
            {"name": "pair", "group": 4, "discriminant": 3},
        ],
    },
    {"id": 2, "name": "Kid", "data": 1, "pointers": 1, "fields": [slot("n", "UInt16", 0), slot("t", "Text", 0)]},
    {"id": 3, "name": "Root.group", "group": True, "data": WORDS, "pointers": FIRST_FREE + 3, "fields": [slot("g", "UInt64", 5), slot("h", "Data", FIRST_FREE + 1)]},
    {"id": 4, "name": "Root.pair", "group": True, "data": WORDS, "pointers": FIRST_FREE + 3, "fields": [slot("p", "UInt16", 19), slot("q", "Text", FIRST_FREE + 2)]},
    {"id": 9, "name": "Hue", "enumerants": ["red", "green", "blue"]},
]


def framed(*words):
    """The bytes of a message of one segment."""
    return struct.pack("<II", 0, len(words)) + struct.pack(f"<{len(words)}Q", *words)


NULL = framed(0)
# A struct with one data word and one null pointer.
A_STRUCT = framed(0x0001000100000000, 7, 0)
# Lists: two bytes, two bits, two words, two null pointers, and two structs with a word and a pointer each.
LISTS = [
    framed(0x0000001200000001, 0x0201),
    framed(0x0000001100000001, 3),
    framed(0x0000001500000001, 1, 2),
    framed(0x0000001600000001, 0, 0),
    framed(0x0000002700000001, 0x0001000100000008, 5, 0, 6, 0),
]
# A struct of 20 pointers, of which the last are structs without words. So a group can't be set to it: its data and its text are none.
A_MISFIT = framed(0x0014000000000000, *[0] * FIRST_FREE, *[0x00000000FFFFFFFC] * 5)
VALUES = [
    *({"number": it} for it in (0, 7, -1, 300, -300, 70000, 1 << 40, (1 << 64) - 1)),
    {"bool": True},
    {"enum": 1},
    {"enum": 9},
    {"text": "new"},
    {"data": "0aff"},
    *({"message": it.hex()} for it in (NULL, A_STRUCT, *LISTS, A_MISFIT)),
]
VERBS = [{"verb": "get"}, {"verb": "init"}, {"verb": "initn", "size": 2}, {"verb": "clear"}, *({"verb": "set", "value": it} for it in VALUES)]
PATHS = [
    *([name] for name, _, _ in PLAIN),
    *([name] for name in NAMES),
    *([name, 0] for name in NAMES if name in ("voids", "flags", "bytes", "longs", "hues", "texts", "datas", "kids", "anys", "lists")),
    ["kid", "n"], ["kid", "t"], ["kids", 0, "n"], ["kids", 0, "t"], ["lists", 0, 0],
    ["group"], ["group", "g"], ["group", "h"], ["nothing"], ["word"], ["count"], ["pair"], ["pair", "p"], ["pair", "q"],
]  # fmt: skip
# What makes each pointer, and each element, of an empty message.
MAKES_ALL = [
    *({"path": [name], "verb": "initn", "size": 2} for name in NAMES if name not in ("kid", "any", "cap")),
    {"path": ["kid"], "verb": "init"},
    {"path": ["any"], "verb": "set", "value": {"text": "old"}},
    *({"path": [name, 0], "verb": "set", "value": {kind: value}} for name, kind, value in (("texts", "text", "a"), ("datas", "data", "0a"))),
    {"path": ["lists", 0], "verb": "initn", "size": 2},
    {"path": ["kid", "t"], "verb": "set", "value": {"text": "b"}},
    {"path": ["kids", 0, "t"], "verb": "set", "value": {"text": "c"}},
    {"path": ["group", "h"], "verb": "set", "value": {"data": "01"}},
]
# What makes each member of the union the active one.
MEMBERS = [
    [{"path": ["nothing"], "verb": "clear"}],
    [{"path": ["word"], "verb": "set", "value": {"text": "w"}}],
    [{"path": ["count"], "verb": "set", "value": {"number": 3}}],
    [{"path": ["pair"], "verb": "init"}, {"path": ["pair", "q"], "verb": "set", "value": {"text": "q"}}],
]


class Trial:
    """The command, in a folder with the schema."""

    def __init__(self, program, folder):
        self.program, self.folder = program, folder
        (folder / "schema.json").write_text(json.dumps(SCHEMA))

    def relay(self, calls, data, *words):
        (self.folder / "calls.json").write_text(json.dumps({"calls": calls}))
        command = [self.program, "relay", "--schema", "schema.json", "--root", "Root", "--calls", "calls.json", *words]
        return subprocess.run(command, cwd=self.folder, input=data, capture_output=True, timeout=60, check=False)

    def records(self):
        """An empty message, and full ones with each member of the union active."""
        made = [NULL]
        for member in MEMBERS:
            run = self.relay([*MAKES_ALL, *member], NULL, "--log", "none")
            if run.returncode:
                raise SystemExit(f"a record is not made: {run.stderr.decode()}")
            made.append(run.stdout)
        return b"".join(made)

    def refused_before(self, call):
        """Whether the check refuses the call."""
        run = self.relay([call], b"", "--log", "none")
        if run.returncode not in (0, USAGE):
            raise SystemExit(f"{call}: status {run.returncode}: {run.stderr.decode()}")
        return run.returncode == USAGE

    def replies(self, call, records):
        """What each record replies to the call."""
        run = self.relay([call], records, "--lenient", "--log", "json", "--allow-refused-calls")
        lines = [json.loads(it) for it in run.stderr.decode().splitlines()]
        if run.returncode or len(lines) != 1 + len(MEMBERS) or any(it["result"] != "written" for it in lines):
            raise SystemExit(f"{call}: status {run.returncode}: {run.stderr.decode()}")
        return [it["replies"][0] for it in lines]


def main():
    program = pathlib.Path(sys.argv[1]).resolve() if len(sys.argv) > 1 else PROGRAM
    differing = refused = tried = 0
    with tempfile.TemporaryDirectory() as folder:
        trial = Trial(program, pathlib.Path(folder))
        records = trial.records()
        for path in PATHS:
            for verb in VERBS:
                call = {"path": path, **verb}
                before, replies = trial.refused_before(call), trial.replies(call, records)
                by_all = all(it.startswith("refused ") for it in replies)
                tried, refused = tried + 1, refused + before
                if before != by_all:
                    differing += 1
                    print(f"{json.dumps(call)}: the check {'refuses' if before else 'takes'} it, and records reply {replies}")
    print(f"calls that are checked: {tried} calls, {refused} refused before a message is read, {differing} differ")
    return 1 if differing or not refused or refused == tried else 0


if __name__ == "__main__":
    sys.exit(main())
