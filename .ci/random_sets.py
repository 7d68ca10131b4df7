#!/usr/bin/env python3
"""Relays random messages through a program with calls that set fields, and compares what it writes with the canonical words of
the edited values. These are spelled here by the encoding document, apart from the product.

usage: random_sets.py PROGRAM

A message has numbers, texts, data, a struct, a list of texts and a list of structs; each may be null or zero. Each file of
calls sets one to four of them, at random. The same seed makes the same messages and calls on every machine.
"""
import json
import os
import random
import struct
import subprocess
import sys
import tempfile

SEED, FILES, MESSAGES = 1, 500, 40
SCHEMA = [
    {"id": 1, "name": "Root", "data": 1, "pointers": 5, "fields": [
        {"name": "a", "type": "UInt64", "offset": 0},
        {"name": "name", "type": "Text", "offset": 0},
        {"name": "kid", "type": {"struct": 2}, "offset": 1},
        {"name": "notes", "type": {"list": "Text"}, "offset": 2},
        {"name": "kids", "type": {"list": {"struct": 2}}, "offset": 3},
        {"name": "photo", "type": "Data", "offset": 4}]},
    {"id": 2, "name": "Kid", "data": 2, "pointers": 3, "fields": [
        {"name": "x", "type": "UInt64", "offset": 0},
        {"name": "y", "type": "UInt64", "offset": 1},
        {"name": "first", "type": "Text", "offset": 0},
        {"name": "image", "type": "Data", "offset": 1},
        {"name": "last", "type": "Text", "offset": 2}]},
]
# Where the fields lie: the words of numbers, and the pointers of others.
NUMBERS = {"a": 0, "x": 0, "y": 1}
POINTERS = {"name": 0, "kid": 1, "notes": 2, "kids": 3, "photo": 4, "first": 0, "image": 1, "last": 2}

# A value is None, the bytes of a text or data, a Struct, a list of values behind pointers, or Structs.


class Struct:
    def __init__(self, words, values):
        self.words, self.values = words, values


class Structs:
    def __init__(self, structs):
        self.structs = structs


def widened(value, words, values):
    """A struct with so many words and pointers, zeros and nulls at their ends."""
    return Struct(value.words + [0] * (words - len(value.words)), value.values + [None] * (values - len(value.values)))


def trimmed(value):
    """The value without zero words and nulls at the ends of its structs; those of a list are as wide as its widest."""
    if isinstance(value, Struct):
        words, values = list(value.words), [trimmed(it) for it in value.values]
        while words and not words[-1]:
            words.pop()
        while values and values[-1] is None:
            values.pop()
        return Struct(words, values)
    if isinstance(value, list):
        return [trimmed(it) for it in value]
    if isinstance(value, Structs):
        structs = [trimmed(it) for it in value.structs]
        words, values = (max(len(getattr(it, part)) for it in structs) for part in ("words", "values"))
        return Structs([widened(it, words, values) for it in structs])
    return value


def put_list(out, at, size, count, rows):
    """A list's pointer, and its words behind all: rows of the words and the values of each element."""
    out[at] = (len(out) - at - 1) << 2 | 1 | size << 32 | count << 35
    slots = []
    for words, values in rows:
        out += words
        slots += [(len(out) + i, it) for i, it in enumerate(values)]
        out += [0] * len(values)
    for place, value in slots:
        put(out, place, value)


def put(out, at, value):
    """A pointer over a word, and what it leads to behind all words."""
    if isinstance(value, bytes):
        padded = value + bytes(-len(value) % 8)
        put_list(out, at, 2, len(value), [(list(struct.unpack(f"<{len(padded) // 8}Q", padded)), [])])
    elif isinstance(value, list):
        put_list(out, at, 6, len(value), [([], value)])
    elif isinstance(value, Structs):
        first = value.structs[0]
        wide = len(first.words) + len(first.values)
        tag = len(value.structs) << 2 | len(first.words) << 32 | len(first.values) << 48
        put_list(out, at, 7, wide * len(value.structs), [([tag], [])] + [(it.words, it.values) for it in value.structs])
    elif isinstance(value, Struct) and not value.words and not value.values:
        out[at] = 0xFFFFFFFC
    elif isinstance(value, Struct):
        put_list(out, at, 0, 0, [(value.words, value.values)])
        out[at] = (out[at] & 0xFFFFFFFC) | len(value.words) << 32 | len(value.values) << 48


def framed(value):
    """The framed message of one segment with a value's canonical words."""
    out = [0]
    put(out, 0, trimmed(value))
    return struct.pack(f"<II{len(out)}Q", 0, len(out), *out)


def with_set(value, path, new):
    """A copy of a struct after a set along a path; the same where an index is out of range."""
    name, rest = path[0], path[1:]
    if name in NUMBERS:
        return Struct([new if i == NUMBERS[name] else it for i, it in enumerate(value.words)], value.values)
    at = POINTERS[name]
    old = value.values[at]
    if name == "kid":
        new = with_set(old or Struct([0, 0], [None] * 3), rest, new)
    elif name in ("notes", "kids"):
        rows = old.structs if isinstance(old, Structs) else old or []
        if rest[0] >= len(rows):
            return value
        row = with_set(rows[rest[0]], rest[1:], new) if name == "kids" else new
        rows = [row if i == rest[0] else it for i, it in enumerate(rows)]
        new = Structs(rows) if name == "kids" else rows
    return Struct(value.words, [new if i == at else it for i, it in enumerate(value.values)])


class Made:
    """Random values and calls."""

    def __init__(self, seed):
        self.by = random.Random(seed)

    def some(self, value, chance=0.5):
        """A value, or null."""
        return value if self.by.random() < chance else None

    def number(self):
        return self.by.choice([0, 0, 5, 1 << 63])

    def text(self):
        return "".join(self.by.choices("abcdefgh", k=self.by.choice([0, 1, 3, 6, 7, 8, 9, 15, 16, 20])))

    def text_bytes(self):
        return self.text().encode() + b"\0"

    def kid(self):
        values = [self.some(self.text_bytes()), self.some(self.text().encode()), self.some(self.text_bytes())]
        return Struct([self.number(), self.number()], values)

    def root(self):
        notes = [self.some(self.text_bytes()) for _ in range(self.by.randrange(1, 5))]
        kids = Structs([self.kid() for _ in range(self.by.randrange(1, 4))])
        values = [self.some(self.text_bytes()), self.some(self.kid(), 0.7), self.some(notes, 0.7), self.some(kids, 0.7)]
        return Struct([self.number()], [*values, self.some(self.text().encode())])

    def call(self):
        """A call, its path and what is put there."""
        name = self.by.choice(["a", "name", "photo", "notes", "kid", "kids"])
        path = [name, self.by.randrange(4)] if name in ("notes", "kids") else [name]
        if path[0] in ("kid", "kids"):
            path = [*path, self.by.choice(["x", "y", "first", "image", "last"])]
        number, text = self.number(), self.text()
        if path[-1] in NUMBERS:
            value, new = {"number": number}, number
        elif path[-1] in ("photo", "image"):
            value, new = {"data": text.encode().hex()}, text.encode()
        else:
            value, new = {"text": text}, text.encode() + b"\0"
        return {"path": path, "verb": "set", "value": value}, path, new


def differs(made, program, folder):
    """Relays messages with one file of calls: their paths where the program writes other words, and how many calls there are."""
    calls = [made.call() for _ in range(made.by.choice([1, 1, 2, 3, 4]))]
    with open(f"{folder}/calls.json", "w", encoding="utf-8") as file:
        json.dump({"calls": [it for it, _, _ in calls]}, file)
    given, wanted = b"", b""
    for _ in range(MESSAGES):
        value = made.root()
        given += framed(value)
        for _, path, new in calls:
            value = with_set(value, path, new)
        wanted += framed(value)
    words = [program, "schema.json", "calls.json", "1", "framed"]
    run = subprocess.run(words, cwd=folder, input=given, capture_output=True, check=False)
    return None if run.stdout == wanted else [path for _, path, _ in calls], len(calls)


def main(program):
    made, sets, wrong = Made(SEED), 0, 0
    with tempfile.TemporaryDirectory() as folder:
        with open(f"{folder}/schema.json", "w", encoding="utf-8") as file:
            json.dump(SCHEMA, file)
        for _ in range(FILES):
            paths, count = differs(made, os.path.abspath(program), folder)
            sets += count
            if paths:
                wrong += 1
                print(f"what is written differs after sets at {paths}")
    print(f"random sets: {FILES * MESSAGES} messages, {sets} calls in {FILES} files, {wrong} files with other words")
    return 1 if wrong else 0


if __name__ == "__main__":
    if sys.argv[1:] in (["-h"], ["--help"]):
        sys.exit(print(__doc__))
    if len(sys.argv) != 2:
        sys.exit(__doc__)
    sys.exit(main(sys.argv[1]))
