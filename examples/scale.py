"""Measures how the program's cost and memory grow, and where its limits are.

usage: scale.py

Instructions are counted by valgrind, of what a run takes beyond one without messages. Memory is the most that
was resident, told by the kernel while the program waits for more input.
"""
import json
import os
import re
import struct
import subprocess
import tempfile

from relay_program import relay_program

SCHEMA = [
    {
        "id": 1,
        "name": "Root",
        "data": 1,
        "pointers": 1,
        "fields": [
            {"name": "a", "type": "UInt32", "offset": 0},
            {"name": "any", "type": "AnyPointer", "offset": 0},
        ],
    }
]
SET_A = {"path": ["a"], "verb": "set", "value": {"number": 7}}
# A call that isn't put into the canonical words, so that the message is edited in a region.
CLEAR_A = {"path": ["a"], "verb": "clear"}
ROOT = struct.pack("<IHHQ", 0, 1, 1, 1)
PIPES = {name: subprocess.PIPE for name in ("stdin", "stdout", "stderr")}


def frame(*segments):
    """The frame of a message."""
    lengths = [len(it) // 8 for it in segments]
    table = struct.pack(f"<I{len(lengths)}I", len(lengths) - 1, *lengths)
    return table + bytes(-len(table) % 8) + b"".join(segments)


def with_data(words):
    """A message of so many words, nearly all of them one piece of data."""
    count = 8 * (words - 3)
    return frame(ROOT + struct.pack("<II", 1, count << 3 | 2) + b"\xab" * count)


def with_structs(words):
    """A message of some so many words, in a list of structs, each with a text."""
    count = (words - 4) // 3
    tag = struct.pack("<IHH", count << 2, 1, 1)
    head = ROOT + struct.pack("<II", 1, 2 * count << 3 | 7) + tag
    texts = 2 * count
    elements = b"".join(
        struct.pack("<QII", it + 1, (texts - 2 * it - 2 + it) << 2 | 1, 8 << 3 | 2) for it in range(count)
    )
    return frame(head + elements + b"a text.\0" * count)


def with_segments(count):
    """A message of so many segments: a chain of far pointers, each segment with one struct."""
    segments = []
    for it in range(count):
        last = it + 1 == count
        follow = struct.pack("<Q", 0) if last else struct.pack("<II", 2, it + 1)
        segments.append(struct.pack("<IHHQ", 0, 1, 1, it + 1) + follow)
    return frame(*segments)


def nested(levels):
    """A message of so many levels of pointers, each to a struct of one."""
    inner = [struct.pack("<IHH", 0, 0, 1)] * (levels - 1)
    return frame(b"".join(inner) + struct.pack("<IHHQ", 0, 1, 0, 1))


def of_fields(count):
    """A schema whose root has so many numbers of 64 bits, and a message with each."""
    fields = [{"name": f"f{it}", "type": "UInt64", "offset": it} for it in range(count)]
    message = frame(struct.pack("<IHH", 0, count, 0) + struct.pack(f"<{count}Q", *range(1, count + 1)))
    return [{"id": 1, "name": "Fields", "data": count, "pointers": 0, "fields": fields}], message


def of_links(count):
    """A schema of a struct that leads to another such, and a message of so many in a chain."""
    fields = [{"name": "a", "type": "UInt32", "offset": 0}, {"name": "next", "type": {"struct": 1}, "offset": 0}]
    links = [struct.pack("<QIHH", it + 1, 0, 1, it + 2 < count) for it in range(count - 1)]
    message = frame(struct.pack("<IHH", 0, 1, 1) + b"".join(links) + struct.pack("<Q", count))
    return [{"id": 1, "name": "Link", "data": 1, "pointers": 1, "fields": fields}], message


class Runs:
    """Runs of the program in a folder of their own."""

    def __init__(self, folder):
        self.folder, self.program = folder, relay_program()
        self.write("schema.json", json.dumps(SCHEMA).encode())

    def write(self, name, text):
        """Writes a file of the run."""
        with open(os.path.join(self.folder, name), "wb") as file:
            file.write(text)

    def words(self, calls, limits):
        """The program's words, with these calls and limits in its file."""
        self.write("calls.json", json.dumps({"calls": calls, **limits}).encode())
        return [self.program, "schema.json", "calls.json", "1", "framed"]

    def counted(self, given, calls, **limits):
        """The instructions of a run."""
        words = ["valgrind", "--tool=callgrind", "--callgrind-out-file=/dev/null", *self.words(calls, limits)]
        log = subprocess.run(words, input=given, cwd=self.folder, capture_output=True, check=True).stderr
        return int(re.search(rb"Collected : (\d+)", log)[1])

    def beyond(self, given, calls=(SET_A,), **limits):
        """The instructions of a run beyond those of one without messages."""
        return self.counted(given, calls, **limits) - self.counted(b"", calls, **limits)

    def peak(self, given, calls=(SET_A,), **limits):
        """The most kilobytes that were resident when a message was answered."""
        child = subprocess.Popen(self.words(calls, limits), cwd=self.folder, **PIPES)
        child.stdin.write(given)
        child.stdin.flush()
        head = child.stdout.read(8)
        child.stdout.read(8 * int.from_bytes(head[4:8], "little"))
        child.stderr.readline()
        with open(f"/proc/{child.pid}/status", encoding="ascii") as file:
            (line,) = (it for it in file if it.startswith("VmHWM:"))
        child.communicate()
        return int(line.split()[1])

    def answer(self, given, **limits):
        """The last line of the log, or the signal that ended the run."""
        it = subprocess.run(self.words([], limits), input=given, cwd=self.folder, capture_output=True, check=False)
        return f"signal {-it.returncode}" if it.returncode < 0 else it.stderr.decode().splitlines()[-1]


def costs(runs):
    """Prints how the cost grows."""
    small = with_structs(13)
    for count in (1000, 2000, 4000):
        print(f"{count} messages of {len(small)} bytes: {runs.beyond(small * count) / count:.0f} instructions each")
    for make in (with_data, with_structs):
        for words in (1000, 10_000, 100_000, 1_000_000):
            given = make(words)
            print(f"{make.__name__}, {words} words: {runs.beyond(given) / len(given):.2f} instructions a byte")
    for count in (1, 10, 100):
        cost = runs.beyond(small * 1000, [SET_A] * count) / 1000
        print(f"{count} calls: {cost:.0f} instructions a message of {len(small)} bytes")
    cost = runs.beyond(small * 1000, [CLEAR_A]) / 1000
    print(f"a call made by the general machine: {cost:.0f} instructions a message of {len(small)} bytes")
    for count in (1, 10, 100, 511):
        cost = runs.beyond(with_segments(count) * 10, nesting=1000) / 10
        print(f"{count} segments: {cost / count:.0f} instructions a segment of three words")
    for levels in (10, 100, 1000):
        cost = runs.beyond(nested(levels) * 100, (), nesting=1000) / 100
        print(f"{levels} levels: {cost / levels:.0f} instructions a level")
    for count in (1, 10, 100, 1000):
        schema, message = of_fields(count)
        runs.write("schema.json", json.dumps(schema).encode())
        last = {"path": [f"f{count - 1}"], "verb": "set", "value": {"number": 7}}
        cost = runs.beyond(message * 100, [last]) / 100
        print(f"{count} fields, the last one set: {cost:.0f} instructions a message, {cost / count:.0f} a field")
    schema, message = of_links(64)
    runs.write("schema.json", json.dumps(schema).encode())
    for steps in (1, 10, 60):
        deep = {"path": ["next"] * (steps - 1) + ["a"], "verb": "set", "value": {"number": 7}}
        print(f"a path of {steps} steps: {runs.beyond(message * 100, [deep]) / 100:.0f} instructions a message of 64 structs")


def memory(runs):
    """Prints what a process holds."""
    for words in (12, 1000, 10_000, 100_000, 1_000_000, 8_388_608):
        given = with_data(words)
        plain, general = runs.peak(given), runs.peak(given, [CLEAR_A])
        print(f"{words} words ({len(given) // 1000} kB): {plain} kB, {general} kB with the general machine")


def limits(runs):
    """Prints on which side of each limit what is answered."""
    for count in (511, 512):
        print(f"{count} segments: {runs.answer(with_segments(count), nesting=1000)}")
    for words in (1000, 1001):
        print(f"{words} words where 1000 are allowed: {runs.answer(with_data(words), words=1000)}")
    for words in (2**29 - 2, 2**29 - 1):
        print(f"a limit of {words} words: {runs.answer(with_data(12), words=words)}")
    for levels in (64, 65):
        print(f"{levels} levels where 64 are allowed: {runs.answer(nested(levels))}")
    for levels in (1000, 10_000, 15_000, 20_000, 30_000, 40_000, 100_000):
        print(f"{levels} levels where so many are allowed: {runs.answer(nested(levels), nesting=levels)}")


def main():
    """Prints all."""
    with tempfile.TemporaryDirectory() as folder:
        runs = Runs(folder)
        for part in (memory, limits, costs):
            print(f"== {part.__doc__.split('Prints ')[1]}")
            part(runs)


if __name__ == "__main__":
    main()
