"""Tries the built `hagzimot salvage` on streams that the script damages, each with the answer that follows from the damage.

    python3 .ci/tool_salvage.py [PROGRAM]

- Overwritten tables, bytes before the first message, a cut at the end, several faults, empty and foreign input: what is written, the lines on standard error and the status.
- A stream without a fault goes out byte for byte.
- Hostile files of 1 MB, in which each word claims to be a message: the run ends in time.

A case that differs is shown, and the status is 1. Nothing is written below the repository.
"""
import gzip
import json
import pathlib
import struct
import subprocess
import sys
import tempfile
import time

import tool_peers

COUNT = 5000
# A message in the middle, whose own number is not the count of a table.
MIDDLE = 2500
HOSTILE_WORDS = 1024 * 1024 // 8
HOSTILE_SECONDS = 60


def struct_pointer(offset, words, pointers):
    """A pointer to a struct so many words after it."""
    return (offset & 0x3FFFFFFF) << 2 | words << 32 | pointers << 48


def text_pointer(offset, text):
    """A pointer to a text with its zero byte."""
    return 1 | offset << 2 | 2 << 32 | (len(text) + 1) << 35


def far_pointer(segment, position):
    """A far pointer to a landing pad of one word."""
    return 2 | position << 3 | segment << 32


def table(lengths):
    """The table of segments of these lengths in words."""
    halves = [len(lengths) - 1, *lengths]
    return struct.pack(f"<{len(halves)}I", *halves) + bytes(4 * (len(halves) % 2))


def message(number):
    """A message of a number and a text; each seventh has its struct in a second segment."""
    text = f"message {number}".encode()
    body = struct.pack("<QQ", number, text_pointer(0, text)) + text + bytes(-len(text) % 8 or 8)
    words = len(body) // 8
    if number % 7:
        return table([1 + words]) + struct.pack("<Q", struct_pointer(0, 1, 1)) + body
    return table([1, 1 + words]) + struct.pack("<QQ", far_pointer(1, 0), struct_pointer(0, 1, 1)) + body


class Trial:
    """Runs of the program, and what differs from the answers."""

    def __init__(self, program, folder):
        self.program, self.folder = program, folder
        self.faults, self.runs = [], 0

    def run(self, given, *words):
        """What a run over standard input ends with: its status, its output and its lines on standard error."""
        self.runs += 1
        ended = subprocess.run([self.program, "salvage", *words], input=given, capture_output=True, timeout=300, check=False)
        return ended.returncode, ended.stdout, ended.stderr.decode().splitlines()

    def check(self, what, given, kept, gaps, *words):
        """Compares a run with the messages that are to be kept and the gaps, pairs of bytes."""
        lines = [f"-: byte {at}: no message; goes on at byte {end}" if end < len(given) else f"-: byte {at}: no message up to the end at byte {end}" for at, end in gaps]
        left_out = sum(end - at for at, end in gaps)
        lines.append(f"-: messages kept: {len(kept)}, bytes left out: {left_out}, gaps: {len(gaps)}")
        wanted = (3 if gaps else 0, b"".join(kept), lines)
        self.compare(what, self.run(given, *words), wanted)

    def refused(self, what, given, why, *words):
        """Compares a run with a refusal: nothing written, status 4 and the reason."""
        self.compare(what, self.run(given, *words), (4, b"", [f"hagzimot: -: {why}"]))

    def compare(self, what, got, wanted):
        if got == wanted:
            return
        sizes = f"{len(got[1])} bytes for {len(wanted[1])}, status {got[0]} for {wanted[0]}"
        self.faults.append(f"{what}: {sizes}\n  got    {got[2][:6]}\n  wanted {wanted[2][:6]}")


def joined(messages):
    """The stream of messages, and the byte at which each begins; the last is its end."""
    starts = [0]
    for one in messages:
        starts.append(starts[-1] + len(one))
    return b"".join(messages), starts


def with_bytes(stream, at, new):
    """The stream with bytes overwritten."""
    return stream[:at] + new + stream[at + len(new) :]


def without(messages, *numbers):
    """The messages whose indices aren't these."""
    return [one for index, one in enumerate(messages) if index not in numbers]


def single_faults(trial, messages):
    """One table that is overwritten in the middle: this message is left out, and no other."""
    stream, starts = joined(messages)
    first, behind = starts[MIDDLE], starts[MIDDLE + 1]
    tables = {
        "a count of 2^32": b"\xff" * 4,
        "a count of 512": struct.pack("<I", 511),
        "a length beyond --words": struct.pack("<II", 0, 8_388_609),
        "a length beyond the input": struct.pack("<II", 0, len(stream) // 8),
        "text": b"overwritten text",
    }
    for what, new in tables.items():
        trial.check(what, with_bytes(stream, first, new), without(messages, MIDDLE), [(first, behind)])
    trial.check("the first table", with_bytes(stream, 0, b"\xff" * 8), messages[1:], [(0, starts[1])])
    trial.check("the last table", with_bytes(stream, starts[-2], b"\xff" * 8), messages[:-1], [(starts[-2], starts[-1])])


def several_faults(trial, messages):
    """Several tables, side by side, with one message between them, and far apart."""
    stream, starts = joined(messages)

    def damaged(*numbers):
        new = stream
        for number in numbers:
            new = with_bytes(new, starts[number], b"\xff" * 4)
        return new

    trial.check("two faults", damaged(100, 4000), without(messages, 100, 4000), [(starts[it], starts[it + 1]) for it in (100, 4000)])
    trial.check("two faults side by side", damaged(100, 101), without(messages, 100, 101), [(starts[100], starts[102])])
    # A message between two faults has no plausible one after it.
    trial.check("a message between two faults", damaged(100, 102), without(messages, 100, 101, 102), [(starts[100], starts[103])])
    trial.check("two messages between two faults", damaged(100, 103), without(messages, 100, 103), [(starts[100], starts[101]), (starts[103], starts[104])])


def other_places(trial, messages):
    """Bytes that are missing at the end, and bytes before the first message and between messages."""
    stream, starts = joined(messages)
    for left in (1, 4, 8, 16):
        cut = stream[: starts[-2] + left]
        trial.check(f"cut after {left} bytes of the last", cut, messages[:-1], [(starts[-2], len(cut))])
    garbage = bytes(range(160, 224))
    trial.check("garbage before the first", garbage + stream, messages, [(0, len(garbage))])
    trial.check("garbage in the middle", stream[: starts[MIDDLE]] + garbage + stream[starts[MIDDLE] :], messages, [(starts[MIDDLE], starts[MIDDLE] + len(garbage))])
    trial.check("garbage at the end", stream + garbage, messages, [(starts[-1], starts[-1] + len(garbage))])
    # After a fault zeros aren't plausible. Before it each word is a message whose one segment is empty, which is no fault.
    zeros = garbage[:8] + bytes(64)
    trial.check("zeros after a fault", zeros + stream, messages, [(0, len(zeros))])
    trial.check("zeros without a fault", bytes(64) + stream, [bytes(8)] * 8 + messages, [])
    # A table with a bit in its padding is not plausible after a fault.
    padded = table([1, 2])[:12] + b"\1\0\0\0" + messages[6][16:]
    trial.check("padding that is not zero", garbage[:8] + padded + stream, messages, [(0, 8 + len(padded))])
    # A message that is mostly words to which no pointer leads is not plausible.
    loose = table([20]) + struct.pack("<Q", struct_pointer(0, 2, 0)) + b"\xff" * (19 * 8)
    trial.check("a value in a corner", garbage[:8] + loose + stream, messages, [(0, 8 + len(loose))])
    # A root that is a list is not plausible either.
    listed = table([2]) + struct.pack("<QQ", text_pointer(0, b"x"), ord("x"))
    trial.check("a list at the root", garbage[:8] + listed + stream, messages, [(0, 8 + len(listed))])


def whole_blocks(trial, messages):
    """Blocks that are overwritten or missing: each other message is kept, and at most one that is damaged."""
    stream, starts = joined(messages)
    at = starts[MIDDLE] + 8
    blocks = {"zeros": bytes(512), "text": b"overwritten text" * 32, "words of one": struct.pack("<Q", 1) * 64}
    given = {what: with_bytes(stream, at, new) for what, new in blocks.items()}
    given["nothing"] = stream[:at] + stream[at + 512 :]
    for what, bad in given.items():
        # A table before all is overwritten too, so that there is a fault.
        bad = b"\xff" * 8 + bad[8:]
        status, out, lines = trial.run(bad)
        first = b"".join(messages[1:MIDDLE])
        last = b"".join(one for one, start in zip(messages, starts) if start >= at + 512)
        most = len(first) + len(last) + len(messages[MIDDLE])
        if status != 3 or not out.startswith(first) or not out.endswith(last) or len(out) > most:
            trial.faults.append(f"a block of {what}: status {status}, {len(out)} bytes for {len(first) + len(last)}, {lines[:4]}")


def without_faults(trial, messages):
    """What has no fault goes out as it is, and what is no stream of framed messages is refused."""
    stream, starts = joined(messages)
    trial.check("no fault", stream, messages, [])
    trial.check("empty", b"", [], [])
    none = "no message begins at a multiple of 8 bytes (if the front is lost, cut it off up to a message)"
    trial.refused("shifted by 4", stream[4:], none)
    trial.refused("text", b"This is a text and not a stream of messages.\n" * 100, none)
    packed = subprocess.run([trial.program, "convert", "--out", "packed"], input=stream, capture_output=True, timeout=60, check=True).stdout
    trial.refused("packed", packed, "the messages are packed, and salvage reads framed ones (try convert --in packed)")
    trial.refused("compressed", gzip.compress(stream), "the input is compressed by gzip (decompress it first, as zcat does)")
    # A message beyond --words is a fault.
    large = table([200]) + struct.pack("<Q", struct_pointer(0, 199, 0)) + bytes(199 * 8)
    few = messages[:3]
    begin = sum(map(len, few))
    trial.check("a message beyond --words", b"".join(few) + large + b"".join(few), few + few, [(begin, begin + len(large))], "--words", "100")


def outputs(trial, messages):
    """Files in place of standard input and output, and the log as JSON."""
    stream, starts = joined(messages[:10])
    bad, good = trial.folder / 'bad "1".bin', trial.folder / "good.bin"
    bad.write_bytes(with_bytes(stream, starts[4], b"\xff" * 4))
    good.write_bytes(b"old")
    status, out, lines = trial.run(b"", "--log", "json", "-o", str(good), str(bad), str(bad))
    one = [{"file": str(bad), "byte": starts[4], "end": starts[5]}, {"file": str(bad), "kept": 9, "left_out": starts[5] - starts[4], "gaps": 1}]
    if (status, out, [json.loads(it) for it in lines]) != (3, b"", one + one):
        trial.faults.append(f"two files as JSON: status {status}, {lines}")
    if good.read_bytes() != b"".join(without(messages[:10], 4)) * 2:
        trial.faults.append("two files: other bytes")
    trial.compare("--log none", trial.run(bad.read_bytes(), "--log", "none"), (3, b"".join(without(messages[:10], 4)), []))
    kept = good.read_bytes()
    status, out, lines = trial.run(b"\xff" * 64, "-o", str(good))
    if status != 4 or good.read_bytes() != kept:
        trial.faults.append("a refused input replaces the output")


def hostile(trial):
    """Files in which each word claims to be a message, to the end or of 511 segments, or leads a walk astray."""
    words = {
        "claims of the rest": [(HOSTILE_WORDS - 1 - it) << 32 for it in range(HOSTILE_WORDS)],
        "511 segments of a word": [510 | 1 << 32] * HOSTILE_WORDS,
        "far pointers": [(510 if it % 2 else 2) | 1 << 32 for it in range(HOSTILE_WORDS)],
        "structs of pointers": [(it % 64) << 32 | 0xFFFF << 48 if it % 2 else 0xFFFC | 1 << 32 for it in range(HOSTILE_WORDS)],
        "zeros": [0xFFFFFFFF] + [0] * (HOSTILE_WORDS - 1),
        "null roots": [0xFFFFFFFF] + [(1 << 32) * (it % 2) for it in range(HOSTILE_WORDS - 1)],
    }
    for what, numbers in words.items():
        given = struct.pack(f"<{len(numbers)}Q", *numbers)
        began = time.monotonic()
        status, out, lines = trial.run(given, "--log", "json")
        seconds = time.monotonic() - began
        if seconds > HOSTILE_SECONDS:
            trial.faults.append(f"{what}: {seconds:.1f} seconds")
        if status == 4 and not out:
            continue
        told = [json.loads(it) for it in lines]
        pieces = sum(it["end"] - it["byte"] for it in told[:-1])
        if status not in (0, 3) or pieces + len(out) != len(given):
            trial.faults.append(f"{what}: status {status}, {pieces} bytes left out and {len(out)} written of {len(given)}")


def main():
    program = pathlib.Path(sys.argv[1]).resolve() if len(sys.argv) > 1 else tool_peers.PROGRAM
    if not program.exists():
        raise SystemExit(f"{program} is not built")
    messages = [message(number) for number in range(1, COUNT + 1)]
    with tempfile.TemporaryDirectory() as folder:
        trial = Trial(program, pathlib.Path(folder))
        single_faults(trial, messages)
        several_faults(trial, messages)
        other_places(trial, messages)
        whole_blocks(trial, messages)
        without_faults(trial, messages)
        outputs(trial, messages)
        hostile(trial)
    print("\n".join(trial.faults + [f"salvage: {trial.runs} runs, {len(trial.faults)} differ"]))
    return 1 if trial.faults else 0


if __name__ == "__main__":
    sys.exit(main())
