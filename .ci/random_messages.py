#!/usr/bin/env python3
"""Has random messages read, measured and copied, and compares with what a small reader makes of them.

usage: random_messages.py SEGMENTS BUILDERS [MESSAGES]

SEGMENTS and BUILDERS are the programs cases_segments and cases_builders. A message has values in several segments, with pads of
both kinds; in half of the messages bits are flipped, words are exchanged and segments are cut. Each is read by the getters along
a path. Its size is measured within no limit, its exact cost, one word less, and negative nesting limits. It is made canonical,
and is tested for that. It is copied whole and canonically over other data, into segments of 1, 4, 64 or 9,000 words. A refused
copy changes nothing. The same seed makes the same messages on every machine. Ends with status 1 at the first difference.
"""
import collections
import os
import random
import re
import subprocess
import sys
import tempfile

from message_values import BITS, INLINE, POINTER, Fault, TooLarge, Walk, found_at, list_words, spelled, tag_of, trimmed, words_at

SEED, MESSAGES, LEVELS, AT_ONCE = 1, 100_000, 8, 1_000
ROOT, OLD, NULL = (0, 0), "01000000220000006f6c640000000000", "00000000010000000000000000000000"
LETTERS = {"OutOfBounds": "a", "MalformedFarPointer": "b", "WrongPointerKind": "c", "NestingLimitExceeded": "f", "ReadLimitExceeded": "g", "CapabilityInCanonical": "h", "UnknownPointerType": "j"}


class Differs(Exception):
    """A program answers otherwise than the reader."""


def hex_of(words):
    """Words in hex; `-` for none."""
    return b"".join(it.to_bytes(8, "little") for it in words).hex() or "-"


def number(rng, bits):
    return rng.getrandbits(bits) if bits and rng.randrange(3) else 0


def value(rng, levels):
    """A random value of some levels."""
    way = rng.randrange(7) if levels else rng.randrange(2)
    if way == 0:
        return None
    if way == 1:
        return rng.randrange(9) if rng.randrange(8) == 0 else ("bits", 2, 3, int.from_bytes(b"hi\0", "little"))
    if way in (2, 3):
        return "struct", *struct(rng, rng.randrange(4), rng.randrange(4), levels)
    if way == 4:
        size, count = rng.randrange(6), rng.randrange(12)
        return "bits", size, count, number(rng, BITS[size] * count)
    if way == 5:
        return "pointers", [value(rng, levels - 1) for _ in range(rng.randrange(4))]
    data, pointers = rng.randrange(3), rng.randrange(3)
    return "structs", data, pointers, [struct(rng, data, pointers, levels) for _ in range(rng.randrange(4))]


def struct(rng, data, pointers, levels):
    return [number(rng, 64) for _ in range(data)], [value(rng, levels - 1) for _ in range(pointers)]


def scatter(rng, segments, place, given):
    """Writes a value into segments, near its pointer or behind a pad of one word or two."""
    segment, position = place
    if not isinstance(given, tuple):
        segments[segment][position] = spelled(given)[0]
        return
    words, slots, kids = own_words(given)
    way = rng.choice((0, 0, 1, 2))
    target = segment if way == 0 else rng.randrange(len(segments) + 1)
    if target == len(segments):
        segments.append([])
    pads = segments[target]
    if way == 1:
        at = len(pads)
        pads.append(0)
        segments[segment][position] = 2 | at << 3 | target << 32
        pads[at] = words[0]
    start = len(pads)
    if way == 0:
        # The pointer of a struct without words leads to itself: with the offset 0 it would be null.
        offset = start - position - 1 if words != [0] else -1
        segments[segment][position] = words[0] & ~0xFFFFFFFC | (offset & 0x3FFFFFFF) << 2
    pads += words[1:]
    if way == 2:
        third = rng.randrange(len(segments))
        segments[segment][position] = 6 | len(segments[third]) << 3 | third << 32
        segments[third] += [2 | start << 3 | target << 32, words[0]]
    for slot, kid in zip(slots, kids, strict=True):
        scatter(rng, segments, (target, start + slot), kid)


def own_words(given):
    """A value's pointer with the offset 0, and the words of its object; which of these are pointers, and their values."""
    if given[0] == "struct":
        _, numbers, kids = given
        words = [len(numbers) << 32 | len(kids) << 48, *numbers, *[0] * len(kids)]
        return words, range(len(numbers), len(numbers) + len(kids)), kids
    if given[0] == "bits":
        first, *rest = spelled(given)
        return [first & ~0xFFFFFFFC, *rest], (), ()
    if given[0] == "pointers":
        return [1 | POINTER << 32 | len(given[1]) << 35, *[0] * len(given[1])], range(len(given[1])), given[1]
    _, data, pointers, rows = given
    words, slots, kids = [1 | INLINE << 32 | len(rows) * (data + pointers) << 35, len(rows) << 2 | data << 32 | pointers << 48], [], []
    for numbers, row in rows:
        words += numbers
        slots += range(len(words) - 1, len(words) - 1 + pointers)
        words += [0] * pointers
        kids += row
    return words, slots, kids


def damaged(rng, segments):
    """Segments with flipped bits, exchanged words and cut ends, in half of the messages."""
    for _ in range(rng.choice((0, 0, 1, 3))):
        segment = rng.choice(segments)
        if segment and rng.randrange(4):
            at = rng.randrange(len(segment))
            segment[at] ^= 1 << rng.randrange(64)
            if rng.randrange(3) == 0:
                other = rng.randrange(len(segment))
                segment[at], segment[other] = segment[other], segment[at]
        elif segment and rng.randrange(3) == 0:
            del segment[rng.randrange(len(segment)) :]
    return segments


def read_of(segments, levels, limit=None):
    """A walk over a message, the value and the kind of the fault that ends it."""
    walk = Walk(segments, limit)
    try:
        return walk, walk.value(ROOT, levels), None
    except Fault as fault:
        return walk, None, str(fault)


def accepted(expected, size, data, pointers):
    """Whether a list of elements of a size, or of structs, can be read as elements of the expected size."""
    if size == 1:
        return expected == 1
    if size == INLINE and expected == 1:
        return False
    has_bits, has_pointers = (64 * data, pointers) if size == INLINE else (0, 1) if size == POINTER else (BITS[size], 0)
    return (BITS[expected] if expected < POINTER else 0) <= has_bits and int(expected == POINTER) <= has_pointers


def numbers_of(rng, words):
    """A step that gets a number of a struct, or none where it has no words."""
    if not words:
        return []
    bits = rng.choice((8, 16, 32, 64))
    at = rng.randrange(64 * len(words) // bits)
    return [f"u{bits}:{at}={words[at * bits // 64] >> at * bits % 64 & (1 << bits) - 1}"]


def blobs(words, size, count):
    """What a list is as data and as a text."""
    if size != 2:
        return "WrongElementSize", "WrongElementSize"
    whole = b"".join(it.to_bytes(8, "little") for it in words)[:count]
    return whole.hex() or "-", (whole[:-1].hex() or "-") if whole.endswith(b"\0") else "TextWithoutZeroByte"


def getters(rng, segments, place, levels):
    """The steps of getters at a pointer and some way down, with their answers."""
    try:
        _, found = found_at(segments, place)
    except Fault as fault:
        return [f"{it}={fault}" for it in ("sort", "struct", "data", f"list:{rng.randrange(8)}")]
    if found is None:
        return ["null=true", "sort=null", "struct=ok", "pointers=0", "section=-", "data=-", "text=-", f"list:{rng.randrange(8)}=0"]
    kind, start, first, second = found
    if kind == "capability":
        return ["null=false", "sort=capability", *(f"{it}=WrongPointerKind" for it in ("struct", "text", "data", "list:3"))]
    try:
        words_at(segments, start, 0)
        words = words_at(segments, start, first + second) if kind == "struct" else list_words(segments, start, first, second)
    except Fault as fault:
        return [f"{it}={fault}" for it in ("struct", "text", "list:5")]
    if kind == "struct":
        steps = ["sort=struct", *(f"{it}=WrongPointerKind" for it in ("text", "data", "list:2"))]
        steps += ["struct=ok", f"pointers={second}", f"section={hex_of(words[:first])}", *numbers_of(rng, words[:first])]
        if second and levels > 1:
            kid = rng.randrange(second)
            steps += [f"field:{kid}=ok", *getters(rng, segments, (start[0], start[1] + first + kid), levels - 1)]
        return steps
    data = pointers = count = 0
    try:
        count, data, pointers = tag_of(words) if first == INLINE else (second, 0, 0)
    except Fault as fault:
        return ["sort=list", f"list:{rng.randrange(8)}={fault}"]
    told, text = blobs(words, first, second)
    expected = rng.randrange(8)
    steps = ["sort=list", "struct=WrongPointerKind", f"data={told}", f"text={text}"]
    steps.append(f"list:{expected}={count if accepted(expected, first, data, pointers) else 'WrongElementSize'}")
    if count and levels > 1 and first == POINTER:
        at = rng.randrange(count)
        steps += [f"list:6={count}", f"element_pointer:{at}=ok", *getters(rng, segments, (start[0], start[1] + at), levels - 1)]
    elif count and first < POINTER and BITS[first]:
        at, bits = rng.randrange(count), BITS[first]
        number = words[at * bits // 64] >> at * bits % 64 & (1 << bits) - 1
        steps += [f"list:{first}={count}", f"as_u{bits}:{at}={number}" if bits > 1 else f"as_bool:{at}={str(bool(number)).lower()}"]
    elif count and first == INLINE:
        at, width = rng.randrange(count), data + pointers
        row = words[1 + at * width : 1 + at * width + data]
        steps += [f"list:7={count}", f"element:{at}=ok", f"pointers={pointers}", f"section={hex_of(row)}"]
    return steps


class Message:
    """A random message, its lines of cases_segments and its script of cases_builders."""

    def __init__(self, rng, index):
        self.segments = [[0]]
        scatter(rng, self.segments, ROOT, value(rng, rng.choice((0, 1, 2, 3, 4, 4))))
        damaged(rng, self.segments)
        self.levels, self.room = rng.choice((LEVELS, LEVELS, LEVELS, rng.randrange(LEVELS))), (1, 4, 64, 9000)[index % 4]
        self.walk, self.value, self.fault = read_of(self.segments, self.levels)
        self.sort = self.fault or ("capabilities" if self.walk.capabilities else "read")
        self.lines, self.index = [], index
        self.measured(rng)
        self.script = [*self.copied(17, self.value, self.fault), *self.copied(23, *self.canonical())]

    def canonical(self):
        """Its value without what a canonical message leaves out, or why there is none."""
        if self.fault is None and self.walk.capabilities:
            return None, "CapabilityInCanonical"
        return trimmed(self.value), self.fault

    def line(self, limit, *steps, levels=None):
        """A case of cases_segments."""
        segments, levels = "|".join(hex_of(it) for it in self.segments), self.levels if levels is None else levels
        self.lines.append(f"message_{self.index} segments {segments} {levels} {'all' if limit is None else limit} - {' '.join(steps)}")

    def measured(self, rng):
        """Its size within limits, its canonical words, and what getters return."""
        if not self.segments[0]:
            return self.line(None, "root=OutOfBounds")
        walk = self.walk
        if self.fault is None:
            size = f"size={walk.words},{walk.capabilities}"
            self.line(None, "root=ok", size, f"granted={walk.granted}", f"followed={walk.followed}")
            self.line(walk.granted, "root=ok", size, f"granted={walk.granted}")
            if walk.granted:
                less = read_of(self.segments, self.levels, walk.granted - 1)[0]
                self.line(walk.granted - 1, "root=ok", "size=ReadLimitExceeded", f"granted={less.granted}", f"followed={less.followed}")
        else:
            self.line(None, "root=ok", f"size={self.fault}", f"followed={walk.followed}")
        words, fault = self.canonical()
        if fault is None:
            words = spelled(words)
            self.line(None, f"canonicalize={hex_of(words)}", f"is_canonical={str([words] == self.segments).lower()}")
            self.line(None, f"copy:{self.levels}:{len(words)}={hex_of(words)}", f"copy:{self.levels}:{len(words) - 1}=BufferNotLargeEnough")
        elif not walk.capabilities:
            self.line(None, f"canonicalize={fault}")
        if self.index % 16 == 0:
            self.line(None, "root=ok", "size=NestingLimitExceeded", "canonicalize=NestingLimitExceeded", levels=-1 - rng.getrandbits(31))
        if self.levels:
            self.line(None, "root=ok", *getters(rng, self.segments, ROOT, self.levels))

    def copied(self, verb, new, fault):
        """A copy over a text, as a script."""
        if not self.segments[0] or fault and self.walk.capabilities and verb == 23:
            return []
        text = ["0 1 1" if self.room == 1 else f"0 {self.room} 1", f"6 0 1 {OLD}", "2 1 0 25", "= k0"]
        text += [f"4 {len(self.segments)} {' '.join(hex_of(it) for it in self.segments)}", f"8 - {self.levels} 4096"]
        text += [f"2 0 0 {verb} 2 0 0 0 0 0", f"= e{LETTERS[fault]}" if fault else "= k"]
        if fault:
            return [*text, f"13 0 1 {OLD}"]
        words = spelled(new)
        return [*text, f"9 {self.walk.granted} {self.walk.followed}", f"1 00000000{len(words).to_bytes(4, 'little').hex()}{hex_of(words)} {NULL}"]


def messages(count):
    """Random messages; those that are too large to follow are left out."""
    rng, made = random.Random(SEED), 0
    while made < count:
        try:
            yield Message(rng, made)
            made += 1
        except TooLarge:
            continue


def compared(program, lines, wanted, differing):
    """Runs a program on a file, and raises the first line that differs."""
    with tempfile.TemporaryDirectory() as folder:
        with open(os.path.join(folder, "file"), "w", encoding="utf-8") as file:
            file.write("\n".join(lines) + "\n")
        run = subprocess.run([program, "file"], cwd=folder, capture_output=True, text=True, check=False)
    found = re.search(differing, run.stdout)
    if found:
        at = int(found[1])
        raise Differs("\n".join([found[0], *lines[max(0, at - 9) : at + 1]]))
    if run.returncode or wanted not in run.stdout:
        raise Differs(f"status {run.returncode}: {run.stdout[-300:]}{run.stderr[-300:]}, and not {wanted}")


def main(segments, builders, count=MESSAGES):
    """Prints the counts, and returns the status."""
    segments, builders, counts, lines, scripts = os.path.abspath(segments), os.path.abspath(builders), collections.Counter(), [], []
    left = int(count)

    def compare():
        compared(segments, lines, f"file: {len(lines)} cases are as they should be", r"file: the case of line (\d+) differs")
        begun = sum(it.startswith("0 ") for it in scripts)
        compared(builders, scripts, f"{begun} scripts of file are as they should be", r"line (\d+) of file differs: .*")
        counts.update({"cases": len(lines), "copies": begun})
        lines.clear()
        scripts.clear()

    try:
        for it in messages(left):
            lines += it.lines
            scripts += it.script
            counts[f"messages: {it.sort}"] += 1
            if len(lines) >= AT_ONCE:
                compare()
        compare()
    except Differs as differs:
        print(differs)
        return 1
    print(", ".join(f"{what} {number}" for what, number in sorted(counts.items())))
    return int(not counts["messages: read"] or not counts["messages: OutOfBounds"] or not counts["messages: NestingLimitExceeded"])


if __name__ == "__main__":
    if sys.argv[1:] in (["-h"], ["--help"]):
        sys.exit(print(__doc__))
    sys.exit(main(*sys.argv[1:]))
