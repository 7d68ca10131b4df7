"""Records, and messages that hold them in four layouts, spelled without the program."""
import struct
from typing import NamedTuple, Optional

RECORDS, LAYOUTS = 25_000, 4
STRUCT, LIST, FAR = 0, 1, 2
BYTES, COMPOSITE = 2, 7


class Struct(NamedTuple):
    """A struct's data, in whole words, and what its pointers lead to."""

    data: bytes
    pointers: tuple


class Sized(NamedTuple):
    """An object's words, the upper half of its pointer, and the words of it that are pointers."""

    words: bytes
    kind: int
    upper: int
    pointers: tuple


def structs(elements, wider):
    """A list of structs, each with so many words more in both sections than it needs."""
    data = max(len(it.data) for it in elements) // 8 + wider
    count = max(len(it.pointers) for it in elements) + wider
    words, pointers = struct.pack("<IHH", len(elements) << 2, data, count), []
    for it in elements:
        first = len(words) // 8 + data
        pointers += [(first + index, value) for index, value in enumerate(it.pointers)]
        words += it.data.ljust(8 * data, b"\0") + bytes(8 * count)
    return Sized(words, LIST, COMPOSITE | (len(words) // 8 - 1) << 3, tuple(pointers))


def sized(value, wider):
    """The object of a value: a struct, a list of structs, or bytes."""
    if isinstance(value, bytes):
        return Sized(value + bytes(-len(value) % 8), LIST, BYTES | len(value) << 3, ())
    if isinstance(value, list):
        return structs(value, wider)
    data, count = len(value.data) // 8 + wider, len(value.pointers) + wider
    words = value.data.ljust(8 * data, b"\0") + bytes(8 * count)
    pointers = tuple((data + index, it) for index, it in enumerate(value.pointers))
    return Sized(words, STRUCT, data | count << 16, pointers)


class Layout:
    """A message under way: so many segments, in which objects are put in turn."""

    def __init__(self, segments, wider, gap, double):
        self.segments = [bytearray() for _ in range(segments)]
        self.segments[0] += bytes(8)
        self.wider, self.gap, self.double, self.turn = wider, gap, double, 0

    def add(self, segment, words):
        """Puts words at the segment's end, and answers where they begin."""
        start = len(self.segments[segment])
        self.segments[segment] += words
        return start

    def point(self, segment, at, there, start, it):
        """Writes the pointer that leads to an object, by way of a pad where it is in another segment."""

        def near(place):
            return struct.pack("<iI", ((start - place) // 8 - 1) << 2 | it.kind, it.upper)

        if there == segment:
            self.segments[segment][at : at + 8] = near(at)
            return
        if self.double:
            pad_in = (there + 1) % len(self.segments)
            pad = struct.pack("<II", start | FAR, there) + struct.pack("<II", it.kind, it.upper)
            place = self.add(pad_in, pad)
        else:
            pad_in, place = there, self.add(there, bytes(8))
            self.segments[there][place : place + 8] = near(place)
        far = struct.pack("<II", place | FAR | self.double << 2, pad_in)
        self.segments[segment][at : at + 8] = far

    def put(self, segment, at, value):
        """Puts a value behind the pointer at a byte of a segment."""
        if value is None:
            return
        it = sized(value, self.wider)
        self.turn += 1
        there = self.turn % len(self.segments)
        # Words that no pointer leads to, as an edit leaves them.
        self.add(there, b"\xee" * 8 * self.gap)
        start = self.add(there, it.words)
        self.point(segment, at, there, start, it)
        for index, inner in it.pointers:
            self.put(there, start + 8 * index, inner)

    def frame(self):
        """The message's frame."""
        lengths = [len(it) // 8 for it in self.segments]
        table = struct.pack(f"<I{len(lengths)}I", len(lengths) - 1, *lengths)
        return table + bytes(-len(table) % 8) + b"".join(self.segments)


def text(words):
    """A text's bytes."""
    return words.encode() + b"\0"


def sample(number):
    """A sample; each third has a label."""
    label: Optional[bytes] = text(f"sample {number}") if number % 3 == 0 else None
    return Struct(struct.pack("<Ii", number, 5 - number), (label,))


def record(number):
    """Record `number`; no two are equal."""
    note = text(f"record {number}") if number % 5 else None
    samples = [sample(number + it) for it in range(number % 4)] or None
    raw = bytes(range(number % 23)) if number % 2 else None
    data = struct.pack("<IHHq", number % 5000, number % 7, 0, 37 * number - 1000)
    return Struct(data, (note, samples, raw))


def message(turn):
    """The frame of a run's message by its turn: each record comes once in each layout."""
    number, how = divmod(turn * 7919 % (RECORDS * LAYOUTS), LAYOUTS)
    segments, wider, gap, double = ((1, 0, 0, 0), (1, 2, 1, 0), (3, 0, 1, 0), (4, 1, 0, 1))[how]
    layout = Layout(segments, wider, gap, double)
    layout.put(0, 0, record(number))
    return layout.frame()
