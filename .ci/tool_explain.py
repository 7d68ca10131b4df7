"""Tries the built `hagzimot explain`.

    python3 .ci/tool_explain.py [PROGRAM]

- Messages whose bytes and answers were worked by hand from the encoding document: far pointers, lists of each kind, words that nothing reaches, pointers out of bounds, shared targets, a cycle, a message without a word.
- 1,000 messages of random words, and stored messages with a few random bytes. A small decoder in this file, by the encoding document, collects for each word what it is to each pointer that the root leads to: the line of the word says one of these, that it is reached more than once if there are several, and that it is not reached if there are none.
- 100,000 structs in one another; pointers to the same words, whose number of words is bounded.
- Wrong words, cut inputs and packed inputs.

A case that differs is shown, and the status is 1. Nothing is written below the repository.
"""
import pathlib
import random
import struct
import subprocess
import sys
import tempfile

TOP = pathlib.Path(__file__).resolve().parent.parent
DATA = TOP / "crates" / "hagzimot" / "data"
PROGRAM = TOP / "crates" / "hagzimot" / "out" / "hagzimot"
MESSAGES = 1000
DEEP = 100_000
SEED = 20261201
ELEMENTS = ("void", "bit", "byte", "2-byte element", "4-byte element", "8-byte element", "pointer", "word of structs")
BITS = (0, 1, 8, 16, 32, 64)
AGAIN = " (reached more than once)"


def run(program, *words, given=b""):
    """The status, the output and the errors of a run."""
    ended = subprocess.run([program, *map(str, words)], input=given, capture_output=True, timeout=120, check=False)
    return ended.returncode, ended.stdout.decode(), ended.stderr.decode()


def framed(segments):
    """The bytes of a message of segments, which are lists of words. (Encoding, "Serialization Over a Stream")"""
    table = struct.pack(f"<{1 + len(segments)}I", len(segments) - 1, *map(len, segments))
    return table + bytes(-len(table) % 8) + b"".join(struct.pack(f"<{len(it)}Q", *it) for it in segments)


def of_hex(*segments):
    """Segments from the digits of their words, the lowest byte first."""
    return [[int.from_bytes(bytes.fromhex(word), "little") for word in segment.split()] for segment in segments]


def read_framed(data):
    """The messages of a stream."""
    at = 0
    while at < len(data):
        count = struct.unpack_from("<I", data, at)[0] + 1
        sizes = struct.unpack_from(f"<{count}I", data, at + 4)
        at += (4 + 4 * count + 7) // 8 * 8
        segments = []
        for size in sizes:
            segments.append(list(struct.unpack_from(f"<{size}Q", data, at)))
            at += 8 * size
        yield segments


# ---- the small decoder

def some(count, one):
    """A number of things."""
    several = "words of structs" if one == "word of structs" else one + "s"
    return f"{count} {one if count == 1 else several}"


def signed(bits):
    """The offset of thirty bits."""
    return bits - (1 << 30) if bits >> 29 else bits


class Decoder:
    """What the words of a message are, to each pointer that the root leads to."""

    def __init__(self, segments):
        self.segments = segments
        self.said = {}
        self.has_fault = False
        self.says((0, 0), "root pointer: " + self.pointer_text((0, 0)))
        self.edges = {}
        todo = [(0, 0)]
        while todo:
            place = todo.pop()
            if place in self.edges:
                continue
            self.edges[place] = self.follow(place)
            todo.extend(self.edges[place])

    def word(self, place):
        """The word at a place, if there is one."""
        segment, position = place
        if segment < len(self.segments) and 0 <= position < len(self.segments[segment]):
            return self.segments[segment][position]
        return None

    def has(self, place, count):
        """Whether so many words are there from a place on."""
        segment, position = place
        return segment < len(self.segments) and position >= 0 and position + count <= len(self.segments[segment])

    def says(self, place, text):
        """Notes what a word is, if it is there."""
        if self.word(place) is not None:
            self.said.setdefault(place, []).append(text)

    def object_of(self, place):
        """What the pointer at a place leads to: the object, or why there is none. (Encoding, "Structs", "Lists", "Inter-Segment Pointers", "Capabilities (Interfaces)")"""
        word = self.word(place)
        if word is None:
            return "out of bounds"
        if word == 0:
            return None
        segment, end = place[0], place[1] + 1
        start = None
        if word & 3 == 2:
            pad, words = (word >> 32, word >> 3 & 0x1FFFFFFF), 2 if word & 4 else 1
            if not self.has(pad, words):
                return "out of bounds"
            segment, end = pad[0], pad[1] + 1
            first = self.word(pad)
            if words == 2:
                start = (first >> 32, first >> 3 & 0x1FFFFFFF)
                word = self.word((pad[0], pad[1] + 1))
            else:
                word = first
        if word & 3 == 2:
            return "to another far pointer"
        if word & 3 == 3:
            return "capability" if word >> 2 & 0x3FFFFFFF == 0 else "unknown"
        if start is None:
            start = (segment, end + signed(word >> 2 & 0x3FFFFFFF))
        return self.whole(start, word)

    def whole(self, start, word):
        """The object of a word that begins at a place, if its words are there."""
        if word & 3 == 0:
            data, pointers = word >> 32 & 0xFFFF, word >> 48
            return ("struct", start, data, pointers) if self.has(start, data + pointers) else "out of bounds"
        size, count = word >> 32 & 7, word >> 35
        if size < 6:
            return ("list", start, size, count) if self.has(start, (BITS[size] * count + 63) // 64) else "out of bounds"
        if size == 6:
            return ("pointers", start, count) if self.has(start, count) else "out of bounds"
        if not self.has(start, count + 1):
            return "out of bounds"
        tag = self.word(start)
        if tag & 3 != 0:
            return "its tag is not a struct's"
        each, data, pointers = tag >> 2 & 0x3FFFFFFF, tag >> 32 & 0xFFFF, tag >> 48
        return ("structs", start, count, each, data, pointers) if each * (data + pointers) <= count else "out of bounds"

    def text_of(self, word, place):
        """What a pointer's word says by itself."""
        if word == 0:
            return "null"
        upper = word >> 32
        if word & 3 == 0:
            says = f"struct pointer: {some(upper & 0xFFFF, 'data word')}, {some(upper >> 16, 'pointer')}"
        elif word & 3 == 1:
            says = f"list pointer: {some(upper >> 3, ELEMENTS[upper & 7])}"
        elif word & 3 == 2:
            return f"{'double ' if word & 4 else ''}far pointer: to {upper}:{word >> 3 & 0x1FFFFFFF}"
        elif word >> 2 & 0x3FFFFFFF == 0:
            return f"capability {upper}"
        else:
            return "pointer of an unknown kind"
        if place is None:
            return says
        start = place[1] + 1 + signed(word >> 2 & 0x3FFFFFFF)
        return f"{says}, at {place[0]}:{start}" if start >= 0 else f"{says}, in front of segment {place[0]}"

    def pointer_text(self, place):
        """What the pointer at a place says, and why it isn't followed."""
        word = self.word(place)
        if word is None:
            return ""
        found = self.object_of(place)
        fault = f" ({found})" if isinstance(found, str) and found not in ("capability", "unknown") else ""
        return self.text_of(word, place) + fault

    def follow(self, place):
        """Notes the pad and the object of the pointer at a place, and returns the pointers in the object."""
        word = self.word(place)
        if word is not None and word & 3 == 2:
            pad, is_double = (word >> 32, word >> 3 & 0x1FFFFFFF), bool(word & 4)
            if self.has(pad, 2 if is_double else 1):
                of = f"landing pad of the pointer at {place[0]}:{place[1]}"
                self.says(pad, f"{of}: {self.text_of(self.word(pad), pad)}")
                if is_double:
                    second = (pad[0], pad[1] + 1)
                    self.says(second, f"second word of the {of}: {self.text_of(self.word(second), None)}")
        found = self.object_of(place)
        if isinstance(found, str):
            self.has_fault = True
        if found is None or isinstance(found, str):
            return []
        return getattr(self, "in_" + found[0])(*found[1:])

    def in_struct(self, start, data, pointers):
        """Notes the words of a struct."""
        at = f"{start[0]}:{start[1]}"
        for i in range(data):
            self.says((start[0], start[1] + i), f"data word {i} of the struct at {at}")
        return [self.noted(start, data + i, f"pointer {i} of the struct at {at}") for i in range(pointers)]

    def noted(self, start, offset, which):
        """Notes a pointer in an object, and returns its place."""
        place = (start[0], start[1] + offset)
        self.says(place, f"{which}: {self.pointer_text(place)}")
        return place

    def in_pointers(self, start, count):
        """Notes the words of a list of pointers."""
        return [self.noted(start, i, f"pointer {i} of the list at {start[0]}:{start[1]}") for i in range(count)]

    def in_list(self, start, size, count):
        """Notes the words of a list of plain elements."""
        at = f"{start[0]}:{start[1]}"
        each = 64 // BITS[size] if size else 1
        for i in range((BITS[size] * count + 63) // 64):
            first, last = i * each, min(i * each + each, count) - 1
            which = f"{ELEMENTS[size]} {first}" if first == last else f"{ELEMENTS[size]}s {first} to {last}"
            place = (start[0], start[1] + i)
            shown = ""
            if size == 2:
                shown = ': "' + "".join(map(plain, self.word(place).to_bytes(8, "little")[:last - first + 1])) + '"'
            self.says(place, f"{which} of the list at {at}{shown}")
        return []

    def in_structs(self, start, words, each, data, pointers):
        """Notes the words of a list of structs."""
        at, width, found = f"{start[0]}:{start[1]}", data + pointers, []
        self.says(start, f"tag of the list at {at}: {some(each, 'struct')} of {some(data, 'data word')} and {some(pointers, 'pointer')}")
        for e in range(each if width else 0):
            for i in range(data):
                self.says((start[0], start[1] + 1 + e * width + i), f"data word {i} of element {e} of the list at {at}")
            for i in range(pointers):
                found.append(self.noted(start, 1 + e * width + data + i, f"pointer {i} of element {e} of the list at {at}"))
        for i in range(each * width, words):
            self.says((start[0], start[1] + 1 + i), f"word after the elements of the list at {at}")
        return found

    def is_shallow(self):
        """Whether no pointer leads back to itself, at most sixty levels deep."""
        depth = {}
        order, todo = [], [((0, 0), False)]
        open_places = set()
        while todo:
            place, is_left = todo.pop()
            if is_left:
                open_places.discard(place)
                depth[place] = 1 + max((depth.get(it, 0) for it in self.edges[place]), default=0)
                order.append(place)
            elif place in open_places:
                return False
            elif place not in depth:
                open_places.add(place)
                todo.append((place, True))
                if any(it in open_places for it in self.edges[place]):
                    return False
                todo.extend((it, False) for it in self.edges[place] if it not in depth)
        return max(depth.values()) < 60


def plain(byte):
    """A byte of a text."""
    if byte in (0, 10, 34, 92):
        return {0: "\\0", 10: "\\n", 34: '\\"', 92: "\\\\"}[byte]
    return chr(byte) if 0x20 <= byte < 0x7F else f"\\x{byte:02x}"


# ---- answers by hand

BY_HAND = [
    ("a far pointer", of_hex("0200000001000000", "0000000001000000 2a00000000000000"), [
        "root pointer: far pointer: to 1:0",
        "landing pad of the pointer at 0:0: struct pointer: 1 data word, 0 pointers, at 1:1",
        "data word 0 of the struct at 1:1",
    ], None),
    ("a double far pointer, and a word that nothing reaches", of_hex("0600000001000000", "0a00000002000000 0000000001000000", "ffffffffffffffff 0700000000000000"), [
        "root pointer: double far pointer: to 1:0",
        "landing pad of the pointer at 0:0: far pointer: to 2:1",
        "second word of the landing pad of the pointer at 0:0: struct pointer: 1 data word, 0 pointers",
        "not reached",
        "data word 0 of the struct at 2:1",
    ], None),
    # Four pointers: 9 bits at 0:5, 3 elements of 2 bytes at 0:6, 3 of 4 bytes at 0:7, 1 of 8 bytes at 0:9.
    ("lists of plain elements", of_hex("0000000000000400 0d00000049000000 0d0000001b000000 0d0000001c000000 110000000d000000 ff01000000000000 0100020003000000 0100000002000000 0300000000000000 0800000000000000"), [
        "root pointer: struct pointer: 0 data words, 4 pointers, at 0:1",
        "pointer 0 of the struct at 0:1: list pointer: 9 bits, at 0:5",
        "pointer 1 of the struct at 0:1: list pointer: 3 2-byte elements, at 0:6",
        "pointer 2 of the struct at 0:1: list pointer: 3 4-byte elements, at 0:7",
        "pointer 3 of the struct at 0:1: list pointer: 1 8-byte element, at 0:9",
        "bits 0 to 8 of the list at 0:5",
        "2-byte elements 0 to 2 of the list at 0:6",
        "4-byte elements 0 to 1 of the list at 0:7",
        "4-byte element 2 of the list at 0:7",
        "8-byte element 0 of the list at 0:9",
    ], None),
    # A list of 2 pointers at 0:1: 5 voids at 0:3, and 3 words of structs at 0:3: the tag of 1 struct of 1 word, and a word after it.
    ("lists of pointers, voids and structs", of_hex("0100000016000000 0500000028000000 0100000017000000 0400000001000000 0900000000000000 0000000000000000"), [
        "root pointer: list pointer: 2 pointers, at 0:1",
        "pointer 0 of the list at 0:1: list pointer: 5 voids, at 0:3",
        "pointer 1 of the list at 0:1: list pointer: 2 words of structs, at 0:3",
        "tag of the list at 0:3: 1 struct of 1 data word and 0 pointers",
        "data word 0 of element 0 of the list at 0:3",
        "word after the elements of the list at 0:3",
    ], None),
    ("a pointer past the end", of_hex("9001000001000000 0700000000000000"), [
        "root pointer: struct pointer: 1 data word, 0 pointers, at 0:101 (out of bounds)",
        "not reached",
    ], "root: pointer out of bounds (segment 0, word 0)"),
    # The offset -5 is 0x3ffffffb, times four.
    ("a pointer in front of its segment", of_hex("ecffffff01000000"), [
        "root pointer: struct pointer: 1 data word, 0 pointers, in front of segment 0 (out of bounds)",
    ], "root: pointer out of bounds (segment 0, word 0)"),
    ("a far pointer to a segment that isn't there", of_hex("0a00000007000000"), [
        "root pointer: far pointer: to 7:1 (out of bounds)",
    ], "root: far pointer to a segment that isn't there (segment 0, word 0)"),
    ("a landing pad with a far pointer", of_hex("0200000001000000", "0200000001000000"), [
        "root pointer: far pointer: to 1:0 (to another far pointer)",
        "landing pad of the pointer at 0:0: far pointer: to 1:0",
    ], "root: far pointer to another far pointer (segment 0, word 0)"),
    ("a tag that is a list's", of_hex("010000000f000000 0100000000000000 0000000000000000"), [
        "root pointer: list pointer: 1 word of structs, at 0:1 (its tag is not a struct's)",
        "not reached",
        "not reached",
    ], "root: list of structs whose tag is not a struct's (segment 0, word 0)"),
    # Pointers at 0:1 and 0:2, both to the 3 bytes at 0:3.
    ("a target that two pointers share", of_hex("0000000000000200 050000001a000000 010000001a000000 61622200ffffffff"), [
        "root pointer: struct pointer: 0 data words, 2 pointers, at 0:1",
        "pointer 0 of the struct at 0:1: list pointer: 3 bytes, at 0:3",
        "pointer 1 of the struct at 0:1: list pointer: 3 bytes, at 0:3",
        'bytes 0 to 2 of the list at 0:3: "ab\\""' + AGAIN,
    ], None),
    # The pointer at 0:1 has the offset -1, so its struct is that which it is in.
    ("a cycle", of_hex("0000000000000100 fcffffff00000100"), [
        "root pointer: struct pointer: 0 data words, 1 pointer, at 0:1",
        "pointer 0 of the struct at 0:1: struct pointer: 0 data words, 1 pointer, at 0:1" + AGAIN,
    ], "root" + ".ptr[0]" * 64 + ": nested more than 64 levels deep (--nesting allows more) (segment 0, word 1)"),
    ("a capability and a pointer of an unknown kind", of_hex("0000000000000200 0300000005000000 0700000005000000"), [
        "root pointer: struct pointer: 0 data words, 2 pointers, at 0:1",
        "pointer 0 of the struct at 0:1: capability 5",
        "pointer 1 of the struct at 0:1: pointer of an unknown kind",
    ], "root.ptr[1]: pointer of an unknown kind (segment 0, word 2)"),
    ("a message without a word", [[]], [], "root: the message has no word (segment 0, word 0)"),
    ("a null root", of_hex("0000000000000000"), ["root pointer: null"], None),
    # 17 bytes at 0:1: the escapes, and a list that ends within its third word.
    ("bytes of all sorts", of_hex("010000008a000000 00090a0d227f5c80 2020202020202020 41ffffffffffffff"), [
        "root pointer: list pointer: 17 bytes, at 0:1",
        'bytes 0 to 7 of the list at 0:1: "\\0\\x09\\n\\x0d\\"\\x7f\\\\\\x80"',
        'bytes 8 to 15 of the list at 0:1: "        "',
        'byte 16 of the list at 0:1: "A"',
    ], None),
]

# crates/hagzimot/data/orders.bin, by its bytes.
ORDERS = [[
    "root pointer: struct pointer: 2 data words, 2 pointers, at 0:1",
    "data word 0 of the struct at 0:1",
    "data word 1 of the struct at 0:1",
    "pointer 0 of the struct at 0:1: struct pointer: 0 data words, 2 pointers, at 0:5",
    "pointer 1 of the struct at 0:1: list pointer: 4 words of structs, at 0:8",
    "pointer 0 of the struct at 0:5: list pointer: 4 bytes, at 0:7",
    "pointer 1 of the struct at 0:5: null",
    'bytes 0 to 3 of the list at 0:7: "Ada\\0"',
    "tag of the list at 0:8: 2 structs of 1 data word and 1 pointer",
    "data word 0 of element 0 of the list at 0:8",
    "pointer 0 of element 0 of the list at 0:8: list pointer: 4 bytes, at 0:13",
    "data word 0 of element 1 of the list at 0:8",
    "pointer 0 of element 1 of the list at 0:8: list pointer: 4 bytes, at 0:14",
    'bytes 0 to 3 of the list at 0:13: "pen\\0"',
    'bytes 0 to 3 of the list at 0:14: "ink\\0"',
], [
    "root pointer: struct pointer: 2 data words, 2 pointers, at 0:1",
    "data word 0 of the struct at 0:1",
    "data word 1 of the struct at 0:1",
    "pointer 0 of the struct at 0:1: struct pointer: 0 data words, 2 pointers, at 0:5",
    "pointer 1 of the struct at 0:1: null",
    "pointer 0 of the struct at 0:5: list pointer: 4 bytes, at 0:7",
    "pointer 1 of the struct at 0:5: null",
    'bytes 0 to 3 of the list at 0:7: "Bob\\0"',
]]


def head(number, byte, segments, file="-"):
    """The line before the words of a message."""
    words = sum(map(len, segments))
    return f"{file}: message {number} (byte {byte}): {words} word{'' if words == 1 else 's'} in {len(segments)} segment{'' if len(segments) == 1 else 's'}"


def whole(number, byte, segments, texts, why, file="-"):
    """All lines about a message."""
    places = [(s, i) for s, segment in enumerate(segments) for i in range(len(segment))]
    lines = [head(number, byte, segments, file)]
    lines += [f"{s}:{i}\t{segments[s][i].to_bytes(8, 'little').hex()}\t{text}" for (s, i), text in zip(places, texts, strict=True)]
    return lines + ([f"{file}: message {number} (byte {byte}) has no value: {why}"] if why else [])


def faults_by_hand(program):
    """What is wrong with the messages whose answers were worked by hand."""
    faults = []
    for name, segments, texts, why in BY_HAND:
        ended = run(program, "explain", given=framed(segments))
        wanted = (0, "\n".join(whole(1, 0, segments, texts, why)) + "\n", "")
        if ended != wanted:
            faults.append(f"{name}: {ended}\n  and not {wanted}")
    name = DATA / "orders.bin"
    first, second = read_framed(name.read_bytes())
    lines = whole(1, 0, first, ORDERS[0], None, name), whole(2, 128, second, ORDERS[1], None, name)
    for words, wanted in (((), lines[0] + lines[1]), (("--message", "2"), lines[1]), (("--message", "1"), lines[0])):
        ended = run(program, "explain", *words, name)
        if ended != (0, "\n".join(wanted) + "\n", ""):
            faults.append(f"orders.bin {words}: {ended}")
    return faults


def faults_of_words(program):
    """What is wrong with wrong words, and inputs that end early."""
    name = DATA / "orders.bin"
    faults = []
    ended = run(program, "explain", "--message", 3, name)
    if ended != (2, "", f"hagzimot: --message 3: the last message of {name} is 2\n"):
        faults.append(f"--message 3: {ended}")
    ended = run(program, "explain", "--message", 1)
    if ended != (2, "", "hagzimot: --message 1: - has no message\n"):
        faults.append(f"--message 1 of an empty input: {ended}")
    ended = run(program, "explain", "--message", 0, name)
    if ended[0] != 2 or ended[1] or "--message" not in ended[2]:
        faults.append(f"--message 0: {ended}")
    data = name.read_bytes()
    ended = run(program, "explain", given=data[:190])
    if ended[0] != 4 or ended[2] != "hagzimot: -: message 2, at byte 128: the input ends within a message\n" or len(ended[1].splitlines()) != 16:
        faults.append(f"a cut input: {ended}")
    packed = subprocess.run([program, "convert", "--out", "packed", name], capture_output=True, timeout=120, check=True).stdout
    if run(program, "explain", "--in", "packed", given=packed)[1].splitlines()[1:16] != run(program, "explain", name)[1].splitlines()[1:16]:
        faults.append("packed: other lines")
    return faults


# ---- random messages

def random_segments(rng):
    """Segments of random words, most of which are pointers to places near them."""
    segments = [[0] * rng.choice((1, 2, 5, 12, 30)) for _ in range(rng.choice((1, 1, 1, 2, 3)))]
    for segment in segments:
        for i in range(len(segment)):
            kind = rng.choice((0, 0, 0, 1, 1, 1, 2, 3, 4, 4))
            offset = rng.randrange(-3, 12) & 0x3FFFFFFF
            if kind == 0:
                segment[i] = offset << 2 | rng.randrange(4) << 32 | rng.randrange(4) << 48
            elif kind == 1:
                segment[i] = 1 | offset << 2 | rng.randrange(8) << 32 | rng.randrange(12) << 35
            elif kind == 2:
                segment[i] = 2 | rng.randrange(2) << 2 | rng.randrange(8) << 3 | rng.randrange(len(segments) + 1) << 32
            elif kind == 3:
                segment[i] = rng.choice((0, 3 | rng.randrange(9) << 32, 7, rng.randrange(1 << 64)))
    return segments


def mutated(rng, stored):
    """A stored message with a few bytes changed."""
    segments = [list(it) for it in rng.choice(stored)]
    for _ in range(rng.randrange(1, 4)):
        segment = rng.choice([it for it in segments if it] or [[0]])
        segment[rng.randrange(len(segment))] ^= rng.randrange(1, 256) << 8 * rng.randrange(8)
    return segments


def faults_of_lines(number, segments, lines):
    """What is wrong with the lines about a message."""
    decoder = Decoder(segments)
    faults = []
    places = [(s, i) for s, segment in enumerate(segments) for i in range(len(segment))]
    words, ends = lines[:len(places)], lines[len(places):]
    is_cut = any(" is explained in part: " in it for it in ends)
    for place, line in zip(places, words, strict=True):
        at, digits, text = line.split("\t", 2)
        said = decoder.said.get(place, [])
        if at != f"{place[0]}:{place[1]}" or digits != decoder.word(place).to_bytes(8, "little").hex():
            faults.append(f"message {number}: {line}")
        is_again = text.endswith(AGAIN)
        text = text.removesuffix(AGAIN)
        if text == "not reached":
            is_right = not is_again and (is_cut or not said)
        else:
            is_right = text in said and (is_again == (len(said) > 1) or is_cut)
        if not is_right:
            faults.append(f"message {number}: {line}\n  and not {said}")
    has_no_value = any(" has no value: " in it for it in ends)
    if decoder.has_fault and not has_no_value or not decoder.has_fault and decoder.is_shallow() and has_no_value:
        faults.append(f"message {number}: {ends}")
    return faults


def faults_of_random(program, folder):
    """What is wrong with random messages, and how many are cut."""
    rng = random.Random(SEED)
    stored = [it for name in ("orders.bin", "damaged.bin") for it in read_framed((DATA / name).read_bytes())]
    messages = [random_segments(rng) if i % 2 else mutated(rng, stored) for i in range(MESSAGES)]
    stream = folder / "random.bin"
    stream.write_bytes(b"".join(map(framed, messages)))
    status, out, err = run(program, "explain", stream)
    faults = [] if (status, err) == (0, "") else [f"random messages: {status} {err}"]
    lines, byte, cuts = out.splitlines(), 0, 0
    for number, segments in enumerate(messages, 1):
        if not lines or lines[0] != head(number, byte, segments, stream):
            return faults + [f"message {number}: {lines[:1]}"], cuts
        end = 1 + sum(map(len, segments))
        while end < len(lines) and lines[end].startswith(f"{stream}: message {number} (byte {byte}) "):
            cuts += " is explained in part: " in lines[end]
            end += 1
        faults += faults_of_lines(number, segments, lines[1:end])
        lines, byte = lines[end:], byte + len(framed(segments))
    return faults + [f"lines are left: {it}" for it in lines[:1]], cuts


def faults_of_large(program):
    """What is wrong with structs in one another, and with pointers to the same words."""
    faults = []
    # Each struct is one pointer, to the next word.
    status, out, _ = run(program, "explain", given=framed([[1 << 48] * DEEP + [0]]))
    lines = out.splitlines()
    if status != 0 or len(lines) != DEEP + 3 or any("not reached" in it or AGAIN in it for it in lines):
        faults.append(f"{DEEP} levels: {status}, {len(lines)} lines, {lines[-2:]}")
    # 600 pointers, each to a list of 600 words that begins a word later than the one before.
    count = 600
    words = [1 | 6 << 32 | count << 35] + [1 | (count - 1) << 2 | 5 << 32 | count << 35] * count + [0] * (2 * count)
    status, out, _ = run(program, "explain", given=framed([words]))
    lines = out.splitlines()
    if status != 0 or len(lines) != len(words) + 2 or " is explained in part: " not in lines[-1]:
        faults.append(f"overlapping lists: {status}, {len(lines)} lines, {lines[-1:]}")
    return faults


def main():
    program = pathlib.Path(sys.argv[1]).resolve() if len(sys.argv) > 1 else PROGRAM
    if not program.exists():
        raise SystemExit(f"{program} is not built")
    faults = faults_by_hand(program) + faults_of_words(program) + faults_of_large(program)
    with tempfile.TemporaryDirectory() as folder:
        random_faults, cuts = faults_of_random(program, pathlib.Path(folder))
    faults += random_faults
    print("\n".join(faults + [f"explanations: {len(BY_HAND) + 2} messages by hand, {MESSAGES} random ones ({cuts} in part), {len(faults)} differ"]))
    return 1 if faults else 0


if __name__ == "__main__":
    sys.exit(main())
