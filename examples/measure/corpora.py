"""Makes the streams of messages that docs/performance.md tells of, the same on every machine.

usage: corpora.py FOLDER

FOLDER gets bench.json, the schema; set.json, the call `set a = 7`; and each stream in both forms, as small.framed and
small.packed: `small` records, `nested` orders with lists and texts, `large` messages of 900 kB, and `far`, orders over
three segments. Messages are laid out as a writer makes them: sections have the schema's sizes, and an object stands in
front of what it points to.
"""
import json
import os
import struct
import sys

SMALL, POINT, ORDER, STATUS, CUSTOMER, LINE, ADDRESS, LARGE = range(1, 9)
ROOTS = {"small": SMALL, "nested": ORDER, "large": LARGE, "far": ORDER}
GREEK = "alpha beta gamma delta epsilon zeta eta theta iota kappa lambda mu nu xi omicron pi".split()


def node(number, title, data, pointers, /, **fields):
    """A struct of the schema; a field is its type, offset and what else it has."""
    said = [{"name": it, "type": kind, "offset": offset, **more} for it, (kind, offset, more) in fields.items()]
    return {"id": number, "name": title, "data": data, "pointers": pointers, "fields": said}


def slot(kind, offset, **more):
    """A field's type, offset and what else it has."""
    return kind, offset, more


def schema():
    """The nodes of the schema file."""
    status = node(
        STATUS,
        "Order.status",
        3,
        5,
        open=slot("Void", 0, discriminant=0),
        paid=slot("UInt64", 2, discriminant=1),
        shipped=slot("Text", 4, discriminant=2),
    )
    order = node(
        ORDER,
        "Order",
        3,
        5,
        a=slot("UInt16", 0),
        id=slot("UInt64", 1),
        customer=slot({"struct": CUSTOMER}, 0),
        lines=slot({"list": {"struct": LINE}}, 1),
        notes=slot({"list": "Text"}, 2),
        path=slot({"list": {"struct": POINT}}, 3),
    )
    order["fields"].append({"name": "status", "group": STATUS})
    line = {"sku": slot("UInt64", 0), "count": slot("UInt16", 4), "price": slot("Int64", 2), "note": slot("Text", 0)}
    lists = {"points": slot({"list": {"struct": POINT}}, 0), "numbers": slot({"list": "UInt64"}, 1)}
    more = {"blob": slot("Data", 2), "orders": slot({"list": {"struct": ORDER}}, 3)}
    flags = {"id": slot("UInt64", 1), "flags": slot("UInt32", 1), "ok": slot("Bool", 16)}
    return [
        node(SMALL, "Small", 2, 2, a=slot("UInt16", 0), **flags, name=slot("Text", 0), tag=slot("Data", 1)),
        node(POINT, "Point", 1, 1, x=slot("Int32", 0), y=slot("Int32", 1), label=slot("Text", 0)),
        order,
        {**status, "group": True, "union": 1},
        node(CUSTOMER, "Customer", 0, 3, name=slot("Text", 0), email=slot("Text", 1), address=slot({"struct": ADDRESS}, 2)),
        node(LINE, "Line", 3, 1, **line, discount=slot("Int16", 5, default=-1)),
        node(ADDRESS, "Address", 1, 2, street=slot("Text", 0), city=slot("Text", 1), zip=slot("UInt32", 0)),
        node(LARGE, "Large", 1, 4, a=slot("UInt16", 0), **lists, **more),
    ]


class Dice:
    """Numbers by chance, the same in each run (xorshift of 64 bits)."""

    def __init__(self, seed):
        self.state = seed

    def bits(self, count):
        """A number of so many bits."""
        it = self.state
        it ^= it << 13 & 2**64 - 1
        it ^= it >> 7
        it ^= it << 17 & 2**64 - 1
        self.state = it
        return it >> 64 - count

    def within(self, least, most):
        """A number from the least to the most."""
        return least + self.bits(32) % (most - least + 1)

    def words(self, least, most):
        """So many Greek letters, in words."""
        return " ".join(GREEK[self.bits(4)] for _ in range(self.within(least, most)))

    def data(self, least, most):
        """So many bytes."""
        return bytes(self.bits(8) for _ in range(self.within(least, most)))


class Object:
    """What a pointer leads to: its upper half, its first words, and where in these its own pointers stand, with what they lead to."""

    def __init__(self, kind, half, front, pointers=()):
        self.kind, self.half, self.front, self.pointers = kind, half, front, list(pointers)

    def words(self):
        """How many words lie at the object itself."""
        return len(self.front) // 8


def record(data, *children):
    """A struct of these bytes of data and these children."""
    data += bytes(-len(data) % 8)
    words, count = len(data) // 8, len(children)
    return Object(0, words | count << 16, data + bytes(8 * count), enumerate(children, words))


def plain(size, count, content):
    """A list of plain elements of a size."""
    return Object(1, size | count << 3, content + bytes(-len(content) % 8))


def octets(content):
    """Data."""
    return plain(2, len(content), content)


def text(said):
    """A text."""
    return octets(said.encode() + b"\0")


def texts(said):
    """A list of texts."""
    return Object(1, 6 | len(said) << 3, bytes(8 * len(said)), enumerate(map(text, said)))


def records(data_words, pointers, items):
    """A list of structs of these sizes, behind its tag."""
    size = data_words + pointers
    tag = struct.pack("<II", len(items) << 2, data_words | pointers << 16)
    found = [(1 + i * size + at, child) for i, it in enumerate(items) for at, child in it.pointers]
    return Object(1, 7 | len(items) * size << 3, tag + b"".join(it.front for it in items), found)


class Message:
    """Segments that are filled, object by object; each object stands in the segment that is picked for it."""

    def __init__(self, root, count=1, pick=lambda here: here):
        self.segments, self.pick = [bytearray() for _ in range(count)], pick
        self.put(0, self.room(0, 1), root)

    def room(self, segment, words):
        """The place of so many new words."""
        at = len(self.segments[segment]) // 8
        self.segments[segment] += bytes(8 * words)
        return at

    def write(self, segment, at, low, high):
        """Writes a word by its halves."""
        struct.pack_into("<II", self.segments[segment], 8 * at, low & 0xFFFF_FFFF, high)

    def put(self, segment, at, it):
        """Puts an object behind the pointer at a place, by a far pointer and a pad where it stands in another segment."""
        if it is None:
            return
        to = self.pick(segment)
        if to != segment:
            pad = self.room(to, 1)
            self.write(segment, at, pad << 3 | 2, to)
            segment, at = to, pad
        start = self.room(segment, it.words())
        self.segments[segment][8 * start : 8 * start + len(it.front)] = it.front
        self.write(segment, at, (start - at - 1) << 2 | it.kind, it.half)
        for inner, child in it.pointers:
            self.put(segment, start + inner, child)

    def pieces(self):
        """The table and the segments."""
        counts = [len(it) // 8 for it in self.segments]
        table = struct.pack(f"<I{len(counts)}I", len(counts) - 1, *counts)
        return [table + bytes(-len(table) % 8), *map(bytes, self.segments)]


def run_length(piece, at, fits):
    """How many words from a place on fit, of 255 at most."""
    end = at
    while end < len(piece) and end - at < 8 * 255 and fits(piece[end : end + 8]):
        end += 8
    return (end - at) // 8


def packed(piece):
    """The packed form of whole words."""
    out, at = bytearray(), 0
    while at < len(piece):
        word = piece[at : at + 8]
        at += 8
        tag = sum((byte != 0) << bit for bit, byte in enumerate(word))
        out += bytes([tag, *filter(None, word)])
        if tag == 0:
            count = run_length(piece, at, lambda it: not any(it))
            out.append(count)
            at += 8 * count
        elif tag == 255:
            count = run_length(piece, at, lambda it: it.count(0) < 2)
            out += bytes([count]) + piece[at : at + 8 * count]
            at += 8 * count
    return bytes(out)


def small(dice):
    """A small record."""
    data = struct.pack("<HBxIQ", dice.within(0, 999), dice.bits(1), dice.bits(8), dice.bits(37))
    return record(data, text(dice.words(2, 5)), octets(dice.data(8, 32)))


def point(dice):
    """A point with its label."""
    return record(struct.pack("<ii", dice.within(-500, 500), dice.within(-500, 500)), text(dice.words(1, 1)))


def line(dice):
    """A line of an order."""
    data = struct.pack("<QHhxxxxq", dice.bits(48), dice.within(0, 20), -dice.within(0, 31), dice.within(1, 99_999))
    return record(data, text(dice.words(1, 4)))


def order(dice):
    """An order, with its customer, lines, notes and path."""
    email = f"{GREEK[dice.bits(4)]}@example.org"
    address = record(struct.pack("<Q", dice.within(10_000, 99_999)), text(dice.words(1, 3)), text(dice.words(1, 1)))
    customer = record(b"", text(dice.words(1, 2)), text(email), address)
    status = dice.within(0, 2)
    paid, shipped = dice.bits(30) * (status == 1), text(dice.words(1, 3)) if status == 2 else None
    data = struct.pack("<HHxxxxQQ", dice.within(0, 999), status, dice.bits(40), paid)
    lines = records(3, 1, [line(dice) for _ in range(dice.within(4, 14))])
    notes = texts([dice.words(2, 8) for _ in range(dice.within(1, 5))])
    path = records(1, 1, [point(dice) for _ in range(dice.within(3, 13))])
    return record(data, customer, lines, notes, path, shipped)


def large(dice):
    """A message of long lists."""
    points = records(1, 1, [point(dice) for _ in range(12_000)])
    numbers = plain(5, 20_000, b"".join(struct.pack("<Q", dice.within(0, 1000)) for _ in range(20_000)))
    orders = records(3, 5, [order(dice) for _ in range(150)])
    return record(struct.pack("<Q", 1), points, numbers, octets(dice.data(300_000, 300_000)), orders)


def stream(name):
    """The messages of a stream."""
    dice = Dice(sum(name.encode()) * 0x9E37_79B9_7F4A_7C15 & 2**64 - 1)
    if name == "small":
        return [Message(small(dice)) for _ in range(11_000)]
    if name == "nested":
        return [Message(order(dice)) for _ in range(1_100)]
    if name == "large":
        return [Message(large(dice)) for _ in range(3)]
    return [Message(order(dice), 3, lambda here: dice.within(0, 2) if dice.bits(2) == 0 else here) for _ in range(1_000)]


def main(folder):
    """Writes all files into the folder."""
    os.makedirs(folder, exist_ok=True)
    files = {"bench.json": schema(), "set.json": {"calls": [{"path": ["a"], "verb": "set", "value": {"number": 7}}]}}
    for name, content in files.items():
        with open(f"{folder}/{name}", "w", encoding="utf-8") as file:
            json.dump(content, file, indent=1)
    for name, root in ROOTS.items():
        messages = stream(name)
        for form, spell in (("framed", bytes), ("packed", packed)):
            with open(f"{folder}/{name}.{form}", "wb") as file:
                length = sum(file.write(b"".join(map(spell, it.pieces()))) for it in messages)
            print(f"{name}.{form}: {len(messages)} messages under node {root}, {length} bytes")


if __name__ == "__main__":
    if len(sys.argv) != 2:
        sys.exit(__doc__)
    main(sys.argv[1])
