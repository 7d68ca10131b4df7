"""A plain model of messages that are built: a tree of values, edited by the rules of the library's guide and of the encoding
document, and spelled as a frame of one segment."""
import struct

VOID, BIT, BYTE, TWO, FOUR, EIGHT, POINTER, INLINE = range(8)
BITS = (0, 1, 8, 16, 32, 64, 0, 0)
# The bits of a field or an element, by its width in bytes as scripts write it: 0 for a bit.
BITS_OF_WIDTH = {0: 1, 1: 8, 2: 16, 4: 32, 8: 64}


class Refused(Exception):
    """A call that the rules refuse, with its answer: `e` and the letter of the kind, or `x` for an index that doesn't exist."""


class Slot:
    """A pointer: one of the kids of a value, or the root."""

    def __init__(self, kids, index):
        self.kids, self.index = kids, index

    def get(self):
        return self.kids[self.index]

    def put(self, node):
        self.kids[self.index] = node
        return node


class Node:
    """A value. Structs, alone or in a list, have rows of data words and of kids; numbers have one word each, pointers a kid."""

    def __init__(self, sort, size=0, count=1, data=0, pointers=0):
        self.sort, self.size, self.count, self.data, self.pointers = sort, size, count, data, pointers
        is_row = sort in ("struct", "structs")
        self.words = [0] * (count * data if is_row else count if sort == "numbers" else 0)
        self.kids = [None] * (count * pointers if is_row else count if sort == "pointers" else 0)

    def cost(self):
        """The words that reading it takes from a limit, without pads and without its kids."""
        if self.sort == "struct":
            return self.data + self.pointers
        if self.sort == "structs":
            return 1 + self.count * max(self.data + self.pointers, 1)
        bits = 64 if self.sort == "pointers" else BITS[self.size]
        return (self.count * bits + 63) // 64 if bits else self.count

    def row(self):
        """The number of structs, and the data words and pointers of each, as which it can be read."""
        if self.sort in ("struct", "structs"):
            return self.count, self.data, self.pointers
        if self.sort == "pointers":
            return self.count, 0, 1
        if self.size == BIT:
            raise Refused("ed")
        return self.count, int(self.size != VOID), 0

    def element(self, index):
        """A struct of its row, whose kids are the same."""
        _, data, pointers = self.row()
        one = Node("struct", data=data, pointers=pointers)
        one.words = self.words[index * data : (index + 1) * data]
        one.kids = self.kids[index * pointers : (index + 1) * pointers]
        return one

    def widen(self, data, pointers):
        """Makes it structs with at least these sizes."""
        count, old_data, old_pointers = self.row()
        data, pointers = max(data, old_data), max(pointers, old_pointers)
        self.words = spread(self.words, count, old_data, data, 0)
        self.kids = spread(self.kids, count, old_pointers, pointers, None)
        self.sort = "struct" if self.sort == "struct" else "structs"
        self.size, self.data, self.pointers = 0, data, pointers

    def set_bits(self, index, shift, width, value):
        """Sets a number of a width in bytes at a bit of a word."""
        mask = (1 << BITS_OF_WIDTH[width]) - 1
        self.words[index] = self.words[index] & ~(mask << shift) | (value & mask) << shift


def spread(items, count, each, wider, new):
    """Rows of so many items each, as rows of more."""
    return [item for i in range(count) for item in items[i * each : (i + 1) * each] + [new] * (wider - each)]


def copied(node):
    """A copy of a value and all below it."""
    if node is None:
        return None
    new = Node(node.sort, node.size, node.count, node.data, node.pointers)
    new.words, new.kids = list(node.words), [copied(it) for it in node.kids]
    return new


def below(node):
    """How many values a value has, itself included, and what reading them all costs."""
    if node is None:
        return 0, 0
    all_below = [below(it) for it in node.kids]
    return 1 + sum(it for it, _ in all_below), node.cost() + sum(it for _, it in all_below)


def reads_list(node, expected, is_builder):
    """The number of elements that a list has which is read as elements of a size; refused if it can't be read so."""
    if node is None:
        return 0
    if node.sort == "struct":
        raise Refused("ec")
    if node.sort == "numbers" and node.size == BIT:
        fits = expected == BIT or is_builder and expected == VOID
    elif node.sort == "structs" and expected == BIT:
        fits = False
    else:
        bits = {"structs": 64 * node.data, "numbers": BITS[node.size], "pointers": 0}[node.sort]
        pointers = {"structs": node.pointers, "numbers": 0, "pointers": 1}[node.sort]
        fits = BITS[expected] <= bits and int(expected == POINTER) <= pointers
    if not fits:
        raise Refused("ed")
    return node.count


def blob(node, is_text):
    """The number of bytes of a text or of data."""
    if node is None:
        return 0
    if node.sort == "struct":
        raise Refused("ec")
    if node.sort != "numbers" or node.size != BYTE:
        raise Refused("ed")
    if not is_text:
        return node.count
    if not node.count or node.words[-1]:
        raise Refused("ei")
    return node.count - 1


def packed(node):
    """The words of a value's own data and pointers, the pointers 0, and which of the words are pointers."""
    if node.sort == "pointers":
        return [0] * node.count, list(range(node.count))
    if node.sort == "numbers":
        bits = BITS[node.size]
        whole = sum(word << i * bits for i, word in enumerate(node.words))
        return [whole >> 64 * i & (1 << 64) - 1 for i in range((node.count * bits + 63) // 64)], []
    out = [node.count << 2 | node.data << 32 | node.pointers << 48] if node.sort == "structs" else []
    places = []
    for i in range(node.count):
        out += node.words[i * node.data : (i + 1) * node.data]
        places += range(len(out), len(out) + node.pointers)
        out += [0] * node.pointers
    return out, places


def put(out, at, node):
    """Writes a pointer, and what it leads to behind all words."""
    if node is None:
        return
    words, places = packed(node)
    start = len(out)
    if node.sort == "struct":
        offset = start - at - 1 if words else 0x3FFFFFFF
        out[at] = offset << 2 | node.data << 32 | node.pointers << 48
    else:
        size = {"structs": INLINE, "numbers": node.size, "pointers": POINTER}[node.sort]
        count = len(words) - 1 if size == INLINE else node.count
        out[at] = (start - at - 1) << 2 | 1 | size << 32 | count << 35
    out += words
    for place, kid in zip(places, node.kids, strict=True):
        put(out, start + place, kid)


def framed(node):
    """The frame of one segment that has a tree, in hex."""
    out = [0]
    put(out, 0, node)
    return struct.pack(f"<II{len(out)}Q", 0, len(out), *out).hex()
