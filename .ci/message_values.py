"""A small reader of messages by the encoding document: what a pointer leads to, what reading it costs, and its canonical words.

A value is None, a capability's index as an int, or a tuple: ("struct", words, kids), ("bits", size, count, number) for a list of
plain elements, ("pointers", kids) or ("structs", words, pointers, rows) with a row of words and kids for each element.
"""
BITS, POINTER, INLINE = (0, 1, 8, 16, 32, 64), 6, 7


class Fault(Exception):
    """A value that can't be read, with the kind of the fault."""


class TooLarge(Exception):
    """A value that this reader doesn't follow to its end."""


def bits_at(word, at, count):
    return word >> at & (1 << count) - 1


def words_at(segments, place, count):
    """So many words from a place on, a segment being a list of words; OutOfBounds if they aren't there."""
    segment, position = place
    if segment >= len(segments) or position < 0 or position + count > len(segments[segment]):
        raise Fault("OutOfBounds")
    return segments[segment][position : position + count]


def begins(place, offset):
    """Where an object begins by the thirty bits of a signed offset."""
    segment, position = place
    start = position + offset - (1 << 30 if offset >= 1 << 29 else 0)
    if start < 0:
        raise Fault("OutOfBounds")
    return segment, start


def described(word, start):
    """The object that a word describes, where it begins at what a function makes of the offset."""
    kind = word & 3
    if kind == 0:
        return "struct", start(bits_at(word, 2, 30)), bits_at(word, 32, 16), bits_at(word, 48, 16)
    if kind == 1:
        return "list", start(bits_at(word, 2, 30)), bits_at(word, 32, 3), bits_at(word, 35, 29)
    if kind == 2:
        raise Fault("MalformedFarPointer")
    if bits_at(word, 2, 30):
        raise Fault("UnknownPointerType")
    return "capability", None, bits_at(word, 32, 32), 0


def found_at(segments, place):
    """How many words of pads are on the way from a pointer, and its object; None for null."""
    word = words_at(segments, place, 1)[0]
    if word == 0:
        return 0, None
    if word & 3 != 2:
        return 0, described(word, lambda offset: begins((place[0], place[1] + 1), offset))
    pad, count = (bits_at(word, 32, 32), bits_at(word, 3, 29)), 1 + bits_at(word, 2, 1)
    words = words_at(segments, pad, count)
    if count == 1:
        return 1, described(words[0], lambda offset: begins((pad[0], pad[1] + 1), offset))
    return 2, described(words[1], lambda _: (bits_at(words[0], 32, 32), bits_at(words[0], 3, 29)))


def tag_of(words):
    """The count, data words and pointers that the tag of a list of structs has."""
    tag = words[0]
    if tag & 3:
        raise Fault("WrongPointerKind")
    count, data, pointers = bits_at(tag, 2, 30), bits_at(tag, 32, 16), bits_at(tag, 48, 16)
    if count * (data + pointers) > len(words) - 1:
        raise Fault("OutOfBounds")
    return count, data, pointers


def list_words(segments, start, size, count):
    """The words of a list, with its tag if it has one."""
    if size == INLINE:
        return words_at(segments, start, 1 + count)
    return words_at(segments, start, count if size == POINTER else (BITS[size] * count + 63) // 64)


class Walk:
    """What a walk was granted and followed, within a limit of words."""

    def __init__(self, segments, limit=None, steps=2000):
        self.segments, self.limit, self.steps = segments, limit, steps
        self.granted = self.followed = self.words = self.capabilities = 0

    def pay(self, pads, words, own=None):
        """Pays for pads and an object, which has so many words of its own."""
        if self.limit is not None and self.granted + pads + words > self.limit:
            raise Fault("ReadLimitExceeded")
        self.granted += pads + words
        self.words += words if own is None else own

    def value(self, place, levels):
        """The value of a pointer, read in order, at most so many levels deep."""
        self.followed += 1
        self.steps -= 1
        if self.steps < 0:
            raise TooLarge
        pads, found = found_at(self.segments, place)
        if found is None:
            self.pay(pads, 0)
            return None
        kind, start, first, second = found
        if kind == "capability":
            self.pay(pads, 0)
            self.capabilities += 1
            return first
        if levels == 0:
            raise Fault("NestingLimitExceeded")
        if kind == "struct":
            words = words_at(self.segments, start, first + second)
            self.pay(pads, first + second)
            return "struct", words[:first], self.row((start[0], start[1] + first), second, levels)
        return self.list_of(pads, start, first, second, levels)

    def row(self, place, count, levels):
        """The values of pointers in a row."""
        return [self.value((place[0], place[1] + i), levels - 1) for i in range(count)]

    def list_of(self, pads, start, size, count, levels):
        """The value of a list."""
        words = list_words(self.segments, start, size, count)
        if size == POINTER:
            self.pay(pads, count)
            return "pointers", self.row(start, count, levels)
        if size != INLINE:
            whole = sum(word << 64 * i for i, word in enumerate(words))
            self.pay(pads, len(words) or count * (size == 0), len(words))
            return "bits", size, count, bits_at(whole, 0, BITS[size] * count)
        length, data, pointers = tag_of(words)
        width = data + pointers
        self.pay(pads, 1 + count + (0 if width else length), 1 + length * width)
        if length > self.steps:
            raise TooLarge
        rows = []
        for i in range(length):
            at = start[1] + 1 + i * width
            rows.append((words[1 + i * width : 1 + i * width + data], self.row((start[0], at + data), pointers, levels)))
        return "structs", data, pointers, rows


def stripped(items, empty):
    """Items without the empty ones at the end."""
    items = list(items)
    while items and items[-1] == empty and not isinstance(items[-1], bool) and (items[-1] is None) == (empty is None):
        items.pop()
    return items


def trimmed(value):
    """A value without zero words and nulls at the ends of its structs; those of a list are as wide as its widest."""
    if not isinstance(value, tuple) or value[0] == "bits":
        return value
    if value[0] == "struct":
        return "struct", stripped(value[1], 0), stripped(map(trimmed, value[2]), None)
    if value[0] == "pointers":
        return "pointers", [trimmed(it) for it in value[1]]
    rows = [(stripped(words, 0), stripped(map(trimmed, kids), None)) for words, kids in value[3]]
    data, pointers = (max((len(it[part]) for it in rows), default=0) for part in (0, 1))
    return "structs", data, pointers, [(words + [0] * (data - len(words)), kids + [None] * (pointers - len(kids))) for words, kids in rows]


def put(out, at, value):
    """Writes a pointer over a word, and what it leads to behind all words."""
    start, slots = len(out), []
    if value is None:
        return
    if isinstance(value, int):
        out[at] = 3 | value << 32
        return
    if value[0] == "struct":
        _, words, kids = value
        offset = start - at - 1 if words or kids else 0x3FFFFFFF
        out[at] = offset << 2 | len(words) << 32 | len(kids) << 48
        rows = [(words, kids)]
    elif value[0] == "bits":
        _, size, count, number = value
        out[at] = (start - at - 1) << 2 | 1 | size << 32 | count << 35
        rows = [([bits_at(number, 64 * i, 64) for i in range((BITS[size] * count + 63) // 64)], [])]
    elif value[0] == "pointers":
        out[at] = (start - at - 1) << 2 | 1 | POINTER << 32 | len(value[1]) << 35
        rows = [([], value[1])]
    else:
        _, data, pointers, elements = value
        out[at] = (start - at - 1) << 2 | 1 | INLINE << 32 | len(elements) * (data + pointers) << 35
        rows = [([len(elements) << 2 | data << 32 | pointers << 48], []), *elements]
    for words, kids in rows:
        out += words
        slots += [(len(out) + i, kid) for i, kid in enumerate(kids)]
        out += [0] * len(kids)
    for place, kid in slots:
        put(out, place, kid)


def spelled(value):
    """The words of one segment that have a value, each object behind the one before it."""
    out = [0]
    put(out, 0, value)
    return out
