#!/usr/bin/env python3
"""Judges output in the plain form, where how a value is cut into segments isn't promised: what each message has to mean is
told by a frame of one segment, and no word but those of the value may hold anything.

usage: plain_judge.py    (tries the judge itself, on messages that it has to take and on wrong ones)
"""
import struct
import sys

# The most segments of a message, and more levels of pointers than a value of the cases has.
MOST_SEGMENTS = 511
LEVELS = 200
# The kinds of pointers, the two element sizes that aren't plain, and the bits of an element of the plain ones.
STRUCT, LIST, FAR = 0, 1, 2
POINTERS, STRUCTS = 6, 7
BITS = (0, 1, 8, 16, 32, 64)


class Unreadable(Exception):
    """Why bytes are no messages, or a message has no value."""


def bits(word, first, count):
    """So many bits of a word, from the first on."""
    return word >> first & (1 << count) - 1


def unpacked(data):
    """The words of packed bytes, as bytes."""
    words, at = bytearray(), 0

    def taken(count):
        nonlocal at
        at += count
        if at > len(data):
            raise Unreadable("a group is cut")
        return data[at - count : at]

    while at < len(data):
        (tag,) = taken(1)
        words += bytes(taken(1)[0] if bits(tag, it, 1) else 0 for it in range(8))
        if tag == 0x00:
            words += bytes(8 * taken(1)[0])
        elif tag == 0xFF:
            words += taken(8 * taken(1)[0])
    return bytes(words)


def messages_in(data):
    """The segments of each frame of the bytes, as lists of words."""
    if len(data) % 8:
        raise Unreadable("bytes that are no whole words")
    words, messages = list(struct.unpack(f"<{len(data) // 8}Q", data)), []

    def taken(count):
        if count > len(words):
            raise Unreadable("a frame is cut")
        front, words[:count] = words[:count], []
        return front

    while words:
        count = bits(words[0], 0, 32) + 1
        if count > MOST_SEGMENTS:
            raise Unreadable(f"{count} segments")
        table = [bits(word, first, 32) for word in taken(count // 2 + 1) for first in (0, 32)]
        if any(table[1 + count :]):
            raise Unreadable("a table whose last half is no zero")
        messages.append([taken(length) for length in table[1 : 1 + count]])
    return messages


class Value:
    """The value of a message: its tree, with widths and element sizes as they are, and the words that it covers, as segments and
    positions."""

    def __init__(self, segments):
        self.segments = segments
        self.covered = {(0, 0)}
        if not segments[0]:
            raise Unreadable("no root")
        self.tree = self.pointer(0, 0, LEVELS)

    def words(self, segment, start, count):
        """The words of an object or a pad."""
        if segment >= len(self.segments) or not 0 <= start <= len(self.segments[segment]) - count:
            raise Unreadable(f"words {start} to {start + count} of segment {segment}, which aren't there")
        self.covered.update((segment, at) for at in range(start, start + count))
        return self.segments[segment][start : start + count]

    def found(self, segment, at):
        """Where the object of a pointer begins, and the word that describes it."""
        word = self.segments[segment][at]
        far = bits(word, 0, 2) == FAR
        if far and bits(word, 2, 1):
            place, word = self.words(bits(word, 32, 32), bits(word, 3, 29), 2)
            return bits(place, 32, 32), bits(place, 3, 29), word
        if far:
            segment, at = bits(word, 32, 32), bits(word, 3, 29)
            (word,) = self.words(segment, at, 1)
        offset = bits(word, 2, 29) - (bits(word, 31, 1) << 29)
        return segment, at + 1 + offset, word

    def pointer(self, segment, at, levels):
        """What a pointer means."""
        if self.segments[segment][at] == 0:
            return None
        if levels == 0:
            raise Unreadable("too many levels")
        segment, start, word = self.found(segment, at)
        if bits(word, 0, 2) == STRUCT:
            return "struct", self.sections(segment, start, bits(word, 32, 16), bits(word, 48, 16), levels)
        if bits(word, 0, 2) == LIST:
            return "list", self.elements(segment, start, bits(word, 32, 3), bits(word, 35, 29), levels)
        raise Unreadable("a capability, or a far pointer in a pad")

    def sections(self, segment, start, data, pointers, levels):
        """The data words of a struct, and what its pointers mean."""
        words, behind = self.words(segment, start, data + pointers), start + data
        return words[:data], [self.pointer(segment, it, levels - 1) for it in range(behind, behind + pointers)]

    def elements(self, segment, start, size, count, levels):
        """The size and the number of a list's elements, and the elements."""
        if size == STRUCTS:
            return self.structs(segment, start, count, levels)
        if size == POINTERS:
            return size, self.sections(segment, start, 0, count, levels)[1]
        length = count * BITS[size]
        words = self.words(segment, start, -(-length // 64))
        return size, count, sum(word << 64 * at for at, word in enumerate(words)) % (1 << length)

    def structs(self, segment, start, claimed, levels):
        """The widths and the number of a list's structs, and the structs that have words."""
        tag = self.words(segment, start, 1 + claimed)[0]
        count, data, pointers = bits(tag, 2, 30), bits(tag, 32, 16), bits(tag, 48, 16)
        width = data + pointers
        if bits(tag, 0, 2) != STRUCT or count * width > claimed:
            raise Unreadable("a list of structs that has no tag, or fewer words than they have")
        starts = range(start + 1, start + 1 + count * width, width or 1)
        return STRUCTS, data, pointers, count, [self.sections(segment, it, data, pointers, levels) for it in starts]

    def leaks(self):
        """The words that hold something and aren't of the value."""
        held = ((s, at) for s, words in enumerate(self.segments) for at, word in enumerate(words) if word)
        return [place for place in held if place not in self.covered]


def difference_of(segments, wanted):
    """What is wrong with a message, which has to mean what the wanted one does; or nothing."""
    value, wanted = Value(segments), Value(wanted)
    if value.tree != wanted.tree:
        return f"it means {value.tree}, and not {wanted.tree}"
    if value.leaks():
        return f"these words, by segment and position, hold something and aren't of the value: {value.leaks()}"
    return None


def difference(form, written, wanted):
    """What is wrong with bytes that were written in a form, `framed` or `packed`, where the wanted frames of one segment each
    tell what its messages mean; or nothing."""
    try:
        messages = messages_in(unpacked(written) if form == "packed" else written)
        if len(messages) != len(wanted):
            return f"{len(messages)} messages, and not {len(wanted)}"
        for number, (segments, frame) in enumerate(zip(messages, wanted), 1):
            told = difference_of(segments, messages_in(frame)[0])
            if told:
                return f"message {number}: {told}"
    except Unreadable as why:
        return f"unreadable: {why}"
    return None


# ---- the judge itself

# A struct of a number 7, a zero, a text `hi` and a list of one struct with a number 5, in one segment.
WANTED = (
    "00000000 08000000 / 00000000 02000200 / 07000000 00000000 / 00000000 00000000 / 05000000 1a000000 / 05000000 0f000000"
    " / 68690000 00000000 / 04000000 01000000 / 05000000 00000000"
)
# The same in three segments: the text behind a pad of one word, the list behind one of two.
APART = (
    "02000000 05000000 04000000 02000000 / 00000000 02000200 / 07000000 00000000 / 00000000 00000000 / 02000000 01000000"
    " / 16000000 01000000 / 01000000 1a000000 / 68690000 00000000 / 02000000 02000000 / 01000000 0f000000"
    " / 04000000 01000000 / 05000000 00000000"
)
# The first without the zero.
TRIMMED = (
    "00000000 07000000 / 00000000 01000200 / 07000000 00000000 / 05000000 1a000000 / 05000000 0f000000"
    " / 68690000 00000000 / 04000000 01000000 / 05000000 00000000"
)
# The text as a list of three numbers of 16 bits, with the same word.
OF_16_BITS = WANTED.replace("1a000000", "1b000000")
# The first, packed.
PACKED = "1008 5002 02 0107 0000 1105 1a 1105 0f 0368 69 1104 01 0105"
# Of outputs their names, their forms, and their messages, where so many are wanted.
RIGHT = (
    ("as it is wanted", "framed", 1, [WANTED]),
    ("in three segments", "framed", 1, [APART]),
    ("two messages", "framed", 2, [WANTED, APART]),
    ("packed", "packed", 1, [PACKED]),
    ("a word that isn't used", "framed", 1, [WANTED.replace("08", "09", 1), "00000000 00000000"]),
)
WRONG = (
    ("a word that isn't used holds something", "framed", 1, [WANTED.replace("08", "09", 1), "00000000 00000001"]),
    ("the same in another segment", "framed", 1, [APART.replace("04000000 02", "04000000 03", 1), "01000000 00000000"]),
    ("the value is trimmed", "framed", 1, [TRIMMED]),
    ("a bit of the number", "framed", 1, [WANTED.replace("07000000 0", "17000000 0")]),
    ("a letter of the text", "framed", 1, [APART.replace("6869", "6868")]),
    ("elements of another size", "framed", 1, [OF_16_BITS]),
    ("a null for the list", "framed", 1, [WANTED.replace("05000000 0f000000", "00000000 00000000")]),
    ("an element without words", "framed", 1, [WANTED.replace("04000000 01000000", "04000000 00000000")]),
    ("a pad that isn't there", "framed", 1, [APART.replace("16000000 01", "1e000000 01")]),
    ("a message is missing", "framed", 2, [WANTED]),
    ("a message more", "framed", 1, [WANTED, WANTED]),
    ("a frame that is cut", "framed", 1, [WANTED[:-20]]),
    ("512 segments", "framed", 1, ["ff010000" + "00000000" * 513]),
    ("packed, in place of framed", "framed", 1, [PACKED]),
    ("a group that is cut", "packed", 1, [PACKED[:-2]]),
)
# Runs of zeros, and of words as they are.
RUNS = (("00ff 0001", bytes(8 * 258)), ("ff" + "ff" * 8 + "ff" + "ff" * 2040, b"\xff" * 2048))


def bytes_of(texts):
    """The bytes of texts in hex, with strokes between words."""
    return bytes.fromhex("".join(texts).replace("/", " "))


def faults_of_the_judge():
    """What the judge takes that is wrong, or refuses that is right."""
    def told(form, count, texts):
        return difference(form, bytes_of(texts), [bytes_of(WANTED)] * count)

    yield from (f"the judge refuses what is right: {name}" for name, *output in RIGHT if told(*output))
    yield from (f"the judge takes what is wrong: {name}" for name, *output in WRONG if not told(*output))
    yield from (f"{text[:8]} is unpacked to other words" for text, words in RUNS if unpacked(bytes_of(text)) != words)


def main():
    """Tries the judge."""
    found = list(faults_of_the_judge())
    for line in found:
        print(line)
    print(f"the judge of plain output: {len(RIGHT)} outputs that are right, {len(WRONG)} that are wrong, {len(found)} faults")
    return 1 if found else 0


if __name__ == "__main__":
    if sys.argv[1:] in (["-h"], ["--help"]):
        sys.exit(print(__doc__))
    sys.exit(main())
