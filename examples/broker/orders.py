"""The messages of a run, with the answer that each should get, spelled without the program."""
import struct

STATE = 2
TOO_LARGE = struct.pack("<II", 0, 1001) + bytes(8008)


def order(number, state):
    """The canonical frame of an order: two words of data, and the customer's name as a text."""
    name = f"customer {number % 977:03}".encode() + b"\0"
    text = name + bytes(-len(name) % 8)
    root = struct.pack("<IHH", 0, 2, 1)
    data = struct.pack("<QHHI", number, state, 0, 0)
    pointer = struct.pack("<II", 1, len(name) << 3 | 2)
    words = root + data + pointer + text
    return struct.pack("<II", 0, len(words) // 8) + words


def bad_message(number):
    """A message that can't be answered, and how the line ends that tells why."""
    frame = order(number, 1)
    return (
        (frame[:-1], b"not one frame"),
        # The root pointer leads behind the message.
        (frame[:8] + b"\xfc\xff\0\0" + frame[12:], b"refused: value"),
        # The root is a list.
        (struct.pack("<IIQ", 0, 1, 1), b"refused: root"),
        # The calls file allows 1,000 words.
        (TOO_LARGE, b"fault: framing MessageTooLarge"),
    )[number // 1000 % 4]


def message(number):
    """Message `number` of a run, and the answer's frame, or the end of a bad one's line."""
    if number % 1000 == 500:
        sent, line = bad_message(number)
        return sent, None, line
    return order(number, number % 2), order(number, STATE), None
