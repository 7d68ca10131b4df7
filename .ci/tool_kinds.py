"""Tries the built `hagzimot check --messages` on messages whose words were worked by hand from the encoding document, and on messages that the C++ tool wrote.

    python3 .ci/tool_kinds.py [PROGRAM]

Each case is a message by its words, with the path to the first list whose elements have another size than the schema names, and both sizes; or nothing, if all lists are in kind. The schema is crates/hagzimot/data/kinds/kinds.json. The messages of .ci/tool_make.py, which Cap'n Proto's own builders wrote, have to be in kind, each under its own schema. A case that differs is shown, and the status is 1. Nothing is written below the repository.
"""
import json
import pathlib
import struct
import subprocess
import sys
import tempfile

import tool_make

SCHEMA = pathlib.Path(__file__).resolve().parent.parent / "crates" / "hagzimot" / "data" / "kinds" / "kinds.json"
# The sizes by their numbers in list pointers. (Encoding, "Lists")
VOIDS, BITS, BYTES, PAIRS, QUADS, WORDS, POINTERS, STRUCTS = range(8)
NAMES = ("voids", "bits", "bytes", "16-bit elements", "32-bit elements", "64-bit elements", "pointers", "structs")
# The words of the root's two sections.
DATA, SLOTS = 1, 12


def struct_to(offset, data, pointers):
    """The word of a struct pointer. (Encoding, "Structs")"""
    return (offset % 2**30) << 2 | data << 32 | pointers << 48


def list_to(offset, size, count):
    """The word of a list pointer. (Encoding, "Lists")"""
    return 1 | (offset % 2**30) << 2 | size << 32 | count << 35


def far_to(segment, position, double=0):
    """The word of a far pointer. (Encoding, "Inter-Segment Pointers")"""
    return 2 | double << 2 | position << 3 | segment << 32


def tag(count, data, pointers):
    """The tag of a list of structs: the count stands where a pointer has its offset."""
    return struct_to(count, data, pointers)


def root(pointers, *behind, discriminant=0):
    """The words of a root with these pointers by slot, and what lies behind it from word 14 on. The discriminant is bits 16 to 32 of its data word."""
    slots = [0] * SLOTS
    for slot, make in pointers.items():
        # From the word behind the pointer to word 14.
        slots[slot] = make(1 + DATA + SLOTS - (1 + DATA + slot) - 1)
    return [struct_to(0, DATA, SLOTS), discriminant << 16, *slots, *behind]


def a_list(size, count, at=0):
    """What makes the pointer to a list that begins so many words behind word 14."""
    return lambda offset: list_to(offset + at, size, count)


def a_struct(data, pointers, at=0):
    """What makes the pointer to a struct there."""
    return lambda offset: struct_to(offset + at, data, pointers)


def differ(path, size, wanted):
    return f"{path}: a list of {NAMES[size]}, but the schema has a list of {NAMES[wanted]}"


FLAGS, BYTE_LIST, ITEMS, TEXTS, ROWS, ANY, ITEM, VOID_LIST, MEMBER, CODES, BLOB, STATES = range(SLOTS)
# Name, segments of words, and what is said of the message; None if it is in kind.
CASES = [
    ("a null root", [[0]], None),
    ("a root without sections", [[struct_to(-1, 0, 0)]], None),
    ("a root that is a list", [[list_to(0, BYTES, 3), 0x030201]], None),
    ("bits", [root({FLAGS: a_list(BITS, 9)}, 0x1FF)], None),
    ("bits as bytes", [root({FLAGS: a_list(BYTES, 3)}, 0x010001)], differ("flags", BYTES, BITS)),
    ("bits as structs", [root({FLAGS: a_list(STRUCTS, 1)}, tag(1, 1, 0), 1)], differ("flags", STRUCTS, BITS)),
    ("bits as voids", [root({FLAGS: a_list(VOIDS, 3)})], differ("flags", VOIDS, BITS)),
    ("a struct in place of bits", [root({FLAGS: a_struct(1, 0)}, 7)], None),
    ("bytes", [root({BYTE_LIST: a_list(BYTES, 3)}, 0x030201)], None),
    ("bytes as bits", [root({BYTE_LIST: a_list(BITS, 3)}, 5)], differ("bytes", BITS, BYTES)),
    ("bytes as 16 bits", [root({BYTE_LIST: a_list(PAIRS, 3)}, 0x000300020001)], differ("bytes", PAIRS, BYTES)),
    ("bytes as upgraded structs", [root({BYTE_LIST: a_list(STRUCTS, 2)}, tag(2, 1, 0), 1, 2)], differ("bytes", STRUCTS, BYTES)),
    ("no bytes, of another size", [root({BYTE_LIST: a_list(PAIRS, 0)})], differ("bytes", PAIRS, BYTES)),
    ("no bytes, of structs", [root({BYTE_LIST: a_list(STRUCTS, 0)}, tag(0, 1, 1))], differ("bytes", STRUCTS, BYTES)),
    ("structs", [root({ITEMS: a_list(STRUCTS, 4)}, tag(2, 1, 1), 5, 0, 6, 0)], None),
    ("structs of a newer schema, wider", [root({ITEMS: a_list(STRUCTS, 4)}, tag(1, 2, 2), 5, 7, 0, 0)], None),
    ("structs without sections", [root({ITEMS: a_list(STRUCTS, 0)}, tag(3, 0, 0))], None),
    ("structs of an older schema, as words", [root({ITEMS: a_list(WORDS, 2)}, 5, 6)], differ("items", WORDS, STRUCTS)),
    ("structs of an older schema, as 32 bits", [root({ITEMS: a_list(QUADS, 2)}, 5 | 6 << 32)], differ("items", QUADS, STRUCTS)),
    ("structs of an older schema, as pointers", [root({ITEMS: a_list(POINTERS, 1)}, 0)], differ("items", POINTERS, STRUCTS)),
    ("structs as bits", [root({ITEMS: a_list(BITS, 1)}, 1)], differ("items", BITS, STRUCTS)),
    ("structs as voids", [root({ITEMS: a_list(VOIDS, 1)})], differ("items", VOIDS, STRUCTS)),
    # The second element's pointer stands at word 18; one word behind it is the list.
    ("a list in an element", [root({ITEMS: a_list(STRUCTS, 4)}, tag(2, 1, 1), 5, 0, 6, list_to(0, PAIRS, 2), 0x00020001)], None),
    ("a list in an element, as bytes", [root({ITEMS: a_list(STRUCTS, 4)}, tag(2, 1, 1), 5, 0, 6, list_to(0, BYTES, 2), 0x0201)], differ("items[1].tags", BYTES, PAIRS)),
    ("the second pointer of a wider element", [root({ITEMS: a_list(STRUCTS, 3)}, tag(1, 1, 2), 5, 0, list_to(0, BYTES, 2), 0x0201)], None),
    ("texts", [root({TEXTS: a_list(POINTERS, 2)}, list_to(1, BYTES, 3), 0, 0x006968)], None),
    ("texts that are no byte lists", [root({TEXTS: a_list(POINTERS, 1)}, list_to(0, QUADS, 1), 7)], None),
    ("texts as upgraded structs", [root({TEXTS: a_list(STRUCTS, 1)}, tag(1, 0, 1), 0)], differ("texts", STRUCTS, POINTERS)),
    ("data that are no bytes", [root({BLOB: a_list(PAIRS, 2)}, 0x00020001)], None),
    ("lists of lists", [root({ROWS: a_list(POINTERS, 2)}, list_to(1, QUADS, 2), list_to(1, QUADS, 1), 1 | 2 << 32, 3)], None),
    ("the second of them", [root({ROWS: a_list(POINTERS, 2)}, list_to(1, QUADS, 2), list_to(1, PAIRS, 1), 1 | 2 << 32, 3)], differ("rows[1]", PAIRS, QUADS)),
    ("lists of lists as structs", [root({ROWS: a_list(STRUCTS, 1)}, tag(1, 0, 1), 0)], differ("rows", STRUCTS, POINTERS)),
    ("lists of lists as words", [root({ROWS: a_list(WORDS, 1)}, 7)], differ("rows", WORDS, POINTERS)),
    ("an untyped list", [root({ANY: a_list(BITS, 9)}, 0x1FF)], None),
    ("an untyped list of structs with lists", [root({ANY: a_list(STRUCTS, 1)}, tag(1, 0, 1), list_to(0, BYTES, 1), 1)], None),
    ("a struct", [root({ITEM: a_struct(1, 1)}, 5, list_to(0, PAIRS, 1), 1)], None),
    ("a list in a struct", [root({ITEM: a_struct(1, 1)}, 5, list_to(0, WORDS, 1), 1)], differ("item.tags", WORDS, PAIRS)),
    ("a list in place of a struct", [root({ITEM: a_list(BYTES, 3)}, 0x030201)], None),
    ("voids", [root({VOID_LIST: a_list(VOIDS, 5)})], None),
    ("voids as bytes", [root({VOID_LIST: a_list(BYTES, 1)}, 0)], differ("voids", BYTES, VOIDS)),
    ("voids as structs", [root({VOID_LIST: a_list(STRUCTS, 0)}, tag(4, 0, 0))], differ("voids", STRUCTS, VOIDS)),
    ("an inactive member", [root({MEMBER: a_list(BITS, 3)}, 5, discriminant=0)], None),
    ("an unknown member", [root({MEMBER: a_list(BITS, 3)}, 5, discriminant=3)], None),
    ("an active member", [root({MEMBER: a_list(PAIRS, 1)}, 5, discriminant=1)], None),
    ("an active member of another size", [root({MEMBER: a_list(BYTES, 1)}, 5, discriminant=1)], differ("numbers", BYTES, PAIRS)),
    ("a group that is the active member", [root({MEMBER: a_list(BYTES, 1)}, 5, discriminant=2)], None),
    ("a list in that group", [root({MEMBER: a_list(PAIRS, 1)}, 5, discriminant=2)], differ("inner.small", PAIRS, BYTES)),
    ("a member of a root without data", [[struct_to(0, 0, SLOTS), *[0] * MEMBER, list_to(3, BYTES, 1), 0, 0, 0, 5]], None),
    ("a list in a group", [root({CODES: a_list(WORDS, 1)}, 5)], None),
    ("a list in a group, of another size", [root({CODES: a_list(QUADS, 1)}, 5)], differ("side.codes", QUADS, WORDS)),
    ("enums", [root({STATES: a_list(PAIRS, 2)}, 1)], None),
    ("enums as bytes", [root({STATES: a_list(BYTES, 2)}, 1)], differ("states", BYTES, PAIRS)),
    ("a pointer that the schema doesn't know", [[struct_to(0, 0, 13), *[0] * 12, list_to(0, BITS, 1), 1]], None),
    ("fewer pointers than the schema has", [[struct_to(0, 0, 1), list_to(0, BITS, 1), 1]], None),
    ("the first of two", [root({BYTE_LIST: a_list(BITS, 1), ITEMS: a_list(BITS, 1)}, 1)], differ("bytes", BITS, BYTES)),
    ("two pointers to one list", [root({BYTE_LIST: a_list(BYTES, 1), FLAGS: a_list(BYTES, 1)}, 1)], differ("flags", BYTES, BITS)),
    ("a list in another segment", [[struct_to(0, 0, 2), 0, far_to(1, 0)], [list_to(0, BYTES, 1), 1]], None),
    ("that list, of another size", [[struct_to(0, 0, 2), 0, far_to(1, 0)], [list_to(0, BITS, 1), 1]], differ("bytes", BITS, BYTES)),
    ("behind two pads", [[struct_to(0, 0, 2), 0, far_to(1, 0, 1)], [far_to(2, 0), list_to(0, WORDS, 1)], [1]], differ("bytes", WORDS, BYTES)),
]
# Name, segments, options, and what is said after the place.
UNREAD = [
    ("a pointer out of its segment", [[struct_to(0, 0, 2), 0, list_to(0, BYTES, 9), 1]], (), "bytes: pointer out of bounds"),
    ("too many levels", [[struct_to(0, 0, 2), 0, list_to(0, BYTES, 1), 1]], ("--nesting", "1"), "bytes: "),
    ("too many words", [[struct_to(0, 0, 2), 0, list_to(0, BYTES, 1), 1]], ("--words", "3"), None),
]


def frame(segments):
    """The bytes of a message. (Encoding, "Serialization Over a Stream")"""
    table = [len(segments) - 1, *map(len, segments)]
    table += [0] * (len(table) % 2)
    return struct.pack(f"<{len(table)}I", *table) + b"".join(struct.pack(f"<{len(it)}Q", *it) for it in segments)


def check(program, *words, given=b""):
    run = subprocess.run([program, "check", *words], input=given, capture_output=True, timeout=120, check=False)
    return run.returncode, run.stdout.decode(), run.stderr.decode()


def counts(in_kind, others=0, unread=0):
    return f"in kind: {in_kind}, not in kind: {others}, not checked: {unread}\n"


def faults_of_cases(program, folder):
    """What is wrong with the cases, each in a file of its own behind a message that is in kind."""
    front = frame([[0]])
    for name, segments, said in CASES:
        path = folder / "case.bin"
        path.write_bytes(front + frame(segments))
        got = check(program, "--messages", path, "--schema", SCHEMA, "--root", "Root")
        if said is None:
            wanted = (0, counts(2), "")
        else:
            wanted = (1, f"{path}: message 2 (byte {len(front)}) not in kind: {said}\n{counts(1, 1)}", "")
        if got != wanted:
            yield f"{name}: {got} and not {wanted}"


def faults_of_unread(program, folder):
    """What is wrong with messages that have no value within the limits."""
    for name, segments, options, said in UNREAD:
        path = folder / "case.bin"
        path.write_bytes(frame(segments))
        status, out, line = check(program, SCHEMA, "--root", "Root", *options, "--messages", path)
        if said is None:
            fine = status == 4 and not out
        else:
            fine = (status, out) == (3, counts(0, 0, 1)) and line.startswith(f"{path}: message 1 (byte 0) not checked: {said}")
        if not fine:
            yield f"{name}: status {status}, {out!r}, {line!r}"


def faults_of_words(program, folder):
    """What is wrong with several files, forms and mistaken words."""
    good, bad = frame([root({FLAGS: a_list(BITS, 9)}, 0x1FF)]), frame([root({FLAGS: a_list(BYTES, 1)}, 1)])
    left, right = folder / "left.bin", folder / "right.bin"
    left.write_bytes(good + bad)
    right.write_bytes(bad + good)
    words = (SCHEMA, "--root", "Root")
    line = "not in kind: " + differ("flags", BYTES, BITS)
    wanted = f"{left}: message 2 (byte {len(good)}) {line}\n{right}: message 1 (byte 0) {line}\n{counts(2, 2)}"
    yield from (
        f"{name}: {got}"
        for name, got, fine in (
            ("two files", check(program, *words, "--messages", left, right), (1, wanted, "")),
            ("one after the other", check(program, *words, "--messages", left, "--messages", right), (1, wanted, "")),
            ("standard input", check(program, *words, "--messages", "-", given=good), (0, counts(1), "")),
            ("nothing", check(program, *words, "--messages", "-"), (0, counts(0), "")),
        )
        if got != fine
    )
    for name, refused in (
        ("a root without messages", (SCHEMA, "--root", "Root")),
        ("two schemas", (SCHEMA, "--schema", SCHEMA, "--messages", left)),
        ("no schema", ("--messages", left)),
        ("one input for both", ("-", "--messages", "-")),
        ("an unknown root", (SCHEMA, "--root", "Rot", "--messages", left)),
    ):
        status, out, said = check(program, *refused)
        if status != 2 or out or not said:
            yield f"{name}: status {status}, {out!r}, {said!r}"
    left.write_bytes(good + bad[:-1])
    status, out, said = check(program, *words, "--messages", left)
    if status != 4 or f"message 2, at byte {len(good)}" not in said:
        yield f"a cut message: status {status}, {out!r}, {said!r}"


def faults_of_peers(program, folder):
    """What is wrong with the messages that the C++ tool wrote, which are in kind."""
    for number, line in enumerate(tool_make.CASES.read_text().splitlines()):
        case = json.loads(line)
        (folder / "case.request").write_bytes(bytes.fromhex(case["request"]))
        (folder / "case.bin").write_bytes(bytes.fromhex(case["framed"]))
        got = check(program, folder / "case.request", "--root", case["root"], "--messages", folder / "case.bin")
        if got != (0, counts(1), ""):
            yield f"message {number} of the C++ tool: {got}"


def main():
    program = pathlib.Path(sys.argv[1]).resolve() if len(sys.argv) > 1 else tool_make.tool_peers.PROGRAM
    if not program.exists():
        raise SystemExit(f"{program} is not built")
    with tempfile.TemporaryDirectory() as name:
        folder = pathlib.Path(name)
        faults = [it for part in (faults_of_cases, faults_of_unread, faults_of_words, faults_of_peers) for it in part(program, folder)]
    peers = len(tool_make.CASES.read_text().splitlines())
    print("\n".join(faults + [f"kinds: {len(CASES)} messages by hand and {peers} of the C++ tool, {len(faults)} differ"]))
    return 1 if faults or not peers else 0


if __name__ == "__main__":
    sys.exit(main())
