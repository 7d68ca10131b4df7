"""Tries what users meet when they look at messages with the built `hagzimot show`.

    python3 .ci/tool_user_shows.py [PROGRAM]

- The text of `--style capnp` and the JSON of stored messages are those that the C++ tool `capnp` printed of them (crates/hagzimot/data/user/shows_*.text and shows_*.json; shows.md there says how they were made).
- Messages that are damaged in known places, built here word by word, are refused with the path, the kind and the place of the damage.
- Wrong options and inputs in another form are refused with what to do.

A difference is shown, and the status is 1. Nothing is written below the repository.
"""
import gzip
import json
import pathlib
import struct
import subprocess
import sys
import tempfile

TOP = pathlib.Path(__file__).resolve().parent.parent
DATA = TOP / "crates" / "hagzimot" / "data"
USER = DATA / "user"
PROGRAM = TOP / "crates" / "hagzimot" / "out" / "hagzimot"
SCHEMAS = {"Unions": "unions", "Node": "unions", "Values": "values", "Misread": "values"}
SHOP = DATA / "shop.request"
VOID, BIT, BYTE, POINTER, STRUCTS = 0, 1, 2, 6, 7


def struct_at(offset, words, pointers):
    """The word of a pointer to a struct, so many words behind its end."""
    return offset % 2**30 << 2 | words << 32 | pointers << 48


def list_at(offset, size, count):
    """The word of a pointer to a list."""
    return 1 | offset % 2**30 << 2 | size << 32 | count << 35


def far_to(segment, position):
    """The word of a far pointer to a pad of one word."""
    return 2 | position << 3 | segment << 32


def frame(*segments):
    """The framed message of segments of words."""
    header = struct.pack(f"<{1 + len(segments)}I", len(segments) - 1, *map(len, segments))
    header += bytes(-len(header) % 8)
    return header + b"".join(struct.pack(f"<{len(words)}Q", *words) for words in segments)


# An order has two data words and two pointers, to the customer (two pointers, to texts) and to the lines (a data word, and a pointer to a text).
ORDER = struct_at(0, 2, 2)
WRONG_ROOT = '(is "Order" the right root?)'
# What stands in a message of an order, its root's word first, and what is said of it.
DAMAGED = (
    ([], "root: the message has no word (segment 0, word 0)"),
    ([ORDER, 1, 2, 0], "root: pointer out of bounds (segment 0, word 0)"),
    ([ORDER, 1, 2, struct_at(1, 0, 2), 0, list_at(100, BYTE, 4), 0], "customer.name: pointer out of bounds (segment 0, word 5)"),
    ([ORDER, 1, 2, struct_at(1, 0, 2), 0, 0, list_at(0, BYTE, 9)], "customer.email: pointer out of bounds (segment 0, word 6)"),
    ([ORDER, 1, 2, far_to(7, 0), 0], "customer: far pointer to a segment that isn't there (segment 0, word 3)"),
    ([ORDER, 1, 2, far_to(0, 99), 0], "customer: far pointer out of bounds (segment 0, word 3)"),
    ([ORDER, 1, 2, far_to(0, 5), 0, far_to(0, 5)], "customer: far pointer to another far pointer (segment 0, word 3)"),
    ([ORDER, 1, 2, 0, list_at(0, STRUCTS, 1), list_at(0, BYTE, 1), 0], "lines: list of structs whose tag is not a struct's (segment 0, word 4)"),
    ([ORDER, 1, 2, 0, list_at(0, STRUCTS, 2), struct_at(2, 1, 1), 0, 0], "lines: pointer out of bounds (segment 0, word 4)"),
    ([ORDER, 1, 2, 3 | 1 << 2, 0], "customer: pointer of an unknown kind (segment 0, word 3)"),
    ([ORDER, 1, 2, 3 | 5 << 32, 0], "customer: capability, which has no value (segment 0, word 3)"),
    ([ORDER, 1, 2, 0, list_at(0, STRUCTS, 4), struct_at(2, 1, 1), 7, 0, 8, list_at(0, BYTE, 1)], "lines[1].article: pointer out of bounds (segment 0, word 9)"),
    ([ORDER, 1, 2, 0, list_at(0, VOID, 2**29 - 1)], "lines: larger than 8388608 words (--words allows more) (segment 0, word 4)"),
    ([struct_at(0, 2, 3), 1, 2, 0, 0, list_at(9, BYTE, 1)], "root.ptr[2]: pointer out of bounds (segment 0, word 5)"),
    ([struct_at(0, 2, 3), 1, 2, 0, 0, list_at(0, POINTER, 2), 0, struct_at(0, 0, 1), far_to(0, 8)], "root.ptr[2][1].ptr[0]: far pointer to another far pointer (segment 0, word 8)"),
    ([ORDER, 1, 2, struct_at(1, 0, 2), 0, list_at(1, BYTE, 3), 0, 0x636261], f"customer.name: the text there does not end in a zero byte {WRONG_ROOT}"),
    ([ORDER, 1, 2, list_at(1, BYTE, 3), 0, 0x6261], f"customer: what is there is not a struct {WRONG_ROOT}"),
    ([ORDER, 1, 2, 0, struct_at(0, 1, 0), 5], f"lines: what is there is not a list of this type {WRONG_ROOT}"),
    ([list_at(0, BYTE, 3), 0x6261], f"root: a list and not a struct {WRONG_ROOT}"),
)
# Words of a message, the struct at its root, further options, and what is said of it.
OTHERS = (
    # ll is a list of two lists of bytes; the second is out of bounds. It is the seventh pointer: f, d, t, data, lv, le and ll.
    ([struct_at(0, 0, 7), 0, 0, 0, 0, 0, 0, list_at(0, POINTER, 2), list_at(1, BYTE, 1), list_at(5, BYTE, 1), 1], "Values", (), "ll[1]: pointer out of bounds (segment 0, word 9)"),
    # An untyped pointer, the eighth, to a struct whose pointer is bad.
    ([struct_at(0, 0, 8), 0, 0, 0, 0, 0, 0, 0, struct_at(0, 0, 1), list_at(5, BYTE, 1)], "Values", (), "any.ptr[0]: pointer out of bounds (segment 0, word 9)"),
    # A member of the union in a group.
    ([struct_at(0, 1, 2), 0, 0, list_at(5, BYTE, 1)], "Unions", (), "g.ga: pointer out of bounds (segment 0, word 3)"),
    # The active member is `l`, by the discriminant 2; where it is `v`, by 4, no field lies at the pointer.
    ([struct_at(0, 1, 2), 2 << 16, list_at(0, POINTER, 1), list_at(5, BYTE, 1)], "Unions", (), "l[0]: pointer out of bounds (segment 0, word 3)"),
    ([struct_at(0, 1, 2), 4 << 16, list_at(5, BYTE, 1), 0], "Unions", (), "root.ptr[0]: pointer out of bounds (segment 0, word 2)"),
    ([struct_at(0, 1, 1), 0, struct_at(0, 1, 1), 0, struct_at(0, 1, 1), 1, 0], "Node", ("--nesting", "2"), "child.child: nested more than 2 levels deep (--nesting allows more) (segment 0, word 4)"),
    # A list of bits, which no list of structs can be read from.
    ([struct_at(0, 0, 2), 0, list_at(0, BIT, 8), 0], "Misread", (), 'd: what is there is not a list of this type (is "Misread" the right root?)'),
)


def options_of(root):
    """The options that name a struct of a stored schema as the root."""
    return "--schema", USER / f"shows_{SCHEMAS[root]}.request", "--floats-as-bits", "--root", root


class Trials:
    """Runs of the program, and how many did something else."""

    def __init__(self, program):
        self.program, self.count, self.differing = program, 0, 0

    def run(self, *words, stdin=b""):
        """What the program returns and prints for some words."""
        run = subprocess.run([self.program, "show", *words], input=stdin, capture_output=True, timeout=120, check=False)
        return run.returncode, run.stdout, run.stderr

    def want(self, what, got, wanted):
        """Counts a trial, and shows one that differs."""
        self.count += 1
        if got != wanted:
            self.differing += 1
            print(f"{what}\n--- is\n{got}\n--- and not\n{wanted}")


def try_stored(trials):
    """The stored messages, beside what the C++ tool printed."""
    for name, root in (("unions", "Unions"), ("values", "Values")):
        options = options_of(root)
        message = USER / f"shows_{name}.framed"
        wanted = 0, (USER / f"shows_{name}.text").read_bytes(), b""
        trials.want(f"{name} as text", trials.run(*options, "--style", "capnp", message), wanted)
        _, text, _ = trials.run(*options, "--style", "capnp", "--pretty", message)
        trials.want(f"{name} as indented text", b"".join(text.split()), b"".join(wanted[1].split()))
        status, ours, _ = trials.run(*options, "--json", message)
        theirs = (USER / f"shows_{name}.json").read_bytes()
        trials.want(f"{name} as JSON", (status, objects(ours)), (0, objects(theirs)))
    # The C++ tool's JSON of a struct that is the first member of its own union has no end.
    trials.want("a struct that holds itself", trials.run(*options_of("Node"), "--json", stdin=frame([0])), (0, b'{"child":{"child":{}}}\n', b""))


def objects(text):
    """The objects of lines of JSON, each as its pairs in their order; numbers as floats."""
    return [json.loads(line, object_pairs_hook=tuple, parse_int=float) for line in text.decode().splitlines()]


def try_damaged(trials):
    """Messages that can't be shown, alone and behind one that can."""
    good = (DATA / "orders.bin").read_bytes()
    for words, why in DAMAGED:
        options = ("--schema", SHOP, "--root", "Order")
        said = f"-: message 1 (byte 0) not shown: {why}\n".encode()
        trials.want(f"an order of {words}", trials.run(*options, stdin=frame(words)), (3, b"", said))
        status, _, said = trials.run(*options, stdin=good + frame(words))
        wanted = 3, f"-: message 3 (byte {len(good)}) not shown: {why}\n".encode()
        trials.want(f"an order of {words} behind others", (status, said), wanted)
    for words, root, more, why in OTHERS:
        for style in ((), ("--json",), ("--style", "capnp")):
            said = trials.run(*options_of(root), *more, *style, stdin=frame(words))
            trials.want(f"{root} of {words}", said, (3, b"", f"-: message 1 (byte 0) not shown: {why}\n".encode()))
    pad = frame([far_to(1, 0)], [struct_at(0, 2, 2), 1, 2, struct_at(3, 0, 1), 0])
    said = "-: message 1 (byte 0) not shown: customer: pointer out of bounds (segment 1, word 3)\n".encode()
    trials.want("an order in another segment", trials.run("--schema", SHOP, "--root", "Order", stdin=pad), (3, b"", said))


def try_mistakes(trials):
    """Mistakes of users, and what they are told."""
    options = ("--schema", SHOP, "--root")
    orders = DATA / "orders.bin"
    status, out, said = trials.run(*options, "Customer", orders)
    wanted = "".join(f'{orders}: message {n} (byte {at}) not shown: name: what is there is not a text (is "Customer" the right root?)\n' for n, at in ((1, 0), (2, 128)))
    trials.want("a wrong root", (status, out, said.decode()), (3, b"", wanted))
    damaged = DATA / "damaged.bin"
    status, _, said = trials.run(*options, "Order", damaged, damaged)
    lines = said.decode().splitlines()
    trials.want("a damaged file, twice", (status, len(lines), all(line.startswith(f"{damaged}: message 2 (byte 128) not shown: ") for line in lines)), (3, 2, True))
    status, out, said = trials.run(*options, "Order", "--from", "5", "--to", "2", orders)
    trials.want("a range without messages", (status, out, said.startswith(b"hagzimot: --from 5 --to 2: ")), (2, b"", True))
    with tempfile.TemporaryDirectory() as folder:
        packed, compressed = pathlib.Path(folder) / "packed", pathlib.Path(folder) / "orders.gz"
        run = subprocess.run([trials.program, "convert", "--out", "packed", orders], capture_output=True, timeout=120, check=False)
        packed.write_bytes(run.stdout)
        compressed.write_bytes(gzip.compress(orders.read_bytes(), mtime=0))
        for what, words, help_of in (
            ("packed as framed", (packed,), "--in packed"),
            ("framed as packed", ("--in", "packed", orders), "--in framed"),
            ("compressed", (compressed,), "gzip"),
            ("compressed as packed", ("--in", "packed", compressed), "gzip"),
        ):
            status, out, said = trials.run(*options, "Order", *words)
            trials.want(what, (status not in (0, 3), out, help_of in said.decode() and str(words[-1]) in said.decode()), (True, b"", True))


def main():
    program = pathlib.Path(sys.argv[1]).resolve() if len(sys.argv) > 1 else PROGRAM
    if not program.exists():
        raise SystemExit(f"{program} is not built")
    trials = Trials(program)
    try_stored(trials)
    try_damaged(trials)
    try_mistakes(trials)
    print(f"tool user shows: {trials.count} trials, {trials.differing} differ")
    return 1 if trials.differing else 0


if __name__ == "__main__":
    sys.exit(main())
