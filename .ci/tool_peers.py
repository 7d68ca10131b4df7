"""Compares what the built `hagzimot show` prints with what the C++ tool `capnp` printed of the same messages.

    python3 .ci/tool_peers.py [PROGRAM]

The messages lie in crates/hagzimot/data/peers, whose README says how they were made. The text of `show --style capnp` has to be NAME.text token by token, but for the digits of floats. For each stream NAME.framed the text of `show` and of `show --pretty` is compared with NAME.text, and that of `show --json` with NAME.json, message by message and by
what they mean: texts and data as their bytes, whole numbers as such, floats as floats of 64 bits or, in texts, of 32, fields with their names in their order. A message that differs is shown, and the status is 1. Nothing is written.
"""
import json
import pathlib
import re
import struct
import subprocess
import sys

TOP = pathlib.Path(__file__).resolve().parent.parent
DATA = TOP / "crates" / "hagzimot" / "data" / "peers"
PROGRAM = TOP / "crates" / "hagzimot" / "out" / "hagzimot"
# Each stream, with its schema, its root and further words.
STREAMS = (
    ("small", "bench", "Small", ()),
    ("nested", "bench", "Order", ()),
    ("far", "bench", "Order", ()),
    ("rich", "rich", "Rich", ("--floats-as-bits",)),
)
TOKEN = re.compile(rb'\s*(0x"[0-9a-f]*"|"(?:[^"\\]|\\.)*"|[()\[\],=]|[^\s()\[\],="]+)', re.DOTALL)
ESCAPE = re.compile(rb"\\(u\{[0-9a-f]+\}|x[0-9a-fA-F]{2}|[0-7]{3}|.)", re.DOTALL)
LETTERS = {b"a": 7, b"b": 8, b"f": 12, b"n": 10, b"r": 13, b"t": 9, b"v": 11, b"0": 0}
WHOLE = re.compile(rb"-?[0-9]+")
FLOAT = re.compile(rb"-?[0-9]+(\.[0-9]+)?(e-?[0-9]+)?|-?inf|nan")


def escaped(match):
    """The byte that an escape stands for."""
    code = match.group(1)
    if code.startswith(b"u{"):
        return bytes([int(code[2:-1], 16)])
    if len(code) == 3:
        return bytes([int(code[1:], 16) if code.startswith(b"x") else int(code, 8)])
    return bytes([LETTERS[code]]) if code in LETTERS else code


def single_of(token):
    """What a token means that is no mark: bytes, a number or a word."""
    if token.startswith(b'0x"'):
        return "bytes", bytes.fromhex(token[3:-1].decode())
    if token.startswith(b'"'):
        return "bytes", ESCAPE.sub(escaped, token[1:-1])
    if WHOLE.fullmatch(token):
        return "whole", int(token), token == b"-0"
    if FLOAT.fullmatch(token):
        return "float", float(token)
    # Void, which `show` writes as the empty struct.
    return ("struct", []) if token == b"void" else ("word", token)


def value_of(tokens, at):
    """The value at a token, and the place of the token behind it."""
    token = tokens[at]
    if token == b"[":
        items, at = [], at + 1
        while tokens[at] != b"]":
            at += tokens[at] == b","
            item, at = value_of(tokens, at)
            items.append(item)
        return ("list", items), at + 1
    if token != b"(":
        return single_of(token), at + 1
    fields, at = [], at + 1
    while tokens[at] != b")":
        at += tokens[at] == b","
        if tokens[at + 1] != b"=":
            raise ValueError(f"no field begins with {tokens[at]}")
        value, after = value_of(tokens, at + 2)
        fields.append((tokens[at], value))
        at = after
    return ("struct", fields), at + 1


def tokens_of(text):
    """The tokens of a text."""
    tokens, at = [], 0
    text = text.rstrip()
    while at < len(text):
        match = TOKEN.match(text, at)
        if match is None:
            raise ValueError(f"no token at byte {at}")
        tokens.append(match.group(1))
        at = match.end()
    return tokens


def tokens_in_lines(text):
    """The tokens of each message of a text, floats by what they mean."""
    return [[single_of(token) if FLOAT.fullmatch(token) else token for token in tokens_of(line)] for line in text.splitlines()]


def values_in_text(text):
    """The messages of a text, in the form of `capnp decode` or of `show`."""
    tokens = tokens_of(text)
    values, at = [], 0
    while at < len(tokens):
        value, at = value_of(tokens, at)
        values.append(value)
    return values


def values_in_json(text):
    """The messages of lines of JSON; the fields of an object in their order."""

    def whole(digits):
        return "whole", int(digits), digits == "-0"

    def number(digits):
        return "float", float(digits)

    return [
        json.loads(line, object_pairs_hook=lambda pairs: ("struct", pairs), parse_int=whole, parse_float=number)
        for line in text.decode().splitlines()
    ]


def bits_of(value, form):
    """The bits of a number as a float, all NaNs alike; of a size that the form lacks none."""
    if value[0] == "whole":
        value = ("float", -0.0 if value[2] else float(value[1]))
    try:
        return "nan" if value[1] != value[1] else struct.pack(form, value[1])
    except OverflowError:
        return None


def are_same_numbers(ours, theirs, is_json):
    """Whether two numbers are the same: whole ones by their digits, floats by their bits."""
    if ours[0] == theirs[0] == "whole":
        return ours == theirs
    if bits_of(ours, "<d") == bits_of(theirs, "<d"):
        return True
    single = bits_of(ours, "<f")
    return not is_json and single is not None and single == bits_of(theirs, "<f")


def are_same(ours, theirs, is_json):
    """Whether two values mean the same."""
    if isinstance(ours, list) and isinstance(theirs, list):
        return len(ours) == len(theirs) and all(are_same(a, b, is_json) for a, b in zip(ours, theirs))
    if not (isinstance(ours, tuple) and isinstance(theirs, tuple)):
        return type(ours) is type(theirs) and ours == theirs
    kinds = {ours[0], theirs[0]}
    if kinds <= {"whole", "float"}:
        return are_same_numbers(ours, theirs, is_json)
    if kinds == {"struct"}:
        names = [name for name, _ in ours[1]], [name for name, _ in theirs[1]]
        return names[0] == names[1] and all(are_same(a[1], b[1], is_json) for a, b in zip(ours[1], theirs[1]))
    if kinds == {"list"}:
        return are_same(ours[1], theirs[1], is_json)
    return ours == theirs


def differences(program, stream, words, wanted, read):
    """How many messages of a stream there are, and those that are printed otherwise; each is shown."""
    name, schema, root, more = stream
    command = [program, "show", "--schema", DATA / f"{schema}.request", "--root", root, *more, *words, DATA / f"{name}.framed"]
    run = subprocess.run(command, capture_output=True, timeout=120, check=False)
    ours, theirs = read(run.stdout), read((DATA / wanted).read_bytes())
    if run.returncode != 0 or len(ours) != len(theirs) or not theirs:
        print(f"{name} {' '.join(words)}: status {run.returncode}, {len(ours)} messages of {len(theirs)}: {run.stderr.decode()}")
        return len(theirs), max(1, len(theirs))
    differing = [at for at, pair in enumerate(zip(ours, theirs)) if not are_same(*pair, read is values_in_json)]
    for at in differing:
        print(f"{name} {' '.join(words)}: message {at + 1} is\n{ours[at]}\nand not\n{theirs[at]}")
    return len(theirs), len(differing)


def main():
    program = pathlib.Path(sys.argv[1]).resolve() if len(sys.argv) > 1 else PROGRAM
    if not program.exists():
        raise SystemExit(f"{program} is not built")
    compared = differing = 0
    for stream in STREAMS:
        name = stream[0]
        for words, wanted, read in (
            ((), f"{name}.text", values_in_text),
            (("--pretty",), f"{name}.text", values_in_text),
            (("--style", "capnp"), f"{name}.text", tokens_in_lines),
            (("--json",), f"{name}.json", values_in_json),
        ):
            count, others = differences(program, stream, words, wanted, read)
            compared += count
            differing += others
    print(f"tool peers: {compared} messages, {differing} differ")
    return 1 if differing else 0


if __name__ == "__main__":
    if sys.argv[1:] in (["-h"], ["--help"]):
        sys.exit(print(__doc__))
    sys.exit(main())
