"""Tries conditions, columns and digests of the built `hagzimot`: `filter`, `show --where`, `relay --where`, `show --fields` and `hash`.

    python3 .ci/tool_where.py [PROGRAM]

- The messages of crates/hagzimot/data/peers/make.jsonl are put into one stream for each schema. Random conditions and columns of each stream are compared with what a walk here finds in the JSON that the C++ tool `capnp` printed of the same messages. That JSON leaves out null pointers and inactive members; types come from `hagzimot schema`.
- Cases by hand, with the messages of crates/hagzimot/data: operators, wildcards, unions, floats, damaged messages, the other form, and each mistake that a user makes, with what is said of it.

A difference is shown, and the status is 1. Nothing is written below the repository.
"""
import csv
import hashlib
import io
import json
import pathlib
import random
import re
import struct
import subprocess
import sys
import tempfile

import tool_peers

TOP = pathlib.Path(__file__).resolve().parent.parent
DATA = TOP / "crates" / "hagzimot" / "data"
CASES = tool_peers.DATA / "make.jsonl"
SEED = 20
CONDITIONS = 40
TABLES = 6
WHOLE = {f"{sign}Int{bits}": (-(2 ** (bits - 1)) if not sign else 0, 2 ** (bits - 1) - 1 if not sign else 2**bits - 1) for sign in ("", "U") for bits in (8, 16, 32, 64)}
MISSING = object()


class Unsure(Exception):
    """The JSON doesn't tell the value."""


def run(program, words, **options):
    """The output, the error and the status of the command."""
    done = subprocess.run([program, *map(str, words)], capture_output=True, timeout=120, check=False, **options)
    return done.stdout, done.stderr.decode("utf-8", "replace"), done.returncode


def in_float32(number):
    """A float as one of 32 bits."""
    try:
        return struct.unpack("<f", struct.pack("<f", number))[0]
    except OverflowError:
        return float("inf") if number > 0 else float("-inf")


class Schema:
    """The nodes of a schema, and which fields are floats."""

    def __init__(self, nodes, source):
        self.nodes = {node["id"]: node for node in nodes}
        self.floats = {name: int(bits) for name, bits in re.findall(r"(\w+) @\d+ :(?:List\()*Float(32|64)", source)}
        self.generic = set(re.findall(r"(\w+) @\d+ :(?:List\()*P\d", source))

    def root(self, name):
        """The id of the struct of a name: a path from its file wins over a last part."""
        structs = [node for node in self.nodes.values() if "fields" in node and not node.get("group")]
        whole = [node["id"] for node in structs if node["name"].rpartition(":")[2] == name]
        found = whole or [node["id"] for node in structs if re.split(r"[:.]", node["name"])[-1] == name]
        return found[0] if len(found) == 1 else None

    def active(self, node, value):
        """The name of the active member of a union."""
        members = [field for field in node["fields"] if "discriminant" in field]
        there = [field["name"] for field in members if value is not None and field["name"] in value]
        if value is not None:
            if len(there) != 1:
                raise Unsure
            return there[0]
        return next(field["name"] for field in members if field["discriminant"] == 0)

    def reached(self, kind, value, steps):
        """The values behind steps, each with its type: ("struct", id), ("list", type) or ("single", type, name)."""
        if not steps:
            yield kind, value
            return
        step, rest = steps[0], steps[1:]
        if isinstance(step, str) and step != "*":
            yield from self.behind_field(kind, value, step, rest)
            return
        items = [] if value is MISSING or value is None else value
        chosen = items if step == "*" else items[step : step + 1]
        for item in chosen:
            yield from self.reached(self.kind_of(kind[1], kind[2]), item, rest)

    def behind_field(self, kind, value, name, rest):
        """The values behind a field."""
        value = None if value is MISSING else value
        node = self.nodes[kind[1]]
        field = next(field for field in node["fields"] if field["name"] == name)
        if "discriminant" in field and self.active(node, value) != name:
            return
        there = MISSING if value is None else value.get(name, MISSING)
        if "group" in field:
            yield from self.reached(("struct", field["group"]), there, rest)
            return
        if there is MISSING and "default" in field:
            raise Unsure
        yield from self.reached(self.kind_of(field["type"], name), there, rest)

    def kind_of(self, type_told, name):
        """What values of a type are."""
        if isinstance(type_told, dict) and "struct" in type_told:
            return ("struct", type_told["struct"])
        if isinstance(type_told, dict) and "list" in type_told:
            return ("list", type_told["list"], name)
        return ("single", type_told, name)

    def plain(self, kind, value):
        """A single value as Python has it: with its sort."""
        _, told, name = kind
        if name in self.generic:
            raise Unsure
        if isinstance(told, dict):
            names = self.nodes[told["enum"]]["enumerants"]
            value = names[0] if value is MISSING else value
            return "enum", value if isinstance(value, str) else str(value)
        if name in self.floats and told in ("UInt32", "UInt64"):
            return "float", 0.0 if value is MISSING else float(value)
        if told in WHOLE:
            return "whole", 0 if value is MISSING else int(value)
        if told == "Bool":
            return "bool", False if value is MISSING else value
        if told == "Text":
            if isinstance(value, list):
                raise Unsure
            return "text", "" if value is MISSING else value
        if told == "Data":
            return "data", b"" if value is MISSING else bytes(value)
        if told == "Void":
            return "void", "void"
        raise Unsure


def paths_in(schema, kind, value, path=()):
    """Paths to single values that a message has."""
    if kind[0] == "single":
        yield path, kind, value
    elif kind[0] == "list":
        for i, item in enumerate(value[:3]):
            yield from paths_in(schema, schema.kind_of(kind[1], kind[2]), item, (*path, i))
    else:
        fields = {field["name"]: field for field in schema.nodes[kind[1]]["fields"]}
        for name, inner in value.items():
            field = fields[name]
            below = ("struct", field["group"]) if "group" in field else schema.kind_of(field["type"], name)
            if below[0] != "single" and not isinstance(inner, (dict, list)):
                continue
            yield from paths_in(schema, below, inner, (*path, name))


def path_text(path):
    """A path as users write it."""
    text = ""
    for step in path:
        text += f"[{step}]" if isinstance(step, int) or step == "*" else f".{step}"
    return text.lstrip(".")


def quoted(text):
    """A text in quotes."""
    return '"' + text.replace("\\", "\\\\").replace('"', '\\"').replace("\n", "\\n").replace("\t", "\\t") + '"'


OPERATORS = {"=": lambda a, b: a == b, "!=": lambda a, b: a != b, "<": lambda a, b: a < b, "<=": lambda a, b: a <= b, ">": lambda a, b: a > b, ">=": lambda a, b: a >= b, "~": lambda a, b: b in a}


def literal(rng, kind, sort, value):
    """An operator, a value's text and the value, near a value that a message has."""
    if sort == "whole":
        least, greatest = WHOLE[kind[1]]
        near = max(least, min(greatest, value + rng.choice((-1, 0, 0, 1))))
        return rng.choice(("=", "!=", "<", "<=", ">", ">=")), str(near), near
    if sort == "float":
        far = rng.choice((0.0, 1.5, -3.25, 1e10, -1e10))
        if value == value and abs(value - far) <= 1e-3 * max(abs(value), abs(far)):
            raise Unsure
        return rng.choice(("<", "<=", ">", ">=")), repr(far), far
    if sort == "text":
        if "\0" in value:
            raise Unsure
        part = value[: rng.randrange(len(value) + 1)]
        chosen = rng.choice((value, part, part[1:], "a"))
        return rng.choice(("=", "!=", "<", ">=", "~", "~")), quoted(chosen), chosen
    if sort == "data":
        return rng.choice(("=", "!=")), quoted(value.hex()), value
    if sort in ("enum", "bool"):
        return rng.choice(("=", "!=")), str(value).lower() if sort == "bool" else value, value
    raise Unsure


class Condition:
    """A random condition: its text, and what it says of a message."""

    def __init__(self, schema, root, rng, value):
        self.schema, self.root = schema, root
        found = list(paths_in(schema, ("struct", root), value))
        path, kind, inner = rng.choice(found)
        self.path = tuple("*" if isinstance(step, int) and rng.random() < 0.5 else step for step in path)
        self.form = rng.choice(("has", "compare", "compare", "compare"))
        if self.form == "has":
            self.presence(kind)
            return
        sort, plain = schema.plain(kind, inner)
        self.operator, text, self.wanted = literal(rng, kind, sort, plain)
        self.text = f"{path_text(self.path)} {self.operator} {text}"

    def presence(self, kind):
        """Asks whether something is there; what is always there isn't asked for."""
        if not any(isinstance(step, int) or step == "*" for step in self.path) and kind[1] not in ("Text", "Data"):
            raise Unsure
        self.text = f"has {path_text(self.path)}"

    def bytes_of(self, value):
        """Texts compare by their bytes."""
        return value.encode() if isinstance(value, str) else value

    def holds(self, value):
        """Whether a message keeps it."""
        reached = list(self.schema.reached(("struct", self.root), value, self.path))
        if self.form == "has":
            last_is_index = isinstance(self.path[-1], int) or self.path[-1] == "*"
            return any(last_is_index or kind[1] not in ("Text", "Data") or inner is not MISSING for kind, inner in reached)
        return any(OPERATORS[self.operator](self.bytes_of(self.schema.plain(kind, inner)[1]), self.bytes_of(self.wanted)) for kind, inner in reached)


def joined(rng, conditions):
    """An expression of conditions: its text, and what it says by what they say."""
    if len(conditions) == 1:
        one = conditions[0]
        if rng.random() < 0.3:
            return f"not {one.text}", lambda value: not one.holds(value)
        return one.text, one.holds
    at = rng.randrange(1, len(conditions))
    (left, left_holds), (right, right_holds) = joined(rng, conditions[:at]), joined(rng, conditions[at:])
    if rng.random() < 0.5:
        return f"({left}) and ({right})", lambda value: left_holds(value) and right_holds(value)
    return f"({left} or {right})", lambda value: left_holds(value) or right_holds(value)


def cell_of(schema, root, path, value):
    """The cell of a column."""
    reached = list(schema.reached(("struct", root), value, path))
    if not reached:
        return ""
    sort, plain = schema.plain(*reached[0])
    if sort == "float":
        raise Unsure
    if sort == "bool":
        return str(plain).lower()
    return plain.hex() if sort == "data" else str(plain)


def escaped(cell):
    """A cell of a table with tabs."""
    for plain, told in (("\\", "\\\\"), ("\t", "\\t"), ("\n", "\\n"), ("\r", "\\r")):
        cell = cell.replace(plain, told)
    return cell


class Stream:
    """The messages of a schema, with the JSON of each."""

    def __init__(self, program, folder, cases):
        self.program = program
        self.request, self.file = folder / "case.request", folder / "case.framed"
        self.request.write_bytes(bytes.fromhex(cases[0]["request"]))
        self.frames = [bytes.fromhex(case["framed"]) for case in cases]
        self.file.write_bytes(b"".join(self.frames))
        self.values = [json.loads(case["told"]) for case in cases]
        self.root_name = cases[0]["root"]
        told, _, status = run(program, ["schema", self.request])
        self.schema = Schema(json.loads(told), cases[0]["capnp"]) if status == 0 else None
        self.root = self.schema.root(self.root_name) if self.schema else None

    def words(self):
        """The words that name the schema and the root."""
        return ["--schema", self.request, "--root", self.root_name]

    def condition(self, rng):
        """A random expression, and which messages keep it."""
        conditions = [Condition(self.schema, self.root, rng, rng.choice(self.values)) for _ in range(rng.choice((1, 1, 2, 3)))]
        text, holds = joined(rng, conditions)
        return text, [bool(holds(value)) for value in self.values]

    def try_condition(self, rng):
        """Whether `filter` writes the messages that keep an expression; `None` if the JSON doesn't tell."""
        try:
            text, kept = self.condition(rng)
        except (Unsure, IndexError):
            return None
        wanted = b"".join(frame for frame, is_kept in zip(self.frames, kept) if is_kept)
        out, said, status = run(self.program, ["filter", *self.words(), "--where", text, self.file])
        count, _, _ = run(self.program, ["show", "--count", *self.words(), "--where", text, self.file])
        if (out, status, count) == (wanted, 0, f"{sum(kept)}\n".encode()):
            return True
        print(f"--where {text}: status {status} {said}kept {len(out)} bytes and not {len(wanted)}; counted {count!r}; {kept}")
        return False

    def table(self, rng):
        """Random columns, and the cells of each message."""
        found = [path for value in self.values for path, _, _ in paths_in(self.schema, ("struct", self.root), value)]
        paths, rows = [], [[] for _ in self.values]
        for path in rng.sample(found, min(len(found), 4)):
            try:
                cells = [cell_of(self.schema, self.root, path, value) for value in self.values]
            except Unsure:
                continue
            paths.append(path_text(path))
            for row, cell in zip(rows, cells):
                row.append(cell)
        if not paths:
            raise Unsure
        return paths, [paths, *rows]

    def try_table(self, rng):
        """Whether `show --fields` prints columns; `None` if the JSON doesn't tell."""
        try:
            paths, rows = self.table(rng)
        except Unsure:
            return None
        words = ["show", *self.words(), "--fields", ",".join(paths)]
        tabs, said, status = run(self.program, [*words, "--tsv", self.file])
        commas, _, other = run(self.program, [*words, "--csv", self.file])
        wanted = "".join("\t".join(map(escaped, row)) + "\n" for row in rows)
        read = list(csv.reader(io.StringIO(commas.decode(), newline="")))
        # A row of one empty cell reads as none.
        read = [row or [""] for row in read]
        if (status, other) == (0, 0) and tabs.decode() == wanted and read == rows:
            return True
        print(f"--fields {','.join(paths)}: status {status}, {other} {said}{tabs!r} and not {wanted!r}; {commas!r}")
        return False


def try_streams(program):
    """How many random conditions and tables there were, and how many differ."""
    rng = random.Random(SEED)
    streams = {}
    for line in CASES.read_text().splitlines():
        case = json.loads(line)
        streams.setdefault((case["request"], case["root"]), []).append(case)
    tried = differing = 0
    with tempfile.TemporaryDirectory() as folder:
        for cases in streams.values():
            stream = Stream(program, pathlib.Path(folder), cases)
            if stream.root is None:
                continue
            answers = [stream.try_condition(rng) for _ in range(CONDITIONS)] + [stream.try_table(rng) for _ in range(TABLES)]
            tried += sum(answer is not None for answer in answers)
            differing += sum(answer is False for answer in answers)
    print(f"random conditions and columns: {tried} tried, {differing} differ")
    return differing if tried > 500 else differing + 1


ORDER = ("--schema", DATA / "shop.request", "--root", "Order")
WEIGHED = ("--schema", DATA / "shop_weighed.request", "--root", "Order")
# Conditions on orders.bin, and the numbers of the orders that keep them.
KEPT = (
    ("number = 1", [1]),
    ("number != 1", [2]),
    ("number<2", [1]),
    ("number <= 2", [1, 2]),
    ("number > 2", []),
    ("number >= 2", [2]),
    ("total = -300", [2]),
    ("total < -299", [2]),
    ("status = sent", [2]),
    ("status = 0", [1]),
    ("status != sent", [1]),
    ("paid = true", [2]),
    ("not paid = true", [1]),
    ("customer.name = Ada", [1]),
    ("customer.name = \"Ada\"", [1]),
    ("customer.name = 'Bob'", [2]),
    ("customer.name ~ o", [2]),
    ("customer.name ~ \"\"", [1, 2]),
    ("customer.name < Bob", [1]),
    ("customer.email = \"\"", [1, 2]),
    ("has customer.email", []),
    ("has customer", [1, 2]),
    ("has lines", [1]),
    ("has lines[1]", [1]),
    ("has lines[2]", []),
    ("has lines[*]", [1]),
    ("has lines[0].count", [1]),
    ("lines[0].count = 2", [1]),
    ("lines[1].count = 2", []),
    ("lines[*].count = 1", [1]),
    ("not lines[*].count = 1", [2]),
    ("lines[*].count > 2", []),
    ("lines[*].article ~ in and lines[*].count > 1", [1]),
    ("number = 1 or number = 2 and paid = false", [1]),
    ("(number = 1 or number = 2) and paid = false", [1]),
    ("(number = 1 or number = 2) and paid = true", [2]),
    ("not (number = 1 or paid = false)", [2]),
    ("not not number = 1", [1]),
    ("  number\t=\n1 ", [1]),
)
# Conditions on user/shows_unions.framed, and the numbers of the messages that keep them.
UNIONS = (
    ("is t", [1, 5, 8]),
    ("is d", [2]),
    ("is l", [6, 7]),
    ("is s", [3, 4, 10]),
    ("is v", [9]),
    ("not is v and not is s", [1, 2, 5, 6, 7, 8]),
    ("g is gb", [8]),
    ("g is ga", [1, 2, 3, 4, 5, 6, 7, 9, 10]),
    ("s is x", [4, 10]),
    ("s is y", [3]),
    ("s.x is q", [10]),
    ("s.x.n = -1", [10]),
    ("s.x.n != -1", [4]),
    ("not s.x.n = -1", [1, 2, 3, 4, 5, 6, 7, 8, 9]),
    ("s.b = true", [10]),
    ("s.b != true", [3, 4]),
    ("t = ''", [1, 8]),
    ("t ~ x", [5]),
    ("l[0] = a", [7]),
    ("l[*] != b", [7]),
    ("has l[0]", [7]),
    ("has v", [9]),
    ("has g.gb", [8]),
    ("has s.x.q", [10]),
    ("has s.x.n", [4, 10]),
    ("z > 6 or s.b = true", [9, 10]),
)
# What users write, and what is said of it.
MISTAKES = (
    ("", "column 1: there is no condition"),
    ("numbr = 1", 'column 1, numbr: no field "numbr" in Order; did you mean "number"?'),
    ("paid = true and lines[0].cuont = 1", 'column 17, lines[0].cuont: no field "cuont" in Line; did you mean "count"?'),
    ("number == 1", "column 8, ==: there is no operator == (write =)"),
    ("customer.name =~ A", "column 15, =~: there is no operator =~ (write ~"),
    ("number <> 1", "(write !=)"),
    ("number => 1", "(write <= or >=)"),
    ("!paid", "column 1, !: there is no operator ! (write not)"),
    ("number = 1 && paid = true", "column 12, &&: conditions are joined by and (write and)"),
    ("number = 1 || paid = true", "column 12, ||: conditions are joined by or (write or)"),
    ("number = 1 AND paid = true", "(write and)"),
    ("customer.name = Ada Lovelace", "column 21, Lovelace: a whole condition stands before this"),
    ("customer.name = \"Ada", "column 17, \"Ada: the text has no closing quote (add it)"),
    ("customer.name = \"\\q\"", "column 18, \\q: there is no such escape"),
    ("customer = Ada", "column 1, customer: a struct can't be compared"),
    ("lines = 3", "column 1, lines: a list can't be compared"),
    ("(number = 1", "column 1, (: this parenthesis is not closed"),
    ("number = 1)", "column 11, ): no parenthesis is open here"),
    ("number", "column 7: an operator is missing behind the path"),
    ("number =", "column 9: a value is missing here"),
    ("number = 1 and", "column 15: a condition is missing here"),
    ("not", "column 4: a condition is missing here"),
    ("has", "column 4: a path is missing behind has"),
    ("has number", "column 5, number: this field is always there"),
    ("number = x", "column 10, x: this is not a value of a UInt32"),
    ("number = 4294967296", "column 10, 4294967296: 4294967296 is out of the range of a UInt32 (0 to 4294967295)"),
    ("number ~ 1", "column 8, ~: only a text has parts, and this is a UInt32"),
    ("status = lost", "column 10, lost: the enum has no enumerant of this name or number"),
    ("status < sent", "column 8, <: an enum has no order (write = or !=)"),
    ("status is sent", "column 11, sent: this is an enum, and is asks for a member of a union (write = sent)"),
    ("customer is name", "column 13, name: \"name\" is not a member of the union"),
    ("paid > true", "column 6, >: a Bool has no order"),
    ("paid = yes", "column 8, yes: this is not a value of a Bool"),
    ("lines[x].count = 1", "column 1, lines[x].count: this is not a path"),
    ("number[0] = 1", "column 1, number[0]: element 0 is asked of a value that is not a list"),
    ("\"number\" = 1", "column 1, \"number\": a condition begins with a path (write it without quotes)"),
    ("(" * 65 + "number = 1" + ")" * 65, "column 65"),
    ("customer.näme = ä and number == 1", "column 30, ==: there is no operator =="),
)
FIELD_MISTAKES = (
    ("number,totl", 'totl: column 1, totl: no field "totl" in Order; did you mean "total"?'),
    ("customer", "customer: column 1, customer: a struct can't be a column"),
    ("lines", "a list can't be a column"),
    ("lines[*].count", "a column has one value (write an index for *)"),
    ("number,", "this is not a path"),
)


def numbers_in(out):
    """The numbers of the orders that were written."""
    return [int(match) for match in re.findall(rb"\(number = (\d+)", out)]


def differs(name, got, wanted):
    """Whether something differs, which is then shown."""
    if got == wanted:
        return 0
    print(f"{name}: {got!r} and not {wanted!r}")
    return 1


def try_kept(program):
    """How many conditions by hand differ."""
    orders = DATA / "orders.bin"
    frames = {1: orders.read_bytes()[:128], 2: orders.read_bytes()[128:]}
    failed = 0
    for text, numbers in KEPT:
        out, said, status = run(program, ["filter", *ORDER, "--where", text, orders])
        failed += differs(f"filter {text}", (out, said, status), (b"".join(frames[n] for n in numbers), "", 0))
        out, said, status = run(program, ["show", *ORDER, "--where", text, orders])
        failed += differs(f"show {text}", (numbers_in(out), said, status), (numbers, "", 0))
        out, _, status = run(program, ["show", "--json", *ORDER, "--where", text, orders])
        failed += differs(f"show --json {text}", ([json.loads(line)["number"] for line in out.splitlines()], status), (numbers, 0))
    return failed


def try_unions(program):
    """How many conditions on unions differ."""
    lines = (DATA / "user" / "shows_unions.json").read_bytes().splitlines(keepends=True)
    words = ["--json", "--schema", DATA / "user" / "shows_unions.request", "--root", "Unions", DATA / "user" / "shows_unions.framed"]
    failed = 0
    for text, numbers in UNIONS:
        out, said, status = run(program, ["show", *words, "--where", text])
        failed += differs(f"unions {text}", (out, said, status), (b"".join(lines[n - 1] for n in numbers), "", 0))
    return failed


def try_mistakes(program):
    """How many mistakes aren't told as they have to be."""
    failed = 0
    for option, mistakes in (("--where", MISTAKES), ("--fields", FIELD_MISTAKES)):
        for text, wanted in mistakes:
            # No message is read before the words are.
            out, said, status = run(program, ["show", *ORDER, option, text, "/dev/null/none"])
            begins = said.startswith(f"hagzimot: {option} ")
            if (out, status, begins) != (b"", 2, True) or wanted not in said or said.count("\n") != 1 + text.count("\n"):
                print(f"{option} {text}: status {status}, {said}and not {wanted}")
                failed += 1
    return failed


def try_floats(program, folder):
    """How many conditions on floats differ."""
    weighed = folder / "weighed.bin"
    run(program, ["relay", *WEIGHED, "--set", "lines[0].weight=0.1", "--set", "lines[1].weight=-inf", "--log", "none", "-o", weighed, DATA / "orders.bin"])
    failed = 0
    conditions = (
        ("lines[0].weight = 0.1", [1]),
        ("lines[0].weight > 0.1", []),
        ("lines[*].weight < -1e30", [1]),
        ("lines[1].weight = -inf", [1]),
        ("lines[1].weight = nan", []),
        ("lines[1].weight != nan", [1]),
    )
    for text, numbers in conditions:
        out, said, status = run(program, ["show", *WEIGHED, "--where", text, weighed])
        failed += differs(f"show {text}", (numbers_in(out), said, status), (numbers, "", 0))
    return failed


def try_others(program, folder):
    """How many other cases differ: damaged messages, forms, counts, statuses."""
    failed = 0
    packed = folder / "orders.packed"
    run(program, ["convert", "--out", "packed", "-o", packed, DATA / "orders.bin"])
    out, said, status = run(program, ["filter", *ORDER, "--in", "packed", "--out", "packed", "--where", "number > 0", "--stats", packed])
    failed += differs("packed", (out, said, status), (packed.read_bytes(), "2 of 2 messages match\n", 0))
    damaged = DATA / "damaged.bin"
    line = f"{damaged}: message 2 (byte 128) not written: root: pointer out of bounds (segment 0, word 0)\n"
    out, said, status = run(program, ["filter", *ORDER, "--where", "number = 2", damaged])
    failed += differs("damaged", (out, said, status), (damaged.read_bytes()[152:], line, 3))
    out, said, status = run(program, ["show", *ORDER, "--where", "number = 2", "--count", damaged])
    failed += differs("damaged count", (out, said, status), (b"1\n", line.replace("written", "shown"), 3))
    out, said, status = run(program, ["show", *ORDER, "--fields", "number,customer.name,customer.email,lines[0].article,status,paid", damaged])
    table = b"number\tcustomer.name\tcustomer.email\tlines[0].article\tstatus\tpaid\n1\tAda\t\tpen\tnew\tfalse\n2\tBob\t\t\tsent\ttrue\n"
    failed += differs("table", (out, said, status), (table, line.replace("written", "shown"), 3))
    out, said, status = run(program, ["filter", *ORDER, "--where", "number = 1", DATA / "cut.bin"])
    failed += differs("cut", (status, said), (4, f"hagzimot: {DATA / 'cut.bin'}: message 2, at byte 128: the input ends within a message\n"))
    out, said, status = run(program, ["relay", *ORDER, "--where", "paid = true", "--set", "total=7", DATA / "orders.bin"])
    failed += differs("relay", (out[:128], said, status), ((DATA / "orders.bin").read_bytes()[:128], "message 1 written\nmessage 2 written; done\n", 0))
    shown, _, _ = run(program, ["show", *ORDER, "--fields", "number,total", "-"], input=out)
    failed += differs("relayed", shown, b"number\ttotal\n1\t1250\n2\t7\n")
    for words in (["--plain"], ["--clear-active", "number"], ["--strict"]):
        out, said, status = run(program, ["relay", *ORDER, "--where", "paid = true", "--set", "total=7", *words, DATA / "orders.bin"])
        failed += differs(f"relay {words}", (out[:128], said.splitlines()[0], status), ((DATA / "orders.bin").read_bytes()[:128], "message 1 written", 0))
    out, said, status = run(program, ["relay", *ORDER, "--where", "number = 2", "--set", "total=7", damaged])
    failed += differs("relay damaged", (status, said.splitlines()[:2]), (3, ["message 1 written", "message 2 refused: value"]))
    out, said, status = run(program, ["show", *ORDER, "--csv", DATA / "orders.bin"])
    failed += differs("--csv alone", (out, status, "--fields" in said), (b"", 2, True))
    out, said, status = run(program, ["filter", *ORDER, DATA / "orders.bin"])
    failed += differs("no condition", (out, status, "--where" in said), (b"", 2, True))
    return failed


def frames_of(stream):
    """The segments of each framed message, one after the other."""
    at = 0
    while at < len(stream):
        count = struct.unpack_from("<I", stream, at)[0] + 1
        lengths = struct.unpack_from(f"<{count}I", stream, at + 4)
        begin = at + (4 + 4 * count + 7) // 8 * 8
        at = begin + 8 * sum(lengths)
        yield stream[begin:at]


def try_digests(program):
    """How many streams have other digests than those of their canonical segments."""
    failed = 0
    for file in (DATA / "orders.bin", DATA / "damaged.bin", tool_peers.DATA / "far.framed", tool_peers.DATA / "rich.framed"):
        canonical, _, status = run(program, ["canonical", "--log", "none", file])
        out, _, hashed = run(program, ["hash", file])
        digests = [line.split(b"\t")[0].decode() for line in out.splitlines()]
        wanted = [hashlib.sha256(words).hexdigest() for words in frames_of(canonical)]
        failed += differs(f"hash {file}", (digests, hashed), (wanted, status))
    return failed


def main():
    program = pathlib.Path(sys.argv[1]).resolve() if len(sys.argv) > 1 else tool_peers.PROGRAM
    if not program.exists():
        raise SystemExit(f"{program} is not built")
    failed = try_kept(program) + try_unions(program) + try_mistakes(program) + try_digests(program)
    with tempfile.TemporaryDirectory() as folder:
        folder = pathlib.Path(folder)
        failed += try_floats(program, folder) + try_others(program, folder)
    print(f"conditions by hand: {len(KEPT) + len(UNIONS) + len(MISTAKES) + len(FIELD_MISTAKES)} cases, {failed} differ")
    failed += try_streams(program)
    return 1 if failed else 0


if __name__ == "__main__":
    sys.exit(main())
