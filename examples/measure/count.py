"""Counts the instructions that docs/performance.md tells of the built programs, by valgrind, and prints its tables.

usage: count.py FOLDER [PEER..]

FOLDER is made by corpora.py. Each PEER is a program that peer.c++ or peer.rs makes. What a peer takes without messages
is taken off; of the other programs nothing is, where a table doesn't say so.
"""
import concurrent.futures
import json
import os
import re
import subprocess
import sys

HERE = os.path.dirname(os.path.abspath(__file__))
sys.path.insert(0, os.path.dirname(HERE))
from relay_program import frames, relay_program  # noqa: E402

CRATES = os.path.join(HERE, "../../crates")
RELAY, TOOL, BENCH = relay_program(), *(os.path.join(CRATES, it, "out", it) for it in ("hagzimot", "bench"))
ROOTS = {"small": "1", "nested": "3", "large": "8", "far": "3"}
SET_A = {"path": ["a"], "verb": "set", "value": {"number": 7}}
PAID = {"path": ["status", "paid"], "verb": "set", "value": {"number": 7}}


def setting(value, *path):
    """A call that sets a value."""
    return {"path": [*path], "verb": "set", "value": value}


PATHS = [
    setting({"number": 12345}, "customer", "address", "zip"),
    setting({"text": "Ada Lovelace, Countess"}, "customer", "name"),
    setting({"number": 3}, "lines", 0, "count"),
]
ENDS = {
    "small": {"set a": SET_A, "get a": {"path": ["a"], "verb": "get"}, "clear name": {"path": ["name"], "verb": "clear"}},
    "nested": {
        "set a": SET_A,
        "set customer.address.zip": PATHS[0],
        "set lines.0.count": PATHS[2],
        "set customer.name": PATHS[1],
        "get a": {"path": ["a"], "verb": "get"},
        "set status.open": setting({"number": 0}, "status", "open"),
        "set notes.0": setting({"text": "alpha"}, "notes", 0),
        "clear customer.name": {"path": ["customer", "name"], "verb": "clear"},
        "set customer.address.zip to 0": setting({"number": 0}, "customer", "address", "zip"),
    },
    "large": {
        "set a": SET_A,
        "set orders.0.a": setting({"number": 7}, "orders", 0, "a"),
        "set numbers.0": setting({"number": 7}, "numbers", 0),
    },
}
PRINTED = [{"path": [it], "verb": "get"} for it in ("lines", "customer", "path", "status")]


def counted(words, given):
    """The instructions of a run, and how many bytes of log it wrote."""
    tool = ["valgrind", "--tool=callgrind", "--callgrind-out-file=/dev/null", *words]
    with open(given, "rb") as source:
        it = subprocess.run(tool, stdin=source, stdout=subprocess.DEVNULL, stderr=subprocess.PIPE, check=False)
    said = it.stderr.decode(errors="replace")
    found = re.search(r"Collected : (\d+)", said)
    if found is None:
        sys.exit(f"{words} can't be counted: {said[-300:]}")
    return int(found[1]), sum(len(line) + 1 for line in said.splitlines() if not line.startswith("=="))


class Runs:
    """Runs over the streams of a folder, some at a time."""

    def __init__(self, folder):
        self.folder, self.pool = os.path.abspath(folder), concurrent.futures.ThreadPoolExecutor(os.cpu_count())
        with open(f"{self.folder}/empty", "wb"):
            pass
        self.messages = {}
        for name in ROOTS:
            with open(f"{self.folder}/{name}.framed", "rb") as file:
                self.messages[name] = sum(1 for _ in frames(file.read()))

    def stream(self, name):
        """The path of a file of the folder."""
        return f"{self.folder}/{name}"

    def length(self, name):
        """The bytes of a file of the folder."""
        return os.path.getsize(self.stream(name))

    def calls(self, title, calls):
        """A file with these calls."""
        path = self.stream(re.sub(r"\W+", "_", title) + ".json")
        with open(path, "w", encoding="utf-8") as file:
            json.dump({"calls": calls}, file)
        return path

    def relay(self, name, form, calls, given=None):
        """A run of the relay, that is counted meanwhile."""
        words = [RELAY, self.stream("bench.json"), calls, ROOTS[name], form]
        given = given or f"{name}.{'packed' if form.startswith('packed') else 'framed'}"
        return self.pool.submit(counted, words, self.stream(given))

    def program(self, words, given):
        """A run of another program."""
        return self.pool.submit(counted, words, self.stream(given))


def table(head, rows):
    """Prints a table."""
    print("\n| " + " | ".join(head) + " |\n|" + "---|" * len(head))
    for row in rows:
        print("| " + " | ".join(row) + " |")
    sys.stdout.flush()


def packing(runs):
    """Instructions for each byte of packed text."""
    made = {}
    for name in ROOTS:
        for work, form in (("unpack", "packed"), ("pack", "framed")):
            words = [BENCH, work, runs.stream(f"{name}.{form}")]
            made[name, work] = [runs.program([*words, rounds], "empty") for rounds in ("1", "0")]
    cells = {it: (one.result()[0] - none.result()[0]) / runs.length(f"{it[0]}.packed") for it, (one, none) in made.items()}
    table(["", "unpack", "pack"], [[it, f"{cells[it, 'unpack']:.1f}", f"{cells[it, 'pack']:.1f}"] for it in ROOTS])


def cars(runs):
    """Instructions for each of Cap'n Proto's car sales."""
    made = {}
    for count in ("50", "5000"):
        for work in ("build", "write", "read"):
            made[count, work] = [runs.program([BENCH, "cars", work, count, rounds], "empty") for rounds in ("6", "1")]
    cells = {it: (more.result()[0] - one.result()[0]) / 5 / int(it[0]) for it, (more, one) in made.items()}
    rows = [[f"{count} cars", *(f"{cells[count, work]:,.0f}" for work in ("build", "write", "read"))] for count in ("50", "5000")]
    table(["", "build", "build and write", "read and sum"], rows)


def streams(runs, peers):
    """Instructions for each byte of input, of the relay and of its peers, and of the relay where it writes the plain form."""
    set_a = runs.calls("set a", [SET_A])
    forms = ("framed", "packed", "framed+plain")
    made = {(name, form): runs.relay(name, form, set_a) for name in ROOTS for form in forms}
    for peer in peers:
        for form in forms[:2]:
            made.update({(peer, name, form): runs.program([peer, form], f"{name}.{form}") for name in ROOTS})
            made[peer, form] = runs.program([peer, form], "empty")

    def each(name, form, peer=None):
        count = made[peer, name, form].result()[0] - made[peer, form].result()[0] if peer else made[name, form].result()[0]
        return f"{count / runs.length(f'{name}.{form[:6]}'):.1f}"

    heads = ["", *(f"{form} {os.path.basename(it)}" for form in forms[:2] for it in ("relay", *peers))]
    table(heads, [[it, *(each(it, form, peer) for form in forms[:2] for peer in (None, *peers))] for it in ROOTS])
    table(["", "plain"], [[it, each(it, forms[2])] for it in ROOTS])


def tool(runs):
    """Instructions of the command beside those of the program, on the framed streams."""
    set_a, schema = runs.calls("set a", [SET_A]), runs.stream("bench.json")
    made = {}
    for name, root in ROOTS.items():
        words = [TOOL, "relay", "--schema", schema, "--calls", set_a, "--root", root]
        made[name] = [runs.relay(name, "framed", set_a), runs.program(words, f"{name}.framed")]
    rows = [(name, *(it.result()[0] for it in both)) for name, both in made.items()]
    head = ["", "`capnp_relay_cli`", "`hagzimot relay`", "more"]
    table(head, [[name, f"{one:,}", f"{other:,}", f"{100 * other / one - 100:.1f} %"] for name, one, other in rows])


def paths(runs):
    """Instructions for each byte of `nested`, of calls along paths."""
    rows = {"three paths": PATHS, "with a void member": [*PATHS[:2], ENDS["nested"]["set status.open"]], "with a member": [*PATHS[:2], PAID], "a call in the region": [ENDS["nested"]["clear customer.name"]]}
    made = {it: {form: runs.relay("nested", form, runs.calls(it, calls)) for form in ("framed", "packed", "framed+plain")} for it, calls in rows.items()}
    cells = {it: [f"{run.result()[0] / runs.length(f'nested.{form[:6]}'):.1f}" for form, run in forms.items()] for it, forms in made.items()}
    table(["", "framed", "packed", "framed+plain"], [[it, *found] for it, found in cells.items()])


def without_names(runs):
    """The stream `nested` with each customer's name cleared."""
    calls = runs.calls("nested without names", [ENDS["nested"]["clear customer.name"]])
    with open(runs.stream("nested.framed"), "rb") as source, open(runs.stream("without_names"), "wb") as out:
        words = [RELAY, runs.stream("bench.json"), calls, ROOTS["nested"], "framed"]
        subprocess.run(words, stdin=source, stdout=out, stderr=subprocess.DEVNULL, check=True)
    return "without_names"


def ends(runs):
    """Instructions of a message beyond the start of the program, by what is called."""
    said, file = "set customer.name, which is null", runs.calls("nested set customer.name", [PATHS[1]])
    made = [("nested", said, runs.relay("nested", "framed", file, without_names(runs)), runs.relay("nested", "framed", file, "empty"))]
    for name, calls in ENDS.items():
        for said, call in calls.items():
            file = runs.calls(f"{name} {said}", [call])
            made.append((name, said, runs.relay(name, "framed", file), runs.relay(name, "framed", file, "empty")))
    rows = [(name, said, (one.result()[0] - none.result()[0]) / runs.messages[name]) for name, said, one, none in made]
    table(["", "one call", "instructions"], [[name, f"`{said}`", f"{count:,.0f}"] for name, said, count in rows])


def members(runs):
    """Instructions of a message where a member of a union is set, by whether its struct has the member's word."""
    parts = {"set status.paid, with its word": [], "set status.paid, without": []}
    with open(runs.stream("nested.framed"), "rb") as file:
        for message in map(bytes, frames(file.read())):
            # (one segment: its table, the root's pointer, and the root's three words, the last of which is `paid`)
            start = 16 + 8 * (int.from_bytes(message[8:12], "little") >> 2)
            parts[[*parts][not any(message[start + 16 : start + 24])]].append(message)
    file, made = runs.calls("nested set status.paid", [PAID]), {}
    none = runs.relay("nested", "framed", file, "empty")
    for title, part in parts.items():
        name = re.sub(r"\W+", "_", title)
        with open(runs.stream(name), "wb") as stream:
            stream.write(b"".join(part))
        made[title] = runs.relay("nested", "framed", file, name), len(part)
    rows = [[it, str(count), f"{(run.result()[0] - none.result()[0]) / count:,.0f}"] for it, (run, count) in made.items()]
    table(["`nested`", "messages", "instructions"], rows)


def prints(runs):
    """Instructions for each byte that gets print, beside a run that gets one number."""
    few = runs.relay("nested", "framed", runs.calls("get a", [ENDS["nested"]["get a"]]))
    many = runs.relay("nested", "framed", runs.calls("get more", PRINTED))
    (less, line), (more, text) = few.result(), many.result()
    table(["", "bytes", "instructions a byte"], [["`nested`", f"{text - line:,}", f"{(more - less) / (text - line):.1f}"]])


def main(folder, *peers):
    """Prints all tables."""
    runs = Runs(folder)
    packing(runs)
    cars(runs)
    streams(runs, [os.path.abspath(it) for it in peers])
    tool(runs)
    paths(runs)
    ends(runs)
    members(runs)
    prints(runs)
    start = runs.relay("small", "framed", runs.calls("set a", [SET_A]), "empty").result()[0]
    print(f"\nstart of the program: {start:,}")


if __name__ == "__main__":
    if len(sys.argv) < 2:
        sys.exit(__doc__)
    main(*sys.argv[1:])
