"""Compares what the built command makes of schema sources with what the C++ tool `capnp` made of them, and what it says of bad ones.

    python3 .ci/tool_sources.py [PROGRAM]

- The sources of crates/hagzimot/data/sources: `hagzimot schema -I . NAME.capnp` has to print the nodes of NAME.json, which `hagzimot schema` printed of the request that the C++ compiler wrote.
- Those of crates/hagzimot/data/sources/bad: the command has to refuse NAME.capnp with the lines of NAME.txt, which were written by hand, and status 4.
- Those of crates/hagzimot/data/peers/make.jsonl: `hagzimot compile` has to write the nodes of the request beside each source, which the C++ compiler wrote.
- Each of 1,500 mutations of these sources: the command has to write a whole request, or to refuse the source with lines that begin with a place, within ten seconds.
- If `capnp` is on the PATH, the same of all sources that are stored or lie below /usr/include/capnp, against what it writes of them now. So with 60 random sets of files with every construct. A mutation that both compile has to give the same nodes.

Requests are compared node by node, by their ids: data sections without zeros at their end, pointers without null ones and empty structs at their end, and empty lists as null. Not compared are the order of the nodes, comments and the version of the compiler. A case that differs
is shown, and the status is 1. Nothing is written below the repository.
"""
import json
import pathlib
import random
import re
import shutil
import struct
import subprocess
import sys
import tempfile

import source_texts

TOP = pathlib.Path(__file__).resolve().parent.parent
DATA = TOP / "crates" / "hagzimot" / "data"
SOURCES = DATA / "sources"
PROGRAM = TOP / "crates" / "hagzimot" / "out" / "hagzimot"
INSTALLED = pathlib.Path("/usr/include/capnp")
FAULT = 4
SEED, MUTATIONS, RANDOM_SETS = 64, 1500, 60
# The first line of what is said of a source: its path, a line and a column.
PLACE = re.compile(r"[^\n]*\.capnp:[1-9][0-9]*:[1-9][0-9]*: [^\n]+\n")
# What the C++ compiler says of sources that it doesn't compile although they are right.
OF_THE_COMPILER = b"Uncaught exception"
# The bits of an element, by the number of its size in a pointer; structs and pointers are read by themselves.
BITS = {0: 0, 1: 1, 2: 8, 3: 16, 4: 32, 5: 64}
POINTERS, STRUCTS = 6, 7
# A struct that holds nothing, which reads as a null pointer does.
EMPTY = ("struct", b"", [])


class Message:
    """The values of a framed message."""

    def __init__(self, data):
        count = struct.unpack_from("<I", data)[0] + 1
        sizes = struct.unpack_from(f"<{count}I", data, 4)
        at = (4 + 4 * count + 7) // 8 * 8
        self.segments = []
        for size in sizes:
            self.segments.append(data[at : at + 8 * size])
            at += 8 * size
        if at != len(data):
            raise ValueError("the header doesn't say how many words follow")

    def word(self, segment, at):
        return struct.unpack_from("<Q", self.segments[segment], 8 * at)[0]

    def root(self):
        return self.value(0, 0)

    def value(self, segment, at):
        """What the pointer at a place leads to."""
        pointer = self.word(segment, at)
        if pointer == 0:
            return None
        if pointer & 3 == 2:
            segment, pad = pointer >> 32, pointer >> 3 & 0x1FFFFFFF
            if not pointer & 4:
                return self.value(segment, pad)
            far, tag = self.word(segment, pad), self.word(segment, pad + 1)
            return self.behind(far >> 32, far >> 3 & 0x1FFFFFFF, tag)
        offset = (pointer & 0xFFFFFFFF) >> 2
        offset -= (offset & 1 << 29) << 1
        return self.behind(segment, at + 1 + offset, pointer)

    def behind(self, segment, start, pointer):
        if pointer & 3 == 0:
            return self.struct(segment, start, pointer >> 32 & 0xFFFF, pointer >> 48)
        if pointer & 3 == 3:
            return "capability", pointer >> 32
        size, count = pointer >> 32 & 7, pointer >> 35
        if size == STRUCTS:
            tag = self.word(segment, start)
            data, pointers, count = tag >> 32 & 0xFFFF, tag >> 48, (tag & 0xFFFFFFFF) >> 2
            each = data + pointers
            items = [self.struct(segment, start + 1 + each * i, data, pointers) for i in range(count)]
            return ("list", size, items) if count else None
        if size == POINTERS:
            return ("list", size, [self.value(segment, start + i) for i in range(count)]) if count else None
        length = (count * BITS[size] + 7) // 8
        return ("bytes", size, count, self.segments[segment][8 * start : 8 * start + length]) if count else None

    def struct(self, segment, start, data, pointers):
        words = self.segments[segment][8 * start : 8 * (start + data)]
        if len(words) != 8 * data:
            raise ValueError("a struct passes the end of its segment")
        values = [self.value(segment, start + data + i) for i in range(pointers)]
        while values and values[-1] in (None, EMPTY):
            values.pop()
        return "struct", words.rstrip(b"\0"), values


def pointer(value, place):
    """A pointer of a struct."""
    return value[2][place] if value and place < len(value[2]) else None


def items(value):
    """The items of a list, which may be null."""
    return value[2] if value else []


def number(value, at, size):
    """An unsigned number of a struct's data."""
    return int.from_bytes(value[1][at : at + size], "little")


def text(value):
    return value[3].rstrip(b"\0").decode() if value else ""


def nodes_and_files(data):
    """The nodes of a request by their ids, and the files that were asked for."""
    root = Message(data).root()
    nodes = {number(node, 0, 8): node for node in items(pointer(root, 0))}
    if len(nodes) != len(items(pointer(root, 0))):
        raise ValueError("two nodes have one id")
    return nodes, items(pointer(root, 1))


def differences(ours, theirs):
    """In what two requests differ, by the names of nodes."""
    ours, our_files = nodes_and_files(ours)
    theirs, their_files = nodes_and_files(theirs)
    names = {**{i: text(pointer(n, 0)) for i, n in ours.items()}, **{i: text(pointer(n, 0)) for i, n in theirs.items()}}
    found = [f"{names[i]} ({i:#x}) is only in {'ours' if i in ours else 'theirs'}" for i in sorted(ours.keys() ^ theirs.keys())]
    found += [f"{names[i]} ({i:#x})\n  ours   {ours[i]}\n  theirs {theirs[i]}" for i in sorted(ours.keys() & theirs.keys()) if ours[i] != theirs[i]]
    if our_files != their_files:
        found.append(f"files\n  ours   {our_files}\n  theirs {their_files}")
    return found


def run(command, folder, data=b""):
    return subprocess.run([str(word) for word in command], cwd=folder, input=data, capture_output=True, timeout=120, check=False)


def is_compiled(program, folder, name, theirs, label, words=()):
    """Whether the command compiles a source to a request; one that it doesn't is shown."""
    ours = run((program, "compile", *words, name), folder)
    if ours.returncode:
        print(f"{label}: status {ours.returncode}\n{ours.stderr.decode('utf-8', 'backslashreplace')}")
        return False
    try:
        found = differences(ours.stdout, theirs)
    except (ValueError, IndexError, KeyError, struct.error) as fault:
        found = [f"the request can't be read: {fault}"]
    if found:
        print(f"{label}: " + "\n".join(found)[:4000] + "\n")
    return not found


def by_id(printed):
    return {node["id"]: node for node in json.loads(printed)}


def is_stored(program, path):
    """Whether the command reads a stored source as the compiler did."""
    wanted = by_id(path.with_suffix(".json").read_text())
    got = run((program, "schema", "-I", ".", path.name), path.parent)
    if got.returncode == 0 and by_id(got.stdout) == wanted:
        return True
    print(f"{path.name}: status {got.returncode}\n{got.stderr.decode('utf-8', 'backslashreplace')}")
    printed = by_id(got.stdout) if got.returncode == 0 else {}
    for number in wanted.keys() | printed.keys():
        if wanted.get(number) != printed.get(number):
            print(f"wanted  {wanted.get(number)}\nprinted {printed.get(number)}")
    return False


def is_refused(program, path):
    """Whether the command says of a bad source what is wanted."""
    wanted = path.with_suffix(".txt").read_text()
    got = run((program, "check", path.name), path.parent)
    said = got.stderr.decode("utf-8", "backslashreplace")
    if (said, got.stdout, got.returncode) == (wanted, b"", FAULT):
        return True
    print(f"bad/{path.name}: status {got.returncode}\n--- wanted\n{wanted}--- printed\n{said}{got.stdout.decode('utf-8', 'backslashreplace')}")
    return False


def stored_cases(program):
    """The cases that are stored, each with whether it is right."""
    for path in sorted(SOURCES.glob("*.capnp")):
        if path.with_suffix(".json").exists():
            yield is_stored(program, path)
    for path in sorted((SOURCES / "bad").glob("*.capnp")):
        if path.with_suffix(".txt").exists():
            yield is_refused(program, path)
    with tempfile.TemporaryDirectory() as folder:
        for place, line in enumerate((DATA / "peers" / "make.jsonl").read_text().splitlines(), 1):
            case = json.loads(line)
            theirs = bytes.fromhex(case["request"])
            name = text(pointer(nodes_and_files(theirs)[1][0], 0))
            path = pathlib.Path(folder) / name
            path.parent.mkdir(parents=True, exist_ok=True)
            path.write_text(case["capnp"])
            yield is_compiled(program, folder, name, theirs, f"make.jsonl:{place}")


def compiled_cases(program):
    """The sources that the installed compiler compiles now, each with whether ours is the same."""
    stored = [*SOURCES.glob("*.capnp"), *(DATA / "user").glob("*.capnp"), *(DATA / "peers").glob("*.capnp"), DATA / "shop.capnp"]
    for path in sorted(stored):
        theirs = run(("capnp", "compile", "-o-", "-I", path.parent, path.name), path.parent)
        if theirs.returncode:
            print(f"{path}: the compiler refuses it: {theirs.stderr.decode()}")
            yield False
            continue
        yield is_compiled(program, path.parent, path.name, theirs.stdout, path.name, ("-I", path.parent))
    for path in sorted(INSTALLED.glob("**/*.capnp")):
        theirs = run(("capnp", "compile", "-o-", path), "/")
        yield is_compiled(program, "/", path, theirs.stdout, path)


def is_answered(program, folder, text):
    """Whether the command compiles a source to a whole request, or refuses it with places; and the request."""
    (folder / "mutated.capnp").write_bytes(text)
    try:
        got = subprocess.run([str(program), "compile", "mutated.capnp"], cwd=folder, capture_output=True, timeout=10, check=False)
    except subprocess.TimeoutExpired:
        print(f"a mutation takes more than ten seconds:\n{text!r}")
        return False, b""
    said = got.stderr.decode("utf-8", "backslashreplace")
    if got.returncode == 0 and not said:
        try:
            nodes_and_files(got.stdout)
            return True, got.stdout
        except (ValueError, IndexError, KeyError, struct.error) as fault:
            said = f"the request can't be read: {fault}"
    elif (got.returncode, got.stdout) == (FAULT, b"") and PLACE.match(said):
        return True, b""
    print(f"a mutation has status {got.returncode}: {said[:500]}\n{text!r}")
    return False, b""


def mutated_cases(program, has_compiler):
    """Mutations of sources, each with whether it is answered; as the compiler does, if both compile it."""
    chance = random.Random(SEED)
    lines = (DATA / "peers" / "make.jsonl").read_text().splitlines()
    texts = [json.loads(line)["capnp"].encode() for line in lines]
    texts += [path.read_bytes() for path in sorted(SOURCES.glob("**/*.capnp"))] * 9
    with tempfile.TemporaryDirectory() as room:
        folder = pathlib.Path(room)
        for place in range(MUTATIONS):
            text = source_texts.mutated(chance, chance.choice(texts), texts)
            is_right, request = is_answered(program, folder, text)
            if request and has_compiler and place % 8 == 0:
                theirs = run(("capnp", "compile", "-o-", "mutated.capnp"), folder)
                is_right = bool(theirs.returncode) or not differences(request, theirs.stdout)
                if not is_right:
                    print(f"a mutation has other nodes than the compiler's:\n{text!r}")
            yield is_right


def random_cases(program):
    """Random sets of files, each with whether the command compiles the last as the compiler does."""
    for seed in range(RANDOM_SETS):
        with tempfile.TemporaryDirectory() as folder:
            files = source_texts.schema(seed)
            for name, text in files.items():
                (pathlib.Path(folder) / name).write_text(text)
            theirs = run(("capnp", "compile", "-o-", "-I.", name), folder)
            if theirs.returncode and OF_THE_COMPILER in theirs.stderr:
                continue
            if theirs.returncode:
                print(f"random files {seed}: the compiler refuses them: {theirs.stderr.decode()}")
            yield not theirs.returncode and is_compiled(program, folder, name, theirs.stdout, f"random files {seed}", ("-I.",))


def main():
    program = pathlib.Path(sys.argv[1]).resolve() if len(sys.argv) > 1 else PROGRAM
    if not program.exists():
        raise SystemExit(f"{program} is not built")
    has_compiler = shutil.which("capnp") is not None
    results = [*stored_cases(program), *mutated_cases(program, has_compiler)]
    count = len(results)
    if has_compiler:
        results += [*compiled_cases(program), *random_cases(program)]
    stored, compiled = count - MUTATIONS, len(results) - count
    print(f"sources: {stored} that are stored, {MUTATIONS} mutations, {compiled} by the installed compiler, {results.count(False)} wrong")
    return 0 if count and all(results) else 1


if __name__ == "__main__":
    sys.exit(main())
