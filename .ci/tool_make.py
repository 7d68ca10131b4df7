"""Compares what the built `hagzimot show` prints of random values under random schemas with what the C++ tool `capnp` printed of them.

    python3 .ci/tool_make.py [PROGRAM]

Each line of crates/hagzimot/data/peers/make.jsonl is a case: a schema with generic types, groups, unions, enums, floats and nested scopes, as the compiler's request, the whole name of a root, a canonical message, and the text and the JSON that the C++ tool
made of it. Line by line, crates/hagzimot/data/peers/made.txt has the canonical message, as a frame in hex digits, that `capnp convert json:canonical` makes of that JSON; `-` if the tool fails at its own JSON. `hagzimot make` has to write the same bytes, and of a case at which the tool fails the message of the case. The text of `show` and its JSON are compared with these as .ci/tool_peers.py compares them: by what they mean. A case that differs is shown, and the status is 1. Nothing is written below the repository.
"""
import json
import pathlib
import subprocess
import sys
import tempfile

import tool_peers

CASES = tool_peers.DATA / "make.jsonl"
MADE = tool_peers.DATA / "made.txt"


def printed(program, folder, root, words):
    """What `show` prints of the message in a folder, with its status."""
    command = [program, "show", "--schema", folder / "case.request", "--root", root, *words, folder / "case.framed"]
    run = subprocess.run(command, capture_output=True, timeout=120, check=False)
    return run.stdout, run.stderr, run.returncode


def is_same(program, folder, case, words, wanted, read):
    """Whether a case is printed as the C++ tool prints it; one that isn't is shown."""
    out, said, status = printed(program, folder, case["root"], words)
    theirs = read(wanted.encode() + b"\n")
    try:
        ours = read(out)
    except (ValueError, IndexError) as fault:
        ours = [str(fault)]
    if status == 0 and len(ours) == 1 and tool_peers.are_same(ours, theirs, read is tool_peers.values_in_json):
        return True
    print(f"status {status} {said.decode()}root {case['root']} {' '.join(words)}:\n{out.decode('utf-8', 'backslashreplace')}and not\n{wanted}\n")
    return False


def is_made(program, folder, case, made):
    """Whether `make` writes the message that the C++ tool makes of the JSON; one that differs is shown."""
    command = [program, "make", "--schema", folder / "case.request", "--root", case["root"]]
    run = subprocess.run(command, input=case["told"].encode(), capture_output=True, timeout=120, check=False)
    wanted = bytes.fromhex(case["framed"] if made == "-" else made)
    if run.returncode == 0 and run.stdout == wanted:
        return True
    print(f"make: status {run.returncode} {run.stderr.decode()}root {case['root']}\n{case['told']}\n{run.stdout.hex()}\nand not\n{wanted.hex()}\n")
    return False


def main():
    program = pathlib.Path(sys.argv[1]).resolve() if len(sys.argv) > 1 else tool_peers.PROGRAM
    if not program.exists():
        raise SystemExit(f"{program} is not built")
    cases = [json.loads(line) for line in CASES.read_text().splitlines()]
    made = MADE.read_text().split()
    if len(made) != len(cases):
        raise SystemExit(f"{MADE} has {len(made)} lines for {len(cases)} cases")
    differing = 0
    with tempfile.TemporaryDirectory() as folder:
        folder = pathlib.Path(folder)
        for case, message in zip(cases, made):
            (folder / "case.request").write_bytes(bytes.fromhex(case["request"]))
            (folder / "case.framed").write_bytes(bytes.fromhex(case["framed"]))
            in_text = is_same(program, folder, case, (), case["text"], tool_peers.values_in_text)
            in_json = is_same(program, folder, case, ("--json",), case["told"], tool_peers.values_in_json)
            from_json = is_made(program, folder, case, message)
            differing += not (in_text and in_json and from_json)
    print(f"random schemas: {len(cases)} cases shown and made, {differing} differ")
    return 1 if differing or not cases else 0


if __name__ == "__main__":
    sys.exit(main())
