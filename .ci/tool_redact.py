"""Tries the built `hagzimot redact` on the random messages of .ci/tool_make.py and on messages with fields that a schema doesn't know.

    python3 .ci/tool_redact.py [PROGRAM]

- Without a path, a message of fields that the schema knows goes out in its canonical form, byte for byte.
- With a path to each field of the root in turn, the JSON of what goes out is the C++ tool's JSON of the message without that field: a pointer is left out, or is empty if it is an active member, and another field has its default. All other fields stay.
- Messages under a newer schema that differ only in fields that the older lacks, or in fields that are cleared, go out as the same bytes, and these have none of the texts.
- `[*]` reaches each element of lists.

A case that differs is shown, and the status is 1. Nothing is written below the repository.
"""
import json
import pathlib
import subprocess
import sys
import tempfile

import tool_make

DATA = tool_make.CASES.parent.parent
OPAQUE = "<opaque pointer>"


def run(program, *words, given=b""):
    """The output of a run that has to end well."""
    ended = subprocess.run([program, *map(str, words)], input=given, capture_output=True, timeout=120, check=False)
    if ended.returncode not in (0, 3):
        raise SystemExit(f"hagzimot {' '.join(map(str, words))}: status {ended.returncode}\n{ended.stderr.decode()}")
    return ended.stdout


def holds(value, wanted):
    """Whether a JSON value has a text anywhere."""
    if isinstance(value, dict):
        return any(holds(it, wanted) for it in value.values())
    if isinstance(value, list):
        return any(holds(it, wanted) for it in value)
    return value == wanted


def is_blank(value):
    """Whether a value is what a cleared field reads as, if its default is zero bits or a null pointer."""
    if isinstance(value, dict):
        return all(is_blank(it) for it in value.values())
    return value in (None, 0, False, "", "0", [], 0.0) or value == "<opaque pointer>"


def faults_of_case(program, folder, case):
    """What is wrong with the redactions of a case."""
    request, framed = folder / "case.request", folder / "case.framed"
    request.write_bytes(bytes.fromhex(case["request"]))
    framed.write_bytes(bytes.fromhex(case["framed"]))
    told = json.loads(case["told"])
    if holds(told, OPAQUE):
        return []
    words = ("--schema", request, "--root", case["root"])
    whole = run(program, "redact", *words, framed)
    faults = [] if whole == framed.read_bytes() else ["without a path, other bytes"]
    blank = json.loads(run(program, "show", "--json", *words, given=bytes(4) + bytes([1, 0, 0, 0]) + bytes(8)))
    for name in told:
        cleared = run(program, "redact", *words, "--clear", name, framed)
        shown = json.loads(run(program, "show", "--json", *words, given=cleared))
        others = {key: value for key, value in told.items() if key != name}
        if {key: value for key, value in shown.items() if key != name} != others:
            faults.append(f"--clear {name}: other fields changed")
        if name in shown and shown[name] != blank.get(name) and not is_blank(shown[name]):
            faults.append(f"--clear {name}: {shown[name]} is left")
    return faults


def order(secret, note):
    """The JSON of an order, with a customer's name and a note."""
    lines = [{"count": 2, "article": "pen"}, {"count": 1, "article": "ink"}]
    return json.dumps({"number": 7, "total": "5", "customer": {"name": secret, "email": "a@b"}, "lines": lines, "note": note}).encode()


def unknown_faults(program):
    """What is wrong with the redactions of fields that a schema doesn't know."""
    newer = ("--schema", DATA / "shop_next.json", "--root", "Order")
    older = ("--schema", DATA / "shop.json", "--root", "Order")
    made = [run(program, "make", *newer, given=order(secret, note)) for secret, note in (("SECRETONE", "NOTEONE"), ("SECRETTWO", "NOTETWO"), ("", ""))]
    out = [run(program, "redact", *older, "--clear", "customer.name", given=it) for it in made[:2]]
    faults = [] if out[0] == out[1] else ["messages that differ in what is cleared or unknown differ after it"]
    if any(word in out[0] for word in (b"SECRET", b"NOTE")) or not all(word in out[0] for word in (b"a@b", b"pen", b"ink")):
        faults.append("a text that is cleared is left, or another is gone")
    if run(program, "redact", *older, given=made[0]) == run(program, "redact", *newer, given=made[0]):
        faults.append("the newer schema's field is dropped under it")
    each = run(program, "redact", *older, "--clear", "lines[*].article", given=made[0])
    shown = json.loads(run(program, "show", "--json", *older, given=each))
    if shown["lines"] != [{"count": 2}, {"count": 1}]:
        faults.append(f"lines[*].article leaves {shown['lines']}")
    return faults


def main():
    program = pathlib.Path(sys.argv[1]).resolve() if len(sys.argv) > 1 else tool_make.tool_peers.PROGRAM
    if not program.exists():
        raise SystemExit(f"{program} is not built")
    # Every third: each field of a message is a run of its own.
    cases = [json.loads(line) for line in tool_make.CASES.read_text().splitlines()][::3]
    faults = unknown_faults(program)
    with tempfile.TemporaryDirectory() as folder:
        for number, case in enumerate(cases):
            faults += [f"case {number}: {it}" for it in faults_of_case(program, pathlib.Path(folder), case)]
    print("\n".join(faults + [f"redactions: {len(cases)} messages, {len(faults)} differ"]))
    return 1 if faults or not cases else 0


if __name__ == "__main__":
    sys.exit(main())
