"""Tries the built `hagzimot diff` on random messages of which one field is changed.

    python3 .ci/tool_diff.py [PROGRAM]

The messages are those of .ci/tool_make.py, with the JSON that the C++ tool printed. In turn each number or flag of a message's root is changed in the JSON, and `hagzimot make` makes the other message. `diff` has to name this field alone, with both values, and end with status 1. Compared with itself a message has no difference. A case that differs is shown, and the status is 1. Nothing is written below the repository.
"""
import json
import pathlib
import subprocess
import sys
import tempfile

import tool_make


def changed(value):
    """Another value of the same field, or None for a field that is left as it is."""
    if isinstance(value, bool):
        return not value
    if isinstance(value, int):
        return value - 1 if value > 0 else value + 1
    return None


def diff(program, words, left, right):
    """The status and the lines of a comparison."""
    run = subprocess.run([program, "diff", *words, left, right], capture_output=True, timeout=120, check=False)
    return run.returncode, run.stdout.decode().splitlines()


def values_of(line, name):
    """Both values that a line gives for a field; a float is equal to the whole number."""
    front = f"message 1: {name}: "
    if not line.startswith(front):
        return None
    return tuple(json.loads(it) for it in line.removeprefix(front).split(" -> "))


def faults_of_case(program, folder, case):
    """What is wrong with the comparisons of a case, and how many there were."""
    left, right, request = folder / "left", folder / "right", folder / "request"
    request.write_bytes(bytes.fromhex(case["request"]))
    words = ("--schema", request, "--root", case["root"])
    told = json.loads(case["told"])
    make = [program, "make", *words]
    subprocess.run([*make, "-o", left], input=json.dumps(told).encode(), check=True)
    faults, count = [], 1
    if diff(program, words, left, left) != (0, []):
        faults.append("a message differs from itself")
    for name, value in told.items():
        other = changed(value)
        if other is None:
            continue
        count += 1
        subprocess.run([*make, "-o", right], input=json.dumps({**told, name: other}).encode(), check=True)
        status, lines = diff(program, words, left, right)
        if status != 1 or len(lines) != 1 or values_of(lines[0], name) != (value, other):
            faults.append(f"{name}: status {status}, {lines} and not {value} -> {other}")
    return faults, count


def main():
    program = pathlib.Path(sys.argv[1]).resolve() if len(sys.argv) > 1 else tool_make.tool_peers.PROGRAM
    if not program.exists():
        raise SystemExit(f"{program} is not built")
    cases = [json.loads(line) for line in tool_make.CASES.read_text().splitlines()][::3]
    faults, count = [], 0
    with tempfile.TemporaryDirectory() as folder:
        for number, case in enumerate(cases):
            some, more = faults_of_case(program, pathlib.Path(folder), case)
            faults += [f"case {number}: {it}" for it in some]
            count += more
    print("\n".join(faults + [f"differences: {count} comparisons, {len(faults)} differ"]))
    return 1 if faults or not cases else 0


if __name__ == "__main__":
    sys.exit(main())
