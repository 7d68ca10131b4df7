#!/usr/bin/env python3
"""Has the command print the schema of damaged requests of the compiler: with each byte flipped in turn, and cut at each word.

usage: requests_damaged.py PROGRAM [EACH]

PROGRAM is hagzimot. The requests are those of crates/hagzimot/data/requests. EACH is how many bytes and words each flip and
each cut is apart from the next; 1 if it is left out. A request is read, and its nodes are printed as JSON, or it is refused in
a line that tells why, which is never a lack of memory. A request that is cut is always refused. Ends with status 1 if not.
"""
import collections
import concurrent.futures
import json
import os
import subprocess
import sys

TOP = os.path.dirname(os.path.dirname(os.path.realpath(__file__)))
DATA = f"{TOP}/crates/hagzimot/data/requests"
NAMES, LIMIT, REFUSED = ("rich", "rows", "stream"), 60, 4


def outcome(program, request):
    """Whether a request was read or refused, or else what the command did."""
    run = subprocess.run([program, "schema", "-"], input=request, capture_output=True, timeout=LIMIT, check=False)
    if run.returncode == 0:
        try:
            return "read" if isinstance(json.loads(run.stdout), list) else "it printed no nodes"
        except ValueError:
            return "it printed no JSON"
    lines = run.stderr.splitlines()
    if run.returncode != REFUSED or run.stdout or not lines or not lines[0].startswith(b"hagzimot: ") or b"memory" in run.stderr:
        return f"status {run.returncode}: {run.stdout[:100]} {run.stderr[:200]}"
    return "refused"


def flipped(request, at):
    """A request with the bits of a byte turned over."""
    return request[:at] + bytes([request[at] ^ 0xFF]) + request[at + 1 :]


def main(program, each="1"):
    """Prints the counts, and returns the status."""
    program, each, counts, wrong = os.path.abspath(program), int(each), collections.Counter(), []

    def tried(case):
        name, what, at, request = case
        return name, what, at, outcome(program, request)

    with concurrent.futures.ThreadPoolExecutor(os.cpu_count()) as pool:
        for name in NAMES:
            with open(f"{DATA}/{name}.request", "rb") as file:
                request = file.read()
            cases = [(name, "flipped", at, flipped(request, at)) for at in range(0, len(request), each)]
            cases += [(name, "cut", at, request[:at]) for at in range(0, len(request), 8 * each)]
            for name, what, at, said in pool.map(tried, cases):
                counts[what, said] += 1
                if said not in ("read", "refused") or (what, said) == ("cut", "read"):
                    wrong.append(f"{name}.request {what} at byte {at}: {said}")
    print("\n".join(wrong[:20]))
    told = ", ".join(f"{what} and {said} {counts[what, said]}" for what, said in (("flipped", "read"), ("flipped", "refused"), ("cut", "refused")))
    print(f"damaged requests: {told}; {len(wrong)} wrong")
    return int(bool(wrong) or not counts["flipped", "read"] or not counts["flipped", "refused"] or not counts["cut", "refused"])


if __name__ == "__main__":
    if sys.argv[1:] in (["-h"], ["--help"]):
        sys.exit(print(__doc__))
    sys.exit(main(*sys.argv[1:]))
