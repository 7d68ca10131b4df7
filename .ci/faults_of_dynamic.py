#!/usr/bin/env python3
"""Refuses each growth of calls of dynamic builders and readers in turn, by scripts of cases_dynamic, and prints how many were tried.

usage: faults_of_dynamic.py PROGRAM SCRIPTS

Each script of SCRIPTS has one call, perhaps a `get` after it, and the tree at the end. With each growth of the program refused
in turn the script without the `get` is right, or the program lacks memory elsewhere, or else the call was refused by OutOfMemory:
then the tree is as it was, or one that a line `* may leave FRAME` before the script has, and the same call made again gives the
answer and the tree of the script. A call whose name says that it takes no memory is never refused. Ends with status 1 at a
difference, where a call met no refusal, and where nothing was tried.
"""
import collections
import concurrent.futures
import functools
import os
import subprocess
import sys
import tempfile
import time

from faults_of_memory import build
from stored_runs import LIMIT, Failure

RIGHT, DIFFERS, ELSEWHERE = "right", "differs", "elsewhere"
SAID = {
    "script: 1 cases are as they should be, 0 differ": RIGHT,
    "script: 0 cases are as they should be, 1 differ": DIFFERS,
    "script: 0 cases are as they should be, 0 differ": ELSEWHERE,
    "script: out of memory": ELSEWHERE,
    "script: no case": ELSEWHERE,
    "": ELSEWHERE,
}
WITHOUT, MAY_LEAVE, REFUSED = ": takes no memory", "* may leave ", "= eOutOfMemory"
# A call that changes nothing, with its answer, for builders at the root of each id, and for readers: with it all scripts of a
# case take as many lines of memory.
FIRST = {"N 1": ("where .text", "= 'text 3"), "N 5": ("where .numbers", "= 'list 2"), "R 1": ("has .text", "= 'true")}
# All files have as many bytes, so that reading them takes as much memory.
SIZE = 10_000


class Case:
    """A script: the schema and the head, the call with its answer, the tree at the end, and those that a refusal may leave."""

    def __init__(self, schema, remarks, lines):
        self.name, self.is_free = remarks[0][2:].removesuffix(WITHOUT), remarks[0].endswith(WITHOUT)
        head, call, answer, *_, end = lines
        sort, _, root, words = head.split()
        old = f". 00000000{(len(words) // 16).to_bytes(4, 'little').hex()}{words}" if sort == "N" else "."
        front = (schema, head, *FIRST[f"{sort} {root}"])
        self.schema, self.made = schema, [*front, call, answer, end]
        self.left = [[*front, call, REFUSED, it] for it in (old, *(f". {it.removeprefix(MAY_LEAVE)}" for it in remarks[1:]))]
        self.again = [*front, call, REFUSED, call, answer, end]


def cases_of(path):
    """The scripts of a file."""
    with open(path, encoding="utf-8") as file:
        schema, *rest = file.read().split("\n")[:-1]
    remarks, lines = [], []
    for line in rest:
        if line.startswith("* "):
            remarks.append(line)
            continue
        lines.append(line)
        if line == "." or line.startswith(". "):
            yield Case(schema, remarks, lines)
            remarks, lines = [], []


def said_of(program, shim, lines, number):
    """Whether a growth of that number was refused, and what the program says of a script."""
    text = "\n".join(lines) + "\n* "
    out, told = os.pipe()
    env = {"LD_PRELOAD": shim, "REFUSE_AT": str(number), "REFUSE_TOLD": str(told)}
    with tempfile.TemporaryDirectory() as folder:
        with open(os.path.join(folder, "script"), "w", encoding="utf-8") as file:
            file.write(text.ljust(SIZE, ".") + "\n")
        how = {"env": env, "pass_fds": (told,), "capture_output": True, "text": True, "timeout": LIMIT}
        run = subprocess.run([program, "script"], cwd=folder, check=False, **how)
    os.close(told)
    met = os.read(out, 1) == b"r"
    os.close(out)
    said = SAID.get(run.stdout.partition("\n")[0])
    if said is None or (run.returncode == 0) != (said is RIGHT) or (said is ELSEWHERE and not met and len(lines) > 1):
        raise Failure(f"growth {number}: status {run.returncode}, {run.stdout!r} {run.stderr!r}")
    return met, said


def before_scripts(program, shim, schema):
    """How many growths the program has before it comes to a script."""
    most = 1
    while said_of(program, shim, [schema], most)[0]:
        most *= 2
    least = most // 2
    while most - least > 1:
        middle = (least + most) // 2
        least, most = (middle, most) if said_of(program, shim, [schema], middle)[0] else (least, middle)
    return least


def growths(program, shim, case, number):
    """One script with each growth behind a number refused."""
    counts = collections.Counter({"calls": 1})
    while True:
        number += 1
        met, said = said_of(program, shim, case.made, number)
        if not met:
            break
        counts["growths refused in a call" if said is DIFFERS else "growths refused elsewhere"] += 1
        if said is not DIFFERS:
            continue
        if not any(said_of(program, shim, it, number)[1] is RIGHT for it in case.left):
            raise Failure(f"{case.name}: growth {number} refused leaves something else, or another answer")
        if said_of(program, shim, case.again, number)[1] is not RIGHT:
            raise Failure(f"{case.name}: growth {number} refused, and the call made again isn't as it should be")
    is_refused = counts["growths refused in a call"] > 0
    if said is not RIGHT or is_refused == case.is_free:
        raise Failure(f"{case.name}: {'a' if is_refused else 'no'} growth of it was refused")
    counts["calls without memory"] += case.is_free
    return counts


def main(program, path):
    """Prints the counts, and returns the status."""
    begun, counts, failed, program = time.monotonic(), collections.Counter(), False, os.path.abspath(program)
    cases = list(cases_of(path))
    with tempfile.TemporaryDirectory() as folder, concurrent.futures.ThreadPoolExecutor(os.cpu_count()) as pool:
        shim = build(folder)
        first = before_scripts(program, shim, cases[0].schema)
        for task in [pool.submit(functools.partial(growths, program, shim, it, first)) for it in cases]:
            try:
                counts += task.result()
            except Failure as failure:
                print(failure)
                failed = True
    text = ", ".join(f"{what} {count}" for what, count in counts.items())
    print(f"dynamic calls: {text or 'nothing was tried'}; {time.monotonic() - begun:.0f} seconds")
    return int(failed or not counts["growths refused in a call"] or not counts["calls without memory"])


if __name__ == "__main__":
    if sys.argv[1:] in (["-h"], ["--help"]):
        sys.exit(print(__doc__))
    sys.exit(main(*sys.argv[1:]))
