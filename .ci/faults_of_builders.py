#!/usr/bin/env python3
"""Refuses each growth of builder calls in turn, by scripts of cases_builders, and prints how many were tried.

usage: faults_of_builders.py PROGRAM SCRIPTS

Each script of SCRIPTS has one call. It is run with a growth refused, and expects that the call is refused by OutOfMemory, that
the message begins as it was and has only zeros behind, that the same call is then made, and that the message ends as the script
says. Where the growth belongs to another part of the program, the script has to differ there. A remark `# may leave FRAME` before
a script has a tree that a refused call may leave. A call whose remark says that it takes no memory is never refused.
Ends with status 1 at a difference, where a call met no refusal, and where nothing was tried.
"""
import collections
import concurrent.futures
import functools
import os
import re
import subprocess
import sys
import tempfile
import time

from faults_of_memory import build
from stored_runs import LIMIT, Failure

DIFFERS = re.compile(r"line (\d+) of script differs: (.*)")
RIGHT, NO_MEMORY = "1 scripts of script are as they should be\n", ("", "out of memory\n")
MEMORY, REFUSED, SHAPE = "Err(Memory)", "Err(Refused(OutOfMemory))", "Err(Shape)"
NULL, WITHOUT, MAY_LEAVE = "00000000010000000000000000000000", ": takes no memory", "may leave "


class Case:
    """A script: its name, the lines before its call, the call, its answer, and the lines after it; and what may be left."""

    def __init__(self, remarks, lines):
        self.name, self.is_free = remarks[0].removesuffix(WITHOUT), remarks[0].endswith(WITHOUT)
        self.at = next(i for i, it in enumerate(lines) if it.startswith("2 0 "))
        self.lines, old = lines, next(it for it in lines if it.startswith("6 0 "))
        self.states = [f"13{old[1:]}", *(f"1 {it.removeprefix(MAY_LEAVE)} {NULL}" for it in remarks[1:])]

    def refused(self, state):
        """The script whose call is refused first, and leaves a state."""
        call, answer = self.lines[self.at : self.at + 2]
        return [*self.lines[: self.at], call, "= em", state, call, answer, *self.lines[self.at + 2 :]]


def cases_of(path):
    """The scripts of a file."""
    remarks, lines = [], []
    with open(path, encoding="utf-8") as file:
        for line in [*file.read().split("\n")[:-1], "# end"]:
            if not line.startswith("# "):
                lines.append(line)
                continue
            if lines:
                yield Case(remarks, lines)
                remarks, lines = [], []
            remarks.append(line[2:])


def said_of(program, shim, lines, number):
    """Whether a growth of that number was refused; and the line that differs, with its answer; none if all is right."""
    out, told = os.pipe()
    env = {"LD_PRELOAD": shim, "REFUSE_AT": str(number), "REFUSE_TOLD": str(told)}
    with tempfile.TemporaryDirectory() as folder:
        with open(os.path.join(folder, "script"), "w", encoding="utf-8") as file:
            file.write("\n".join(lines) + "\n")
        how = {"env": env, "pass_fds": (told,), "capture_output": True, "text": True, "timeout": LIMIT}
        run = subprocess.run([program, "script"], cwd=folder, check=False, **how)
    os.close(told)
    met = os.read(out, 1) == b"r"
    os.close(out)
    found = DIFFERS.findall(run.stdout)
    if run.returncode == 0 and run.stdout == RIGHT:
        return met, None
    if run.returncode == 1 and len(found) == 1:
        return met, (int(found[0][0]) - 1, found[0][1])
    if run.returncode == 1 and met and run.stdout in NO_MEMORY:
        return met, (0, MEMORY)
    raise Failure(f"growth {number}: status {run.returncode}, {run.stdout!r} {run.stderr!r}")


def is_elsewhere(case, said):
    """Whether a script differs before its call is refused: because of memory, or because the call was made."""
    line, answer = said
    answered = case.at + 1
    return answer == MEMORY and line <= answered or answer == REFUSED and line < answered or answer.startswith("Ok(") and line == answered


def growths(program, shim, case):
    """One script with each growth of the program refused."""
    counts, number = collections.Counter({"calls": 1}), 1
    while True:
        met, said = said_of(program, shim, case.refused(case.states[0]), number)
        states = iter(case.states[1:])
        while said == (case.at + 3, SHAPE):
            state = next(states, None)
            if state is None:
                raise Failure(f"{case.name}: growth {number} refused leaves something else")
            met, said = said_of(program, shim, case.refused(state), number)
        if said is not None and not is_elsewhere(case, said):
            raise Failure(f"{case.name}: growth {number} refused: {said[1]} at line {said[0] + 1} of {case.refused(case.states[0])}")
        if not met:
            break
        counts["growths refused in a call" if said is None else "growths refused elsewhere"] += 1
        number += 1
    is_refused = counts["growths refused in a call"] > 0
    if is_refused == case.is_free or said is None:
        raise Failure(f"{case.name}: {'a' if is_refused else 'no'} growth of it was refused")
    if case.is_free:
        counts["calls without memory"] += 1
    return counts


def main(program, path):
    """Prints the counts, and returns the status."""
    begun, counts, failed, program = time.monotonic(), collections.Counter(), False, os.path.abspath(program)
    with tempfile.TemporaryDirectory() as folder, concurrent.futures.ThreadPoolExecutor(os.cpu_count()) as pool:
        tasks = [functools.partial(growths, program, build(folder), it) for it in cases_of(path)]
        for task in [pool.submit(it) for it in tasks]:
            try:
                counts += task.result()
            except Failure as failure:
                print(failure)
                failed = True
    text = ", ".join(f"{what} {count}" for what, count in counts.items())
    print(f"builder calls: {text or 'nothing was tried'}; {time.monotonic() - begun:.0f} seconds")
    return int(failed or not counts["growths refused in a call"] or not counts["calls without memory"])


if __name__ == "__main__":
    if sys.argv[1:] in (["-h"], ["--help"]):
        sys.exit(print(__doc__))
    sys.exit(main(*sys.argv[1:]))
