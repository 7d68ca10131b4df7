#!/usr/bin/env python3
"""Runs the built program in a world that goes wrong, and prints what was tried, and how often.

usage: faults.py PROGRAM RUNS [RENAMED PLAIN] [PART]

RUNS, RENAMED and PLAIN are files of stored runs, with what independent software makes of them. Those between schemas whose
names differ, and those with plain output, have only their growths refused. The parts are devices, inputs, sizes and growths. Ends with status 1 at the first difference, and where something was tried no time at all.
"""
import collections
import concurrent.futures
import functools
import os
import sys
import tempfile
import time

from faults_of_devices import SENT, failing, leaving
from faults_of_memory import as_written, build, growths
from faults_of_inputs import abandoned, cuts, large, limits, many, nested, printed, trickle
from stored_runs import Failure, stored_runs

# Every so manieth run is cut, and has its growths refused, one of many messages more often. A pipe holds fewer bytes.
# So many runs of each further file have their growths refused.
CUT_EACH, REFUSED_EACH, MANY_EACH, PIPE, FURTHER = 2, 10, 3, 1 << 17, 5


def devices(program, runs, _others, _folder):
    """Runs of messages whose output or log fails; some that write more than a pipe holds."""
    good = [it for it in runs if it.wanted.status == 0 and it.lines()]
    long = [it for it in good if len(it.wanted.out) * SENT > PIPE]
    return [functools.partial(failing, program, it) for it in good] + [
        functools.partial(leaving, program, it) for it in long[:: len(long) // 8]
    ]


def inputs(program, runs, _others, _folder):
    """All runs byte by byte, and some that are cut at every byte."""
    good = [it for it in runs if it.wanted.status == 0 and it.given]
    trickling = [functools.partial(trickle, program, it) for it in runs]
    return trickling + [functools.partial(cuts, program, it) for it in good[::CUT_EACH]]


def sizes(program, _runs, _others, _folder):
    """What is large, and what is many."""
    return [functools.partial(part, program, None) for part in (large, many, limits, nested, printed, abandoned)]


def refusals(program, runs, others, folder):
    """Some runs of each file, with each growth refused in turn."""
    shim, long = build(folder), [it for it in runs if len(it.lines()) > 1]
    some = runs[::REFUSED_EACH] + long[::MANY_EACH]
    for file in others:
        good = [it for it in file if it.wanted.status == 0 and len(it.lines()) > 1]
        chosen = good[:: max(1, len(good) // FURTHER)]
        some += [as_written(program, it) if it.words[3].endswith("+plain") else it for it in chosen]
    return [functools.partial(growths, program, it, shim) for it in some]


PARTS = {"sizes": sizes, "devices": devices, "inputs": inputs, "growths": refusals}


def main(program, *words):
    """Prints each part's counts, and returns the status."""
    runs, *others = [list(stored_runs(it)) for it in words if it.endswith(".jsonl")]
    program, failed = os.path.abspath(program), False
    for name in [it for it in words if it in PARTS] or PARTS:
        begun, counts = time.monotonic(), collections.Counter()
        with tempfile.TemporaryDirectory() as folder:
            tasks = PARTS[name](program, runs, others, folder)
            with concurrent.futures.ThreadPoolExecutor(os.cpu_count()) as pool:
                try:
                    for it in pool.map(lambda task: task(), tasks):
                        counts.update(it)
                except Failure as failure:
                    pool.shutdown(cancel_futures=True)
                    print(f"{name}: {failure}")
                    failed = True
        told = ", ".join(f"{what} {count}" for what, count in counts.items())
        print(f"{name}: {told or 'nothing was tried'}; {time.monotonic() - begun:.0f} seconds", flush=True)
        failed |= not counts or 0 in counts.values()
    return int(failed)


if __name__ == "__main__":
    if sys.argv[1:] in (["-h"], ["--help"]):
        sys.exit(print(__doc__))
    sys.exit(main(*sys.argv[1:]))
