#!/usr/bin/env python3
"""Counts the instructions that the library for C takes for a message, by valgrind, on the streams of a folder.

usage: count.py BUILT FOLDER     (BUILT: what tools/c_library.py makes; FOLDER: what examples/measure/corpora.py makes)

Prints a table: instructions a message, if each call has one message, if it has a hundred, and those of a canonical form. They
are the difference between runs of two rounds and of one, so the start isn't counted. Counts don't depend on other programs.
"""
import os
import re
import subprocess
import sys
import tempfile

HERE = os.path.dirname(os.path.realpath(__file__))
# The root of each stream, and how many of its messages are counted.
STREAMS = {"small": ("Small", 1000), "nested": ("Order", 300), "large": ("Large", 2), "far": ("Order", 300)}
# Messages of a call; none is a canonical form.
BATCHES = (1, 100, 0)


def counted(words):
    """The instructions of a run."""
    tool = ("valgrind", "--tool=callgrind", "--callgrind-out-file=/dev/null")
    run = subprocess.run([*tool, *words], capture_output=True, text=True, check=False)
    found = re.search(r"Collected : (\d+)", run.stderr)
    if run.returncode or not found:
        sys.exit(f"{words}: status {run.returncode}\n{run.stderr[-500:]}")
    return int(found[1])


def main(built, folder):
    with tempfile.TemporaryDirectory() as room:
        program = f"{room}/count"
        subprocess.run(["cc", "-std=c99", "-O2", f"-I{built}", f"{HERE}/count.c", f"{built}/libhagzimot.a", "-o", program], check=True)
        print("| stream | one message a call | 100 messages a call | canonical form |\n|---|---|---|---|")
        for name, (root, messages) in STREAMS.items():
            cells = []
            for batch in BATCHES:
                words = [program, f"{folder}/bench.json", root, f"{folder}/{name}.framed", str(messages), str(batch)]
                cells.append((counted([*words, "2"]) - counted([*words, "1"])) // messages)
            print(f"| {name} | " + " | ".join(f"{it:,}" for it in cells) + " |", flush=True)


if __name__ == "__main__":
    if len(sys.argv) != 3:
        sys.exit(__doc__)
    main(*sys.argv[1:])
