#!/usr/bin/env python3
"""Runs cases_devices as it was built, and prints at how many bytes devices failed.

usage: faults_at_each_byte.py PROGRAM FOLDER

FOLDER has the file `args` with the names of the cases, one a line, and `stdout` with what each tells. Ends with status
1 where the program tells something else or fails, and where no device failed.
"""
import os
import re
import subprocess
import sys
import time

from stored_runs import LIMIT

ALL = re.compile(r"in all (\d+) times\n\Z")


def main(program, folder):
    """Prints the count, and returns the status."""
    begun = time.monotonic()
    with open(os.path.join(folder, "args"), encoding="utf-8") as file:
        names = file.read().split("\n")[:-1]
    with open(os.path.join(folder, "stdout"), encoding="utf-8") as file:
        wanted = file.read()
    words = [os.path.abspath(program), *names]
    it = subprocess.run(words, capture_output=True, timeout=LIMIT, check=False)
    told = it.stdout.decode()
    found = ALL.search(told)
    count = int(found[1]) if found else 0
    if (it.returncode, told) != (0, wanted):
        print(f"status {it.returncode}: {told}")
    print(f"bytes: cases {len(names)}, bytes at which devices failed {count}; {time.monotonic() - begun:.0f} seconds")
    return int((it.returncode, told) != (0, wanted) or count == 0)


if __name__ == "__main__":
    if sys.argv[1:] in (["-h"], ["--help"]):
        sys.exit(print(__doc__))
    sys.exit(main(*sys.argv[1:]))
