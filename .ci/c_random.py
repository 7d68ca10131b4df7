#!/usr/bin/env python3
"""Relays random messages by the library for C, from Python, and compares what it writes with canonical words that are spelled
apart from the product, as random_sets.py does for the program.

usage: c_random.py FOLDER

FOLDER has hagzimot.py and libhagzimot.so.1. Each relay has one to four random calls. Its messages are answered in one call, and
some of them alone. What is written must be canonical too. Ends with status 1 if a message differs.
"""
import json
import sys

from random_sets import SCHEMA, Made, framed, with_set

SEED, RELAYS, MESSAGES, ALONE = 2, 2500, 40, 3


def tried(library, made):
    """The paths of a relay's calls if it writes other messages, or nothing; and how many calls there are."""
    calls = [made.call() for _ in range(made.by.choice([1, 1, 2, 3, 4]))]
    given, wanted = [], []
    for _ in range(MESSAGES):
        value = made.root()
        given.append(framed(value))
        for _, path, new in calls:
            value = with_set(value, path, new)
        wanted.append(framed(value))
    with library.Relay(json.dumps(SCHEMA).encode(), "1", [it for it, _, _ in calls]) as relay:
        is_equal = relay.relay(b"".join(given)).out == b"".join(wanted)
        is_equal = is_equal and all(relay.relay(it).out == its for it, its in zip(given[:ALONE], wanted))
    is_equal = is_equal and all(library.is_canonical(it) and library.canonical(it) == it for it in wanted[:ALONE])
    return None if is_equal else [path for _, path, _ in calls], len(calls)


def main(folder):
    sys.path.insert(0, folder)
    import hagzimot

    made, count, wrong = Made(SEED), 0, 0
    for _ in range(RELAYS):
        paths, calls = tried(hagzimot, made)
        count += calls
        if paths:
            wrong += 1
            print(f"what is written differs after sets at {paths}")
    print(f"{RELAYS * MESSAGES} random messages, {count} calls in {RELAYS} relays, {wrong} relays with other words")
    return 1 if wrong else 0


if __name__ == "__main__":
    sys.dont_write_bytecode = True
    sys.exit(main(sys.argv[1]) if len(sys.argv) == 2 else __doc__)
