"""Stores messages of four layouts, and compares their keys with those of `capnp convert binary:canonical`.

usage: run.py

Ends with status 1 where a key differs, or where there are more or fewer records than were made.
"""
import os
import sqlite3
import subprocess
import sys
import tempfile

from layouts import LAYOUTS, RECORDS, message
from store import Keys, store

CONVERT = ["capnp", "convert", "--quiet", "binary:canonical"]


class Compared:
    """Keys that are handed on behind a comparison with the other program's."""

    def __init__(self, keys, theirs):
        self.keys, self.theirs, self.equal, self.distinct = keys, theirs, 0, set()

    def __iter__(self):
        """The keys; each is compared with as many bytes of the other's, which name no lengths."""
        for key in self.keys:
            other = self.theirs.read(len(key))
            self.equal += key == other
            self.distinct.add(other)
            yield key


def seen_least_and_most(database):
    """How often the record that came least often came, and the one that came most often."""
    records = sqlite3.connect(database)
    ends = records.execute("SELECT min(seen), max(seen) FROM records").fetchone()
    records.close()
    return ends


def main():
    """Prints the counts, and returns the status."""
    made = RECORDS * LAYOUTS
    with tempfile.TemporaryDirectory() as folder:
        stream, canonical, database = (os.path.join(folder, it) for it in ("stream", "canonical", "records.db"))
        with open(stream, "wb") as file:
            frames = set(message(turn) for turn in range(made))
            file.writelines(message(turn) for turn in range(made))
        with open(stream, "rb") as file, open(canonical, "wb") as theirs:
            subprocess.run(CONVERT, stdin=file, stdout=theirs, check=True)
        with open(stream, "rb") as file, open(canonical, "rb") as theirs:
            keys = Keys(file)
            compared = Compared(keys, theirs)
            distinct = store(database, compared)
            rest = theirs.read()
        seen = seen_least_and_most(database)
    print(f"{made} messages, {len(frames)} of them spelled in a way of their own")
    print(f"{keys.written} keys, {compared.equal} of them as by capnp convert, {keys.refused} refused")
    print(f"{distinct} records in the store, each seen {seen[0]} to {seen[1]} times")
    print(f"{len(compared.distinct)} records by the keys of capnp convert")
    counts = (keys.written, compared.equal, distinct, len(compared.distinct), seen, rest)
    return int(counts != (made, made, RECORDS, RECORDS, (LAYOUTS, LAYOUTS), b""))


if __name__ == "__main__":
    sys.exit(main())
