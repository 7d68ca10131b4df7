"""A store of records in SQLite: the key is the record's canonical bytes, so equal records are one.

usage: store.py DATABASE < STREAM

STREAM is framed messages, whatever their layout. Prints how many came in, were refused, and are now distinct.
"""
import os
import sqlite3
import subprocess
import sys
import tempfile

HERE = os.path.dirname(os.path.abspath(__file__))
sys.path.insert(0, os.path.dirname(HERE))
from relay_program import relay_program  # noqa: E402

WORDS = ("schema.json", "calls.json", "1", "framed")
TABLE = "CREATE TABLE IF NOT EXISTS records (key BLOB PRIMARY KEY, seen INTEGER NOT NULL) WITHOUT ROWID"
ADD = "INSERT INTO records VALUES (?, 1) ON CONFLICT (key) DO UPDATE SET seen = seen + 1"


class Keys:
    """The keys of a stream's messages, in their order, and then what the log says of them."""

    def __init__(self, stream):
        self.stream, self.written, self.refused = stream, 0, 0

    def __iter__(self):
        """Each key as soon as the program hands it on; an error where the run ends by a fault."""
        with tempfile.TemporaryFile() as log:
            words = [relay_program(), *WORDS]
            how = {"stdin": self.stream, "stdout": subprocess.PIPE, "stderr": log, "cwd": HERE}
            with subprocess.Popen(words, **how) as child:
                while head := child.stdout.read(8):
                    # A canonical message has one segment: its words behind a head of eight bytes.
                    yield child.stdout.read(8 * int.from_bytes(head[4:8], "little"))
            log.seek(0)
            for line in log:
                self.written += b" written" in line
                self.refused += b" refused: " in line
        if child.returncode:
            raise RuntimeError(line.decode().strip())


def store(database, keys):
    """Adds the keys, all or none, and answers how many are distinct now."""
    with sqlite3.connect(database) as records:
        records.execute(TABLE)
        records.executemany(ADD, ((key,) for key in keys))
        (distinct,) = records.execute("SELECT count(*) FROM records").fetchone()
    records.close()
    return distinct


def main(database):
    """Stores standard input."""
    keys = Keys(sys.stdin.buffer)
    distinct = store(database, keys)
    print(f"{keys.written} written, {keys.refused} refused, {distinct} distinct")


if __name__ == "__main__":
    main(*sys.argv[1:])
