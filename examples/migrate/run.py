"""Makes a folder of contacts of three versions, migrates it, and shows each file before and after.

usage: run.py

The files are made and shown by `capnp encode` and `capnp decode`. Ends with status 1 where a file doesn't
hold what it should.
"""
import os
import subprocess
import sys
import tempfile
from typing import NamedTuple

from migrate import migrate

HERE = os.path.dirname(os.path.abspath(__file__))


class Contact(NamedTuple):
    """A file's version and record, and the record that the newest and the oldest version then read."""

    version: str
    before: str
    newest: str
    oldest: str


CONTACTS = {
    "ada": Contact(
        "older",
        '(name = "Ada", phone = "020 7946 0018", kind = 3)',
        '(name = "Ada", kind = 3, revision = 2, region = "north", rating = 5)',
        '(name = "Ada", kind = 3)',
    ),
    "bob": Contact(
        "newer",
        '(name = "Bob", phone = "01 58858", kind = 0, revision = 1, region = "south")',
        '(name = "Bob", kind = 0, revision = 2, region = "north", rating = 5)',
        '(name = "Bob", kind = 0)',
    ),
    # Its mail and rating are of a version that the migration doesn't know.
    "eve": Contact(
        "newest",
        '(name = "Eve", kind = 1, revision = 0, mail = "eve@example.org", rating = 9)',
        '(name = "Eve", kind = 1, revision = 2, region = "north", mail = "eve@example.org", rating = 9)',
        '(name = "Eve", kind = 1)',
    ),
}
CUT = "zoe"


def capnp(verb, version, given):
    """What `capnp encode` or `decode` makes of bytes, under a version's schema."""
    flags = ["--short"] if verb == "decode" else []
    words = ["capnp", verb, *flags, os.path.join(HERE, f"{version}.capnp"), "Contact"]
    return subprocess.run(words, input=given, capture_output=True, check=True).stdout


def shown(folder, name, version):
    """The record of a file as text."""
    with open(os.path.join(folder, name), "rb") as file:
        return capnp("decode", version, file.read()).decode().strip()


def make(folder):
    """Writes the files, and one that is cut off."""
    for name, it in CONTACTS.items():
        with open(os.path.join(folder, name), "wb") as file:
            file.write(capnp("encode", it.version, it.before.encode()))
    with open(os.path.join(folder, CUT), "wb") as file:
        file.write(capnp("encode", "older", b'(name = "Zoe")')[:-8])


def contents(folder):
    """The bytes of each file."""
    found = {}
    for name in os.listdir(folder):
        with open(os.path.join(folder, name), "rb") as file:
            found[name] = file.read()
    return found


def is_so(what, found, wanted):
    """Prints what was found, and whether it is what was wanted."""
    print(f"{what}: {found}" + ("" if found == wanted else f", and not {wanted}"))
    return found == wanted


def main():
    """Prints each file before and after, and returns the status."""
    older, newer, broken, calls = (
        os.path.join(HERE, it) for it in ("older.json", "newer.json", "broken.json", "calls.json")
    )
    with tempfile.TemporaryDirectory() as folder:
        make(folder)
        made = contents(folder)
        good = [is_so(f"{name} before", shown(folder, name, it.version), it.before) for name, it in CONTACTS.items()]
        print("to a schema that changes a type:")
        good += [migrate(folder, older, broken, calls, "1") == 1, contents(folder) == made]
        print("to one that adds fields:")
        good += [migrate(folder, older, newer, calls, "1") == 1, contents(folder)[CUT] == made[CUT]]
        for name, it in CONTACTS.items():
            good.append(is_so(f"{name} after", shown(folder, name, "newest"), it.newest))
            good.append(is_so(f"{name} to an older program", shown(folder, name, "older"), it.oldest))
    print(f"{sum(good)} of {len(good)} as they should be")
    return int(not all(good))


if __name__ == "__main__":
    sys.exit(main())
