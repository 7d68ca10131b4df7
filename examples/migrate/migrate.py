"""Edits a folder of files from an older version of a schema to a newer one.

usage: migrate.py FOLDER OLDER NEWER CALLS ROOT

Each file of FOLDER holds one framed message. First the newer schema is compared with the older one; where it
doesn't keep it, no file is touched. Then CALLS, which may name fields of the newer schema, are made in each
file; a file takes the place of the old one as a whole. A file that can't be read stays, and is told.
"""
import os
import subprocess
import sys
import tempfile

HERE = os.path.dirname(os.path.abspath(__file__))
sys.path.insert(0, os.path.dirname(HERE))
from relay_program import frame_end, relay_program  # noqa: E402

# What the name of a file ends with that is being written; one that a stopped run left is written anew.
FRESH = ".new"


def ran(words, given, out):
    """The program's last line on standard error, or nothing; what it writes goes to a file."""
    how = {"stdin": given, "stdout": out, "stderr": subprocess.PIPE}
    log = subprocess.run([relay_program(), *words], check=False, **how).stderr
    return log.decode().rstrip("\n").rsplit("\n", 1)[-1]


def what_breaks(older, newer, root):
    """Why files of the older schema can't be read under the newer; nothing where they can."""
    with tempfile.NamedTemporaryFile("w") as no_calls:
        no_calls.write('{"calls":[]}')
        no_calls.flush()
        words = [older, no_calls.name, root, "framed", newer]
        return ran(words, subprocess.DEVNULL, subprocess.DEVNULL)


def edited(path, newer, calls, root):
    """Makes the calls in a file; answers why it stayed as it was, or nothing."""
    with open(path, "rb") as file:
        message = file.read()
    if frame_end(message, 0) != len(message):
        return "not one message"
    fresh = path + FRESH
    with open(path, "rb") as file, open(fresh, "wb") as out:
        line = ran([newer, calls, root, "framed"], file, out)
        os.fsync(out.fileno())
    if line.startswith("message 1 written") and " refused " not in line:
        os.replace(fresh, path)
        return None
    os.remove(fresh)
    return line


def migrate(folder, older, newer, calls, root):
    """Prints what becomes of each file, and returns the status."""
    breaks = what_breaks(older, newer, root)
    if breaks:
        print(f"no file is touched: {breaks}")
        return 1
    stayed = 0
    for name in sorted(it for it in os.listdir(folder) if not it.endswith(FRESH)):
        why = edited(os.path.join(folder, name), newer, calls, root)
        print(f"{name}: " + (f"stays: {why}" if why else "edited"))
        stayed += why is not None
    return int(stayed > 0)


if __name__ == "__main__":
    sys.exit(migrate(*sys.argv[1:]))
