"""Follows docs/manual/first-steps.md in an empty folder: writes its files, runs its commands, and compares what they print.

usage: tools/tests/test_first_steps.py PROGRAM

A block ```capnp or ```text is a file, whose name is the last `code` before the block. A line '$ COMMAND' of a block
```console is run, with what it prints after it, standard output first, and '[status N]' if the status isn't 0. If the
tool capnp is installed, it has to read the messages that were written.
"""
import os
import re
import shutil
import subprocess
import sys
import tempfile

TOP = os.path.dirname(os.path.dirname(os.path.dirname(os.path.realpath(__file__))))
PAGE = f"{TOP}/docs/manual/first-steps.md"
# The messages that the page's last commands write, as the tool capnp decodes them by a schema of the page.
DECODED = (
    ("edited.bin", "weather.capnp", '(name = "Oslo", height = 94, readings = [(hour = 6, celsius = -3.5, sky = clear), (hour = 12, celsius = 1.25, sky = clear)])\n(name = "Lima", height = 161.5, readings = [(hour = 6, celsius = 17, sky = rain)])\n'),
    ("vostok.bin", "newer.capnp", '(name = "Vostok", height = 0, readings = [(hour = 6, celsius = -30, sky = snow, wind = 12)], owner = "NPI")\n'),
    ("public.bin", "newer.capnp", "(height = 0, readings = [(hour = 6, celsius = -30, sky = snow, wind = 0)])\n"),
)
BLOCK = re.compile(r"(?ms)^```(\w+)\n(.*?)^```$")


def steps(text):
    """The files and commands of the page in order: (name, text), or (command, lines)."""
    for block in BLOCK.finditer(text):
        kind, body = block.groups()
        if kind in ("capnp", "text"):
            yield "file", re.findall(r"`([\w.]+)`", text[:block.start()])[-1], body
        elif kind == "console":
            for part in re.split(r"(?m)^\$ ", body)[1:]:
                command, _, printed = part.partition("\n")
                yield "command", command, printed


def printed_by(command, folder, program):
    """The output of a command, as the page has it."""
    script = f'hagzimot() {{ "{program}" "$@"; }}\n{command}'
    run = subprocess.run(["bash", "-c", script], cwd=folder, stdin=subprocess.DEVNULL, capture_output=True, text=True, timeout=120, check=False)
    return run.stdout + run.stderr + (f"[status {run.returncode}]\n" if run.returncode else "")


def is_decoded(folder, name, schema, text):
    """Whether the tool capnp reads a file of messages as a text; a file that it doesn't is shown."""
    with open(f"{folder}/{name}", "rb") as file:
        run = subprocess.run(["capnp", "decode", "--short", schema, "Station"], cwd=folder, stdin=file, capture_output=True, text=True, timeout=120, check=False)
    if run.stdout != text or run.returncode:
        print(f"capnp decode {name}\n--- wanted\n{text}--- it printed\n{run.stdout}{run.stderr}")
    return run.stdout == text and not run.returncode


def main(program):
    with open(PAGE, encoding="utf-8") as file:
        found = list(steps(file.read()))
    wrong = count = 0
    with tempfile.TemporaryDirectory() as folder:
        for kind, name, text in found:
            if kind == "file":
                with open(f"{folder}/{name}", "w", encoding="utf-8") as file:
                    file.write(text)
                continue
            if name.split()[0] != "hagzimot" or re.search(r"[;&|]", name):
                raise SystemExit(f"the page runs another command: {name}")
            count += 1
            printed = printed_by(name, folder, os.path.abspath(program))
            if printed != text:
                wrong += 1
                print(f"$ {name}\n--- the page has\n{text}--- it printed\n{printed}")
        if shutil.which("capnp"):
            wrong += sum(not is_decoded(folder, *case) for case in DECODED)
    print(f"first steps: {count} commands, {wrong} faults")
    return 1 if wrong or not count else 0


if __name__ == "__main__":
    sys.exit(main(sys.argv[1]) if len(sys.argv) == 2 else __doc__)
