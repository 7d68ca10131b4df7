"""Opens each page of the manual in a terminal, scrolls to its end and searches in it; also asks groff and lexgrog.

usage: tools/tests/test_manual.py PROGRAM

The pages are made from docs/manual and the program's own help. A page has to begin with its name, to end with the version, to
have a line of an index, and to be set without a warning and within the terminal's width. Without man, less or tmux the status
is 77.
"""
import os
import shutil
import subprocess
import sys
import tempfile

TOP = os.path.dirname(os.path.dirname(os.path.dirname(os.path.realpath(__file__))))
sys.dont_write_bytecode = True
sys.path.insert(0, f"{TOP}/tools")
import command_help
import man_pages
from test_completions import tmux, waits

CANT_RUN = 77
COLUMNS, LINES = 80, 24
NEEDED = ("man", "less", "tmux", "groff")


def set_page(path, columns):
    """The text of a page as a terminal of n columns has it, and the warnings."""
    environment = {**os.environ, "MANWIDTH": str(columns), "MAN_KEEP_FORMATTING": "", "LANG": "C.UTF-8"}
    run = subprocess.run(["man", "--warnings", "-l", path], stdin=subprocess.DEVNULL, capture_output=True, text=True, env=environment, check=False)
    return run.stdout, run.stderr.strip()


def faults_of_text(folder, name):
    """Faults of a page's text: warnings, long lines, no line of an index."""
    name, section = name.rsplit(".", 1)
    path = f"{folder}/man{section}/{name}.{section}"
    for columns in (COLUMNS, 132):
        text, warnings = set_page(path, columns)
        if warnings:
            yield f"{name}: {warnings}"
        wide = [it for it in text.splitlines() if len(it) > columns]
        if wide:
            yield f"{name}: a line is wider than {columns} columns: {wide[0]}"
    if shutil.which("lexgrog"):
        run = subprocess.run(["lexgrog", path], capture_output=True, text=True, check=False)
        if run.returncode or f'"{name} - ' not in run.stdout:
            yield f"{name}: it has no line of an index: {run.stdout.strip()} {run.stderr.strip()}"


def faults_of_page(folder, name, version, socket):
    """Faults of a page in a terminal: no head, no end, a search that finds nothing."""
    name, section = name.rsplit(".", 1)
    tmux(socket, "new-session", "-d", "-s", "t", "-x", str(COLUMNS), "-y", str(LINES), f"env LESS= MANPAGER=less PAGER=less LANG=C.UTF-8 TERM=screen man -M {folder} {name}")
    head = f"{name.upper()}({section})"
    try:
        for keys, what, wanted in (
            ((), "begins with its name", lambda it: it.startswith(head) and it.endswith(head)),
            (("G",), "ends with the version", lambda it: it.startswith(f"Hagzimot {version}") and it.endswith(head)),
            (("g", "/", "SEE ALSO", "Enter"), "is searched", lambda it: it == "SEE ALSO"),
        ):
            if keys:
                tmux(socket, "send-keys", "-t", "t", *keys)
            shown = waits(socket, wanted)
            if shown is not None:
                yield f"{name}: no line of the terminal shows that the page {what}:\n{shown}"
                return
        tmux(socket, "send-keys", "-t", "t", "q")
    finally:
        tmux(socket, "kill-session", "-t", "t")


def main(program):
    lacking = [it for it in NEEDED if shutil.which(it) is None]
    if lacking:
        print(f"not installed: {', '.join(lacking)}")
        return CANT_RUN
    with tempfile.TemporaryDirectory() as room:
        made = man_pages.pages(os.path.abspath(program))
        for name, text in made.items():
            os.makedirs(f"{room}/man{name[-1]}", exist_ok=True)
            with open(f"{room}/man{name[-1]}/{name}", "w", encoding="utf-8") as file:
                file.write(text)
        names = sorted(made)
        version = command_help.version_of(program)
        faults = [it for name in names for it in (*faults_of_text(room, name), *faults_of_page(room, name, version, f"{room}/tmux"))]
    print("\n".join(faults), end="\n" if faults else "")
    print(f"manual: {len(names)} pages in a terminal of {COLUMNS} columns, {len(faults)} faults")
    return 1 if faults else 0


if __name__ == "__main__":
    sys.exit(main(sys.argv[1]) if len(sys.argv) == 2 else __doc__)
