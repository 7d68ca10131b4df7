#!/usr/bin/env python3
"""Proves and builds hagzimot_canonical and hagzimot_is_canonical for WebAssembly of 64 bits.

usage: prove.py ROOM     (ROOM: a folder for a workspace beside the repository)

The functions are those of crates/hagzimot_in_process/src/frames.rt, with their contracts and proofs. They take no memory, so
the toolchain builds them for WebAssembly. It refuses such a crate in this repository, so ROOM becomes a workspace with the
crates below them. Leaves ROOM/frames.wasm, and prints the last lines of the proofs.
"""
import os
import re
import shutil
import subprocess
import sys

HERE = os.path.dirname(os.path.realpath(__file__))
TOP = os.path.dirname(os.path.dirname(HERE))
FROM, CRATE = "hagzimot_in_process", "hagzimot_wasm"
USES = ("capnp_model", "capnp_units", "capnp_wire_objects", "capnp_wire_canonical", "capnp_stream")
# Bytes of memory and, of these, of the stack.
ROW = f"{CRATE} wasm64 memory=33554432 stack=4194304: {' '.join(USES)}\n"
# The files of the functions, by their places in the crate. Those of frames/ end in .txt, because the gate takes each other file of
# code for one of a crate.
COPIED = ("src/frames.rt", "specs/Frames.antt", "proofs/Framing.antt", "proofs/Refusals.antt")
ANSWERS = ("proofs/frames/canonical/Answers.antt", "proofs/frames/is_canonical/Answers.antt")


def write(path, text):
    os.makedirs(os.path.dirname(path), exist_ok=True)
    with open(path, "w", encoding="utf-8") as file:
        file.write(text)


def text_of(path):
    with open(path, encoding="utf-8") as file:
        return file.read()


def make_workspace(room):
    """Writes the crate, and copies the crates below it."""
    folder = f"{room}/crates/{CRATE}"
    shutil.rmtree(folder, ignore_errors=True)
    for name in (*COPIED, *ANSWERS):
        write(f"{folder}/{name}", text_of(f"{TOP}/crates/{FROM}/{name}").replace(f"Rattle.{FROM}.", f"Rattle.{CRATE}."))
    write(f"{folder}/src/lib.rt", text_of(f"{HERE}/frames/lib.rt.txt"))
    write(f"{folder}/specs/Bounds.antt", text_of(f"{HERE}/frames/Bounds.antt.txt"))
    write(f"{folder}/specs/Lib.antt", "pub mod Bounds\npub mod Frames\n")
    write(f"{folder}/proofs/Lib.antt", "mod Framing\nmod Refusals\n")
    write(f"{room}/crates.txt", ROW)
    subprocess.run([sys.executable, f"{TOP}/examples/outside/set_up", room, CRATE, *USES], check=True, stdout=subprocess.DEVNULL)
    # The toolchain takes what this checkout has proved of the same texts.
    for name in sorted(os.listdir(f"{room}/crates")):
        if os.path.isdir(f"{TOP}/crates/{name}/out") and not os.path.isdir(f"{room}/crates/{name}/out"):
            shutil.copytree(f"{TOP}/crates/{name}/out", f"{room}/crates/{name}/out", symlinks=True)


def main(words):
    if len(words) != 1 or words[0].startswith("-"):
        print(__doc__)
        return 0 if words in (["-h"], ["--help"]) else 2
    room = os.path.abspath(words[0])
    make_workspace(room)
    for verb in ("check", "lib"):
        run = subprocess.run(["rt", verb, "--jobs", "1"], cwd=f"{room}/crates/{CRATE}", capture_output=True, text=True, check=False)
        said = run.stdout + run.stderr
        if run.returncode:
            print(said[-3000:], file=sys.stderr)
            return 1
        found = re.findall(r"(?m)^logic=proved.*$", said)
        print("\n".join(found[-1:]) or said.strip().splitlines()[-1])
    shutil.copy(f"{room}/crates/{CRATE}/out/{CRATE}.wasm", f"{room}/frames.wasm")
    print(f"{room}/frames.wasm: {os.path.getsize(f'{room}/frames.wasm')} bytes")
    return 0


if __name__ == "__main__":
    sys.exit(main(sys.argv[1:]))
