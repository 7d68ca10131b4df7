"""Writes hagzimot.proof.json, which says what was proved of a build, and with which tools."""
import hashlib
import json
import os
import re
import subprocess

import unproved

TOP = unproved.TOP
NAME = "hagzimot.proof.json"
UNPROVED = "Built without proof: nothing is promised of this build. ./install without --unproved proves what it installs."
PROVED = (
    "Each function of these crates was proved to be safe, to end and to meet its contract. The proofs rest on the logic and "
    "the axioms that are named here, on the statements of the toolchain's libraries, on its compilers and on the system."
)


def version():
    """The version, from the one place that has it."""
    with open(f"{TOP}/crates/hagzimot/src/proof_statement.rt", encoding="utf-8") as file:
        found = re.search(r'pub static VERSION: &str = "(\d+\.\d+\.\d+)";', file.read())
    if not found:
        raise unproved.Failed("crates/hagzimot/src/proof_statement.rt: it has no line 'pub static VERSION: &str = \"N.N.N\";'")
    return found[1]


def commit():
    """The commit that is built, with `-dirty` if files have changed since; None outside a clone."""
    words = ["git", "-c", "core.abbrev=40", "describe", "--always", "--dirty", "--exclude=*"]
    run = subprocess.run(words, cwd=TOP, capture_output=True, text=True, check=False)
    return run.stdout.strip() or None


def words_of(line):
    """The words KEY=VALUE of the last line of a check."""
    return dict(it.partition("=")[::2] for it in line.split())


def sum_of(path):
    with open(path, "rb") as file:
        return hashlib.sha256(file.read()).hexdigest()


def statement(programs, lines):
    """The statement on built programs; `lines` has the last line of each crate's check, and is None if nothing was proved."""
    with open(f"{TOP}/HANDLES", encoding="utf-8") as file:
        handles = file.read().strip().removeprefix("Handles allowed: ").removesuffix(".")
    kit, _, logic = unproved.toolchain_id().partition(" logic ")
    said = {"version": version(), "commit": commit(), "proved": lines is not None, "note": UNPROVED if lines is None else PROVED}
    said["toolchain"], said["logic"] = kit, logic
    if lines is not None:
        own = words_of(lines.get("hagzimot") or "")
        said["axioms"] = int(own["axioms"]) if own.get("axioms", "").isdigit() else None
        said["handles"] = handles
        said["crates"] = [{"name": name, "line": line} for name, line in lines.items()]
    said["programs"] = {os.path.basename(it): {"sha256": sum_of(it)} for it in programs}
    return said


def write(folder, programs, lines):
    with open(f"{folder}/{NAME}", "w", encoding="utf-8") as file:
        json.dump(statement(programs, lines), file, indent=2)
        file.write("\n")
