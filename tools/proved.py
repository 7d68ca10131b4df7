"""Proves and builds the programs that are installed, several crates side by side, and says how far it is."""
import json
import os
import re
import shutil
import subprocess
import sys
import time

import unproved

TOP = unproved.TOP
# The script that proves crates. It says `NAME: proved` when it has proved one, whose log is then in out/build.log.
CHECK = "tools/check.py"
LOG = "out/build.log"
# The assumed cost of a crate without a stored cost, in seconds of processor time.
USUAL_COST = 120
# The memory that a check takes at most, with some room.
BYTES_FOR_A_CHECK = 5_000_000_000
LINES_OF_A_FAULT = 20


def costs():
    """Seconds of processor time that each crate's proof took before."""
    with open(f"{TOP}/packaging/costs.json", encoding="utf-8") as file:
        return json.load(file)["seconds"]


def order(programs, listed):
    """The crates to prove, each once and after those that it uses."""
    return list(dict.fromkeys(it for name in programs for it in [*unproved.crates_below(name, listed), name]))


def minutes(seconds):
    return f"{seconds / 60:.0f} minutes" if seconds >= 90 else f"{seconds:.0f} seconds"


def expected(left, done, took, stored):
    """The seconds that the crates that are left are thought to take: by their costs, and by how fast the others went."""
    cost = lambda names: sum(stored.get(it, USUAL_COST) for it in names)
    return cost(left) * (took / cost(done) if done else 1)


def at_once():
    """How many crates are proved side by side: one for each processor, if the machine has the memory."""
    memory = os.sysconf("SC_PAGE_SIZE") * os.sysconf("SC_PHYS_PAGES")
    return max(1, min(len(os.sched_getaffinity(0)), memory // BYTES_FOR_A_CHECK))


def last_line(crate):
    """The last line of a crate's check, or None if no log has it."""
    try:
        with open(f"{TOP}/crates/{crate}/{LOG}", encoding="utf-8", errors="replace") as file:
            found = [it.strip() for it in file if it.startswith("logic=")]
    except OSError:
        return None
    return found[-1] if found else None


def end_of_log(crate):
    try:
        with open(f"{TOP}/crates/{crate}/{LOG}", encoding="utf-8", errors="replace") as file:
            return "".join(file.readlines()[-LINES_OF_A_FAULT:])
    except OSError:
        return ""


def told_by(words, see):
    """Runs a script, hands on each line that it prints, and returns its status."""
    how = {"stdin": subprocess.DEVNULL, "stdout": subprocess.PIPE, "stderr": subprocess.STDOUT, "text": True, "errors": "replace"}
    with subprocess.Popen([sys.executable, *words], cwd=TOP, **how) as child:
        for line in child.stdout:
            see(line.rstrip())
    return child.returncode


def prove(verb, names, jobs, see):
    """Proves crates, and calls `see` with the name of each when it is proved."""
    lines = []

    def look(line):
        lines.append(line)
        found = re.fullmatch(r"(\w+): (proved|NOT PROVED).*", line)
        if found and found[2] == "proved":
            see(found[1])

    if told_by([CHECK, verb, "-j", str(jobs), *names], look):
        bad = [it.partition(":")[0] for it in lines if ": NOT PROVED" in it]
        if bad:
            raise unproved.Failed(f"{bad[0]}: it isn't proved\n{end_of_log(bad[0])}")
        raise unproved.Failed(f"{names[-1]}: it isn't proved\n" + "\n".join(lines[-LINES_OF_A_FAULT:]))


def build(programs, folder, note=print):
    """Proves and builds programs and leaves them in a folder; returns the last line of each crate's check."""
    stored = costs()
    names, jobs = order(programs, unproved.crates_listed()), at_once()
    hours = minutes(expected(names, [], 0, stored) / jobs)
    note(f"proving {len(names)} crates, {jobs} side by side: about {hours} if nothing is kept from an earlier run")
    began, done = time.monotonic(), []

    def see(crate):
        done.append(crate)
        took = time.monotonic() - began
        left = [it for it in names if it not in done]
        note(f"{crate} is proved, {len(done)} of {len(names)}; {minutes(took)} so far, about {minutes(expected(left, done, took, stored))} to go")

    prove("build", [it for it in names if it not in programs], jobs, see)
    # Libraries that an earlier run proved were passed over.
    done[:] = [it for it in names if it not in programs]
    for crate in programs:
        prove("program", [crate], jobs, see)
        shutil.copy(f"{TOP}/crates/{crate}/out/{crate}", f"{folder}/{crate}")
    note(f"{len(names)} crates are proved, in {minutes(time.monotonic() - began)}")
    return {it: last_line(it) for it in names}
