#!/usr/bin/env python3
"""The gate that a landing must pass: tests without proof, the proof of every crate, and the programs that were proved.

usage: .ci/run  (or python3 .ci/gate.py)

First comes what is quick, so that a fault shows in minutes: if one of these stages fails, nothing is proved. Then `rt ci`
proves everything from nothing, and the built programs are tried. The summary is a table, out/ci.xml has it as JUnit's XML,
and the last line is 'N passed, N failed'. out/ci.log has what `rt ci` said.
"""
import glob
import os
import subprocess
import sys
import tempfile
import time

TOP = os.path.dirname(os.path.dirname(os.path.realpath(__file__)))
sys.dont_write_bytecode = True
sys.path.insert(0, f"{TOP}/tools")
import stages

EXAMPLE = bytes.fromhex("00000000 03000000 00000000 02000000 0700000000000000 6300000000000000")
PROOF = "the proof of every crate"


def built(crate):
    return f"crates/{crate}/out/{crate}"


def tree_is_clean():
    """HANDLES is what the task gave, and nothing that rt makes is tracked."""
    with open(f"{TOP}/HANDLES", encoding="utf-8") as file:
        if file.read() != "Handles allowed: none.\n":
            raise stages.Wrong("HANDLES: it isn't the one line 'Handles allowed: none.'")
    tracked = subprocess.run(["git", "ls-files"], cwd=TOP, capture_output=True, text=True, check=True).stdout.split("\n")
    below = [it for it in tracked if "/out/" in f"/{it}"]
    if below:
        raise stages.Wrong(f"{below[0]}: a file below out/ is tracked (git rm --cached it)")
    return f"{len(tracked)} files are tracked"


def shown(*words, log=None):
    """A stage that is a command whose output is printed as it comes, and kept in a file if one is named."""

    def run():
        kept = []
        with subprocess.Popen(words, cwd=TOP, stdin=subprocess.DEVNULL, stdout=subprocess.PIPE, stderr=subprocess.STDOUT, text=True, errors="replace") as child:
            for line in child.stdout:
                print(line, end="", flush=True)
                kept.append(line)
        if log:
            os.makedirs(f"{TOP}/out", exist_ok=True)
            with open(f"{TOP}/{log}", "w", encoding="utf-8") as file:
                file.writelines(kept)
        if child.returncode:
            raise stages.Wrong(f"{kept[-1].strip() if kept else ''}\nstatus {child.returncode}: its output stands above")
        return "".join(kept)

    return run


def relays_the_example():
    """The relay program, unproved, writes the example's message as docs/manual/pipes.md has it."""
    data = ["--data", "p.json=../../examples/p.json", "--data", "set_a.json=../../examples/set_a.json"]
    with open(f"{TOP}/examples/newer_record", "rb") as message:
        words = ["rt", "try", *data, "--", "p.json", "set_a.json", "1", "framed"]
        run = subprocess.run(words, cwd=f"{TOP}/crates/capnp_relay_cli", stdin=message, capture_output=True, check=False)
    if run.stdout != EXAMPLE:
        raise stages.Wrong(f"the example's message is '{run.stdout.hex(' ')}', and not '{EXAMPLE.hex(' ')}'\n{run.stderr.decode(errors='replace')}")
    return "32 bytes are as documented"


def works_outside():
    """A workspace beside the repository, set up as the guide says, builds and runs."""
    with tempfile.TemporaryDirectory() as room:
        how = {"stdin": subprocess.DEVNULL, "capture_output": True, "text": True, "check": False}
        made = subprocess.run([f"{TOP}/examples/outside/set_up", room, "hello"], **how)
        said = made if made.returncode else subprocess.run(["rt", "try"], cwd=f"{room}/crates/hello", **how)
    if said.stdout != "64 levels of pointers\n":
        raise stages.Wrong(f"the program of a workspace outside says '{said.stdout.strip()}'\n{said.stderr}")
    return said.stdout


def proves():
    """`rt ci`, with what each crate costs. It passes over wrong bodies that don't compile, which say nothing of a contract."""
    said = shown(sys.executable, ".ci/costs", log="out/ci.log")()
    untried = [it for it in said.splitlines() if "BAD EDIT" in it or "NOT TRIED" in it]
    if untried:
        raise stages.Wrong(f"a wrong body wasn't tried: {untried[0]}")
    counts = [it for it in said.splitlines() if it.endswith(" 0 failed")]
    return counts[-1] if counts else said


def script(name, *words):
    return stages.command(sys.executable, f".ci/{name}", *words, cwd=TOP)


def stages_after_proof():
    """What is tried with the programs that were proved and built."""
    relay, command = built("capnp_relay_cli"), built("hagzimot")
    cases = [f"crates/cases_relay/data/{it}" for it in sorted(os.listdir(f"{TOP}/crates/cases_relay/data")) if it.endswith(".jsonl")]
    yield "stored runs", script("program_runs.py", relay, "examples", *cases)
    yield "random messages", script("random_sets.py", relay)
    yield "random builder calls", script("random_builders.py", built("cases_builders"))
    yield "random and damaged messages", script("random_messages.py", built("cases_segments"), built("cases_builders"))
    yield "devices, inputs, sizes and growths", script("faults.py", relay, *(f"crates/cases_relay/data/{it}.jsonl" for it in ("relay", "renames", "plain")))
    # Each script .ci/tool_*.py tries the command, and takes its path.
    for path in sorted(glob.glob(f"{TOP}/.ci/tool_*.py")):
        yield f"the command: {os.path.basename(path)}", script(os.path.basename(path), command)
    yield "long messages and files", script("long_inputs.py", relay, command)
    yield "damaged requests", script("requests_damaged.py", command)
    yield "faults of files", script("faults_of_files.py", command)
    yield "devices that fail at each byte", script("faults_at_each_byte.py", built("cases_devices"), "crates/cases_devices")
    yield "the library for C", script("c_library.py")
    yield "growths refused in each builder call", script("faults_of_builders.py", built("cases_builders"), "crates/cases_builders/data/growths.txt")
    yield "growths refused in each dynamic call", script("faults_of_dynamic.py", built("cases_dynamic"), "crates/cases_dynamic/data/growths.txt")
    yield "growths refused in each call", script("faults_at_each_growth.py", built("cases_growths"), "crates/cases_growths")


def all_stages():
    first = [
        stages.Stage("the tree", tree_is_clean),
        stages.Stage("layout, links and lists", script("quick.py")),
        stages.Stage("the example of the relay program", relays_the_example),
        stages.Stage("a workspace outside", works_outside),
        stages.Stage("the judges", script("test_judges.py")),
        stages.Stage("the scripts of the front door", stages.command(sys.executable, "tools/tests/test_scripts.py", cwd=TOP)),
        stages.Stage("the reference of the library", stages.command(sys.executable, "tools/tests/test_reference.py", cwd=TOP)),
    ]
    proof = stages.Stage(PROOF, proves, tuple(it.name for it in first))
    return [*first, proof, *(stages.Stage(name, run, (PROOF,)) for name, run in stages_after_proof())]


def main(words):
    if words:
        print(__doc__)
        return 0 if words in (["-h"], ["--help"]) else 2
    os.chdir(TOP)
    began = time.monotonic()
    status = stages.sum_up(stages.Runner(all_stages(), 1).run(), "ci", f"{TOP}/out/ci.xml")
    print(f"{(time.monotonic() - began) / 60:.0f} minutes on {os.cpu_count()} processors", file=sys.stderr)
    return status


if __name__ == "__main__":
    sys.exit(main(sys.argv[1:]))
