#!/usr/bin/env python3
"""Makes the library for C, and tries it from C, C++ and Python.

usage: c_library.py [--unproved] [--rate]     (at the top of the repository, after the proofs)

The library is made of the proved crate hagzimot_c, which is linked first, or without proof. Then:
- C calls each function with good arguments and bad ones, with sanitizers and under valgrind if they are there;
- messages with changed bytes lie at the end of memory that can be read, and so do their outputs;
- each allocation of each call is refused in turn;
- four threads with a handle each have the results of one thread;
- C++ and Python call each function, and the example of Python runs;
- Python relays the stored runs and random messages, and compares the stored pairs of schemas;
- the crates of Rust, the module of Go, the wheel of Python, the examples of the pages and the benchmark are
  tried (c_bindings.py).
What the machine lacks, as go or cargo, is left out, and a line says so. With --rate, four threads must have 3.5 times the
rate of one, which needs a quiet machine. Ends with status 1 if one fails.
"""
import glob
import os
import shutil
import subprocess
import sys
import tempfile

TOP = os.path.dirname(os.path.dirname(os.path.realpath(__file__)))
sys.dont_write_bytecode = True
sys.path.insert(0, f"{TOP}/tools")
import c_bindings
import c_library
import unproved

CRATE = "hagzimot_c"
C_WORDS = ("-std=c99", "-pedantic", "-Wall", "-Wextra", "-Werror", "-g", "-O1")
SANITIZERS = ("-fsanitize=address,undefined", "-fno-sanitize-recover=all")
PAGES, FEW_PAGES = "3000", "300"
# Messages of each thread, and how many times the rate of one thread four have on a quiet machine.
MESSAGES, RATE = "100000", "3.5"
# Allocations of a run that are refused in turn; a run has fewer.
MOST_REFUSALS = 5000
# Seconds that a command may take; the link proves the crate.
LIMIT, LINK_LIMIT = 600, 7200


class Wrong(Exception):
    """What is wrong."""


def run(*words, limit=LIMIT, **how):
    """Runs a command, and returns what it writes."""
    try:
        done = subprocess.run(words, capture_output=True, text=True, errors="replace", timeout=limit, check=False, **how)
    except (OSError, subprocess.TimeoutExpired) as error:
        raise Wrong(f"{words[0]}: {error}") from error
    if done.returncode:
        raise Wrong(f"{' '.join(words)}: status {done.returncode}\n{done.stdout[-3000:]}\n{done.stderr[-3000:]}")
    return done.stdout.strip()


def compiles(room, *flags):
    """Whether the compiler makes programs with these flags that run."""
    with open(f"{room}/try.c", "w", encoding="ascii") as file:
        file.write("int main(void) { return 0; }\n")
    words = ("cc", *flags, f"{room}/try.c", "-o", f"{room}/try")
    return all(not subprocess.run(it, capture_output=True, check=False).returncode for it in (words, (f"{room}/try",)))


def calls(room, out):
    """Tries the functions from C."""
    source, library = f"{TOP}/.ci/c_calls.c", f"{out}/libhagzimot.a"
    run("cc", *C_WORDS, f"-I{out}", source, library, "-o", f"{room}/calls")
    run(f"{room}/calls", "calls")
    print(run(f"{room}/calls", "pages", PAGES))
    if shutil.which("valgrind"):
        words = ("valgrind", "-q", "--leak-check=full", "--error-exitcode=9", f"{room}/calls")
        run(*words, "calls")
        run(*words, "pages", FEW_PAGES)
        print("valgrind finds nothing")
    else:
        print("valgrind isn't there, and isn't tried")
    if compiles(room, *SANITIZERS):
        run("cc", *C_WORDS, *SANITIZERS, f"-I{out}", source, library, "-o", f"{room}/sanitized")
        run(f"{room}/sanitized", "calls")
        run(f"{room}/sanitized", "pages", FEW_PAGES)
        print("the sanitizers find nothing")
    else:
        print("the compiler has no sanitizers, and they aren't tried")


def threads(room, out, is_quiet):
    """Compares four threads with one."""
    run("cc", *C_WORDS, "-pthread", f"-I{out}", f"{TOP}/.ci/c_threads.c", f"{out}/libhagzimot.a", "-o", f"{room}/threads")
    print(run(f"{room}/threads", MESSAGES, *[RATE] * is_quiet))


def refusals(room):
    """Refuses each allocation of the calls in turn, until none is left to refuse."""
    run("cc", "-shared", "-fPIC", "-O1", f"{TOP}/.ci/refuse.c", "-o", f"{room}/refuse.so")
    for at in range(1, MOST_REFUSALS):
        told, tell = os.pipe()
        env = {**os.environ, "LD_PRELOAD": f"{room}/refuse.so", "REFUSE_MARKED": "1", "REFUSE_AT": str(at), "REFUSE_TOLD": str(tell)}
        try:
            run(f"{room}/calls", "growths", env=env, pass_fds=(tell,))
        except Wrong as wrong:
            raise Wrong(f"allocation {at} is refused: {wrong}") from wrong
        finally:
            os.close(tell)
            was_refused = os.read(told, 1)
            os.close(told)
        if not was_refused:
            print(f"{at - 1} allocations are refused in turn")
            return
    raise Wrong(f"{MOST_REFUSALS} refusals don't suffice")


def others(room, out):
    """Tries C++ and Python."""
    if not shutil.which("c++"):
        raise Wrong("c++: it isn't on the PATH (install a C++ compiler)")
    words = ("c++", "-std=c++17", "-Wall", "-Wextra", "-Werror", "-O1", f"-I{out}", f"{TOP}/.ci/c_calls.cpp", f"{out}/libhagzimot.a")
    run(*words, "-o", f"{room}/cpp")
    run(f"{room}/cpp")
    print("C++ is as it must be")
    env = {**os.environ, "HAGZIMOT_LIBRARY": f"{out}/libhagzimot.so.1"}
    edited = run(sys.executable, f"{TOP}/bindings/python/edit.py", env=env)
    if not edited.endswith('(a = 9, t = "hi")'):
        raise Wrong(f"the example of Python writes\n{edited}")
    print(run(sys.executable, f"{TOP}/.ci/c_python.py", out))
    cases = sorted(glob.glob(f"{TOP}/crates/cases_relay/data/*.jsonl"))
    print(run(sys.executable, f"{TOP}/.ci/c_runs.py", out, *cases))
    print(run(sys.executable, f"{TOP}/.ci/c_random.py", out))


def main(words):
    if not {*words} <= {"--unproved", "--rate"}:
        print(__doc__)
        return 2
    is_proved = "--unproved" not in words
    try:
        if is_proved:
            print(run(sys.executable, f"{TOP}/tools/check.py", "link", CRATE, limit=LINK_LIMIT).splitlines()[-1])
        with tempfile.TemporaryDirectory(prefix="c-library-") as room:
            c_library.make(f"{room}/out", is_proved, lambda _text: None)
            calls(room, f"{room}/out")
            threads(room, f"{room}/out", "--rate" in words)
            refusals(room)
            others(room, f"{room}/out")
            for line in c_bindings.tried(room, f"{room}/out"):
                print(line, flush=True)
    except (Wrong, c_bindings.Wrong, unproved.Failed) as wrong:
        print(wrong)
        return 1
    return 0


if __name__ == "__main__":
    sys.exit(main(sys.argv[1:]))
