#!/usr/bin/env python3
"""Runs the built program on the example of docs/manual/pipes.md, on the stored runs, and as a child that is waited for.

usage: program_runs.py PROGRAM EXAMPLES CASES..

EXAMPLES is the folder of these examples. CASES are files of cases, one a line, as the README of cases_relay
tells; those without a "call" are runs of the program: the arguments, the files, the input, and the status, output and
log that are wanted. The program's status, output and log must be those, byte by byte; where a run has "messages", its
output is judged by plain_judge.py. Ends with status 1 where one differs, where a file has no case, and where no file has
a run.
"""
import concurrent.futures
import json
import os
import select
import subprocess
import sys
import tempfile
import time

import plain_judge

# Seconds that one run, or one answer, may take.
LIMIT = 60


def file_bytes(file):
    """The bytes of a file: those that a text spells in hex, or the text of another JSON value."""
    return bytes.fromhex(file) if isinstance(file, str) else json.dumps(file, ensure_ascii=False).encode()


def ran(program, run):
    """The status, the output and the log of a run of the program."""
    with tempfile.TemporaryDirectory() as room:
        for name, file in run["files"].items():
            with open(os.path.join(room, name), "wb") as it:
                it.write(file_bytes(file))
        given = bytes.fromhex(run["stdin"])
        done = subprocess.run([program, *run["args"]], input=given, capture_output=True, cwd=room, timeout=LIMIT)
    return done.returncode, done.stdout, done.stderr


def difference_of_messages(run, out):
    """What is wrong with the output of a run in the plain form, or nothing."""
    form = "".join(run["args"][3:4]).removesuffix("+plain").split("-")[-1]
    return plain_judge.difference(form, out, [bytes.fromhex(it) for it in run["messages"]])


def difference(program, run):
    """What differs between a run of the program and the stored one, or nothing."""
    log = run["log"].encode() if "log" in run else bytes.fromhex(run["stderr"])
    seen = dict(zip(("status", "stdout", "stderr"), ran(program, run)))
    wanted = {"status": run["status"], "stderr": log}
    if "messages" not in run:
        wanted["stdout"] = bytes.fromhex(run["stdout"])
    told = next((f"{it}: {seen[it]}, and not {wanted[it]}" for it in wanted if seen[it] != wanted[it]), None)
    if told or "messages" not in run:
        return told
    return difference_of_messages(run, seen["stdout"])


def cases_in(name):
    """The cases of a file, each with its line."""
    with open(name, encoding="utf-8") as file:
        return [(f"{name}, line {number}", json.loads(line)) for number, line in enumerate(file, 1)]


def differences(program, runs):
    """What is said of the runs that differ; as many run at once as there are processors, and two more."""
    with concurrent.futures.ThreadPoolExecutor((os.cpu_count() or 1) + 2) as pool:
        found = pool.map(lambda run: difference(program, run[1]), runs)
        return [f"{place}: {told}" for (place, _), told in zip(runs, found) if told]


def read_so_many(pipe, count):
    """So many bytes of the pipe, or those that came within the limit."""
    got, end = b"", time.monotonic() + LIMIT
    while len(got) < count and select.select([pipe], [], [], max(0, end - time.monotonic()))[0]:
        piece = os.read(pipe.fileno(), count - len(got))
        if not piece:
            break
        got += piece
    return got


def waits_for_nothing(program, form, message, answer, ahead):
    """Whether each message is answered and logged before the next is sent, but for so many bytes ahead, and the program then ends
    with status 0."""
    schema = [{"id": 1, "name": "P", "data": 1, "pointers": 1, "fields": [{"name": "a", "type": "UInt16", "offset": 0}]}]
    calls = {"calls": [{"path": ["a"], "verb": "set", "value": {"number": 7}}], "words": 1000, "nesting": 64}
    numbers = (1, 2, 3)
    given, sent = message * len(numbers), 0
    with tempfile.TemporaryDirectory() as room:
        for name, value in (("schema.json", schema), ("calls.json", calls)):
            with open(os.path.join(room, name), "w", encoding="ascii") as file:
                json.dump(value, file)
        pipes = {"stdin": subprocess.PIPE, "stdout": subprocess.PIPE, "stderr": subprocess.PIPE}
        child = subprocess.Popen([program, "schema.json", "calls.json", "1", form], cwd=room, bufsize=0, **pipes)
        for number in numbers:
            end = number * len(message) + ahead
            child.stdin.write(given[sent:end])
            sent = end
            line = f"message {number} written; done\n".encode()
            got = (read_so_many(child.stdout, len(answer)), read_so_many(child.stderr, len(line)))
            if got != (answer, line):
                child.kill()
                print(f"message {number}, {form}, through a pipe, {ahead} bytes ahead: {got}, and not {(answer, line)}")
                return False
        rest = child.communicate(timeout=LIMIT)
    if child.returncode != 0 or rest != (b"", b""):
        print(f"the end of a pipe, {form}, {ahead} bytes ahead: status {child.returncode}, {rest}")
        return False
    return True


def waits_for_no_part(program):
    """Whether that holds in both forms, whatever part of the next message is sent ahead."""
    spelled = {
        "framed": ("00000000010000000000000000000000", "000000000200000000000000010000000700000000000000"),
        "packed": ("10010000", "100210010107"),
    }
    for form, texts in spelled.items():
        message, answer = (bytes.fromhex(text) for text in texts)
        if not all(waits_for_nothing(program, form, message, answer, ahead) for ahead in range(len(message))):
            return False
    return True


def answers_the_examples(program, folder):
    """Whether both messages of the examples become the words that docs/manual/pipes.md has, and the newer one also where its schema renames a field."""
    null_root = "0000000002000000" + "0000000001000000" + "0700000000000000"
    newer_record = "0000000003000000" + "0000000002000000" + "0700000000000000" + "6300000000000000"
    written = b"message 1 written; done\n"
    wanted = (
        ("null_root", [], (0, null_root, written)),
        ("newer_record", [], (0, newer_record, written)),
        ("newer_record", ["newer_p.json", "renames.json"], (0, newer_record, written)),
        ("newer_record", ["newer_p.json"], (1, "", b"fault: not compatible\n")),
    )
    for name, words, answer in wanted:
        with open(os.path.join(folder, name), "rb") as message:
            given = [program, "p.json", "set_a.json", "1", "framed", *words]
            ran = subprocess.run(given, stdin=message, capture_output=True, cwd=folder, timeout=LIMIT)
        seen = (ran.returncode, ran.stdout.hex(), ran.stderr)
        if seen != answer:
            print(f"the example {name} {words}: {seen}, and not {answer}")
            return False
    return True


def refuses_words_that_are_no_text(program, folder):
    """Whether a word that isn't UTF-8 is a fault of the words, wherever it stands, and whatever the others are."""
    words = ["p.json", "set_a.json", "1", "framed", "newer_p.json", "renames.json"]
    for place in range(len(words) + 1):
        given = [program, *words[:place], b"a\xff", *words[place + 1 :]]
        ran = subprocess.run(given, stdin=subprocess.DEVNULL, capture_output=True, cwd=folder, timeout=LIMIT)
        seen = (ran.returncode, ran.stdout, ran.stderr)
        if seen != (1, b"", b"fault: arguments\n"):
            print(f"the words {given[1:]}: {seen}")
            return False
    return True


def main(program, folder, *files):
    """Prints how many runs passed, and returns the status."""
    program, passed = os.path.abspath(program), 0
    if plain_judge.main():
        return 1
    if not answers_the_examples(program, folder) or not refuses_words_that_are_no_text(program, folder):
        return 1
    for name in files:
        cases = cases_in(name)
        runs = [(place, case) for place, case in cases if "call" not in case]
        told = differences(program, runs)
        for line in told:
            print(line)
        if told or not cases:
            print(f"{name}: {len(told)} of {len(runs)} runs differ")
            return 1
        passed += len(runs)
    if not passed or not waits_for_no_part(program):
        return 1
    print(f"built program: the examples, words that are no text, {passed} stored runs, three messages through a pipe one by one and with each part of the next, in both forms: as they should be")
    return 0


if __name__ == "__main__":
    if sys.argv[1:] in (["-h"], ["--help"]):
        sys.exit(print(__doc__))
    sys.exit(main(*sys.argv[1:]))
