#!/usr/bin/env python3
"""Runs the library for C, from Python, on the stored runs of the relay and on the stored pairs of schemas.

usage: c_runs.py FOLDER CASES..

FOLDER has hagzimot.py and libhagzimot.so.1. CASES are the files of cases_relay, as the README there says. A run without a
newer schema is relayed in one call, and message by message if its input is framed; what is written and logged must be what
the run's file says. If a run is refused there, the library refuses to open it. Each pair of schemas of a run with a newer
schema is compared: the answer is no exactly if the run ends as `not compatible`. Ends with status 1 if one differs.
"""
import json
import os
import sys

import plain_judge
from program_runs import cases_in, file_bytes

FORMS = {"framed": 0, "packed": 3, "packed-framed": 1, "framed-packed": 2}
PLAIN = 4
# The faults of a run that the library refuses when it opens the relay.
OPENING = ("schema", "root", "calls", "call ", "options")


def log_of(run):
    """The log of a stored run, without the line of its fault, and what the fault is."""
    log = run["log"].encode() if "log" in run else bytes.fromhex(run["stderr"])
    before, mark, fault = log.rpartition(b"fault: ")
    return (before, fault.decode().strip()) if mark and run["status"] else (log, "")


def flags_of(form):
    """The flags of a form, or `None` if there is no such form."""
    name, plus, rest = form.partition("+")
    if name not in FORMS or (plus and rest != "plain"):
        return None
    return FORMS[name] + PLAIN * bool(plus)


def frames_of(data):
    """The framed messages that stand in data, one by one."""
    while data:
        count = int.from_bytes(data[:4], "little") + 1
        words = sum(int.from_bytes(data[4 * it : 4 * it + 4], "little") for it in range(1, count + 1))
        size = 8 * ((count + 2) // 2 + words)
        yield data[:size]
        data = data[size:]


def differs(run, out, log):
    """What differs between a stored run and what was written and logged, or nothing."""
    wanted = log_of(run)[0]
    if log != wanted:
        return f"the log is {log}, and not {wanted}"
    if "messages" in run:
        form = run["args"][3].removesuffix("+plain").split("-")[-1]
        return plain_judge.difference(form, out, [bytes.fromhex(it) for it in run["messages"]])
    wanted = bytes.fromhex(run["stdout"])
    return None if out == wanted else f"the output is {out.hex(' ')}, and not {wanted.hex(' ')}"


def relayed(library, relay, data):
    """What a relay writes and logs of data, and the text of the fault that ended it."""
    try:
        answers = relay.relay(data)
    except library.Error as error:
        return error.answers.out, error.answers.log.encode(errors="surrogateescape"), error.status
    return answers.out, answers.log.encode(errors="surrogateescape"), 0


def one_by_one(relay, run):
    """What differs if each message of a run is relayed alone, or nothing."""
    lines, out = [], b""
    for number, message in enumerate(frames_of(bytes.fromhex(run["stdin"])), 1):
        answers = relay.relay(message)
        out += answers.out
        lines.append(answers.log.replace("message 1 ", f"message {number} ", 1))
    return differs(run, out, "".join(lines).encode(errors="surrogateescape"))


def tried(library, run):
    """What differs in a run, or nothing; and whether it was run."""
    names, flags, fault = run["args"], flags_of(run["args"][3]), log_of(run)[1]
    if flags is None or fault.startswith("arguments"):
        return None, False
    try:
        relay = library.Relay(file_bytes(run["files"][names[0]]), names[2], file_bytes(run["files"][names[1]]), flags)
    except library.Error as error:
        return (None if fault.startswith(OPENING) else f"it is refused: {error}"), True
    with relay:
        if fault.startswith(OPENING):
            return f"it is not refused, and {fault}", True
        out, log, status = relayed(library, relay, bytes.fromhex(run["stdin"]))
        told = differs(run, out, log)
        if told is None and bool(status) != bool(fault):
            told = f"it ends with status {status}, and {fault or 'no fault'}"
        if told is None and not fault and not flags & 1:
            told = one_by_one(relay, run)
        return told, True


def compared(library, run):
    """What differs in the comparison of a run's two schemas, or nothing; and whether they were compared."""
    names, fault = run["args"], log_of(run)[1]
    if flags_of(names[3]) is None or fault.startswith(("arguments", "renames", *OPENING)):
        return None, False
    renames = file_bytes(run["files"][names[5]]) if len(names) > 5 else b""
    older, newer = (file_bytes(run["files"][it]) for it in (names[0], names[4]))
    why = library.first_break(older, newer, names[2], renames)
    if (why is not None) != fault.startswith("not compatible"):
        return f"the break is {why}, and the fault {fault or 'none'}", True
    return None, True


def main(folder, *files):
    sys.path.insert(0, folder)
    import hagzimot

    counts = {"run": 0, "compared": 0}
    wrong = []
    for file in files:
        for place, case in cases_in(file):
            if "call" in case or not 4 <= len(case["args"]) <= 6 or any(it not in case["files"] for it in case["args"][:2] + case["args"][4:]):
                continue
            word, what = ("run", tried) if len(case["args"]) == 4 else ("compared", compared)
            told, done = what(hagzimot, case)
            counts[word] += done
            wrong += [f"{place}: {told}"] if told else []
    print("\n".join(wrong[:20]))
    print(f"{counts['run']} runs, {counts['compared']} pairs of schemas, {len(wrong)} differ")
    return 1 if wrong or not all(counts.values()) else 0


if __name__ == "__main__":
    sys.dont_write_bytecode = True
    sys.exit(main(*sys.argv[1:]))
