"""Every growth of the program refused in turn, by a shim that stands before the C library's allocator."""
import os
import subprocess

from stored_runs import Failure, Ran, answers, message_ends, of_first, ran, room

FAULT = b"fault: memory\n"
BEFORE, BEHIND = "growths refused before an answer", "growths refused behind one"


def build(folder):
    """Compiles the shim, and answers where it stands."""
    here, shim = os.path.dirname(os.path.abspath(__file__)), os.path.join(folder, "refuse.so")
    words = ["cc", "-O2", "-shared", "-fPIC", "-o", shim, os.path.join(here, "refuse.c")]
    subprocess.run(words, check=True)
    return shim


def refused(program, run, folder, shim, number):
    """The run with that growth refused, and whether there was one of that number."""
    out, told = os.pipe()
    env = {"LD_PRELOAD": shim, "REFUSE_AT": str(number), "REFUSE_TOLD": str(told)}
    it = ran(program, run, folder, run.given, env=env, pass_fds=(told,))
    os.close(told)
    met = os.read(out, 1) == b"r"
    os.close(out)
    return it, met


def as_written(program, run):
    """A plain run, with the output that it has where nothing is refused: how it is cut into segments isn't promised."""
    with room(run) as folder:
        it = ran(program, run, folder, run.given)
    if it._replace(out=b"") != run.wanted:
        raise Failure(f"{run.words} on {run.given.hex()}: {it}, and not {run.wanted}")
    return run._replace(wanted=it)


def renumbered(lines, before):
    """Lines as a run writes them that begins behind so many messages."""
    out = []
    for line in lines:
        word, number, rest = line.split(b" ", 2)
        out.append(b" ".join((word, b"%d" % (int(number) - before), rest)))
    return b"".join(out)


def rest_appends(program, run, folder, answered):
    """Whether a second run, on the messages that weren't answered, appends what is left."""
    out, log = run.wanted.out, run.wanted.log
    frames, lines = answers(run), run.lines()
    start = message_ends(run.given, run.forms()[0])[0][answered - 1]
    first, said = of_first(run, frames, answered)
    second = ran(program, run, folder, run.given[start:])
    fault = log[sum(map(len, lines)) :]
    wanted = Ran(run.wanted.status, out[len(first) :], renumbered(lines[answered:], answered) + fault)
    if second != wanted:
        raise Failure(f"{run.words}, the run behind {said}: {second}, and not {wanted}")


def stands(program, run, folder, it):
    """Looks whether what a run with a refused growth left is whole; answers which of both it left."""
    if it == run.wanted:
        return {"growths refused without a trace": 1}
    lines = it.log.removesuffix(FAULT)
    answered = lines.count(b"\n")
    if it.status != 1 or lines == it.log:
        raise Failure(f"{run.words} on {run.given.hex()}: {it}")
    if (it.out, lines) != of_first(run, answers(run) if it.out else [], answered):
        raise Failure(f"{run.words} on {run.given.hex()}: {it}, and not a beginning of {run.wanted}")
    if not answered:
        return {BEFORE: 1}
    rest_appends(program, run, folder, answered)
    return {BEHIND: 1}


def growths(program, run, shim):
    """One run with each of its growths refused, until there is none of that number."""
    counts = {"runs whose growths were refused": 1, BEFORE: 0, BEHIND: 0}
    with room(run) as folder:
        number = 1
        while True:
            it, met = refused(program, run, folder, shim, number)
            if not met:
                break
            for name, count in stands(program, run, folder, it).items():
                counts[name] = counts.get(name, 0) + count
            number += 1
    if it != run.wanted:
        raise Failure(f"{run.words} with no growth refused: {it}, and not {run.wanted}")
    return {**counts, "growths refused": number - 1}
