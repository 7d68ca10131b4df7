"""Standard output and error that are closed, full, or read no further."""
import os
import subprocess

from stored_runs import LIMIT, Failure, answers, room

# Bytes that a reader takes before it leaves, and times that a run's input is sent to it.
TAKEN, SENT = 10, 20_000
FAILING_IN = ("<&-", "</")
FAILING_OUT = (">&-", ">/dev/full")
FAILING_LOG = ("2>&-", "2>/dev/full")


def shell_run(program, run, redirection):
    """A run of the program under a shell that sends output or log elsewhere."""
    words = ["sh", "-c", f'exec "$0" "$@" {redirection}', program, *run.words]
    with room(run) as folder:
        how = {"cwd": folder, "capture_output": True, "timeout": LIMIT}
        return subprocess.run(words, input=run.given, check=False, **how)


def beginnings(frames):
    """Each beginning of the output that ends between two frames."""
    return [b"".join(frames[:count]) for count in range(len(frames) + 1)]


def failing(program, run):
    """A run whose input is closed or a folder, and whose output and log are closed or full: the fault of each."""
    frames, wanted = answers(run), run.wanted
    for redirection in FAILING_IN:
        it = shell_run(program, run, redirection)
        if (it.returncode, it.stdout, it.stderr) != (1, b"", b"fault: source\n"):
            raise Failure(f"{run.words} {redirection}: {it}")
    for redirection in FAILING_OUT:
        it = shell_run(program, run, redirection)
        lines, fault = it.stderr, b""
        if frames:
            lines, fault, _ = it.stderr.partition(b"fault: out\n")
        good = (it.returncode, bool(fault)) == (int(bool(frames)), bool(frames))
        if not good or lines not in beginnings(run.lines()) or not it.stderr.endswith(fault):
            raise Failure(f"{run.words} {redirection}: status {it.returncode}, {it.stderr}")
    for redirection in FAILING_LOG:
        it = shell_run(program, run, redirection)
        if it.returncode != 1 or it.stdout not in beginnings(frames):
            raise Failure(f"{run.words} {redirection}: status {it.returncode}, {it.stdout.hex()}, not {wanted}")
    return {"runs with a device that is closed or full": len(FAILING_IN + FAILING_OUT + FAILING_LOG)}


def leaving(program, run):
    """A reader of the output that leaves: the run ends by the fault, and not by a signal."""
    with room(run) as folder:
        given, log = (os.path.join(folder, name) for name in ("given", "log"))
        with open(given, "wb") as file:
            file.write(run.given * SENT)
        with open(given, "rb") as source, open(log, "wb") as said:
            how = {"stdin": source, "stdout": subprocess.PIPE, "stderr": said, "cwd": folder, "bufsize": 0}
            child = subprocess.Popen([program, *run.words], **how)
            taken = child.stdout.read(TAKEN)
            child.stdout.close()
            child.wait(timeout=LIMIT)
        with open(log, "rb") as file:
            last = file.read()[-100:]
    whole = (run.wanted.out * SENT).startswith(taken) and len(taken) == TAKEN
    if child.returncode != 1 or not last.endswith(b"\nfault: out\n") or not whole:
        raise Failure(f"{run.words} to a reader that leaves: status {child.returncode}, {last}")
    return {"readers that leave": 1}
