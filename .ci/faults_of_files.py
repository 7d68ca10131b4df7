"""Fails each call of the command to the system in turn, and looks at what is left of its files.

    python3 .ci/faults_of_files.py [PROGRAM]

Each run below writes files beside others. It is done once without a fault, and then once for each of its calls to the system and each way in which that call can fail: with an error, or with the program killed before or after
it. After each run a name that was to be written holds its old bytes or its new ones, whole, with its old mode. All else in the folder is what it was, but for a draft where the program was killed. A run that ends with status 0
has written all. `.ci/fault.c` makes the calls fail; it is built with `cc`. Nothing is written below the repository.
"""
import errno
import os
import pathlib
import shutil
import subprocess
import sys
import tempfile

TOP = pathlib.Path(__file__).resolve().parent.parent
DATA = TOP / "crates" / "hagzimot" / "data"
PROGRAM = TOP / "crates" / "hagzimot" / "out" / "hagzimot"
ERRORS = ("EIO", "ENOSPC", "EINTR", "EPERM")
RELAY = ["relay", "--schema", "shop.request", "--root", "Order", "--set", "number=5", "--log", "none"]
SECONDS = 60

# Each run: its words, the files that it may change, and whether it is given them by a link.
RUNS = {
    "a new file": (["convert", "orders.bin", "-o", "new.bin"], ["new.bin"]),
    "an old file": (["convert", "orders.bin", "-o", "old.bin"], ["old.bin"]),
    "in place": (RELAY + ["-o", "private.bin", "private.bin"], ["private.bin"]),
    "by a link": (["convert", "orders.bin", "-o", "link.bin"], ["sub/target.bin"]),
    "without a sync": (["convert", "--no-sync", "orders.bin", "-o", "old.bin"], ["old.bin"]),
    "two files": (RELAY + ["damaged.bin", "-o", "old.bin", "--refused", "skipped.bin"], ["old.bin", "skipped.bin"]),
    "a file of another owner": (["convert", "orders.bin", "-o", "owned.bin"], ["owned.bin"]),
}


def lay_out(folder):
    """The files of a run, in an empty folder."""
    folder.mkdir()
    for name in ("orders.bin", "damaged.bin", "shop.request"):
        shutil.copyfile(DATA / name, folder / name)
    shutil.copyfile(DATA / "orders.bin", folder / "private.bin")
    (folder / "private.bin").chmod(0o600)
    (folder / "old.bin").write_bytes(b"old" * 1000)
    (folder / "old.bin").chmod(0o640)
    (folder / "skipped.bin").write_bytes(b"skipped before")
    (folder / "old.bin.part").write_bytes(b"the user's")
    (folder / ".old.bin.swp").write_bytes(b"the user's too")
    (folder / "owned.bin").write_bytes(b"owned")
    (folder / "owned.bin").chmod(0o604)
    if os.geteuid() == 0:
        os.chown(folder / "owned.bin", 1234, 4321)
    (folder / "sub").mkdir()
    (folder / "sub" / "target.bin").write_bytes(b"behind a link")
    (folder / "link.bin").symlink_to("sub/target.bin")


def seen(folder):
    """What is in a folder: the kind, mode and owner of each file, and its bytes."""
    files = {}
    for path in sorted(folder.rglob("*")):
        name, info = str(path.relative_to(folder)), path.lstat()
        if path.is_symlink():
            files[name] = ("link", os.readlink(path))
        elif path.is_dir():
            files[name] = ("folder", info.st_mode)
        else:
            files[name] = (info.st_mode, info.st_uid, info.st_gid, path.read_bytes())
    return files


class Runs:
    """The runs of a program in folders of their own."""

    def __init__(self, program, shim, scratch):
        self.program, self.shim, self.scratch = program, shim, scratch
        self.faults = self.done = 0

    def run(self, words, **fault):
        """A run with a fault: what stood in its folder before and stands there now, its end and its calls."""
        folder = self.scratch / "folder"
        if folder.exists():
            shutil.rmtree(folder)
        lay_out(folder)
        before = seen(folder)
        log = self.scratch / "calls"
        with open(log, "wb") as calls:
            env = {"PATH": "/usr/bin:/bin", "LD_PRELOAD": str(self.shim), "FAULT_LOG": str(calls.fileno())}
            env.update({name: str(value) for name, value in fault.items()})
            end = subprocess.run([self.program, *words], cwd=folder, env=env, capture_output=True, timeout=SECONDS, pass_fds=[calls.fileno()], stdin=subprocess.DEVNULL)
        return before, seen(folder), end, log.read_text().split()

    def complain(self, run, call, how, said):
        """Says what is wrong with a run."""
        self.faults += 1
        print(f"{run}: {call}, {how}: {said}")

    @staticmethod
    def is_new(is_now, new, call, how):
        """Whether a file is as a run without a fault leaves it, but for an owner that may not be given."""
        if is_now is None or len(is_now) < 4:
            return is_now == new
        is_permitted = not (call.endswith("fchown") and how == "EPERM")
        return is_now == new or (not is_permitted and (is_now[0], is_now[3]) == (new[0], new[3]))

    def look(self, run, call, how, names, before, now, after, end):
        """Compares what a run with a fault left with what stood there before, and with the run without a fault."""
        self.done += 1
        killed = how in ("before", "after")
        for name in sorted(set(before) | set(now)):
            old, is_now, new = before.get(name), now.get(name), after.get(name)
            if is_now == old and name not in names:
                continue
            if name in names:
                has_new = self.is_new(is_now, new, call, how)
                if is_now != old and not has_new:
                    self.complain(run, call, how, f"{name} is neither old nor new")
                elif end.returncode in (0, 3) and not has_new:
                    self.complain(run, call, how, f"status {end.returncode}, and {name} is old")
                continue
            if not (killed and old is None and ".hagzimot-" in name):
                self.complain(run, call, how, f"{name} was changed, made or removed")
        if killed and end.returncode != -9:
            self.complain(run, call, how, f"status {end.returncode} in place of a kill")
        if not killed and end.returncode not in (0, 3) and not end.stderr:
            self.complain(run, call, how, f"status {end.returncode}, and nothing is said")
        if not killed and end.returncode not in (0, 3, 4):
            self.complain(run, call, how, f"status {end.returncode}")

    def each(self, run, words, names):
        """A run with each of its faults."""
        before, after, end, calls = self.run(words)
        if end.returncode not in (0, 3) or any(after.get(name) == before.get(name) for name in names):
            self.complain(run, "no call", "no fault", f"status {end.returncode}: {end.stderr.decode()}")
            return
        for name in set(before) | set(after):
            if name not in names and before.get(name) != after.get(name):
                self.complain(run, "no call", "no fault", f"{name} was changed, made or removed")
        for name in names:
            if name in before and before[name][:3] != after[name][:3]:
                self.complain(run, "no call", "no fault", f"{name} has another mode or owner")
        for at, call in enumerate(calls, 1):
            hows = [(error, getattr(errno, error)) for error in ERRORS] + [("before", "before"), ("after", "after")]
            for how, value in hows + ([("short", "short")] if call == "write" else []):
                before, now, end, _ = self.run(words, FAULT_AT=at, FAULT_HOW=value)
                self.look(run, f"call {at}, {call}", how, names, before, now, after, end)


def main():
    program = str(pathlib.Path(sys.argv[1] if len(sys.argv) > 1 else PROGRAM).resolve())
    with tempfile.TemporaryDirectory() as scratch:
        scratch = pathlib.Path(scratch)
        shim = scratch / "fault.so"
        subprocess.run(["cc", "-shared", "-fPIC", "-O1", "-o", str(shim), str(TOP / ".ci" / "fault.c")], check=True)
        runs = Runs(program, shim, scratch)
        for run, (words, names) in RUNS.items():
            runs.each(run, words, names)
        print(f"{runs.done} runs with a fault, {runs.faults} complaints")
        return 1 if runs.faults else 0


if __name__ == "__main__":
    sys.exit(main())
