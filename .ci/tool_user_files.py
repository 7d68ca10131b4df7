"""Gives the command outputs that are links, devices, pipes, folders, or files that it reads, and looks at what becomes of them.

    python3 .ci/tool_user_files.py [PROGRAM]

Each case runs in a folder of its own. `convert` from framed to framed writes the bytes that it read, so what an output should hold is known without the program. Nothing is written below the repository, nor to /dev but /dev/full
and /dev/null.
"""
import os
import pathlib
import shutil
import stat
import subprocess
import sys
import tempfile
import threading

TOP = pathlib.Path(__file__).resolve().parent.parent
DATA = TOP / "crates" / "hagzimot" / "data"
PROGRAM = TOP / "crates" / "hagzimot" / "out" / "hagzimot"
ORDERS = (DATA / "orders.bin").read_bytes()
EDIT = "relay --schema shop.request --root Order --set number=5 --log none"
SECONDS = 60


class Folder:
    """A folder with the files of a case, in which the program runs."""

    def __init__(self, program, path):
        self.program, self.path = program, path
        path.mkdir()
        for name in ("orders.bin", "damaged.bin", "shop.request", "ship.json"):
            shutil.copyfile(DATA / name, path / name)

    def run(self, words, **more):
        """Runs the program with these words, in bash, and returns its status and what it says on standard error."""
        env = {"PATH": "/usr/bin:/bin", "H": self.program}
        end = subprocess.run(["bash", "-c", words.replace("hagzimot", '"$H"')], cwd=self.path, env=env, capture_output=True, timeout=SECONDS, **more)
        self.out = end.stdout
        return end.returncode, end.stderr.decode()

    def bytes(self, name):
        return (self.path / name).read_bytes()

    def put(self, name, content=b"what stood here", mode=0o644):
        (self.path / name).write_bytes(content)
        (self.path / name).chmod(mode)

    def names(self):
        return sorted(str(path.relative_to(self.path)) for path in self.path.rglob("*"))

    def seen(self):
        return {name: self.bytes(name) for name in self.names() if (self.path / name).is_file()}


def device(f):
    try:
        os.mknod(f.path / "null", 0o666 | stat.S_IFCHR, os.makedev(1, 3))
    except PermissionError:
        return None
    end = f.run("hagzimot convert orders.bin -o null")
    # A folder may be mounted so that devices in it can't be opened.
    return stat.S_ISCHR((f.path / "null").stat().st_mode) and end[0] in (0, 4), end


def fifo(f):
    os.mkfifo(f.path / "ff")
    got = []
    reader = threading.Thread(target=lambda: got.append((f.path / "ff").read_bytes()), daemon=True)
    reader.start()
    end = f.run("hagzimot convert orders.bin -o ff")
    reader.join(SECONDS)
    return end == (0, "") and got == [ORDERS] and stat.S_ISFIFO((f.path / "ff").stat().st_mode), end


def substitution(f):
    end = f.run("hagzimot convert orders.bin -o >(gzip > x.gz); s=$?; wait $!; exit $s")
    return end == (0, "") and subprocess.run(["gzip", "-dc", f.path / "x.gz"], capture_output=True).stdout == ORDERS, end


def link(f):
    (f.path / "sub").mkdir()
    f.put("sub/real", mode=0o600)
    (f.path / "sub" / "inner").symlink_to("real")
    (f.path / "outer").symlink_to("sub/inner")
    end = f.run("hagzimot convert orders.bin -o outer")
    stays = os.readlink(f.path / "outer") == "sub/inner" and os.readlink(f.path / "sub" / "inner") == "real"
    return end == (0, "") and stays and f.bytes("sub/real") == ORDERS and (f.path / "sub" / "real").stat().st_mode & 0o777 == 0o600, end


def dangling(f):
    (f.path / "sub").mkdir()
    (f.path / "link").symlink_to("sub/new")
    end = f.run("umask 027; hagzimot convert orders.bin -o link")
    return end == (0, "") and (f.path / "link").is_symlink() and f.bytes("sub/new") == ORDERS and (f.path / "sub" / "new").stat().st_mode & 0o777 == 0o640, end


def loop(f):
    (f.path / "a").symlink_to("b")
    (f.path / "b").symlink_to("a")
    names = f.names()
    end = f.run("hagzimot convert orders.bin -o a")
    return end[0] in (2, 4) and "links" in end[1] and f.names() == names, end


def in_place(f):
    f.put("s.bin", ORDERS, 0o600)
    end = f.run(f"hagzimot {EDIT} -o s.bin s.bin")
    return end == (0, "") and f.bytes("s.bin") not in (ORDERS, b"") and (f.path / "s.bin").stat().st_mode & 0o777 == 0o600, end


def folder(f):
    (f.path / "dir").mkdir()
    names = f.names()
    ends = [f.run(f"hagzimot convert orders.bin -o {name}") for name in ("dir", "dir/", "gone/", ".")]
    return all(status == 2 and "folder" in said for status, said in ends) and f.names() == names, ends


def missing_folder(f):
    names = f.names()
    end = f.run("hagzimot convert orders.bin -o gone/deeper/x.bin")
    other = f.run("hagzimot convert orders.bin -o orders.bin/x.bin")
    return end[0] in (2, 4) and "no folder gone " in end[1] and other[0] == 4 and "Not a directory" in other[1] and f.names() == names, (end, other)


def no_name(f):
    names = f.names()
    end = f.run("hagzimot convert orders.bin -o ''")
    return end[0] == 2 and "empty" in end[1] and f.names() == names, end


def standard(f):
    names = f.names()
    ends = [(f.run(f"hagzimot convert orders.bin -o {name} | cat; exit ${{PIPESTATUS[0]}}"), f.out) for name in ("-", "/dev/stdout", "/dev/fd/1")]
    return all(end == ((0, ""), ORDERS) for end in ends) and f.names() == names, ends


def redirected(f):
    end = f.run("hagzimot convert orders.bin -o /dev/stdout > out.bin")
    return end == (0, "") and f.bytes("out.bin") == ORDERS, end


def descriptor(f):
    f.put("out.bin", b"before ")
    end = f.run("hagzimot convert orders.bin -o /dev/fd/3 3>> out.bin")
    return end == (0, "") and f.bytes("out.bin") == b"before " + ORDERS, end


def part_of_output(f):
    end = f.run(f"hagzimot {EDIT} -o a.bin --refused a.bin.part damaged.bin")
    size = len(f.bytes("a.bin")) if (f.path / "a.bin").exists() else None
    return end[0] == 3 and size not in (None, 24) and len(f.bytes("a.bin.part")) == 24, (end, size)


def part_as_input(f):
    f.put("in.part", ORDERS)
    f.put("keep.part", b"kept")
    end = f.run("hagzimot convert in.part -o in && hagzimot convert orders.bin -o keep")
    return end == (0, "") and f.bytes("in") == ORDERS and f.bytes("in.part") == ORDERS and f.bytes("keep.part") == b"kept", end


def one_file(f):
    f.put("y")
    f.put("x")
    os.link(f.path / "y", f.path / "hard")
    (f.path / "soft").symlink_to("y")
    (f.path / "new_link").symlink_to("new")
    (f.path / "sub").mkdir()
    before = f.seen()
    pairs = ("./y y", "y hard", "soft y", "y y", "$PWD/y y", "./new new", "new_link new", "sub/../new new", "ship.json y", "y ship.json", "shop.request y", "y shop.request", "damaged.bin y", "./damaged.bin -")
    ends = {pair: f.run("hagzimot relay --schema shop.request --root Order --calls ship.json --log none --refused {} -o {} damaged.bin".format(*pair.split())) for pair in pairs}
    return all(status == 2 and "same file" in said for status, said in ends.values()) and f.seen() == before, ends


def read_by_redirection(f):
    f.put("in.bin", ORDERS)
    before = f.seen()
    ends = [
        f.run("hagzimot canonical --refused in.bin < in.bin > /dev/null"),
        f.run("hagzimot convert in.bin >> in.bin"),
        f.run("hagzimot convert in.bin -o /dev/fd/3 3>> in.bin"),
        f.run("hagzimot canonical --refused in.bin < orders.bin >> in.bin"),
        f.run("hagzimot convert -o in.bin orders.bin 2>> in.bin; s=$?; exit $s"),
    ]
    said = ends.pop()
    now = f.seen()
    kept = now.pop("in.bin")
    return all(status == 2 and "same file" in said for status, said in ends) and said[0] == 2 and kept.startswith(ORDERS) and {**now, "in.bin": ORDERS} == before, (ends, said)


def devices_twice(f):
    end = f.run(f"hagzimot {EDIT} -o /dev/null --refused /dev/null damaged.bin")
    return end[0] == 3, end


def closed_pipe(f):
    many = "for i in $(seq 3000); do cat orders.bin; done"
    ends = [
        f.run(f"{many} | hagzimot show --schema shop.request --root Order 2> said | head -1 > first; exit ${{PIPESTATUS[1]}}"),
        f.run(f"{many} | hagzimot convert 2>> said | head -c 1 > first; exit ${{PIPESTATUS[1]}}"),
    ]
    return all(end == (141, "") for end in ends) and f.bytes("said") == b"", (ends, f.bytes("said"))


def full_log(f):
    """A log that can't be written ends the run with a fault, and the output isn't made."""
    end = f.run("hagzimot relay --schema shop.request --root Order --set paid=true -o made.bin orders.bin 2> /dev/full")
    made = f.run("ls made.bin")
    return end == (4, "") and made[0] == 2, (end, made)


def full_disk(f):
    wanted = "hagzimot: -: can't write: No space left on device (os error 28)\n"
    ends = [
        f.run("hagzimot show --schema shop.request --root Order orders.bin > /dev/full"),
        f.run("hagzimot convert orders.bin > /dev/full"),
        f.run("hagzimot schema shop.request > /dev/full"),
    ]
    named = f.run("hagzimot convert orders.bin -o /dev/full")
    return all(end == (4, wanted) for end in ends) and named == (4, wanted.replace("-:", "/dev/full:")), (ends, named)


def folder_as_input(f):
    ends = [f.run("hagzimot show --schema shop.request --root Order ."), f.run("hagzimot convert . -o new")]
    return all(end == (4, "hagzimot: .: Is a directory (os error 21)\n") for end in ends) and not (f.path / "new").exists(), ends


def fault_of_input(f):
    f.put("old")
    names = f.names()
    end = f.run("hagzimot convert orders.bin gone.bin -o old")
    return end[0] == 4 and f.bytes("old") == b"what stood here" and f.names() == names, end


def read_only_folder(f):
    (f.path / "closed").mkdir()
    f.put("closed/x")
    (f.path / "closed").chmod(0o555)
    if os.geteuid() == 0:
        return None
    end = f.run("hagzimot convert orders.bin -o closed/x")
    return end[0] == 4 and "Permission denied" in end[1] and f.bytes("closed/x") == b"what stood here", end


def long_name(f):
    name = "n" * 250
    end = f.run(f"hagzimot convert orders.bin -o {name}")
    return end == (0, "") and f.bytes(name) == ORDERS, end


CASES = (device, fifo, substitution, link, dangling, loop, in_place, folder, missing_folder, no_name, standard, redirected, descriptor, part_of_output, part_as_input, one_file, read_by_redirection, devices_twice, closed_pipe, full_log, full_disk, folder_as_input, fault_of_input, read_only_folder, long_name)


def main():
    program = str(pathlib.Path(sys.argv[1] if len(sys.argv) > 1 else PROGRAM).resolve())
    wrong = passed_over = 0
    with tempfile.TemporaryDirectory() as scratch:
        for case in CASES:
            f = Folder(program, pathlib.Path(scratch) / case.__name__)
            try:
                result = case(f)
            except OSError as fault:
                result = False, fault
            left = [name for name in f.names() if ".hagzimot-" in name]
            if result is None:
                passed_over += 1
            elif not result[0] or left:
                wrong += 1
                print(f"{case.__name__}: {result[1]}; left: {left}; there: {f.names()}")
    print(f"{len(CASES)} cases of files, {passed_over} passed over, {wrong} wrong")
    return 1 if wrong else 0


if __name__ == "__main__":
    sys.exit(main())
