"""Tries the bindings of the library for C: those for Rust, Go, Python and C++, the examples of their pages, and the benchmark.

c_library.py calls `tried`. Each part returns a line that says what it did. If a part's tools are missing, the line says that
it is left out.
"""
import os
import re
import shutil
import subprocess
import sys

TOP = os.path.dirname(os.path.dirname(os.path.realpath(__file__)))
BINDINGS = f"{TOP}/bindings"
LIMIT = 600
# What the examples of a whole program write.
EDITED = '(a = 7, t = "hi")\nmessage 1 written; done\n(a = 9, t = "hi")'
# The schema, the calls and the messages of the pages whose examples read files.
SCHEMA = """[{"id": 1, "name": "Order", "data": 1, "pointers": 0, "fields": [
    {"name": "number", "type": "UInt16", "offset": 0}, {"name": "status", "type": {"enum": 2}, "offset": 1}]},
    {"id": 2, "name": "Status", "enumerants": ["new", "packed", "sent"]}]"""
ORDERS = bytes.fromhex("00000000 02000000 00000000 01000000 0700000000000000") * 2


class Wrong(Exception):
    """What is wrong."""


def run(*words, **how):
    """Runs a command, and returns what it writes."""
    try:
        done = subprocess.run(words, capture_output=True, text=True, errors="replace", timeout=LIMIT, check=False, **how)
    except (OSError, subprocess.TimeoutExpired) as error:
        raise Wrong(f"{words[0]}: {error}") from error
    if done.returncode:
        raise Wrong(f"{' '.join(words)}: status {done.returncode}\n{done.stdout[-3000:]}\n{done.stderr[-3000:]}")
    return done.stdout.strip()


def is_there(*words):
    """Whether a command can be run."""
    try:
        return not subprocess.run(words, capture_output=True, check=False, timeout=60).returncode
    except (OSError, subprocess.TimeoutExpired):
        return False


def expect(is_well, what):
    if not is_well:
        raise Wrong(what)


def example(page, language):
    """The one example of a page in a language."""
    with open(f"{TOP}/{page}", encoding="utf-8") as file:
        found = re.findall(rf"(?ms)^```{language}\n(.*?)^```$", file.read())
    expect(len(found) == 1, f"{page}: it has {len(found)} examples in {language}, and not one")
    return found[0]


def write(path, text):
    os.makedirs(os.path.dirname(path), exist_ok=True)
    with open(path, "wb") as file:
        file.write(text if isinstance(text, bytes) else text.encode())
    return path


def rust(room, out):
    """Runs the tests of the crates, with the example of their page, and looks at their layout."""
    if not is_there("cargo", "--version") or not is_there("rustc", "--version"):
        return "Rust isn't there, and its crates are left out"
    how = {"cwd": f"{BINDINGS}/rust", "env": {**os.environ, "HAGZIMOT_LIB_DIR": out, "CARGO_TARGET_DIR": f"{room}/cargo"}}
    said = run("cargo", "test", "--offline", "--locked", **how)
    counts = [int(it) for it in re.findall(r"test result: ok\. (\d+) passed; 0 failed", said)]
    expect(sum(counts) >= 16, f"the crates of Rust have {sum(counts)} tests\n{said}")
    edited = run("cargo", "run", "--offline", "--locked", "--quiet", "--example", "edit", **how)
    expect(edited == EDITED, f"the example of Rust writes\n{edited}")
    done = []
    if is_there("cargo", "fmt", "--version"):
        run("cargo", "fmt", "--check", **how)
        done.append("rustfmt")
    if is_there("cargo", "clippy", "--version"):
        run("cargo", "clippy", "--offline", "--locked", "--quiet", "--all-targets", "--", "--deny", "warnings", **how)
        done.append("clippy")
    finds = f"; {' and '.join(done)} find nothing" if done else "; rustfmt and clippy aren't there"
    return f"{run('rustc', '--version')}: {sum(counts)} tests pass{finds}"


def go(room, out):
    """Runs the tests of the module, its example, and that of its page, which is linked with the archive."""
    if not is_there("go", "version"):
        return "Go isn't there, and its module is left out"
    no_network = {"GOFLAGS": "-mod=mod", "GOPROXY": "off", "GOCACHE": f"{room}/go-cache", "GOPATH": f"{room}/go"}
    shared = {**os.environ, **no_network, "CGO_CFLAGS": f"-I{out}", "CGO_LDFLAGS": f"-L{out}", "LD_LIBRARY_PATH": out}
    how = {"cwd": f"{BINDINGS}/go", "env": shared}
    expect(run("gofmt", "-l", ".", **how) == "", "gofmt would change files of the module")
    run("go", "vet", "./...", **how)
    said = run("go", "test", "-count=1", "-v", ".", **how)
    count = len(re.findall(r"(?m)^--- PASS", said))
    expect(count >= 12, f"the module of Go has {count} tests\n{said}")
    edited = run("go", "run", "./examples/edit", **how)
    expect(edited == EDITED, f"the example of Go writes\n{edited}")
    folder, static = f"{room}/go-page", f"{room}/static"
    write(f"{folder}/main.go", example("bindings/go/README.md", "go"))
    write(f"{static}/none", "")
    for name in ("libhagzimot.a", "hagzimot.h"):
        shutil.copy(f"{out}/{name}", static)
    how = {"cwd": folder, "env": {**os.environ, **no_network, "CGO_CFLAGS": f"-I{static}", "CGO_LDFLAGS": f"-L{static}"}}
    run("go", "mod", "init", "example", **how)
    module = "hagzimot.invalid/hagzimot"
    run("go", "mod", "edit", "-require", f"{module}@v0.0.0", "-replace", f"{module}={BINDINGS}/go", **how)
    said = run("go", "run", ".", **how)
    expect(said == "(a = 9) <nil>", f"the example of Go's page writes\n{said}")
    return f"{run('go', 'version')}: {count} tests pass, vet and gofmt find nothing"


def try_wheel(room, path):
    """Installs a wheel into an environment of its own, and runs the example there."""
    python = f"{room}/venv/bin/python3"
    run(sys.executable, "-m", "venv", "--without-pip", f"{room}/venv")
    words = ("--no-index", "--no-deps", "--disable-pip-version-check")
    run(sys.executable, "-m", "pip", "--python", python, "install", *words, path)
    env = {name: it for name, it in os.environ.items() if not name.startswith(("HAGZIMOT_", "PYTHON"))}
    # The example is alone in its folder, so that it finds no other module.
    shutil.copy(f"{BINDINGS}/python/edit.py", f"{room}/edit.py")
    edited = run(python, f"{room}/edit.py", cwd=room, env=env)
    expect(edited == EDITED, f"the example of Python writes\n{edited}")
    place = run(python, "-c", "import hagzimot; print(hagzimot.__file__)", cwd=room, env=env)
    expect(place.startswith(f"{room}/venv/"), f"the module is {place}, and not that of the wheel")


def wheel(room, out):
    """Makes the wheel, twice with the same bytes, and installs it; looks at the types of the module."""
    words = (sys.executable, f"{BINDINGS}/python/build_wheel.py", out)
    paths = [run(*words, f"{room}/{folder}") for folder in ("wheel", "again")]
    with open(paths[0], "rb") as first, open(paths[1], "rb") as second:
        expect(first.read() == second.read(), "two wheels of the same files differ")
    name = os.path.basename(paths[0])
    said = f"the wheel {name} is installed and used"
    if is_there(sys.executable, "-c", "import pip, venv"):
        try_wheel(room, paths[0])
    else:
        said = f"the wheel {name} is made; Python lacks pip or venv, and it isn't installed"
    if is_there("mypy", "--version"):
        run("mypy", "--strict", f"--cache-dir={room}/mypy", f"{BINDINGS}/python/hagzimot.py")
        return f"{said}; mypy finds nothing"
    return f"{said}; mypy isn't there"


def pages(room, out):
    """Runs the examples of the pages of Python, C++ and C as they stand, and those lines of the front page."""
    env = {**os.environ, "HAGZIMOT_LIBRARY": f"{out}/libhagzimot.so.1", "PYTHONPATH": out}
    folder = f"{room}/pages"
    write(f"{folder}/shop.request", SCHEMA)
    write(f"{folder}/orders.bin", ORDERS)
    said = run(sys.executable, write(f"{folder}/page.py", example("bindings/python/README.md", "python")), env=env)
    expect(said == "(a = 7) (a = 9)", f"the example of Python's page writes\n{said}")
    said = run(sys.executable, write(f"{folder}/front.py", example("README.md", "python")), env=env, cwd=folder)
    expect(said == "(number = 7, status = sent)", f"the example of the front page writes\n{said}")
    words, library = ("-Wall", "-Wextra", "-Werror", "-O1", f"-I{out}"), f"{out}/libhagzimot.a"
    source = write(f"{folder}/page.cpp", example("bindings/cpp/README.md", "cpp"))
    run("c++", "-std=c++17", *words, source, library, "-o", f"{folder}/cpp")
    said = run(f"{folder}/cpp")
    expect(said == "(a = 7) (a = 9)", f"the example of C++'s page writes\n{said}")
    source = write(f"{folder}/page.c", example("docs/C.md", "c"))
    run("cc", "-std=c99", *words, source, library, "-o", f"{folder}/c")
    said = run(f"{folder}/c", "shop.request", "orders.bin", cwd=folder)
    expect(said == "(number = 7, status = sent)\nmessage 1 written; done\nmessage 2 written; done", f"the example of C's page writes\n{said}")
    return "the examples of five pages run as they are"


def beside_libcapnp(room, out):
    """Compares each message of the streams of examples/measure with that of libcapnp; the benchmark does this first."""
    if not is_there("c++", "-fsyntax-only", "-x", "c++", "-include", "capnp/message.h", "/dev/null"):
        return "libcapnp isn't there, and the benchmark is left out"
    run(sys.executable, f"{TOP}/examples/measure/corpora.py", f"{room}/streams")
    words = ("c++", "-std=c++17", "-Wall", "-Wextra", "-Werror", "-O2", f"-I{out}", f"{BINDINGS}/bench/bench.cpp")
    run(*words, f"{out}/libhagzimot.a", "-lcapnp", "-lkj", "-o", f"{room}/bench")
    lines = run(f"{room}/bench", f"{room}/streams", "1").splitlines()
    return f"libcapnp writes the same messages, in a benchmark of {len(lines) - 2} works"


def tried(room, out):
    """Tries each part, and returns its line."""
    for part in (rust, go, wheel, pages, beside_libcapnp):
        yield part(room, out)
