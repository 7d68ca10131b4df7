"""Compares what README.md, the manual and .ci/tool_walk.md say with what the built program prints.

    python3 .ci/tool_walk.py [PROGRAM]

Each block of a page that begins with ```console is a walk of commands: a line '$ COMMAND', and then its standard output and
its standard error. A last line '[status N]' has a status that isn't 0. A command is `hagzimot` with its arguments, `cat FILE`,
another reader of files, or a pipe of such commands. The commands of a page run in order in a copy of crates/hagzimot/data. A
command whose output differs is shown, and the status is 1. Nothing is written in the repository.

A block ```capnp has to be a part of a .capnp file of crates/hagzimot/data, apart from white space.

Then `hagzimot schema` is run on each request of crates/hagzimot/data/requests. What it prints is compared, node by node, with
the schema file that independent software made of the request.

The first steps are a page of the manual that tools/tests/test_first_steps.py follows.
"""
import json
import pathlib
import re
import shlex
import shutil
import subprocess
import sys
import tempfile

TOP = pathlib.Path(__file__).resolve().parent.parent
MANUAL = TOP / "docs" / "manual"
# The pages that need no walk, and the one that another test follows.
WITHOUT_WALK, FIRST_STEPS = ("id", "pipes", "version"), "first-steps"
DATA = TOP / "crates" / "hagzimot" / "data"
PROGRAM = TOP / "crates" / "hagzimot" / "out" / "hagzimot"
REQUESTS = TOP / "crates" / "hagzimot" / "data" / "requests"
# What floats become with --floats-as-bits.
AS_BITS = {"Float32": "UInt32", "Float64": "UInt64"}
BLOCK = re.compile(r"^```console\n(.*?)^```$", re.MULTILINE | re.DOTALL)
SCHEMA = re.compile(r"^```capnp\n(.*?)^```$", re.MULTILINE | re.DOTALL)
ALLOWED = ("hagzimot", "cat", "ls", "xxd")


def commands(text):
    """The commands of a page's walks, each with what it should print."""
    for block in BLOCK.findall(text):
        command, said = None, []
        for line in block.splitlines():
            if line.startswith("$ "):
                if command is not None:
                    yield command, said
                command, said = line[2:], []
            elif command is None:
                raise SystemExit(f"a walk begins without a command: {line}")
            else:
                said.append(line)
        if command is not None:
            yield command, said


def is_allowed(command):
    """Whether a command runs nothing but the program and a few readers of files."""
    words = shlex.split(command, comments=False)
    firsts, at_start = [], True
    for word in words:
        if at_start:
            firsts.append(word)
        at_start = word == "|"
    return all(first in ALLOWED for first in firsts) and ";" not in command and "&" not in command


def said_by(command, folder, program):
    """What a command prints, as the document shows it."""
    shell = f'hagzimot() {{ {shlex.quote(str(program))} "$@"; }}\nset -o pipefail\n{command}'
    run = subprocess.run(["bash", "-c", shell], cwd=folder, capture_output=True, timeout=120, check=False)
    text = run.stdout.decode("utf-8", "backslashreplace") + run.stderr.decode("utf-8", "backslashreplace")
    lines = [line.rstrip() for line in text.splitlines()]
    if run.returncode != 0:
        lines.append(f"[status {run.returncode}]")
    return lines


def type_as_bits(named):
    """A type of a schema file, with whole numbers in place of floats."""
    if isinstance(named, str):
        return AS_BITS.get(named, named)
    return {key: type_as_bits(value) if key == "list" else value for key, value in named.items()}


def without_absent(keys, absent):
    """The keys of a node or a field, except those whose values mean the same as an absent key."""
    return {key: value for key, value in keys.items() if key not in absent or value not in absent[key]}


def nodes_by_id(text):
    """What a schema file says of each node."""
    nodes = {}
    for node in json.loads(text):
        node = without_absent(node, {"union": (0,), "group": (False,)})
        for at, field in enumerate(node.get("fields", [])):
            field = without_absent(field, {"default": (0, False)})
            if "type" in field:
                field["type"] = type_as_bits(field["type"])
            node["fields"][at] = field
        nodes[node["id"]] = node
    return nodes


def differing_requests(program):
    """The number of requests, and the names of those whose schema isn't what independent software made of them."""
    names = sorted(path.stem for path in REQUESTS.glob("*.request"))
    differing = []
    for name in names:
        run = subprocess.run([program, "schema", "--floats-as-bits", REQUESTS / f"{name}.request"], capture_output=True, timeout=120, check=False)
        wanted = nodes_by_id((REQUESTS / f"{name}.json").read_bytes())
        if run.returncode != 0 or nodes_by_id(run.stdout) != wanted:
            differing.append(name)
    return len(names), differing


def differing_commands(walks, name, program):
    """The number of commands of a page that print something else; each is shown."""
    differing = 0
    with tempfile.TemporaryDirectory() as folder:
        folder = pathlib.Path(folder) / "walk"
        shutil.copytree(DATA, folder)
        for command, wanted in walks:
            if not is_allowed(command):
                raise SystemExit(f"the walk runs another command: {command}")
            got = said_by(command, folder, program)
            wanted = [line.rstrip() for line in wanted]
            if got != wanted:
                differing += 1
                print(f"$ {command}\n--- {name}\n" + "\n".join(wanted) + "\n--- printed\n" + "\n".join(got) + "\n")
    return differing


def pages():
    """The pages whose commands are run."""
    return [TOP / "README.md", *(it for it in sorted(MANUAL.glob("*.md")) if it.stem != FIRST_STEPS), TOP / ".ci" / "tool_walk.md"]


def unknown_schemas(text):
    """The blocks of schemas that no file of the data has."""
    files = [" ".join(path.read_text().split()) for path in DATA.rglob("*.capnp")]
    return [block for block in SCHEMA.findall(text) if not any(" ".join(block.split()) in file for file in files)]


def main():
    program = pathlib.Path(sys.argv[1]).resolve() if len(sys.argv) > 1 else PROGRAM
    if not program.exists():
        raise SystemExit(f"{program} is not built")
    ran = differing = unknown = 0
    for page in pages():
        text = page.read_text()
        walks = list(commands(text))
        if not walks and page.stem not in WITHOUT_WALK:
            raise SystemExit(f"{page.name} has no walk")
        ran += len(walks)
        differing += differing_commands(walks, page.name, program)
        for block in unknown_schemas(text):
            unknown += 1
            print(f"{page.name}: no file of {DATA.relative_to(TOP)} has this schema:\n{block}")
    requests, others = differing_requests(program)
    for name in others:
        print(f"the schema of {name}.request differs from {name}.json")
    if not requests:
        raise SystemExit(f"{REQUESTS} has no requests")
    print(f"tool walk: {ran} commands, {differing} differ; {requests} requests, {len(others)} differ")
    return 1 if differing or unknown or others else 0


if __name__ == "__main__":
    if sys.argv[1:] in (["-h"], ["--help"]):
        sys.exit(print(__doc__))
    sys.exit(main())
