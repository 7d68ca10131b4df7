"""Installs built programs into new folders, and looks at what is there: programs, manual, statement; then uninstalls.

usage: tools/tests/test_install.py PROGRAM RELAY

The options that the manual must have are read from the program's own help, not from the script that makes the pages.
"""
import hashlib
import json
import os
import re
import shutil
import subprocess
import sys
import tempfile

TOP = os.path.dirname(os.path.dirname(os.path.dirname(os.path.realpath(__file__))))
sys.dont_write_bytecode = True
sys.path[:0] = [f"{TOP}/tools", f"{TOP}/.ci"]
import command_help
import statement
import style

FAULTS = []
# How no text of the help begins: with a noun, a question, or a verb in the third person.
NOT_IMPERATIVE = re.compile(r"(?:The|A|An|What|Whether|How|[A-Z][a-z]*[a-rt-z]s)\b")


def expect(is_well, what):
    if not is_well:
        FAULTS.append(what)


def ran(*words, status=0, **how):
    run = subprocess.run(words, stdin=subprocess.DEVNULL, capture_output=True, text=True, check=False, **how)
    expect(run.returncode == status, f"{' '.join(words)}: status {run.returncode}, and not {status}: {run.stderr.strip()}")
    return run.stdout


def install(*words, status=0):
    return ran(sys.executable, f"{TOP}/install", *words, status=status)


def files_below(folder):
    return sorted(os.path.relpath(f"{at}/{it}", folder) for at, _, names in os.walk(folder) for it in names)


def make_built(program, relay, room):
    """A folder as a build without proof leaves it."""
    os.makedirs(f"{room}/built")
    shutil.copy(program, f"{room}/built/hagzimot")
    shutil.copy(relay, f"{room}/built/capnp_relay_cli")
    statement.write(f"{room}/built", [f"{room}/built/hagzimot", f"{room}/built/capnp_relay_cli"], None)
    return f"{room}/built"


def try_programs(root):
    """The installed programs run, and the command prints its statement."""
    program = f"{root}/bin/hagzimot"
    expect(ran(program, "--version") == f"hagzimot {statement.version()}\n", "--version isn't the version of the sources")
    expect(ran(program, "version") == f"hagzimot {statement.version()}\n", "version isn't the version of the sources")
    said = json.loads(ran(program, "version", "--proof") or "{}")
    with open(program, "rb") as file:
        expect(said.get("programs", {}).get("hagzimot", {}).get("sha256") == hashlib.sha256(file.read()).hexdigest(), "the statement has another sum")
    expect(said.get("proved") is False and "nothing is promised" in said.get("note", ""), "the statement doesn't say that nothing was proved")
    relay = subprocess.run([f"{root}/libexec/hagzimot/capnp_relay_cli"], stdin=subprocess.DEVNULL, capture_output=True, check=False)
    expect((relay.returncode, relay.stderr) == (1, b"fault: arguments\n"), f"the relay program: {relay}")


def plain_page(path):
    """A page of the manual as text."""
    if shutil.which("man") is None:
        with open(path, encoding="utf-8") as file:
            return re.sub(r"\\f[BIR]|\\&", "", file.read()).replace("\\-", "-")
    text = ran("man", "--warnings", "-l", path, env={**os.environ, "MANWIDTH": "1000", "MAN_KEEP_FORMATTING": "", "LANG": "C.UTF-8"})
    return text.replace("\u2010", "-").replace("\u2212", "-")


def options_of_page(text):
    """The options that a page of docs/manual has in its section on options."""
    section = re.search(r"(?ms)^## Options\n(.*?)(?=^## |\Z)", text)
    return set(re.findall(r"`(--?[\w-]+)", section[1])) if section else set()


def try_help(name, said):
    """The texts of a command's help are imperative, and keep docs/STYLE.md."""
    command = command_help.command_of(name, said)
    for text in (command.about, *(it.plain_text for it in (*command.arguments, *command.options))):
        expect(not NOT_IMPERATIVE.match(text), f"{name} --help: '{text}' isn't imperative")
        for _, what in style.faults_of_text(text, False):
            expect(False, f"{name} --help: '{text}': {what}")


def try_page(root, name, program):
    """A command's page has the usage of its help, and the same options; the page and the man page are installed."""
    said = ran(program, name, "--help")
    try_help(name, said)
    options = set(re.findall(r"(?m)^ +(?:-\w, )?(--[\w-]+)", said)) - {"--help"}
    short = dict(re.findall(r"(?m)^ +(-\w), (--[\w-]+)", said))
    with open(f"{root}/share/doc/hagzimot/manual/{name}.md", encoding="utf-8") as file:
        text = file.read()
    there = {short.get(it, it) for it in options_of_page(text)}
    # A section on options names an option of another one in what it says.
    expect(options <= there, f"docs/manual/{name}.md lacks {sorted(options - there)}")
    rows = set(re.findall(r"(?m)^\| `(--[\w-]+)", text)) if options else set()
    expect(rows <= options, f"docs/manual/{name}.md has {sorted(rows - options)}, which {name} --help doesn't list")
    usage = " ".join(re.search(r"(?m)^Usage: (.*)$", said)[1].split())
    expect(f"\n    {usage}\n" in text, f"docs/manual/{name}.md has another usage than '{usage}'")
    about = " ".join(said.partition("\n\nUsage:")[0].split())
    expect(f"\n\n{about}.\n" in text, f"docs/manual/{name}.md has another summary than '{about}'")
    page = plain_page(f"{root}/share/man/man1/hagzimot-{name}.1")
    for option in options:
        expect(re.search(rf"(?<![\w-]){option}(?![\w-])", page), f"the man page of {name} lacks {option}")
    return len(options)


def try_manual(root):
    """Each command has a page, and each page of the manual a man page."""
    program, folder = f"{root}/bin/hagzimot", f"{root}/share/man"
    names = re.findall(r"(?m)^  (\w+)  ", ran(program, "--help").partition("Commands:")[2].partition("Options:")[0])
    names = [it for it in names if it != "help"]
    others = {it.removesuffix(".md") for it in os.listdir(f"{TOP}/docs/manual")} - {"README", *names}
    wanted = ["man1/hagzimot.1", *(f"man1/hagzimot-{it}.1" for it in names), *(f"man7/hagzimot-{it}.7" for it in others)]
    expect(files_below(folder) == sorted(wanted), f"the manual has other pages than {wanted}")
    return len(names), sum(try_page(root, name, program) for name in names)


def try_uninstall(root):
    """Uninstalling removes the installed files and leaves other files."""
    with open(f"{root}/share/man/man1/other.1", "w", encoding="utf-8") as file:
        file.write("of another program\n")
    install("--uninstall", root)
    expect(files_below(root) == ["share/man/man1/other.1"], f"uninstall leaves {files_below(root)}")
    install("--uninstall", root, status=1)


def main(program, relay):
    with tempfile.TemporaryDirectory() as room:
        built, root = make_built(program, relay, room), f"{room}/root"
        install("--built", built, root)
        first = files_below(root)
        install("--built", built, root)
        expect(files_below(root) == first, "a second installation has other files")
        pages = [f"share/doc/hagzimot/html/{it}" for it in ("index.html", "capnp_relay.html", "definitions.html", "style.css")]
        expect(set(pages) <= set(first), "the reference of the library isn't there")
        manual = [f"share/doc/hagzimot/{it}" for it in ("concepts.md", "manual/README.md", "manual/first-steps.md")]
        expect(set(manual) <= set(first), "the manual isn't there")
        try_programs(root)
        pages, options = try_manual(root)
        try_uninstall(root)
        install("--built", built, "--destdir", f"{room}/stage", "/usr")
        expect(files_below(f"{room}/stage/usr") == first, "--destdir gives other files")
        install("--uninstall", "--destdir", f"{room}/stage", "/usr")
        expect(files_below(f"{room}/stage") == [], "--uninstall --destdir leaves files")
        install("--built", f"{room}/nothing", root, status=1)
    print("\n".join(FAULTS), end="\n" if FAULTS else "")
    print(f"install: {len(first)} files, {pages} commands in the manual with {options} options, {len(FAULTS)} faults")
    return 1 if FAULTS else 0


if __name__ == "__main__":
    sys.exit(main(*sys.argv[1:]) if len(sys.argv) == 3 else __doc__)
