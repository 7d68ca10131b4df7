"""Reads what a built `hagzimot` says of itself: its commands, and the arguments and options of each.

The command's own help is the one source: pages of the manual and completions are made from it, so an option that is added
to the program needs no second description.
"""
import dataclasses
import re
import subprocess

ENTRY = re.compile(r"^ {2,8}(?P<words>\S.*?)(?: {2,}(?P<text>\S.*))?$")
CHOICES = re.compile(r"\[possible values: ([^\]]*)\]")
DEFAULT = re.compile(r"\[default: ([^\]]*)\]")
KNOWN = ("Usage", "Arguments", "Options", "Commands")
# How the help describes a value that is a file.
FILES = ("FILE", "SCHEMA", "OLD", "NEW", "DIR", "OUT", "INPUT", "OUTPUT", "PART")


class Unreadable(Exception):
    """Why the help can't be read."""


@dataclasses.dataclass
class Option:
    """An option of a command, or an argument, which has no flags."""

    flags: list
    value: str
    text: str

    @property
    def choices(self):
        """The words that the value may be, if the help lists them."""
        found = CHOICES.search(self.text)
        return [it.strip() for it in found[1].split(",")] if found else []

    @property
    def default(self):
        found = DEFAULT.search(self.text)
        return found[1] if found else None

    @property
    def plain_text(self):
        """The text of the help, without its choices and its default."""
        return DEFAULT.sub("", CHOICES.sub("", self.text)).strip()

    @property
    def is_file(self):
        return any(it in FILES for it in re.findall(r"[A-Z]+", self.value))

    @property
    def is_repeated(self):
        return "..." in self.value


@dataclasses.dataclass
class Command:
    """A command, with what it says of itself."""

    name: str
    about: str
    usage: str
    arguments: list
    options: list
    commands: list
    after: str


def sections_of(text):
    """The help's first paragraph, its sections by their heads, and the paragraphs after them."""
    about, sections, after, head = [], {}, [], None
    for line in text.splitlines():
        title = re.match(r"^(\w[\w ]*):(?: (.*))?$", line)
        is_entry = line.startswith(" ") and bool(line.strip())
        if title and (title[1] == "Usage" or not title[2]):
            head = title[1]
            sections[head] = [title[2]] if title[2] else []
        elif head is None:
            about.append(line)
        elif is_entry and not after:
            sections[head].append(line)
        elif line.strip():
            after.append(line)
    return " ".join(" ".join(about).split()), sections, "\n".join(after).strip()


def entries_of(lines):
    """The entries of a section, each with its words and its text; a text may go on in lines that are further in."""
    found, first = [], None
    for line in lines:
        indent = len(line) - len(line.lstrip())
        entry = ENTRY.match(line)
        if entry and (first is None or indent <= first + 4) and (not found or re.match(r"\s*(-|<|\[|[a-z])", line)) and indent < 10:
            first = indent if first is None else first
            found.append([entry["words"], entry["text"] or ""])
        elif found:
            found[-1][1] = f"{found[-1][1]} {line.strip()}".strip()
        else:
            raise Unreadable(f"a section of the help begins with '{line}'")
    return found


def option_of(words, text):
    """An option, of the words that the help has for it, as `-o, --output <FILE>`."""
    flags = re.findall(r"(?:^|, )(--?[\w-]+)", words)
    value = re.sub(r"(?:^|, )--?[\w-]+", "", words).strip()
    return Option(flags, value, text)


def command_of(name, text):
    """The command of a help text."""
    about, sections, after = sections_of(text)
    if "Usage" not in sections:
        raise Unreadable(f"the help of '{name}' has no line 'Usage:'")
    usage = " ".join(" ".join(sections["Usage"]).split())
    arguments = [Option([], words, said) for words, said in entries_of(sections.get("Arguments", []))]
    options = [option_of(words, said) for words, said in entries_of(sections.get("Options", []))]
    commands = [(words.split()[0], said) for words, said in entries_of(sections.get("Commands", []))]
    # A list of statuses, say, under a head of its own.
    others = [f"{head}:\n" + "\n".join(it.strip() for it in lines) for head, lines in sections.items() if head not in KNOWN]
    return Command(name, about, usage, arguments, options, commands, "\n".join(filter(None, [*others, after])))


def help_text(program, words):
    """The help that the program prints."""
    run = subprocess.run([program, *words, "--help"], capture_output=True, text=True, timeout=60, check=False)
    if run.returncode or not run.stdout:
        raise Unreadable(f"{program} {' '.join(words)} --help: status {run.returncode}: {run.stderr.strip()}")
    return run.stdout


def described(program):
    """The program as a command, and each of its commands but `help`."""
    whole = command_of("hagzimot", help_text(program, []))
    names = [name for name, _ in whole.commands if name != "help"]
    if not names:
        raise Unreadable(f"{program} --help lists no commands")
    return whole, [command_of(name, help_text(program, [name])) for name in names]


def version_of(program):
    """The version that the program says it has."""
    run = subprocess.run([program, "--version"], capture_output=True, text=True, timeout=60, check=False)
    found = re.fullmatch(r"hagzimot (\d+\.\d+\.\d+)\n", run.stdout)
    if run.returncode or not found:
        raise Unreadable(f"{program} --version: status {run.returncode}, '{run.stdout.strip()}'")
    return found[1]
