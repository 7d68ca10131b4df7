#!/usr/bin/env python3
"""Writes the man pages from docs/manual and the help of the built command.

usage: tools/man_pages.py PROGRAM FOLDER [DATE]

FOLDER gets hagzimot.1, hagzimot-COMMAND.1 for each command, and hagzimot-PAGE.7 for each other page of the manual. A
command's options and usage come from its help, and everything else from its page. DATE is the date at the foot, as
2026-11-30; without it, that of the last commit.
"""
import glob
import os
import subprocess
import sys

import manual_roff
from command_help import Unreadable, described, version_of
from manual_roff import Page, escaped, quoted, reference, roff_of

TOP = os.path.dirname(os.path.dirname(os.path.realpath(__file__)))
MANUAL = f"{TOP}/docs/manual"
HOME = "https://capnproto.org/encoding.html"
# Sections of a page that are other words in a man page.
TITLES = {"Statuses": "EXIT STATUS"}


def page_of(name):
    """A page of the manual."""
    try:
        with open(f"{MANUAL}/{name}.md", encoding="utf-8") as file:
            return Page(file.read())
    except FileNotFoundError:
        raise Unreadable(f"docs/manual/{name}.md: the command has no page") from None


def commit_date():
    """The date of the last commit, or that of the release if there is no commit."""
    run = subprocess.run(["git", "log", "-1", "--format=%cs"], cwd=TOP, capture_output=True, text=True, check=False)
    return run.stdout.strip() or "2026-11-30"


def head(page, about, date, version):
    """The title of a man page, and its line of an index."""
    name, section = page
    line = f"{about[:1].lower()}{about[1:]}".rstrip(".")
    kind = "User Commands" if section == 1 else "Manual"
    return [f'.TH {escaped(name.upper())} {section} "{date}" "Hagzimot {version}" "{kind}"', ".ad l", ".nh", ".SH NAME", f"{escaped(name)} \\- {manual_roff.inline(line)}"]


def bold(text):
    return f"\\fB{quoted(text)}\\fR"


def option_lines(option):
    """An option with its value and what it does."""
    flags = ", ".join(map(bold, option.flags))
    value = f"\\fI{quoted(option.value.replace('<', '').replace('>', ''))}\\fR" if option.value else ""
    text = option.plain_text
    end = "" if not text or text.endswith(".") else "."
    lines = [".TP", f"{flags} {value}".strip(), f"{quoted(text)}{end}" or "\\&"]
    if option.choices:
        lines.append(f"One of {', '.join(map(bold, option.choices))}.")
    if option.default is not None:
        lines.append(f"Default: {bold(option.default)}.")
    return lines


def usage_lines(usage):
    name, _, rest = usage.partition(" ")
    return [".SH SYNOPSIS", f"\\fB{quoted(name)}\\fR {quoted(rest)}".rstrip()]


def listed(title, options):
    return [f".SH {title}", *(line for it in options for line in option_lines(it))] if options else []


def section_lines(page, without):
    """The sections of a page, without some of them."""
    made = []
    for title, lines in page.sections.items():
        if title not in without:
            made += [f".SH {escaped(TITLES.get(title, title.upper()))}", *roff_of(lines)]
    return made


def see_also(pages):
    """The section that names other man pages."""
    return [".SH SEE ALSO", *(f"{reference(it)}," for it in pages[:-1]), *map(reference, pages[-1:])]


def command_page(command, date, version):
    """The man page of a command."""
    own, page = (f"hagzimot-{command.name}", 1), page_of(command.name)
    lines = head(own, page.summary, date, version) + usage_lines(command.usage)
    lines += [".SH DESCRIPTION", manual_roff.inline(page.summary), *roff_of(page.description)]
    lines += listed("ARGUMENTS", command.arguments) + listed("OPTIONS", command.options)
    lines += section_lines(page, ("Options",))
    lines += see_also([("hagzimot", 1), *(it for it in page.references(own) if it != ("hagzimot", 1))])
    return "\n".join(lines) + "\n"


def other_page(name, date, version):
    """The man page of a page that is not of a command."""
    own, page = (f"hagzimot-{name}", 7), page_of(name)
    lines = head(own, page.title, date, version) + [".SH DESCRIPTION", *roff_of(page.description)]
    lines += section_lines(page, ())
    lines += see_also([("hagzimot", 1), *(it for it in page.references(own) if it != ("hagzimot", 1))])
    return "\n".join(lines) + "\n"


def main_page(whole, commands, others, date, version):
    """The man page of the program."""
    page, own = page_of("README"), ("hagzimot", 1)
    lines = head(own, whole.about, date, version) + usage_lines(whole.usage)
    lines += [".SH DESCRIPTION", *roff_of(page.description), *roff_of(page.sections["Words that every page uses"])]
    lines += [".SH COMMANDS"]
    for command in commands:
        lines += [".TP", bold(command.name), f"{manual_roff.inline(page_of(command.name).summary)} See {reference((f'hagzimot-{command.name}', 1))}."]
    lines += listed("OPTIONS", whole.options)
    lines += [".SH EXIT STATUS", *roff_of(page_of("messages").sections["Statuses"])]
    lines += [".SH FILES", ".TP", "\\fI../share/hagzimot/hagzimot.proof.json\\fR"]
    lines += ["The statement of the proof of this build, seen from the folder of the program; \\fBhagzimot version \\-\\-proof\\fR prints it."]
    lines += see_also([(f"hagzimot-{it.name}", 1) for it in commands] + [(f"hagzimot-{it}", 7) for it in others])
    return "\n".join([*lines, ".PP", f"The encoding: {quoted(HOME)}"]) + "\n"


def other_names(commands):
    """The pages of the manual that are not of a command."""
    names = {os.path.basename(it).removesuffix(".md") for it in glob.glob(f"{MANUAL}/*.md")}
    return sorted(names - {it.name for it in commands} - {"README"})


def pages(program, date=None):
    """The man pages by their names."""
    (whole, commands), version, date = described(program), version_of(program), date or commit_date()
    others = other_names(commands)
    made = {"hagzimot.1": main_page(whole, commands, others, date, version)}
    made |= {f"hagzimot-{it.name}.1": command_page(it, date, version) for it in commands}
    return made | {f"hagzimot-{it}.7": other_page(it, date, version) for it in others}


def place(name):
    """The place of a man page below a prefix."""
    return f"share/man/man{name[-1]}/{name}"


def main(program, folder, date=None):
    os.makedirs(folder, exist_ok=True)
    made = pages(os.path.abspath(program), date)
    for name, text in made.items():
        with open(f"{folder}/{name}", "w", encoding="utf-8") as file:
            file.write(text)
    print(f"{folder}: {len(made)} pages")
    return 0


if __name__ == "__main__":
    if len(sys.argv) not in (3, 4):
        sys.exit(__doc__)
    sys.exit(main(*sys.argv[1:]))
