#!/usr/bin/env python3
"""Writes completions for bash, zsh and fish from the help of the built command.

usage: tools/completions.py PROGRAM FOLDER

FOLDER gets hagzimot.bash, _hagzimot (zsh) and hagzimot.fish. They complete the commands, their options, the values of an
option if the help lists them, and names of files.
"""
import os
import sys

from command_help import described

BASH = """# Completion of hagzimot for bash, made from its own help.
_hagzimot_options() {{
    case "$1" in
{options}
    esac
}}

# The values of an option: words, the name of a file (-f) or anything (-). An option without a value has no line.
_hagzimot_values() {{
    case "$1" in
{values}
    esac
}}

_hagzimot() {{
    local current="${{COMP_WORDS[COMP_CWORD]}}" before="${{COMP_WORDS[COMP_CWORD - 1]}}" command="" word values
    # Words are cut at an equals sign, so --in=framed is three of them.
    if [ "$current" = "=" ]; then
        current=""
    elif [ "$before" = "=" ]; then
        before="${{COMP_WORDS[COMP_CWORD - 2]}}"
    fi
    for word in "${{COMP_WORDS[@]:1:COMP_CWORD - 1}}"; do
        case "$word" in
        {either})
            command="$word"
            break
            ;;
        esac
    done
    COMPREPLY=()
    if [ -z "$command" ]; then
        mapfile -t COMPREPLY < <(compgen -W "{names} help {own}" -- "$current")
        return
    fi
    values="$(_hagzimot_values "$command $before")"
    case "$values" in
    "")
        if [[ "$current" == -* ]]; then
            mapfile -t COMPREPLY < <(compgen -W "$(_hagzimot_options "$command")" -- "$current")
        else
            compopt -o filenames 2> /dev/null
            mapfile -t COMPREPLY < <(compgen -f -- "$current")
        fi
        ;;
    -f)
        compopt -o filenames 2> /dev/null
        mapfile -t COMPREPLY < <(compgen -f -- "$current")
        ;;
    -) ;;
    *) mapfile -t COMPREPLY < <(compgen -W "$values" -- "$current") ;;
    esac
}}
complete -F _hagzimot hagzimot
"""
ZSH = """#compdef hagzimot
# Completion of hagzimot for zsh, made from its own help.
_hagzimot() {{
    local -a commands
    local line state curcontext="$curcontext"
    commands=(
{commands}
    )
    _arguments -C \\
{own}
        '1: :->command' \\
        '*:: :->rest' && return
    case "$state" in
    command) _describe -t commands 'hagzimot command' commands ;;
    rest)
        case "$line[1]" in
{cases}
        esac
        ;;
    esac
}}
if [ "$funcstack[1]" = _hagzimot ]; then
    _hagzimot "$@"
else
    compdef _hagzimot hagzimot
fi
"""


def flags_of(options):
    return [flag for it in options for flag in it.flags]


def bash_values(option):
    """The values that bash offers after an option."""
    if option.choices:
        return " ".join(option.choices)
    return "-f" if option.is_file else "-"


def bash(whole, commands):
    options = [f"    {it.name}) echo '{' '.join(flags_of(it.options))}' ;;" for it in commands]
    options.append("    help) ;;")
    values = []
    for command in commands:
        for option in (it for it in command.options if it.value):
            words = " | ".join(f"'{command.name} {flag}'" for flag in option.flags)
            values.append(f"    {words}) echo '{bash_values(option)}' ;;")
    names, own = " ".join(it.name for it in commands), " ".join(flags_of(whole.options))
    return BASH.format(options="\n".join(options), values="\n".join(values), names=names, own=own, either=names.replace(" ", " | "))


def zsh_text(text):
    """A text within the quotes of a word of _arguments."""
    for mark in ("\\", ":", "[", "]"):
        text = text.replace(mark, f"\\{mark}")
    return text.replace("'", "'\\''")


def zsh_action(option):
    """The values that zsh offers."""
    name = zsh_text(option.value.strip("<>[].") or "value")
    if option.choices:
        return f":{name}:({' '.join(option.choices)})"
    return f":{name}:_files" if option.is_file else f":{name}: "


def zsh_options(options):
    """The words of _arguments for options; those of one option exclude each other."""
    for option in options:
        text = zsh_text(option.plain_text.partition(";")[0])
        apart = f"({' '.join(option.flags)})" if len(option.flags) > 1 else ""
        # A call may be made many times.
        apart = "*" if option.value and "PATH" in option.value else apart
        for flag in option.flags:
            yield f"'{apart}{flag}[{text}]{zsh_action(option) if option.value else ''}' \\"


def zsh(whole, commands):
    names = [f"        '{it.name}:{zsh_text(it.about)}'" for it in commands]
    cases = []
    for command in commands:
        lines = [f"                {it}" for it in zsh_options(command.options)]
        cases += [f"        {command.name})", "            _arguments \\", *lines, "                '*:file:_files'", "            ;;"]
    own = "\n".join(f"        {it}" for it in zsh_options(whole.options))
    return ZSH.format(commands="\n".join(names), own=own, cases="\n".join(cases))


def fish_text(text):
    return text.replace("\\", "\\\\").replace("'", "\\'")


def fish_line(when, option):
    """An option of a command for fish."""
    flags = " ".join(f"-l {it[2:]}" if it.startswith("--") else f"-s {it[1:]}" for it in option.flags)
    text = fish_text(option.plain_text.partition(";")[0])
    value = f" -x -a '{' '.join(option.choices)}'" if option.choices else " -r -F" if option.is_file else " -x" if option.value else ""
    return f"complete -c hagzimot -n '{when}' {flags}{value} -d '{text}'"


def fish(whole, commands):
    names = " ".join(it.name for it in commands)
    lines = ["# Completion of hagzimot for fish, made from its own help.", "complete -c hagzimot -n __fish_use_subcommand -f"]
    lines += [fish_line("__fish_use_subcommand", it) for it in whole.options]
    for command in commands:
        lines.append(f"complete -c hagzimot -n __fish_use_subcommand -a {command.name} -d '{fish_text(command.about)}'")
        when = f"__fish_seen_subcommand_from {command.name}"
        lines += [fish_line(when, it) for it in command.options]
    lines.append(f"complete -c hagzimot -n '__fish_seen_subcommand_from help' -x -a '{names}'")
    return "\n".join(lines) + "\n"


SHELLS = {"hagzimot.bash": bash, "_hagzimot": zsh, "hagzimot.fish": fish}


def write(program, folder):
    """Writes the three files into a folder."""
    whole, commands = described(os.path.abspath(program))
    os.makedirs(folder, exist_ok=True)
    for name, completion in SHELLS.items():
        with open(f"{folder}/{name}", "w", encoding="utf-8") as file:
            file.write(completion(whole, commands))


def main(program, folder):
    write(program, folder)
    print(f"{folder}: {', '.join(SHELLS)}")
    return 0


if __name__ == "__main__":
    if len(sys.argv) != 3:
        sys.exit(__doc__)
    sys.exit(main(*sys.argv[1:]))
