#!/usr/bin/env python3
"""Prints a man page, and completions for bash, zsh and fish, of what archive_tool's own help texts say.

Usage: tools/help_pages.py PROGRAM man|bash|zsh|fish
The texts are those that PROGRAM prints for `--help` of itself and of each of its commands, so a page never says anything else.
"""
import re
import subprocess
import sys
from pathlib import Path
from typing import NamedTuple

NAME = "archive_tool"
OPTION = re.compile(r"^ {2,6}(?:(-\w), )?(--[\w-]+)(?: <([^>]+)>)?(?: {2,}(.*))?$")
COMMAND = re.compile(r"^ {2}([\w-]+) {2,}(.*)$")
HEADING = re.compile(r"^[A-Z][a-z]+:$")


class Option(NamedTuple):
    """An option of a command: its name with dashes, its value's name if it takes one, and what it does."""

    name: str
    value: str
    text: str


class Command(NamedTuple):
    """A command: its word, its help text as it is printed, what it does in a sentence, and its options."""

    word: str
    help: str
    about: str
    options: list[Option]


def help_of(program: Path, *words: str) -> str:
    """What the program prints for the help of these words."""
    ran = subprocess.run([program, *words, "--help"], stdin=subprocess.DEVNULL, capture_output=True, text=True)
    if ran.returncode or not ran.stdout:
        sys.exit(f"{program} {' '.join(words)} --help ended with status {ran.returncode}: {ran.stderr}")
    return ran.stdout


def options_in(text: str) -> list[Option]:
    """The options of a help text. A text that goes on in the next lines is put together."""
    found: list[Option] = []
    for line in text.splitlines():
        if head := OPTION.match(line):
            found.append(Option(head[2], head[3] or "", head[4] or ""))
        elif found and line.startswith("          ") and line.strip():
            last = found.pop()
            found.append(last._replace(text=f"{last.text} {line.strip()}".strip()))
    return found


def commands_in(text: str) -> dict[str, str]:
    """The words of the commands that a help text lists, but for `help`, each with what it does."""
    listed = text.partition("\nCommands:\n")[2].partition("\n\n")[0]
    return {head[1]: head[2] for line in listed.splitlines() if (head := COMMAND.match(line)) and head[1] != "help"}


def first_sentence(text: str) -> str:
    """The first sentence of a help text."""
    return re.split(r"(?<=[.:])\s", text.strip().replace("\n", " "), maxsplit=1)[0].rstrip(".:")


def commands_of(program: Path) -> tuple[str, list[Command]]:
    """The program's own help text, and its commands."""
    text = help_of(program)
    helps = [(word, about, help_of(program, word)) for word, about in commands_in(text).items()]
    return text, [Command(word, said, about, options_in(said)) for word, about, said in helps]


def roff(text: str) -> str:
    """A text as roff shows it unchanged."""
    lines = text.replace("\\", "\\\\").replace("-", "\\-").splitlines()
    return "\n".join(f"\\&{line}" if line.startswith((".", "'")) else line for line in lines)


def man(version: str, text: str, commands: list[Command]) -> str:
    """The man page."""
    about = first_sentence(text)
    parts = [
        f'.TH {NAME.upper()} 1 "" "{roff(version)}"',
        f".SH NAME\n{NAME} \\- {roff(about[:1].lower() + about[1:])}",
        f".SH SYNOPSIS\n.B {NAME}\n.I command\n.RI [ words ]",
        f".SH DESCRIPTION\n.nf\n{roff(text)}\n.fi",
        ".SH COMMANDS",
    ]
    parts += [f".SS {roff(it.word)}\n.nf\n{roff(it.help)}\n.fi" for it in commands]
    return "\n".join(parts) + "\n"


def bash(commands: list[Command]) -> str:
    """A completion for bash: commands, then options and files."""
    rows = "\n".join(f'        {it.word}) options="{" ".join(option.name for option in it.options)}" ;;' for it in commands)
    words = " ".join(it.word for it in commands)
    return f"""# Completion of {NAME} for bash, printed by tools/help_pages.py.
_{NAME}() {{
    local word=${{COMP_WORDS[COMP_CWORD]}} options=
    if [ "$COMP_CWORD" -eq 1 ]; then
        mapfile -t COMPREPLY < <(compgen -W "{words} --help --version" -- "$word")
        return
    fi
    case "${{COMP_WORDS[1]}}" in
{rows}
    esac
    case "$word" in
        -*) mapfile -t COMPREPLY < <(compgen -W "$options" -- "$word") ;;
        *) mapfile -t COMPREPLY < <(compgen -f -- "$word") ;;
    esac
}}
complete -o filenames -F _{NAME} {NAME}
"""


def quoted(text: str) -> str:
    """A text between single quotes of a shell."""
    return "'" + text.replace("'", "'\\''") + "'"


def zsh(commands: list[Command]) -> str:
    """A completion for zsh."""

    def row(option: Option) -> str:
        about = re.sub(r"[\[\]:]", " ", option.text)
        value = f":{option.value}:_files" if option.value else ""
        return quoted(f"*{option.name}[{about}]{value}")

    listed = " ".join(quoted(f"{it.word}:{it.about.replace(':', ' ')}") for it in commands)
    cases = "\n".join(f"    {it.word}) _arguments {' '.join(map(row, it.options))} '*:file:_files' ;;" for it in commands)
    return f"""#compdef {NAME}
# Completion of {NAME} for zsh, printed by tools/help_pages.py.
if (( CURRENT == 2 )); then
    local -a commands
    commands=({listed})
    _describe command commands
    return
fi
local command=$words[2]
shift words
(( CURRENT-- ))
case "$command" in
{cases}
esac
"""


def fish(commands: list[Command]) -> str:
    """A completion for fish."""
    lines = [f"# Completion of {NAME} for fish, printed by tools/help_pages.py."]
    for it in commands:
        lines.append(f"complete -c {NAME} -n __fish_use_subcommand -f -a {it.word} -d {quoted(it.about)}")
        for option in it.options:
            value = " -r" if option.value else ""
            lines.append(
                f"complete -c {NAME} -n '__fish_seen_subcommand_from {it.word}' -l {option.name.removeprefix('--')}{value} -d {quoted(option.text)}"
            )
    return "\n".join(lines) + "\n"


def page(program: Path, kind: str) -> str:
    """A page of the program, by its kind."""
    text, commands = commands_of(program)
    if kind == "man":
        version = subprocess.run([program, "--version"], capture_output=True, text=True, check=True).stdout.strip()
        return man(version, text, commands)
    return {"bash": bash, "zsh": zsh, "fish": fish}[kind](commands)


if __name__ == "__main__":
    if len(sys.argv) != 3 or sys.argv[2] not in ("man", "bash", "zsh", "fish"):
        sys.exit(__doc__)
    print(page(Path(sys.argv[1]).resolve(), sys.argv[2]), end="")
