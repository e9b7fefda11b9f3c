#!/usr/bin/env python3
"""Writes the manual page and the completions of share/ from what the program prints as help.

    tools/manual.py [--check] [--program FILE]     --check compares instead, and says `N passed, M failed`, a file each; FILE is the program built without proof
                                                   (tools/program.py) unless it is named

share/h2_bench.1 is a page for man; share/h2_bench.bash, share/_h2_bench and share/h2_bench.fish complete commands and options in bash, zsh and fish; share/help has the
help and the version as they are printed, for the launcher where no program is there.
"""

import os
import re
import subprocess
import sys

TOP = os.path.dirname(os.path.dirname(os.path.abspath(__file__)))
SHARE = f"{TOP}/share"
FILES = ("--book", "--in", "--inject", "--junit")
ENVIRONMENT = [
    ("NO_COLOR", "Where it is set and not empty, explain has no colours on a terminal."),
    ("TERM", "Where it is dumb, the same."),
]
EXAMPLES = [
    ("The octets of a script, played with one answer:", "h2_bench asm < get.h2 | h2_bench play 'GET|/|200|6869'"),
    ("A client's octets of a capture, explained:", "tshark -r cap.pcap -Y 'tcp.stream==0 && tcp.dstport==8080' -T fields -e tcp.payload | h2_bench explain"),
    ("Which rule a client broke, of octets as they are, with a status for a script:", "h2_bench explain --strict --raw capture.bin 'GET|/|200|6869'"),
    ("One frame changed, and explained again:", "h2_bench dis capture.hex | sed 's/^WINDOW_UPDATE.*/WINDOW_UPDATE 00 1 w5/' | h2_bench asm | h2_bench explain"),
    ("A person at the keyboard goes through it:", "h2_bench debug capture.hex"),
    ("A server for one connection of a client, with the answers of a book:", "h2_bench serve --book site.toml 8080 1"),
]


def help_of(program, *words):
    """What the program prints as help; its status is 2."""
    return subprocess.run(["h2_bench", *words, "--help"], executable=program, stdout=subprocess.PIPE, text=True, check=False).stdout


def rows(text, title):
    """The rows of a section of a help: the word and what is said of it."""
    found = re.search(rf"^{title}:\n((?:  .*\n)+)", text + "\n", re.M)
    lines = found[1].splitlines() if found else []
    return [tuple(part.strip() for part in re.split(r"\s{2,}", line.strip(), maxsplit=1)) for line in lines]


class Command:
    """A command, as its help describes it."""

    def __init__(self, program, name, about):
        text = help_of(program, name)
        self.name, self.about, self.text = name, about, text
        self.usage = re.search(r"^Usage: (.*)$", text, re.M)[1]
        self.arguments = rows(text, "Arguments")
        self.options = [row for row in rows(text, "Options") if row[0] != "-h, --help"]
        self.takes_files = any("FILE" in f"{word} {about}" for word, about in self.arguments + self.options)


class Help:
    """All that the program says of its words."""

    def __init__(self, program):
        self.text = text = help_of(program)
        self.about = text.split("\n", 1)[0]
        self.version = subprocess.run(["h2_bench", "--version"], executable=program, stdout=subprocess.PIPE, text=True, check=True).stdout
        self.commands = [Command(program, name, about) for name, about in rows(text, "Commands") if name != "help"]
        self.legend = text.split("Print help\n", 1)[1].strip("\n")

    def options(self):
        """Each option once: its word, whether it takes a value, and what is said of it."""
        found = {}
        for command in self.commands:
            for word, about in command.options:
                found.setdefault(word.split()[0], (" " in word, about))
        return found


def roff(text):
    """A text as roff takes it."""
    text = text.replace("\\", "\\e").replace("-", "\\-")
    return "\n".join(("\\&" if line[:1] in (".", "'") else "") + line for line in text.split("\n"))


def page(said):
    """The manual page."""
    lines = ['.TH H2_BENCH 1 "" "h2_bench" "User Commands"', ".SH NAME", roff(f"h2_bench - {said.about[0].lower()}{said.about[1:]}"), ".SH SYNOPSIS", ".nf"]
    lines += [roff(command.usage) for command in said.commands]
    lines += [".fi", ".SH DESCRIPTION", "The commands, with their arguments and options; --help after a command prints the same."]
    for command in said.commands:
        lines += [".SS " + roff(command.usage), roff(command.about) + "."]
        for word, about in command.arguments + command.options:
            lines += [".TP", ".B " + roff(word), roff(about)]
    lines += [".TP", ".B \\-V, \\-\\-version", "In place of a command, or after one: prints the version, with status 0. \\-\\-help ends with status 2, so that a script sees that nothing was done."]
    lines += [".SH OUTPUT AND EXIT STATUS", ".nf", roff(said.legend), ".fi", ".SH ENVIRONMENT"]
    for word, about in ENVIRONMENT:
        lines += [".TP", ".B " + roff(word), roff(about)]
    lines += [".SH EXAMPLES"]
    for about, words in EXAMPLES:
        lines += [roff(about), ".PP", ".nf", ".RS", roff(words), ".RE", ".fi", ".PP"]
    return "\n".join(lines) + "\n"


def words_of(command):
    return [word.split()[0] for word, _ in command.options] + ["--help"]


def bash(said):
    """The completion of bash."""
    cases = "".join(f'        {command.name}) words="{" ".join(words_of(command))}" ;;\n' for command in said.commands)
    names = " ".join(command.name for command in said.commands)
    taking = " | ".join([*(f"{command.name}:*" for command in said.commands if command.takes_files), *(f"*:{word}" for word in FILES)])
    return f"""# Completes the commands and options of h2_bench in bash. Written by tools/manual.py.
_h2_bench() {{
    local words="" current=${{COMP_WORDS[COMP_CWORD]}} before=${{COMP_WORDS[COMP_CWORD - 1]}}
    if [ "$COMP_CWORD" = 1 ]; then
        mapfile -t COMPREPLY < <(compgen -W "{names} help --help --version" -- "$current")
        return
    fi
    case ${{COMP_WORDS[1]}} in
{cases}    esac
    if [[ $current == -* ]]; then
        mapfile -t COMPREPLY < <(compgen -W "$words" -- "$current")
    elif [ "$before" = --prompt ]; then
        mapfile -t COMPREPLY < <(compgen -W "dot line" -- "$current")
    else
        case ${{COMP_WORDS[1]}}:$before in
            {taking}) mapfile -t COMPREPLY < <(compgen -f -- "$current") ;;
            help:help) mapfile -t COMPREPLY < <(compgen -W "{names}" -- "$current") ;;
        esac
    fi
}}
complete -o filenames -F _h2_bench h2_bench
"""


def quoted(text):
    """A text between single quotes, for a shell."""
    return "'" + text.replace("'", "'\\''") + "'"


def zsh_option(word, about):
    about = about.replace("[", "(").replace("]", ")").replace(":", "\\:")
    name = word.split()[0]
    if " " not in word:
        return quoted(f"{name}[{about}]")
    value = ":file:_files" if name in FILES else ":form:(dot line)" if name == "--prompt" else ":value: "
    return quoted(f"{name}[{about}]{value}")


def zsh(said):
    """The completion of zsh."""
    names = "\n".join("        " + quoted(f"{command.name}:{command.about.replace(':', chr(92) + ':')}") for command in said.commands)
    cases = ""
    for command in said.commands:
        others = "'*:file:_files'" if command.takes_files else "'*: : '"
        options = " \\\n                ".join([*(zsh_option(word, about) for word, about in command.options), "'--help[Prints help]'", others])
        cases += f"        {command.name})\n            _arguments \\\n                {options}\n            ;;\n"
    return f"""#compdef h2_bench
# Completes the commands and options of h2_bench in zsh. Written by tools/manual.py.
_h2_bench() {{
    local -a commands
    commands=(
{names}
    )
    if (( CURRENT == 2 )); then
        _describe command commands
        compadd -- help --help --version
        return
    fi
    if (( CURRENT == 3 )) && [[ $words[2] == help ]]; then
        _describe command commands
        return
    fi
    local command=$words[2]
    shift words
    (( CURRENT-- ))
    case $command in
{cases}    esac
}}
_h2_bench "$@"
"""


def fish(said):
    """The completion of fish."""
    lines = [
        "# Completes the commands and options of h2_bench in fish. Written by tools/manual.py.",
        "complete -c h2_bench -f",
        "complete -c h2_bench -l help -d 'Prints help'",
        "complete -c h2_bench -n __fish_use_subcommand -l version -d 'Prints the version'",
        "complete -c h2_bench -n __fish_use_subcommand -a help -d 'Prints help'",
        f"complete -c h2_bench -n '__fish_seen_subcommand_from help' -a '{' '.join(command.name for command in said.commands)}'",
    ]
    for command in said.commands:
        lines.append(f"complete -c h2_bench -n __fish_use_subcommand -a {command.name} -d {quoted(command.about)}")
        if command.takes_files:
            lines.append(f"complete -c h2_bench -n '__fish_seen_subcommand_from {command.name}' -F")
        for word, about in command.options:
            name = word.split()[0].removeprefix("--")
            value = "" if " " not in word else " -r -F" if f"--{name}" in FILES else " -x -a 'dot line'" if name == "prompt" else " -x"
            lines.append(f"complete -c h2_bench -n '__fish_seen_subcommand_from {command.name}' -l {name}{value} -d {quoted(about)}")
    return "\n".join(lines) + "\n"


def made(said):
    """The files of share/ by their names."""
    helps = {"help/h2_bench": said.text, "help/version": said.version, **{f"help/{command.name}": command.text for command in said.commands}}
    return {"h2_bench.1": page(said), "h2_bench.bash": bash(said), "_h2_bench": zsh(said), "h2_bench.fish": fish(said), **helps}


def read(path):
    if not os.path.isfile(path):
        return ""
    with open(path, encoding="utf-8") as file:
        return file.read()


def main(words):
    checks = "--check" in words
    words = [word for word in words if word != "--check"]
    if words and (words[0] != "--program" or len(words) != 2):
        sys.exit(__doc__)
    program = words[1] if words else subprocess.run([f"{TOP}/tools/program.py", "unproved"], stdout=subprocess.PIPE, text=True, check=True).stdout.strip()
    files = made(Help(os.path.abspath(program)))
    if not checks:
        os.makedirs(f"{SHARE}/help", exist_ok=True)
        for name, text in files.items():
            with open(f"{SHARE}/{name}", "w", encoding="utf-8") as file:
                file.write(text)
        return 0
    stale = [name for name, text in files.items() if read(f"{SHARE}/{name}") != text]
    for name in stale:
        print(f"share/{name} is not what tools/manual.py writes")
    print(f"{len(files) - len(stale)} passed, {len(stale)} failed")
    return 1 if stale else 0


sys.exit(main(sys.argv[1:]))
