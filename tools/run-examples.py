#!/usr/bin/env python3
"""Runs each example of README.md and docs/*.md and compares what it prints with what the page shows.

An example begins with `$ `, in a block that is indented by four spaces; or it is a cell of a table, a command, its output and its status where that is not 0:

    | `printf 0 \\| ./h2_bench play`: `fault 25`, status 1 |

A line that ends in ` ..` is compared up to there, and ends its example. A command with no output shown is run and not compared. `serve` runs beside the commands
behind it, at a port that is free, and its lines are those that begin with `connection` or a number and a colon; where curl is not installed, it and what follows it in its example are left
out; so is what follows nghttpd, whose versions differ (tests/clients.sh judges it). Other commands that name port 8080 have a free one too. An output that differs is shown; the last line is `N passed, M failed`, an example each.

    tools/run-examples.py [--program FILE] [--unproved]     FILE is the proved program of this repository unless it is named; --unproved leaves out the examples
                                                            with a limit on memory, which a program built without proof does not start within

The commands run in a folder that has the repository's files, and the program as h2_bench. A file that `cat FILE` shows and that is not there is written first.
"""

import glob
import itertools
import os
import re
import shutil
import socket
import subprocess
import sys
import tempfile

MARK = "@@ next @@"
CELL = re.compile(r"`([^`]*\./h2_bench[^`]*)`: `([^`]*)`(?:, status (\d+))?")
PORT = "8080"
# A line that `serve` prints of a connection.
SERVER_LINE = re.compile(r"connection |\d+: ")


def examples(path):
    """The blocks of a page that are indented by four spaces and begin with a command: for each a list of (command, lines shown)."""
    blocks, block = [], []
    for line in [*open(path, encoding="utf-8").read().split("\n"), "."]:
        if line.startswith("    ") or (block and not line):
            block.append(line[4:])
        else:
            blocks.append(block)
            block = []
    for block in blocks:
        shown = []
        for line in block if block and block[0].startswith("$ ") else []:
            if line.startswith("$ "):
                shown.append((line[2:], []))
            else:
                shown[-1][1].append(line)
        if shown:
            yield shown


def cells(path):
    """The examples in the tables of a page: for each the command, the line shown and the status."""
    for line in open(path, encoding="utf-8"):
        if line.startswith("|"):
            for cell in re.split(r"(?<!\\)\|", line.strip().strip("|")):
                found = CELL.fullmatch(cell.strip())
                if found:
                    yield found[1].replace("\\|", "|"), found[2], int(found[3] or 0)


def printed(commands):
    """What each command prints, run one after another in one shell."""
    script = "\n".join(f"{command}\nsaved=$?; echo '{MARK}'; (exit $saved)" for command in commands)
    ran = subprocess.run(["bash", "-c", script], capture_output=True, text=True)
    return [part.strip("\n").split("\n") if part.strip("\n") else [] for part in ran.stdout.split(MARK + "\n")]


def free_port():
    with socket.socket() as one:
        one.bind(("127.0.0.1", 0))
        return str(one.getsockname()[1])


def served(block):
    """What the commands of a block print that begins with `serve .. &`, at a free port: its lines among those of the commands, as they are shown."""
    port = free_port()
    at_port = [(command.replace(PORT, port), shown) for command, shown in block]
    server = subprocess.Popen(["bash", "-c", f"exec {at_port[0][0].rstrip('& ')}"], stdout=subprocess.PIPE, text=True)
    outputs = [[server.stdout.readline().rstrip("\n").replace(port, PORT)]]
    try:
        for command, shown in at_port[1:]:
            ran = subprocess.run(["bash", "-c", command], capture_output=True, text=True, timeout=60)
            own = ran.stdout.rstrip("\n").split("\n") if ran.stdout.rstrip("\n") else []
            lines = sum(bool(SERVER_LINE.match(line)) for line in shown)
            outputs.append(own + [server.stdout.readline().rstrip("\n") for _ in range(lines)])
    finally:
        server.kill()
        server.wait()
    return outputs


def printed_at_port(commands):
    """What each command prints, where those that name the port of the pages have one that is free."""
    port = free_port()
    outputs = printed([command.replace(PORT, port) for command in commands])
    return [[line.replace(port, PORT) for line in lines] for lines in outputs]


def outputs_of(block):
    """What each command of a block prints; of `serve` and the commands behind it only where curl is installed."""
    left_out = ("nghttpd ",) if shutil.which("curl") else ("nghttpd ", "curl ")
    block = list(itertools.takewhile(lambda pair: not any(word in pair[0] for word in left_out), block))
    at = next((at for at, pair in enumerate(block) if " serve " in pair[0] and pair[0].endswith("&")), len(block))
    outputs = printed_at_port([command for command, _ in block[:at]])[:at]
    if at < len(block) and shutil.which("curl"):
        outputs += served(block[at:])
    return outputs


def agrees(shown, got):
    for at, line in enumerate(shown):
        if line.endswith(" .."):
            return at < len(got) and got[at].startswith(line[:-3])
        if at >= len(got) or got[at] != line:
            return False
    return len(got) == len(shown)


def folder_with(program, top):
    """A new folder with the files of the repository, and the program in the launcher's place."""
    folder = tempfile.mkdtemp(prefix="h2_bench-examples-")
    for name in os.listdir(top):
        os.symlink(program if name == "h2_bench" else f"{top}/{name}", f"{folder}/{name}")
    return folder


def write_shown(block):
    """Writes the files that a block shows by `cat` and that are not there, and returns their names."""
    made = []
    for command, shown in block:
        name = command.removeprefix("cat ")
        if name != command and re.fullmatch(r"[\w.-]+", name) and not os.path.exists(name):
            made.append(name)
            with open(name, "w", encoding="utf-8") as file:
                file.write("\n".join(shown).strip("\n") + "\n")
    return made


def results(path):
    """Each example of a page whose output is shown: the command, the lines shown and the lines printed."""
    for block in examples(path):
        made = write_shown(block)
        given = outputs_of(block)
        for name in made:
            os.remove(name)
        for (command, shown), got in zip(block, given):
            shown = "\n".join(shown).strip("\n")
            if shown:
                yield command, shown.split("\n"), got


def cell_results(path, unproved):
    """The same of each example in a table; its status is a line more."""
    for command, shown, status in cells(path):
        if not (unproved and "ulimit" in command):
            yield command, [*shown.split("\n"), f"status {status}"], [line for part in printed([command, "echo status $?"]) for line in part]


def program_in(words, top):
    if words[:1] == ["--program"] and len(words) == 2:
        return os.path.abspath(words[1])
    return subprocess.run([sys.executable, "-B", f"{top}/tools/program.py", "proved"], check=True, stdout=subprocess.PIPE, text=True).stdout.strip()


def main():
    top = os.path.dirname(os.path.dirname(os.path.abspath(__file__)))
    words = [word for word in sys.argv[1:] if word != "--unproved"]
    unproved = len(words) < len(sys.argv) - 1
    folder = folder_with(program_in(words, top), top)
    passed = failed = 0
    try:
        os.chdir(folder)
        for path in ["README.md", *sorted(glob.glob("docs/*.md"))]:
            for command, shown, got in [*results(path), *cell_results(path, unproved)]:
                if agrees(shown, got):
                    passed += 1
                else:
                    failed += 1
                    print(f"{path}: {command}", "  shown:", *shown, "  printed:", *got, sep="\n    ")
    finally:
        os.chdir(top)
        shutil.rmtree(folder)
    print(f"{passed} passed, {failed} failed")
    return 1 if failed else 0


sys.exit(main())
