#!/usr/bin/env python3
"""Runs the program as the transcripts of tests/runs say, and compares what it prints with what they say.

    tests/runs.py PROGRAM [FILE..]                 runs these files, or all of tests/runs, with this executable
    tests/runs.py --unproved [PROGRAM] [FILE..]    the same with a program built without proof (that of tools/program.py), but for the runs over more than 100,000
                                                   octets, for which it is too slow

A file has paragraphs with an empty line between them. A paragraph of lines that begin with `;` is a comment. Any other is a run: a line that says what it shows,
and lines that begin with a mark and a blank:

    $ h2_bench WORD..    the command, quoted as for a shell; `< FILE` at its end takes a file of the repository as input, `> FILE` writes the output there. Several
                         such lines are several commands with the same input and the same results; `{1..9}` in a line makes one command for each number
    < LINE               a line of the input
    > LINE               a line of the output that is wanted. Input and output may alternate, as in a session; all of the output is compared, octet for octet
    ~ 0..6 3 6           moves of `debug`: to each of these positions, by `step 1`, `back 1` or `go`, where it is not there already, and `show`. What is wanted of
                         `show` is what `play --each` prints of that item with the same words and octets
    ! LINE               a line of standard error that is wanted; a last line that ends in ` ..` is compared up to there. Without such lines it is empty, but for
                         a sentence where a line of the output is `fault N`, or the output was not written (of that only that it can be read and ends in a full
                         stop; with --quiet it is empty), and for what is said of an empty input
                         and of a window below the credit
    = STATUS             the exit status that is wanted; 0 without this line
    NAME| LINE           a line of the file NAME in the folder of the run. A run without files is run at the top of the repository

A line that ends in a backslash has no line feed. Braces stand for other text; with anything else in them they are themselves.

    {PREFACE}, {RAW 00}, {PING 00 0 x0102030405060708}    a line of a script: its octets as hex digits
    {70000 * 61}                                          a text so many times
    {hex www.example.com}                                 the hex digits of a text
    {xff}                                                 octets
    {folder}                                              the path of the folder of the run; in the output too
    {NAME}                                                a text that a paragraph of the file defines: a line `{NAME} is`, and then lines that begin with `| `

Each command is counted. The last line is `N passed, M failed`, and the status is 1 where one failed.
"""

import concurrent.futures
import difflib
import glob
import os
import re
import shlex
import subprocess
import sys
import tempfile

sys.dont_write_bytecode = True
import script  # noqa: E402

TOP = os.path.dirname(os.path.dirname(os.path.abspath(__file__)))
SECONDS = 300
MOST_UNPROVED = 100_000
FILE_LINE = re.compile(r"([^\s|]+)\| ?(.*)", re.DOTALL)
SENTENCES = re.compile(rb"([ -~]+\.\n)+")
# What is said where a window is below the credit, beside all else.
ADVICE = re.compile(rb"--window \d+ is below --credit \d+: [ -~]+\.\n")
RANGE = re.compile(r"\{(\d+)\.\.(\d+)\}")


class BadRun(Exception):
    """A paragraph that can't be read."""


class Run:
    """A command and what is wanted of it. `session` has the parts of input and output in their order: a mark and octets, or `~` and positions."""

    def __init__(self, place, title):
        self.place, self.title = place, title
        self.command, self.words, self.source, self.sink = "", [], None, None
        self.session, self.errors, self.status, self.files = [], b"", 0, {}

    def with_command(self, command):
        """The same with this command."""
        run = Run(self.place, self.title)
        run.__dict__.update({**self.__dict__, "command": command})
        words = shlex.split(command.replace("{folder}", "\0"))
        if len(words) > 2 and words[-2] in ("<", ">"):
            run.source, run.sink = (words[-1], None) if words[-2] == "<" else (None, words[-1])
            words = words[:-2]
        if words[:1] != ["h2_bench"]:
            raise BadRun("a command begins with `$ h2_bench`")
        run.words = words[1:]
        return run

    def has_moves(self):
        return any(mark == "~" for mark, _ in self.session)

    def is_large(self):
        """Whether it goes over more octets than the program built without proof runs over in a few seconds."""
        parts = [part for mark, part in self.session if mark != "~"]
        return sum(map(len, [*parts, *self.files.values()])) > MOST_UNPROVED


def closing(text, opening):
    """Where the brace at `opening` is closed, or -1."""
    depth = 0
    for at in range(opening, len(text)):
        depth += {"{": 1, "}": -1}.get(text[at], 0)
        if depth == 0:
            return at
    return -1


def meaning(inside, names):
    """The octets that braces stand for, or None."""
    times = re.fullmatch(r"(\d+) \* (.*)", inside, re.DOTALL)
    if times:
        return int(times[1]) * expanded(times[2], names)
    if inside.startswith("hex "):
        return expanded(inside[4:], names).hex().encode()
    if re.fullmatch(r"x([0-9a-f]{2})+", inside):
        return bytes.fromhex(inside[1:])
    if inside in names:
        return names[inside]
    try:
        octets = script.octets(inside)
    except ValueError as error:
        raise BadRun(f"{{{inside}}}: {error}") from error
    return None if octets is None else octets.hex().encode()


def expanded(text, names):
    """The octets of a text with its braces replaced."""
    found, at = b"", 0
    while "{" in text[at:]:
        opening = text.index("{", at)
        end = closing(text, opening)
        value = None if end < 0 else meaning(text[opening + 1 : end], names)
        if value is None:
            value, end = b"{", opening
        found += text[at:opening].encode() + value
        at = end + 1
    return found + text[at:].encode()


def line_octets(text, names):
    if text.endswith("\\"):
        return expanded(text[:-1], names)
    return expanded(text, names) + b"\n"


def positions(text):
    """The numbers of `0..6 3`."""
    found = []
    for part in text.split():
        first, _, last = part.partition("..")
        first, last = int(first), int(last or first)
        found += range(first, last + 1) if first <= last else range(first, last - 1, -1)
    return found


def commands(line):
    """A line of a command, once for each number of its range."""
    span = RANGE.search(line)
    if not span:
        return [line]
    return [line[: span.start()] + str(number) + line[span.end() :] for number in range(int(span[1]), int(span[2]) + 1)]


def read_line(run, found, line, names):
    """Takes one line of a run; `found` gathers its commands."""
    mark, text = line[:1], line[2:]
    named = FILE_LINE.fullmatch(line)
    if line[1:2] not in ("", " ") and not named:
        raise BadRun(f"a line without a mark: {line}")
    if mark == "$":
        found += commands(text)
    elif mark in "<>":
        run.session.append((mark, line_octets(text, names)))
    elif mark == "~":
        run.session.append((mark, positions(text)))
    elif mark == "!":
        run.errors += line_octets(text, names)
    elif mark == "=":
        run.status = int(text)
    elif named:
        run.files[named[1]] = run.files.get(named[1], b"") + line_octets(named[2], names)
    else:
        raise BadRun(f"a line without a mark: {line}")


def read_run(place, lines, names):
    """The runs of a paragraph: one for each of its commands."""
    run, found = Run(place, lines[0]), []
    for line in lines[1:]:
        read_line(run, found, line, names)
    if not found:
        raise BadRun("a run without a command")
    return [run.with_command(command) for command in found]


def read_file(path):
    """The runs of a file."""
    runs, names, lines, number = [], {}, [], 0
    for line in [*open(path, encoding="utf-8").read().split("\n"), ""]:
        number += 1
        if line:
            lines.append(line)
            continue
        defined = lines and re.fullmatch(r"\{(.*)\} is", lines[0])
        place = f"{os.path.relpath(path, TOP)}:{number - len(lines)}"
        try:
            if defined:
                names[defined[1]] = b"\n".join(expanded(it[2:], names) for it in lines[1:])
            elif lines and not lines[0].startswith(";"):
                runs += read_run(place, lines, names)
        except (BadRun, ValueError) as error:
            sys.exit(f"{place}: {error}")
        lines = []
    return runs


def called(program, words, octets, folder):
    """The program run over octets."""
    how = {"executable": program, "cwd": folder, "timeout": SECONDS, "check": False}
    return subprocess.run(["h2_bench", *words], input=octets, capture_output=True, **how)


def called_on(program, run, words, folder):
    """The program run over the files that its command names."""
    how = {"executable": program, "cwd": folder, "timeout": SECONDS, "check": False}
    source = os.open(os.path.join(TOP, run.source or os.devnull), os.O_RDONLY)
    sink = os.open(run.sink, os.O_WRONLY) if run.sink else subprocess.PIPE
    try:
        return subprocess.run(["h2_bench", *words], stdin=source, stdout=sink, stderr=subprocess.PIPE, **how)
    finally:
        os.close(source)
        if run.sink:
            os.close(sink)


def shown_items(program, run, words, folder):
    """What `show` prints at each position: what `play --each` prints of the items."""
    first = b"".join(octets for mark, octets in run.session if mark == "<").split(b"\n")[0]
    text = called(program, ["play", "--each", *words[1:]], first, folder).stdout
    return [b"at " + item for item in text.split(b"item ")[1:]]


def move(before, position):
    """The command that moves the debugger from a position to another."""
    if position == before + 1:
        return "step 1\n"
    return "back 1\n" if position == before - 1 else f"go {position}\n"


def moves(places, before, items):
    """The commands for moves to these positions, and what is wanted of them."""
    asked, wanted = b"", b""
    for position in places:
        if position != before:
            asked += move(before, position).encode()
            wanted += f"at {position}\n".encode()
        asked += b"show\n"
        wanted += items[position] if position < len(items) else b"no such item\n"
        before = position
    return asked, wanted


def position_in(output, before):
    """The position that a session is at after this output."""
    found = re.findall(rb"^at (\d+)$", output, re.MULTILINE)
    return int(found[-1]) if found else before


def exchanged(run, items):
    """The input of a run and the output that is wanted."""
    taken, wanted, place = b"", b"", 0
    for mark, part in run.session:
        if mark == "<":
            taken += part
        elif mark == ">":
            wanted += part
            place = position_in(part, place)
        else:
            asked, answers = moves(part, place, items)
            taken += asked
            wanted += answers
            place = part[-1]
    return taken, wanted


def words_in(run, folder):
    return [expanded(word, {}).replace(b"\0", folder.encode()) for word in run.words]


def write_files(run, folder):
    for name, octets in run.files.items():
        path = os.path.join(folder, name)
        os.makedirs(os.path.dirname(path), exist_ok=True)
        with open(path, "wb") as file:
            file.write(octets.replace(b"{folder}", folder.encode()))


def clipped(line):
    return line if len(line) <= 160 else f"{line[:120]} .. ({len(line)} characters) .. {line[-20:]}"


def around(wanted, printed):
    """Two long lines from shortly before the first place where they differ."""
    at = next((at for at, pair in enumerate(zip(wanted, printed)) if pair[0] != pair[1]), min(len(wanted), len(printed)))
    front = f"(behind {at - 20} characters) .. " if at > 60 else ""
    begin = at - 20 if at > 60 else 0
    return clipped(front + wanted[begin:]), clipped(front + printed[begin:])


def lines_of(octets):
    """Octets as lines that a terminal can show."""
    text = octets.decode("utf-8", "backslashreplace")
    return "".join(it if it.isprintable() or it == "\n" else f"\\x{ord(it):02x}" for it in text).splitlines(keepends=True)


def difference(what, wanted, printed):
    """Readable lines of how octets differ; none where they are the same."""
    if wanted == printed:
        return []
    wanted, printed = lines_of(wanted), lines_of(printed)
    lines = [f"  {what}, - wanted, + printed:"]
    found = list(difflib.unified_diff(wanted, printed, n=1, lineterm=""))[2:60]
    at = 0
    while at < len(found):
        line = found[at].rstrip("\n")
        following = found[at + 1].rstrip("\n") if at + 1 < len(found) else ""
        if line[:1] == "-" and following[:1] == "+" and max(len(line), len(following)) > 160:
            pair = around(line[1:], following[1:])
            lines += [f"    -{pair[0]}", f"    +{pair[1]}"]
            at += 2
            continue
        lines.append("    " + clipped(line) + ("" if found[at].endswith("\n") or line[:2] == "@@" else "   (no line feed)"))
        at += 1
    return lines


def has_fault(output):
    return re.search(rb'^(fault \d|\{"fault":)', output, re.MULTILINE) is not None


def errors_agree(wanted, printed, is_fault):
    if not wanted:
        printed = ADVICE.sub(b"", printed)
    if not wanted and printed == b"standard input: no octets.\n":
        return True
    if is_fault and not wanted:
        return SENTENCES.fullmatch(printed) is not None
    if wanted.endswith(b" ..\n"):
        return printed.startswith(wanted[:-3])
    return wanted == printed


def problems(run, wanted, found):
    """How a run went otherwise than is wanted."""
    lines = difference("standard output", wanted, found.stdout or b"")
    if not errors_agree(run.errors, found.stderr, "--quiet" not in run.words and (found.returncode == 3 or has_fault(found.stdout or b""))):
        lines += difference("standard error", run.errors, found.stderr)
    if found.returncode != run.status:
        lines.append(f"  status: wanted {run.status}, was {found.returncode}")
    return lines


def judged(program, run):
    """Runs a command; the lines of what is wrong with it."""
    with tempfile.TemporaryDirectory(prefix="h2-runs-") as folder:
        write_files(run, folder)
        at = folder if run.files else TOP
        words = words_in(run, folder)
        try:
            items = shown_items(program, run, words, at) if run.has_moves() else []
            taken, wanted = exchanged(run, items)
            wanted = wanted.replace(b"{folder}", folder.encode())
            if run.source or run.sink:
                return problems(run, wanted, called_on(program, run, words, at))
            return problems(run, wanted, called(program, words, taken, at))
        except (OSError, subprocess.TimeoutExpired) as error:
            return [f"  {clipped(str(error))}"]


def report(run, lines):
    print(f"FAILED {run.place}: {run.title}", f"  $ {clipped(run.command)}", *lines, sep="\n")


def run_all(program, runs):
    """Runs all side by side; how many failed."""
    failed = 0
    with concurrent.futures.ThreadPoolExecutor(os.cpu_count()) as pool:
        for run, lines in zip(runs, pool.map(lambda run: judged(program, run), runs)):
            if lines:
                failed += 1
                report(run, lines)
    return failed


def unproved_program():
    """The path of the program built without proof, which is built where it is not there."""
    made = subprocess.run([os.path.join(TOP, "tools", "program.py"), "unproved"], stdout=subprocess.PIPE, text=True, check=False)
    return made.stdout.strip() or sys.exit("runs.py: the program can't be built without proof")


def without_large(runs):
    kept = [run for run in runs if not run.is_large()]
    print(f"{len(runs) - len(kept)} skipped: they go over more than {MOST_UNPROVED} octets")
    return kept


def main():
    words = sys.argv[1:]
    unproved = words[:1] == ["--unproved"]
    if unproved:
        words = words[1:] if words[1:] and not words[1].endswith(".run") else [unproved_program(), *words[1:]]
    if not words:
        sys.exit(__doc__)
    files = words[1:] or sorted(glob.glob(os.path.join(TOP, "tests", "runs", "*.run")))
    runs = [run for path in files for run in read_file(path)]
    if unproved:
        runs = without_large(runs)
    failed = run_all(os.path.abspath(words[0]), runs)
    print(f"{len(runs) - failed} passed, {failed} failed")
    sys.exit(1 if failed or not runs else 0)


if __name__ == "__main__":
    main()
