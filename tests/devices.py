#!/usr/bin/env python3
"""The program between devices that transcripts don't show: outputs that are closed, full or slow, inputs that are slow, pipes that are named as files, and the launcher on a terminal.

    tests/devices.py PROGRAM

The launcher is tried as tools/install.sh lays it out. The last line is `N passed, M failed`; the status is 1 where one failed.
"""

import fcntl
import os
import pty
import resource
import shutil
import signal
import subprocess
import sys
import tempfile
import threading
import time

TOP = os.path.dirname(os.path.dirname(os.path.abspath(__file__)))
SECONDS = 120

# A script of 20,000 frames, which `dis` writes as more than a pipe holds.
MANY = b"PREFACE\nSETTINGS 00 0 -\n" + 20_000 * b"PING 00 0 x0102030405060708\n"


class Ran:
    """A run of the program: its status and what it said on standard error."""

    def __init__(self, program, words, **how):
        self.errors = tempfile.TemporaryFile()
        self.process = subprocess.Popen(["h2_bench", *words], executable=program, stderr=self.errors, cwd=TOP, **how)

    def ended(self):
        status = self.process.wait(timeout=SECONDS)
        self.errors.seek(0)
        return status, self.errors.read().decode()


def hex_of_many(program):
    return subprocess.run(["h2_bench", "asm"], executable=program, input=MANY, stdout=subprocess.PIPE, check=True).stdout


def without_waiting(descriptor):
    fcntl.fcntl(descriptor, fcntl.F_SETFL, fcntl.fcntl(descriptor, fcntl.F_GETFL) | os.O_NONBLOCK)


def a_closed_output_is_status_3(program):
    """Nothing is written where standard output is closed; a sentence says so."""
    ran = Ran(program, ["play", "--in", "examples/get.hex"], preexec_fn=lambda: os.close(1))
    status, said = ran.ended()
    yield status, 3
    yield said.startswith("standard output: "), True


def a_reader_that_leaves_is_status_3(program):
    """Its reader has closed the pipe before anything is written."""
    reader, writer = os.pipe()
    os.close(reader)
    ran = Ran(program, ["play", "--in", "examples/get.hex"], stdout=writer)
    os.close(writer)
    yield ran.ended(), (3, "standard output: its reader has left; the output is not whole.\n")


def a_slow_reader_loses_nothing(program):
    """Standard output is a non-blocking pipe, which is full before its reader begins."""
    octets = hex_of_many(program)
    reader, writer = os.pipe()
    without_waiting(writer)
    ran = Ran(program, ["dis"], stdin=subprocess.PIPE, stdout=writer)
    os.close(writer)
    ran.process.stdin.write(octets)
    ran.process.stdin.close()
    time.sleep(0.5)
    with open(reader, "rb") as end:
        yield end.read() == MANY, True
    yield ran.ended(), (0, "")


def a_slow_writer_loses_nothing(program):
    """Standard input is a non-blocking pipe in which nothing is at first."""
    octets = hex_of_many(program)
    reader, writer = os.pipe()
    without_waiting(reader)
    ran = Ran(program, ["dis"], stdin=reader, stdout=subprocess.PIPE)
    os.close(reader)

    def write():
        time.sleep(0.5)
        with open(writer, "wb") as end:
            end.write(octets)

    threading.Thread(target=write).start()
    yield ran.process.stdout.read() == MANY, True
    yield ran.ended(), (0, "")


def run_of_pipe(program, words, text, **how):
    """What a run prints whose words have the path of a pipe in place of PIPE, with its status and what it says."""
    with tempfile.TemporaryDirectory() as folder:
        pipe = f"{folder}/pipe"
        os.mkfifo(pipe)
        ran = Ran(program, [pipe if word == "PIPE" else word for word in words], stdout=subprocess.PIPE, **how)
        with open(pipe, "wb") as end:
            end.write(text)
        printed = ran.process.communicate(timeout=SECONDS)[0]
        return printed, *(it.replace(pipe, "PIPE") if isinstance(it, str) else it for it in ran.ended())


def a_pipe_is_read_once(program):
    """A pipe that is named as a file gives what a file does: its hex, a case, and what is wrong with its text."""
    with open(f"{TOP}/examples/get.hex", "rb") as file:
        text = file.read()
    for words in (["explain"], ["explain", "--json"]):
        of_file = subprocess.run(["h2_bench", *words, "examples/get.hex"], executable=program, cwd=TOP, stdout=subprocess.PIPE, check=True).stdout
        yield run_of_pipe(program, [*words, "PIPE"], text), (of_file, 0, "")
    yield run_of_pipe(program, ["debug", "--in", "PIPE"], text, stdin=subprocess.DEVNULL), (b"", 0, "")
    yield b"SETTINGS" in run_of_pipe(program, ["explain", "PIPE"], b"; a case\nPREFACE\nSETTINGS 00 0 -\n")[0], True
    wrong = run_of_pipe(program, ["explain", "PIPE"], b"zz")
    yield (wrong[:2], wrong[2].startswith("PIPE, line 1, column 1 (octet 1): `z` is no hex digit")), ((b"fault 25\n", 1), True)


def installed(program, folder):
    """The launcher and the program as tools/install.sh lays them out."""
    os.makedirs(f"{folder}/bin")
    os.makedirs(f"{folder}/libexec/h2_bench")
    shutil.copy(f"{TOP}/h2_bench", f"{folder}/bin/h2_bench")
    shutil.copy(program, f"{folder}/libexec/h2_bench/h2_bench")
    return f"{folder}/bin/h2_bench"


def a_limit_on_files_is_status_3(program):
    """A file that would grow above the limit is a failed write and no signal, as the launcher runs the program."""
    with tempfile.TemporaryDirectory() as folder, open(f"{folder}/out", "wb") as sink:
        launcher = installed(program, folder)

        def limit():
            signal.signal(signal.SIGXFSZ, signal.SIG_DFL)
            resource.setrlimit(resource.RLIMIT_FSIZE, (4096, 4096))

        ran = Ran(launcher, ["dis"], stdin=subprocess.PIPE, stdout=sink, preexec_fn=limit)
        ran.process.stdin.write(hex_of_many(program))
        ran.process.stdin.close()
        yield ran.ended(), (3, "standard output: the file would be larger than is allowed; the output is not whole.\n")


def others_cannot_read_a_file_that_is_written_anew(program):
    """FILE.blessed is its owner's alone, while it is written, whatever the mask: here the system ends the program in the middle of it. FILE stays as it was."""
    with tempfile.TemporaryDirectory() as folder:
        path = os.path.join(folder, "a.h2")
        with open(path, "wb") as file:
            file.write(MANY)
        os.chmod(path, 0o666)

        def limited():
            os.umask(0)
            resource.setrlimit(resource.RLIMIT_FSIZE, (1024, 1024))

        ran = Ran(program, ["check", "--bless", "--in-place", path], stdout=subprocess.DEVNULL, preexec_fn=limited)
        yield ran.ended()[0], -signal.SIGXFSZ
        yield (oct(os.stat(path + ".blessed").st_mode & 0o777), os.path.getsize(path + ".blessed")), ("0o600", 1024)
        with open(path, "rb") as file:
            yield file.read() == MANY, True


def on_terminal(launcher, words, typed, **environment):
    """What a terminal shows of a run on it, with these words and what is typed."""
    child, terminal = pty.fork()
    if child == 0:
        os.environ.pop("NO_COLOR", None)
        os.environ.update(environment)
        os.chdir(TOP)
        os.execv(launcher, ["h2_bench", *words])
    os.write(terminal, typed)
    shown = b""
    while True:
        try:
            part = os.read(terminal, 4096)
        except OSError:
            break
        if not part:
            break
        shown += part
    os.close(terminal)
    return os.waitstatus_to_exitcode(os.waitpid(child, 0)[1]), shown


def terminals_have_colours_but_dumb_ones(program):
    """`explain` on a terminal is coloured, unless TERM is dumb or NO_COLOR is set."""
    with tempfile.TemporaryDirectory() as folder:
        launcher = installed(program, folder)
        words = ["explain", "examples/get.hex"]
        yield b"\x1b[" in on_terminal(launcher, words, b"", TERM="xterm")[1], True
        yield b"\x1b[" in on_terminal(launcher, words, b"", TERM="dumb")[1], False
        yield b"\x1b[" in on_terminal(launcher, words, b"", TERM="xterm", NO_COLOR="1")[1], False


def terminals_have_a_prompt(program):
    """`debug` on a terminal has a prompt, and takes `quit`."""
    with tempfile.TemporaryDirectory() as folder:
        status, shown = on_terminal(installed(program, folder), ["debug", "--in", "examples/get.hex"], b"step 1\nquit\n")
        yield status, 0
        yield b"0> " in shown and b"at 1" in shown and b"1> " in shown, True


def many_refused_lines_are_counted(program):
    """The first hundred lines that `table` refuses have a sentence each, the others one for all."""
    ran = subprocess.run(["h2_bench", "table", "100"], executable=program, input=1_000 * b"x\n", capture_output=True, check=False)
    said = ran.stderr.decode().splitlines()
    yield ran.stdout == 1_000 * b"fault 27\n", True
    yield (len(said), said[0]), (101, "standard input, line 1: `x` is no command; one is add NAME VALUE or max N.")
    yield said[-1], "standard input: 900 more lines were refused."


def a_run_after_each_line_takes_linear_time(program):
    """A case with `;& run` after each line of its script: four times the lines take at most eight times the time of the processor."""
    times = []
    for count in (4_000, 16_000):
        with tempfile.NamedTemporaryFile(suffix=".h2") as file:
            file.write(b"PREFACE\nSETTINGS 00 0 -\n" + count * b"PING 00 0 x0102030405060708\n;& run\n")
            file.flush()
            process = subprocess.Popen(["h2_bench", "check", file.name], executable=program, stdout=subprocess.DEVNULL)
            _, process.returncode, used = os.wait4(process.pid, 0)
            times.append(used.ru_utime)
        yield process.returncode, 0
    yield times[1] <= 8 * times[0] + 0.2, True


TESTS = [
    a_closed_output_is_status_3,
    a_reader_that_leaves_is_status_3,
    a_slow_reader_loses_nothing,
    a_slow_writer_loses_nothing,
    a_pipe_is_read_once,
    a_limit_on_files_is_status_3,
    others_cannot_read_a_file_that_is_written_anew,
    terminals_have_colours_but_dumb_ones,
    terminals_have_a_prompt,
    many_refused_lines_are_counted,
    a_run_after_each_line_takes_linear_time,
]


def main():
    if len(sys.argv) != 2:
        sys.exit(__doc__)
    failed = 0
    for test in TESTS:
        wrong = [pair for pair in test(os.path.abspath(sys.argv[1])) if pair[0] != pair[1]]
        if wrong:
            failed += 1
            print(f"FAILED {test.__name__}: {test.__doc__}")
            for found, wanted in wrong:
                print(f"  wanted {wanted!r}", f"  found  {found!r}", sep="\n")
    print(f"{len(TESTS) - failed} passed, {failed} failed")
    sys.exit(1 if failed else 0)


main()
