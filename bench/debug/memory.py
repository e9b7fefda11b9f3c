#!/usr/bin/env python3
"""memory.py [--program FILE] [KIND..]: the peak of memory of `debug` that runs to the end of 15.9 MiB of hex, for each kind of octets.py, as a table in Markdown.

The program is the proved one of this repository unless another is named. It is no part of the gate.
"""

import argparse
import os
import subprocess
import sys
import tempfile

HERE = os.path.dirname(os.path.abspath(__file__))
PROGRAM = os.path.join(os.path.dirname(os.path.dirname(HERE)), "crates/h2_program/out/h2_program")
KINDS = (
    "ping get browser refused data continuation table live-ping live-empty live-data live-settings live-update"
    " fields-1 fields-4 fields-16 fields-64 fields-1024 literals-1 literals-16 literals-1024 inserts-2 inserts-16 inserts-128"
    " values-30 values-100 values-400 values-1000 values-4000 entry large-table large-table-1 large-table-16 large-table-64"
).split()
MIB = "15.99"  # `debug` reads 16 MiB at most, commands with them


def peak(program, kind):
    """How many octets of hex there are, the peak of resident memory of a run over them, and the seconds of the processor. This process stays small, since a child's
    peak is at least what its parent holds."""
    with tempfile.TemporaryFile() as file:
        subprocess.run([sys.executable, f"{HERE}/octets.py", kind, MIB, "--hex"], stdout=file, check=True)
        size = file.tell()
        file.write(b"run\n")
        file.seek(0)
        more = ["--table", "65536"] if kind.startswith("large-table") else []
        child = subprocess.Popen([program, "debug", "--streams", "1000", *more], stdin=file, stdout=subprocess.DEVNULL)
        _, status, used = os.wait4(child.pid, 0)
        child.returncode = status
    if status != 0:
        sys.exit(f"memory.py: {program} ended with {status}")
    return size, used.ru_maxrss * 1024, used.ru_utime


def main():
    words = argparse.ArgumentParser()
    words.add_argument("--program", default=PROGRAM)
    words.add_argument("kinds", nargs="*", default=KINDS)
    args = words.parse_args()
    print("| Kind | Memory, MB | Times the hex | Processor, s |\n|---|---|---|---|")
    for kind in args.kinds:
        size, most, seconds = peak(args.program, kind)
        print(f"| {kind} | {most / 1e6:.0f} | {most / size:.1f} | {seconds:.2f} |", flush=True)


if __name__ == "__main__":
    main()
