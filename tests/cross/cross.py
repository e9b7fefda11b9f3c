"""Compares the program with the examples of RFC 7541 and with python3-hpack, python3-hyperframe and python3-h2; see run.sh."""

import argparse
import random
import sys
import time

import blocks
import connections
import frames
from program import Program

TOPICS = [
    ("RFC 7541, Appendix C", blocks.appendix),
    ("RFC 7541, Appendices A and B", blocks.constants),
    ("header tables after random blocks", blocks.decoder),
    ("requests of python3-hpack's encoder", blocks.encoder_of_hpack),
    ("broken blocks", blocks.broken),
    ("asm and dis of instructions", blocks.spelled),
    ("the program table", blocks.tables),
    ("asm and dis of frames", frames.lines),
    ("sessions with python3-h2", connections.sessions),
]


class Report:
    """Counts what was compared, and prints the first differences of a topic."""

    def __init__(self):
        self.compared, self.differ = 0, 0

    def __call__(self, same, what, *details):
        self.compared += 1
        if not same:
            self.differ += 1
            if self.differ <= 3:
                print(f"  DIFFERS: {what}", *(str(detail)[:2000] for detail in details), sep="\n    ")
        return same


def main():
    words = argparse.ArgumentParser()
    words.add_argument("--program", help="a process for each call; else the library, in this one")
    words.add_argument("--seed", type=int, default=1)
    words.add_argument("--count", type=int, default=100)
    words.add_argument("--stories")
    said = words.parse_args()
    program, failed = Program(said.program), 0
    topics = [(name, lambda report, topic=topic: topic(program, random.Random(said.seed), said.count, report)) for name, topic in TOPICS]
    if said.stories:
        topics.append(("hpack-test-case", lambda report: blocks.stories(program, said.stories, report)))
    for name, topic in topics:
        report, start = Report(), time.time()
        topic(report)
        failed += report.differ
        print(f"{name}: {report.compared} compared, {report.differ} differ, {time.time() - start:.0f} s", flush=True)
    sys.exit(1 if failed else 0)


main()
