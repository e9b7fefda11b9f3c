#!/usr/bin/env python3
"""proof-chain.py [--without CRATE:USED ..]: the crates that the program's first proof waits for, one after another, and what the clock would show.

A crate is proved once those that it uses are. So the longest chain of crates decides the clock, however many processors there are. This lists that chain, with the
minutes of each crate by its line of tools/BUDGET, then all processor minutes, and the minutes of the clock with 2, 4 and 8 processors, where each proves one crate at
a time and takes the one with the longest chain behind it first, as `rt ci` does. The minutes are estimates: 15 s for each crate and 1.8 s for each megabyte, as measured
on a machine of four processors, and for h2_program what both compilers take. With --without a line of crates.txt is read as if CRATE did not use USED, to see what
untying the two would gain.
"""

import argparse
import re

import program

START, MEGABYTE, COMPILERS = 15 / 60, 1.8 / 60, 200 / 60


def megabytes():
    return {name: int(most) for name, most in re.findall(r"^(\w+) (\d+)$", program.read(f"{program.TOP}/tools/BUDGET"), re.M)}


def minutes_of(crates):
    budget = megabytes()
    return {name: START + MEGABYTE * budget.get(name, 0) + (COMPILERS if name == program.NAME else 0) for name in crates}


def chain_behind(name, users, minutes, known):
    """The longest chain that begins with a crate: its minutes and its crates."""
    if name not in known:
        longest = max((chain_behind(user, users, minutes, known) for user in users[name]), default=(0, []))
        known[name] = (longest[0] + minutes[name], [name, *longest[1]])
    return known[name]


def clock(uses, behind, minutes, processors):
    """The minutes that the proof of all takes with so many processors."""
    left, running, now = set(uses), {}, 0.0
    while left or running:
        ready = [name for name in left if not uses[name] & (left | set(running))]
        for name in sorted(ready, key=lambda it: -behind[it][0])[: processors - len(running)]:
            left.discard(name)
            running[name] = now + minutes[name]
        ended = min(running, key=running.get)
        now = running.pop(ended)
    return now


def main():
    given = argparse.ArgumentParser(prog="proof-chain.py", description=__doc__, formatter_class=argparse.RawDescriptionHelpFormatter)
    given.add_argument("--without", nargs="+", default=[], metavar="CRATE:USED")
    untied = {tuple(it.split(":", 1)) for it in given.parse_args().without}
    lines = program.lines_of()
    crates = program.needed(lines)
    uses = {name: {it for it in program.uses(lines, name) if it in lines and (name, it) not in untied} for name in crates}
    users = {name: [it for it in crates if name in uses[it]] for name in crates}
    minutes = minutes_of(crates)
    known = {}
    behind = {name: chain_behind(name, users, minutes, known) for name in crates}
    whole, chain = max(behind.values())
    for name in chain:
        print(f"{minutes[name]:7.1f}  {name}")
    print(f"{whole:7.1f}  the chain, in processor minutes")
    print(f"{sum(minutes.values()):7.1f}  all {len(crates)} crates, in processor minutes")
    for processors in (2, 4, 8):
        print(f"{clock(uses, behind, minutes, processors):7.1f}  minutes of the clock with {processors} processors")


main()
