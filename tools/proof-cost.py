#!/usr/bin/env python3
"""What the proofs cost.

  tools/proof-cost.py [CRATE..]            megabytes by crate and by function, the greatest first
  tools/proof-cost.py --budget [CRATE..]   writes tools/BUDGET: a line `CRATE MB` for each crate, rounded up
  tools/proof-cost.py --check [CRATE..]    names each crate above its line of tools/BUDGET; the status is then 1
  tools/proof-cost.py --minutes [FILE]     processor minutes by crate and kind of the last run of tools/gate-times.py, or as FILE has them
  tools/proof-cost.py --seconds CRATE..    seconds by kind and by module of the last check of each crate, the slowest first
  tools/proof-cost.py --libraries [CRATE..]   megabytes of statements that each library has, and of which crates they are

`--top FOLDER` before the rest takes the crates/*/out of another copy; --functions N shows N functions instead of 40.

Megabytes are those of a function's file `Lts`, which has each point of the code with all that is held there: a check takes some 2 seconds for each, and more for
each where a function has above 10. They don't depend on how busy the machine is. They are read from what `rt check`, `rt lib`, `rt run` and `rt test` leave in
crates/*/out; `rt ci` leaves nothing of it. The functions of a library are those of its last build. A program, a crate of tests, and a library that was checked
but not built since, is marked `~`: its files may include those of functions that are gone. Then remove its out/incremental and check it again.

Seconds are between the times at which the files of a check were written, so they are right where one process wrote them: remove the crate's out/incremental, and
call `rt check --jobs 1`. `Lts` is what a function holds at each point, `Proof` the checker's own search for what no file answers.

A library has the statements of all that its public items mention, private fields too: `rt ci` leaves it in crates/*/out/rlib. To write them takes 0.12 s a megabyte.
"""

import argparse
import collections
import glob
import math
import os
import re
import sys

KINDS = ("proof", "second proof", "edits", "tests", "compiling")


def arguments():
    given = argparse.ArgumentParser(prog="proof-cost.py", usage="proof-cost.py [--top FOLDER] [--functions N] [--budget | --check | --minutes [FILE] | --seconds | --libraries] [CRATE..]")
    given.add_argument("--top")
    given.add_argument("--functions", type=int, default=40)
    given.add_argument("--budget", action="store_true")
    given.add_argument("--check", action="store_true")
    given.add_argument("--minutes", nargs="?", const="")
    given.add_argument("--seconds", action="store_true")
    given.add_argument("--libraries", action="store_true")
    given.add_argument("crates", nargs="*")
    return given.parse_intermixed_args()


def crates_of(top):
    with open(f"{top}/crates.txt", encoding="utf-8") as file:
        return re.findall(r"^(\w+)[^:\n]*:", file.read(), re.M)


def function_in(crate, module):
    """The function that a module `Lts` is of, as crate::path."""
    return re.sub(rf"^Rattle-{crate}-(proofs\.)?", "", module).removesuffix(".Lts").replace(".", "::")


def in_library(crate, listing):
    """The octets of each function of a built library: a line of the listing is the name of a module, its place and its size."""
    with open(listing, encoding="utf-8") as file:
        found = re.findall(r'^\["([^"]*\.Lts)",\d+,(\d+)', file.read(), re.M)
    return {function_in(crate, module): int(size) for module, size in found}


def sizes(top, crate):
    """The octets of each function of a crate, and whether functions that are gone may be among them; None where no check left anything."""
    out = f"{top}/crates/{crate}/out"
    files = glob.glob(f"{out}/incremental/*/Rattle-{crate}-*.Lts.oantt")
    listing = f"{out}/rlib/{crate}.rlib/toolchain/checked.json"
    if os.path.isfile(listing):
        built = in_library(crate, listing)
        newest = max(map(os.path.getmtime, files), default=0)
        if built and newest <= os.path.getmtime(listing):
            return built, False
    if not files:
        return None
    return {function_in(crate, os.path.basename(it).removesuffix(".oantt")): os.path.getsize(it) for it in files}, True


def budget_of(top):
    file = f"{top}/tools/BUDGET"
    if not os.path.isfile(file):
        return {}
    with open(file, encoding="utf-8") as text:
        return {name: int(most) for name, most in re.findall(r"^(\w+) (\d+)$", text.read(), re.M)}


def show(found, count):
    print("     MB  functions  crate")
    for crate, (functions, is_rough) in sorted(found.items(), key=lambda it: -sum(it[1][0].values())):
        print(f"{sum(functions.values()) / 1e6:7.1f}  {len(functions):9}  {crate}{' ~' * is_rough}")
    print(f"{sum(sum(it.values()) for it, _ in found.values()) / 1e6:7.1f}  {sum(len(it) for it, _ in found.values()):9}  all\n")
    print("     MB  function")
    each = [(size, f"{crate}::{name}") for crate, (functions, _) in found.items() for name, size in functions.items()]
    for size, name in sorted(each, reverse=True)[:count]:
        print(f"{size / 1e6:7.1f}  {name}")


def write_budget(here, crates, found):
    budget = budget_of(here)
    budget.update({crate: math.ceil(sum(functions.values()) / 1e6) for crate, (functions, _) in found.items()})
    with open(f"{here}/tools/BUDGET", "w", encoding="utf-8") as file:
        file.write("Megabytes that the proof of each crate may write, as tools/proof-cost.py counts them. CONTRIBUTING.md says what to do above it.\n\n")
        file.writelines(f"{crate} {budget[crate]}\n" for crate in crates if crate in budget)


def check(here, found):
    budget, above = budget_of(here), 0
    for crate, (functions, is_rough) in found.items():
        size = sum(functions.values()) / 1e6
        if crate not in budget:
            print(f"{crate}: tools/BUDGET has no line for it; its proof wrote {size:.1f} MB")
        elif size > budget[crate]:
            print(f"{crate}: its proof wrote {size:.1f} MB; tools/BUDGET allows {budget[crate]}{' (~)' * is_rough}")
        else:
            continue
        above += 1
    return 1 if above else 0


def show_minutes(file):
    """A line of the file is: processor seconds, kind, crate."""
    seconds = collections.defaultdict(collections.Counter)
    with open(file, encoding="utf-8") as text:
        for amount, kind, crate in (line.rstrip("\n").split("\t") for line in text):
            seconds[crate][kind] += float(amount)
    kinds = [kind for kind in KINDS if any(it[kind] for it in seconds.values())]
    kinds += sorted({kind for it in seconds.values() for kind in it} - set(kinds))
    print(*(f"{kind:>13}" for kind in [*kinds, "all"]), " crate", sep="")
    for crate, of in sorted(seconds.items(), key=lambda it: -sum(it[1].values())):
        print(*(f"{it / 60:13.1f}" for it in [*(of[kind] for kind in kinds), sum(of.values())]), f"  {crate}", sep="")
    total = [sum(of[kind] for of in seconds.values()) for kind in kinds]
    print(*(f"{it / 60:13.1f}" for it in [*total, sum(total)]), "  all, in processor minutes", sep="")


def module_seconds(top, crate):
    """Of each file that a check of a crate left, in the order of writing: its module, its kind, and the seconds since the file before."""
    files = glob.glob(f"{top}/crates/{crate}/out/incremental/*/*.oantt")
    written = sorted((os.path.getmtime(it), os.path.basename(it).removesuffix(".oantt").removesuffix(".decls")) for it in files)
    return [(name, name.rpartition(".")[2], time - before) for (before, _), (time, name) in zip(written, written[1:])]


def show_seconds(top, crate, count):
    found = module_seconds(top, crate)
    kinds = collections.Counter()
    for _, kind, seconds in found:
        kinds[kind] += seconds
    print(f"{sum(kinds.values()):7.1f}  {crate}")
    for kind, seconds in kinds.most_common(8):
        print(f"{seconds:7.1f}    {kind}")
    for name, _, seconds in sorted(found, key=lambda it: -it[2])[:count]:
        print(f"{seconds:7.1f}  {name.removeprefix('Rattle-')}")


def statements(top, crate):
    """The megabytes of a library's statements by the crate that they are of."""
    listing = f"{top}/crates/{crate}/out/rlib/{crate}.rlib/toolchain/checked.json"
    sizes = collections.Counter()
    if os.path.isfile(listing):
        with open(listing, encoding="utf-8") as file:
            for of, size in re.findall(r'^\["(?:part/)?Rattle-(\w+)[^"]*",\d+,(\d+)', file.read(), re.M):
                sizes[of] += int(size) / 1e6
    return sizes


def show_libraries(top, crates):
    found = {crate: sizes for crate in crates if (sizes := statements(top, crate))}
    print("     MB  crate: of which crates")
    for crate, sizes in sorted(found.items(), key=lambda it: -it[1].total()):
        print(f"{sizes.total():7.1f}  {crate}:", ", ".join(f"{of} {size:.0f}" for of, size in sizes.most_common(6) if size >= 1))
    print(f"{sum(sizes.total() for sizes in found.values()):7.1f}  all")


def main():
    given = arguments()
    here = os.path.dirname(os.path.dirname(os.path.abspath(__file__)))
    if given.minutes is not None:
        file = given.minutes or f"{here}/out/gate-times"
        if not os.path.isfile(file):
            sys.exit(f"proof-cost.py: there is no {file}: tools/gate-times.py writes it")
        return show_minutes(file)
    top = os.path.abspath(given.top or here)
    crates = crates_of(top)
    unknown = [it for it in given.crates if it not in crates]
    if unknown:
        sys.exit(f"proof-cost.py: crates.txt has no crate {unknown[0]}")
    asked = given.crates or crates
    if given.seconds:
        for crate in asked:
            show_seconds(top, crate, given.functions)
        return 0
    if given.libraries:
        return show_libraries(top, asked)
    found = {crate: of for crate in asked if (of := sizes(top, crate))}
    lacking = [it for it in asked if it not in found]
    if lacking:
        print(f"proof-cost.py: no check left anything of {' '.join(lacking)}", file=sys.stderr)
    if given.budget:
        return write_budget(here, crates, found)
    if given.check:
        return check(here, found)
    return show(found, given.functions)


sys.exit(main())
