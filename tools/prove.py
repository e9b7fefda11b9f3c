#!/usr/bin/env python3
"""Proves and builds the program, the page, or the library for other languages.

    prove.py [--anew]                                      the program: ./h2_bench --prove
    prove.py --page OUT [--anew]                           the page: tools/web.sh
    prove.py --library FOLDER [--anew]                     the library: tools/lib.sh
    prove.py [--program] [--page OUT] [--library FOLDER]   several, over one proof: tools/release.sh

The crates that it is made of are copied to a temporary folder, without their must-fail edits, and `rt ci` proves them there: as many side by side as there are
processors and as memory carries. Where the kit keeps what it has proved, a later call and the gate prove only what has changed since; --anew takes nothing of that.

Of the program `rt ci` also makes an executable by both compilers, and runs it. The two are put into crates/h2_program/out, and beside them the checksum of the sources
that were proved.

Of the page `rt ci` proves the crates below h2_page, which are most of the program's, so after --prove they are taken as they are. It takes no crate for WebAssembly, so
h2_page is then proved for that target and built as `rt lib` does it, over these libraries. In the same way h2_embed is proved and built for this machine, and linked with
the kit's call of malloc. The same sources make the same octets.
"""

import os
import re
import shutil
import signal
import subprocess
import sys
import tempfile
import time

import program
from program import NAME, PROVED, TOP, Progress, say

PAGE = "h2_page"
EMBED = "h2_embed"
EXPORTS = "{ global: h2_bench_run; h2_bench_kept_*; local: *; };\n"
WASM = "wasm64-unknown-unknown"


class Failed(Exception):
    """A proof that failed, with what rt said."""


def copy_to(room, crates):
    """Copies these crates to a new folder, as a repository of their own."""
    os.makedirs(f"{room}/.git")
    for name in crates:
        copy_crate(name, f"{room}/crates/{name}")
    shutil.copyfile(f"{TOP}/HANDLES", f"{room}/HANDLES")
    with open(f"{room}/crates.txt", "w", encoding="utf-8") as file:
        file.writelines(f"{line}\n" for name, line in program.lines_of().items() if name in crates)


def copy_crate(name, to):
    shutil.copytree(f"{TOP}/crates/{name}", to, ignore=lambda at, _: ["out", "must-fail"] if os.path.dirname(at) == f"{TOP}/crates" else [])


class Counted(Progress):
    """How many crates are proved: on a terminal the line that is rewritten, else a line for each crate."""

    def __init__(self, crates):
        super().__init__(lambda: f"{self.proved} of {crates} crates proved{self.last}", each=None)
        self.crates, self.proved, self.last = crates, 0, ""

    def count(self, name, how):
        self.proved, self.last = self.proved + 1, f", {name} as the last"
        if not self.is_terminal:
            say(f"{name} {how}: {self.proved} of {self.crates} crates, {self.clock()}")


def ran(command, room, each_line=lambda line: None):
    """Runs a command of the kit, and gives each line of its output to a function as it comes; where it fails, all of them."""
    how = {"stdin": subprocess.DEVNULL, "stdout": subprocess.PIPE, "stderr": subprocess.STDOUT, "errors": "replace", "start_new_session": True}
    how["env"] = {**os.environ, "RT_JOBS": str(program.side_by_side())}
    said = []
    with subprocess.Popen(command, cwd=room, **how) as process:
        try:
            for line in process.stdout:
                said.append(line)
                each_line(line)
            if process.wait():
                raise Failed("".join(said))
        finally:
            if process.poll() is None:
                os.killpg(process.pid, signal.SIGTERM)


def prove(room, crates, anew):
    """Has rt prove these crates in the copy, and build the program where it is one of them: each line that ends a crate is counted as it comes."""
    with Counted(len(crates)) as progress:

        def count(line):
            ended = re.match(r"rt: (\w+) (proved$|is kept: )", line)
            if ended:
                progress.count(ended[1], "proved" if ended[2] == "proved" else "was proved before")

        ran(["rt", "ci", *["--anew"] * (anew and program.keeps_proofs())], room, count)


def install(room, begun):
    """Puts what was built, and the checksum of its sources, where the launcher finds them. The program's time is that of the sources, so that a later change is newer."""
    os.makedirs(os.path.dirname(PROVED), exist_ok=True)
    for ending in (".by-rattle", ""):
        made = f"{room}/crates/{NAME}/out/{NAME}{ending}"
        if os.path.isfile(made):
            shutil.copy(made, f"{PROVED}.new")
            os.utime(f"{PROVED}.new", (begun, begun))
            os.replace(f"{PROVED}.new", PROVED + ending)
    with open(f"{PROVED}.sources", "w", encoding="utf-8") as file:
        file.write(program.sources_sum(room))


def static_words(top, room, archive, *target):
    """The call of rattle that proves a static library, over the libraries that `rt ci` has left in the copy, and builds it."""
    kit, lines = program.kit(), program.lines_of()
    libraries = {name: f"{room}/crates/{name}/out/rlib" for name in program.needed(lines, top)[:-1]}
    words = [f"{kit}/bin/rattle", "build", "--crate-name", top, "src/lib.rt", "-L", f"dependency={kit}/rlibs"]
    for name in dict.fromkeys(["std", *program.uses(lines, top)]):
        words += ["--extern", f"{name}={libraries.get(name, f'{kit}/rlibs')}/{name}.rlib"]
    for folder in libraries.values():
        words += ["-L", f"dependency={folder}"]
    words += ["--antt-project", f"{kit}/rattle/logic/antt-project.json", "--logic-built", f"{kit}/logic_built", "--jobs", str(program.side_by_side())]
    return [*words, "--links", f"{top}=", "--crate-type", "staticlib", *target, "--toolchain", f"{kit}/toolchain", "--backend", "llvm", "-o", archive]


def build_page(room, out):
    """Proves and builds the code of the page in a copy of h2_page, and puts the page together."""
    archive, module = f"{room}/lib{PAGE}.a", f"{room}/{PAGE}.wasm"
    with Progress(lambda: f"proving {PAGE} for WebAssembly and building it"):
        ran(static_words(PAGE, f"{room}/below", archive, "--target", WASM), f"{room}/{PAGE}")
        ran([f"{program.kit()}/bin/rattle-link", "--target", WASM, "--toolchain", f"{program.kit()}/toolchain", "-o", module, archive], room)
    subprocess.run([sys.executable, "-B", f"{TOP}/tools/page.py", module, out], check=True)


def build_library(room, out, sources):
    """Proves and builds the library in a copy of h2_embed, and links it: libh2_bench.so, which needs the C library alone, and libh2_bench.a, with all that it needs but that."""
    archive, kit = f"{room}/lib{EMBED}.a", program.kit()
    linker, parts = f"{kit}/toolchain/bin/ld.lld", ["--whole-archive", archive, "--no-whole-archive", f"{kit}/c/liblibc_c.a", f"{kit}/c/libos_c.a"]
    with open(f"{room}/exports", "w", encoding="utf-8") as file:
        file.write(EXPORTS)
    with Progress(lambda: f"proving {EMBED} and building it"):
        ran(static_words(EMBED, f"{room}/below", archive), f"{room}/{EMBED}")
        how = ["-soname", "libh2_bench.so", "--build-id=none", "--gc-sections", "--strip-all", "-z", "noexecstack", "-z", "relro", "-z", "now", "--version-script", f"{room}/exports"]
        ran([linker, "-shared", *how, "-o", f"{room}/libh2_bench.so", *parts, f"{kit}/toolchain/lib/libc.so.6"], room)
        ran([linker, "-r", "-o", f"{room}/h2_bench.o", *parts], room)
        ran([f"{kit}/toolchain/bin/llvm-ar", "crsD", "libh2_bench.a", "h2_bench.o"], room)
    os.makedirs(out, exist_ok=True)
    for name in ("libh2_bench.so", "libh2_bench.a"):
        shutil.copy(f"{room}/{name}", f"{out}/{name}.new")
        os.replace(f"{out}/{name}.new", f"{out}/{name}")
        print(f"{out}/{name}: {os.path.getsize(f'{out}/{name}')} octets")
    with open(f"{out}/sources", "w", encoding="utf-8") as file:
        file.write(f"library {sources}\n")


def make(has_program, page, library, anew):
    """Proves and builds the program; the page and the library where their paths are given."""
    lines = program.lines_of()
    statics = [name for name, out in ((PAGE, page), (EMBED, library)) if out]
    crates = list(dict.fromkeys([it for name in statics for it in program.needed(lines, name)[:-1]] + (program.needed(lines) if has_program else [])))
    with tempfile.TemporaryDirectory(prefix="h2_bench-prove-") as room:
        begun, sources = time.time(), program.sources_sum(TOP, EMBED)
        copy_to(f"{room}/below", crates)
        for name in statics:
            copy_crate(name, f"{room}/{name}")
        say(f"proving {len(crates)} crates: half an hour on four processors, an hour on two, where none is proved yet")
        prove(f"{room}/below", crates, anew)
        if has_program:
            install(f"{room}/below", begun)
        if page:
            build_page(room, page)
        if library:
            build_library(room, library, sources)


def main(words):
    for number in (signal.SIGTERM, signal.SIGHUP, signal.SIGINT):
        signal.signal(number, lambda number, _: sys.exit(128 + number))
    given = {"--page": None, "--library": None}
    has_program = "--program" in words or not any(word in given for word in words)
    words = [word for word in words if word != "--program"]
    for word in given:
        if word in words[:-1]:
            at = words.index(word)
            given[word] = os.path.abspath(words[at + 1])
            del words[at : at + 2]
    if [word for word in words if word != "--anew"]:
        sys.exit("h2_bench: --prove takes no other word than --anew")
    program.kit()
    whole = Progress(None)
    try:
        make(has_program, *given.values(), "--anew" in words)
    except Failed as failed:
        print(failed, end="", file=sys.stderr)
        sys.exit(f"h2_bench: not proved, after {whole.clock()}")
    say(f"proved and built in {whole.clock()}")


main(sys.argv[1:])
