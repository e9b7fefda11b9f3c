#!/usr/bin/env python3
"""The library for other languages beside the program: the same words, file and input print the same and end with the same status and sentence; octets in any cut; input that
is refused; each allocation refused; threads; the names of the schema; the examples of examples/embed. The last line is `N passed, M failed`.

    embed.py LIBRARY PROGRAM
"""

import ctypes
import dataclasses
import glob
import json
import os
import random
import re
import shutil
import subprocess
import sys
import tempfile
import threading

TOP = os.path.dirname(os.path.dirname(os.path.abspath(__file__)))
LIBRARY, PROGRAM = map(os.path.realpath, sys.argv[1:])
os.environ["H2_BENCH_LIBRARY"] = LIBRARY
sys.path[:0] = [f"{TOP}/share/python", f"{TOP}/tests"]
sys.dont_write_bytecode = True

import h2_bench  # noqa: E402

BOOK = b'[[answer]]\nmethod = "GET"\npath = "/"\nstatus = 200\nbody = "hi"\n'
passed = failed = 0


def check(title, holds, found=""):
    global passed, failed
    if holds:
        passed += 1
    else:
        failed += 1
        print(f"not well: {title}: {str(found)[:500]}")


def raises(title, kind, call, *, number=None, says=""):
    try:
        check(title, False, call())
    except kind as found:
        check(title, number in (None, getattr(found, "number", None)) and says in str(found), repr(found))


def same(title, words, input=b"", name=""):
    """The same command by the program and by the library."""
    file = open(name, "rb").read() if name else b""
    ran = h2_bench.run(words, input, name, file)
    wanted = subprocess.run([PROGRAM, *words], input=input, capture_output=True, check=False)
    check(f"{title}: {words[0]}", (ran.printed, ran.status) == (wanted.stdout, wanted.returncode), ran)
    if wanted.returncode in (1, 2) and words[0] != "check":
        check(f"{title}: the sentence of {words[0]}", ran.sentence == wanted.stderr.decode().strip(), (ran.sentence, wanted.stderr))
    return ran


def whole_runs():
    """All examples, scripts of causes and cases."""
    kept = []
    for path in sorted(glob.glob("examples/**/*.h2", recursive=True) + glob.glob("cases/**/*.h2", recursive=True)):
        script = open(path, "rb").read()
        ran = same(path, ["asm"], script)
        if ran.status == 0:
            kept.append(bytes.fromhex(ran.printed.decode()))
            for words in (["explain", "--strict"], ["explain", "--json", "--full", "--strict", "--window=100", "--", "GET|/|200|6869"], ["play"], ["dis"]):
                same(path, words, ran.printed)
        if b"--book" not in script:
            same(path, ["check", path], b"", path)
    with tempfile.NamedTemporaryFile(suffix=".toml") as file:
        file.write(BOOK)
        file.flush()
        same("a book", ["explain", f"--book={file.name}", "--json"], open("examples/get.hex", "rb").read(), file.name)
    same("a session", ["debug"], open("examples/get.hex", "rb").read() + b"step 2\nwhy\nback 1\nshow\n")
    return kept


def cuts(kept):
    """Octets in cuts give the items, the state and the end of the whole."""
    found = random.Random(5)
    for octets in kept:
        whole, cut = h2_bench.Connection(["GET|/|200|6869"]), h2_bench.Connection(["GET|/|200|6869"])
        items, at, given = whole.feed(octets), 0, []
        while at < len(octets):
            step = found.randrange(1, 60)
            given += cut.feed(octets[at : at + step])
            at += step
        check("items in cuts", given == items and cut.end == whole.end, (given, items))
        check("the state in cuts", cut.state() == whole.state() and cut.sent() == b"".join(sent.octets for item in items for sent in item.sent), cut.sent().hex())


def refused():
    """Input that is refused: a fault with its number and sentence, and the next call is answered."""
    raises("a bad line", h2_bench.Fault, lambda: h2_bench.assemble("PREFACE\nFOO\n"), number=18, says="line 2")
    raises("an answer", h2_bench.Fault, lambda: h2_bench.Connection(["GET|/|99|"]).feed(b""), number=26, says="STATUS")
    raises("a limit out of range", h2_bench.Fault, lambda: h2_bench.Connection(frame=5).feed(b""), number=16, says="--frame 5")
    raises("no such limit", TypeError, lambda: h2_bench.Connection(depth=5))
    raises("a limit that is no number", ValueError, lambda: h2_bench.Connection(frame="x").feed(b""))
    raises("a book that is no TOML", h2_bench.Fault, lambda: h2_bench.Connection(book="[").feed(b""), number=26, says="book.toml, line 1")
    raises("a word with a line feed", ValueError, lambda: h2_bench.Connection(["GET|/|200|\n"]).feed(b""))
    raises("a word that is no text", h2_bench.Fault, lambda: h2_bench.run(["\ud800"]), number=22)
    raises("a name that is no text", h2_bench.Fault, lambda: h2_bench.run(["asm"], b"", "\ud800"), number=22)
    raises("a script that is no text", h2_bench.Fault, lambda: h2_bench.assemble("\ud800"), number=22)
    raises("an input that is too long", h2_bench.Fault, lambda: h2_bench.disassemble(bytes(9_000_000)), number=22)
    check("no words", h2_bench.run([]).status == 2)
    check("words of no command", h2_bench.run(["no such command", "\0"]).status == 2)
    check("a server is not served", h2_bench.run(["serve", "1", "1"])[:2] == (b"", 2))
    check("a file that is not there", h2_bench.run(["check", "none.h2"]).status == 1)
    found = random.Random(7)
    for _ in range(300):
        words = ["".join(chr(found.randrange(1, 0x250)) for _ in range(found.randrange(9))).replace("\n", "") for _ in range(found.randrange(5))]
        ran = h2_bench.run([found.choice(["play", "explain", "check", "asm", "dis", "table", "debug"]), *words], found.randbytes(50), "x", found.randbytes(50))
        check("random words and octets", ran.status in range(8), ran)


def spaces():
    """Too little space: fault 2, how much is needed, and nothing is written beyond what was given."""
    call, end = ctypes.CDLL(LIBRARY).h2_bench_run, h2_bench._End()
    call.restype = ctypes.c_size_t
    words, wanted = b"h2_bench\nasm", subprocess.run([PROGRAM, "asm"], input=b"PREFACE\n", capture_output=True, check=True).stdout
    for room in range(len(wanted) + 3):
        out = ctypes.create_string_buffer(b"\xaa" * 99, 99)
        sized = [it for text in (words, b"", b"", b"PREFACE\n") for it in (text, ctypes.c_size_t(len(text)))]
        count = call(*sized, out, ctypes.c_size_t(room), ctypes.byref(end))
        fits = room >= len(wanted)
        holds = (count, end.fault, end.printed, end.sentence) == ((len(wanted), 0) if fits else (0, 2)) + (len(wanted), 0)
        check(f"space for {room}", holds and out.raw == (wanted if fits else b"").ljust(99, b"\xaa"), (count, end.fault, out.raw))


def memory():
    """Each allocation refused in turn (embed_memory.c): each line is as with ample memory, or says that memory was refused, and the process goes on to its end."""
    if not shutil.which("cc"):
        print("embed.py: no C compiler: no allocation was refused")
        return
    with tempfile.TemporaryDirectory() as room:
        subprocess.run(["cc", "-shared", "-fPIC", "-fno-builtin", "-w", "tests/refuse.c", "-o", f"{room}/refuse.so"], check=True)
        subprocess.run(["cc", "-Ishare", "tests/embed_memory.c", LIBRARY, f"-Wl,-rpath,{os.path.dirname(LIBRARY)}", "-o", f"{room}/calls"], check=True)

        def run(number):
            how = {**os.environ, "REFUSED_CALL": str(number), "LD_PRELOAD": f"{room}/refuse.so"}
            with open(f"{room}/refused", "wb") as file:
                os.dup2(file.fileno(), 9)
            ran = subprocess.run([f"{room}/calls"], capture_output=True, text=True, env=how, pass_fds=(9,), check=False)
            os.close(9)
            return ran.returncode, ran.stdout.splitlines(), os.path.getsize(f"{room}/refused")

        number, wanted = 1, run(0)[1]
        check("calls with ample memory", [line.split()[0] for line in wanted if "fault" not in line.split()[1]].count("item") == 6, wanted)
        while True:
            status, lines, refused = run(number)
            lines = [line for line in lines if line not in wanted]
            check(f"allocation {number} refused", status == 0 and all(re.match(r"\w+: (fault 0 |no memory$)", line) for line in lines), (status, lines))
            if not refused:
                break
            number += 1
        print(f"{number} allocations refused")


def threads():
    """Four threads at once, with stacks of 256 KB, get what one gets."""
    with open("cases/frames/heads.h2", encoding="utf-8") as cases, open("examples/get.hex", encoding="utf-8") as octets:
        cases, octets = cases.read(), bytes.fromhex(octets.read())

    def calls():
        connection = h2_bench.Connection(book=BOOK)
        return h2_bench.check(cases), connection.feed(octets), connection.state(), h2_bench.assemble(h2_bench.disassemble(octets + bytes(900)))

    def work():
        found.extend(calls() for _ in range(20))

    wanted, found = calls(), []
    threading.stack_size(256 * 1024)
    several = [threading.Thread(target=work) for _ in range(4)]
    for it in several:
        it.start()
    for it in several:
        it.join()
    check("four threads", found == [wanted] * 80, len(found))


def names():
    """Each class has the members of its object of the schema; those that are always there have no default."""
    with open("docs/explain.schema.json", encoding="utf-8") as file:
        objects = json.load(file)["$defs"]
    objects = {**objects, "warned": objects["warning"], "end": objects["end"]["properties"]["end"], "counted": objects["verdict"]["properties"]["errors"]["items"]}
    objects |= {f"{name}left": objects["wait"]["properties"][name]["oneOf"][1] for name in ("answer", "request")}
    objects["change"] = {"properties": {name: it for one in objects["change"]["oneOf"] for name, it in one["properties"].items()}, "required": ["stream", "what"]}
    for name in h2_bench.__all__:
        kind = getattr(h2_bench, name)
        if dataclasses.is_dataclass(kind):
            it, missing = objects[name.lower()], dataclasses.MISSING
            wanted = {member: member in it.get("required", []) for member in it["properties"] if name != "Item" or member not in ("connection", "time")}
            found = {member.name: member.default is missing for member in dataclasses.fields(kind) if member.name != "json"}
            check(f"the members of {name}", found == wanted, set(found.items()) ^ set(wanted.items()))


def examples():
    """The examples, as far as their compilers are here."""
    ran = subprocess.run(["examples/embed/run.sh", LIBRARY], capture_output=True, text=True, check=False)
    check("the examples end", ran.returncode == 0, ran.stderr)
    wanted = {
        "oracle.c": ["#5 @79 stream 3: connection error data-on-idle, 1 sent", "phase ended 1 last 1", "ok 1 - case.h2: PING is answered (RFC 9113, 6.7)", "fault 18: standard input, line 2"],
        "oracle.rs": ["connection error PROTOCOL_ERROR: connection-increment-zero", "status 5", "status 1: --frame 5 is out of range"],
        "oracle.py": ["#5 @79 DATA stream 3 END_STREAM, 1 octet: connection error data-on-idle; sent GOAWAY last 1 PROTOCOL_ERROR", "18 2 standard input, line 2"],
    }
    for part in ran.stdout.split("== ")[1:]:
        name = part.partition("\n")[0]
        check(name, all(text in part for text in wanted[name]), part)


os.chdir(TOP)
names()
cuts(whole_runs())
refused()
spaces()
memory()
threads()
examples()
print(f"{passed} passed, {failed} failed")
sys.exit(1 if failed else 0)
