#!/usr/bin/env python3
"""What `check --junit FILE` writes, read by Python's XML parser and compared with what the cases are and with the TAP beside it.

    junit.py PROGRAM
"""

import os
import subprocess
import sys
import tempfile
import xml.etree.ElementTree as ElementTree

PLAIN = b"PREFACE\nSETTINGS 00 0 -\n"
HOLDS = PLAIN + b";< SETTINGS 01 0 -\n"
FAILS = PLAIN + b";< PING 01 0 x00\n;! data-on-idle\n"

# Each file, and of each of its cases the name, and whether it is skipped or the lines of the file that do not hold.
FILES = [
    ("a.h2", b";# One\n" + HOLDS + b";# Two\n" + PLAIN + b";# Three\n" + FAILS, [("One", []), ("Two", "skipped"), ("Three", [11, 12])]),
    ("b&<'>\".h2", HOLDS, [("b&<'>\".h2", [])]),
    ("c\n\x1b.h2", FAILS, [("c\\0a\\1b.h2", [3, 4])]),
    ("d.h2", b";# <a> & \"b\" ]]> '\\ #1 # SKIP it expects nothing\r\x01\x7f \xc3\xa9\n" + HOLDS, [("<a> & \"b\" ]]> '\\\\ \\#1 \\# SKIP it expects nothing\\0d\\01\\7f \\c3\\a9", [])]),
    ("e.h2", b"\xff\n", [("e.h2", [1])]),
    ("none.h2", None, [("none.h2", [1])]),
    ("f: g.h2", b";# ok 1 - f: g.h2: a\n" + HOLDS, [("ok 1 - f: g.h2: a", [])]),
    # The first hundred, and then where the others begin.
    ("k.h2", b"x\n" * 103, [("k.h2", list(range(1, 102)))]),
    ("h - i.h2", b";# - j\n" + HOLDS + b";#  \n" + HOLDS, [("- j", []), (" ", [])]),
]
# The XML of a text is its own octets, but for these.
PATHS = {"c\n\x1b.h2": "c\\0a\\1b.h2"}

passed = failed = 0


def expect(well, what):
    global passed, failed
    if well:
        passed += 1
    else:
        failed += 1
        print(f"junit.py: {what}")


def run(program, folder, *words):
    return subprocess.run([program, "check", *words], cwd=folder, capture_output=True, timeout=120)


def yaml_blocks(tap):
    """The lines between `---` and `...` of each result that does not hold."""
    blocks = []
    for line in tap.split("\n"):
        if line == "  ---":
            blocks.append([])
        elif line.startswith("  ") and line != "  ...":
            blocks[-1].append(line)
    return blocks


def suite_holds(suite, name, cases, blocks):
    path = PATHS.get(name, name)
    counts = {"tests": len(cases), "failures": sum(isinstance(how, list) and how != [] for _, how in cases), "skipped": sum(how == "skipped" for _, how in cases), "errors": 0}
    expect(suite.get("name") == path, f"{name!r}: the suite is called {suite.get('name')!r}")
    expect({key: suite.get(key) for key in counts} == {key: str(value) for key, value in counts.items()}, f"{name!r}: counts {suite.attrib}")
    expect([case.get("name") for case in suite] == [title for title, _ in cases], f"{name!r}: names {[case.get('name') for case in suite]}")
    for case, (title, how) in zip(suite, cases):
        expect(case.get("classname") == path, f"{name!r}, {title!r}: classname {case.get('classname')!r}")
        expect((case.find("skipped") is not None) == (how == "skipped"), f"{name!r}, {title!r}: skipped")
        failure = case.find("failure")
        expect((failure is not None) == (isinstance(how, list) and how != []), f"{name!r}, {title!r}: failure")
        if failure is not None:
            text = failure.text.strip("\n").split("\n")
            expect(text == blocks.pop(0), f"{name!r}, {title!r}: its text is not that of TAP")
            expect([int(line[10:]) for line in text if line.startswith("    line: ")] == how, f"{name!r}, {title!r}: lines")
            expect(failure.get("message") != "", f"{name!r}, {title!r}: no message")


def results(program, folder):
    """The results of all files at once, without and with FILE; FILE is new, and then there."""
    names = [name for name, _, _ in FILES]
    plain = run(program, folder, "--quiet", *names)
    for _ in range(2):
        ran = run(program, folder, "--quiet", "--junit", "results.xml", *names)
        expect((ran.returncode, ran.stdout) == (plain.returncode, plain.stdout), f"the TAP is another with --junit: {ran}")
        with open(os.path.join(folder, "results.xml"), "rb") as file:
            octets = file.read()
        expect(all(octet == 10 or 32 <= octet < 127 for octet in octets), "an octet that is not printable")
        root = ElementTree.fromstring(octets)
        expect(root.tag == "testsuites" and [suite.tag for suite in root] == ["testsuite"] * len(FILES), "no suite for each file")
        blocks = yaml_blocks(plain.stdout.decode())
        for suite, (name, _, cases) in zip(root, FILES):
            suite_holds(suite, name, cases, blocks)
        expect(blocks == [], "more of TAP than of XML")
    expect(not os.path.exists(os.path.join(folder, "results.xml.blessed")), "a file is left")


def holding(program, folder):
    """A run in which all cases hold has status 0; a file with no case has no results."""
    ran = run(program, folder, "--junit", "well.xml", "b&<'>\".h2")
    expect(ran.returncode == 0 and ran.stderr == b"", f"status of cases that hold: {ran}")
    root = ElementTree.parse(os.path.join(folder, "well.xml")).getroot()
    expect([suite.get("failures") for suite in root] == ["0"], "failures of cases that hold")


def refused(program, folder):
    """FILE can't be written: the same TAP, `fault 23`, a sentence, and FILE as it was."""
    name = "b&<'>\".h2"
    plain = run(program, folder, name)
    os.mkdir(os.path.join(folder, "folder"))
    with open(os.path.join(folder, "kept.xml"), "w", encoding="ascii") as file:
        file.write("kept")
    with open(os.path.join(folder, "kept.xml.blessed"), "w", encoding="ascii") as file:
        file.write("another file")
    os.mkfifo(os.path.join(folder, "pipe"))
    before = sorted(os.listdir(folder))
    for file in ["none/results.xml", "folder", "kept.xml", "pipe", "-"]:
        ran = run(program, folder, "--junit", file, name)
        expect(ran.returncode == 1 and ran.stdout == plain.stdout + b"fault 23\n", f"--junit {file}: {ran}")
        expect(ran.stderr.startswith(file.encode() + b": ") and ran.stderr.endswith(b".\n") and ran.stderr.count(b"\n") == 1, f"--junit {file}: {ran.stderr}")
        expect(run(program, folder, "--quiet", "--junit", file, name).stderr == b"", f"--junit {file} is not quiet")
    expect(sorted(os.listdir(folder)) == before, "a file is left, or gone")
    with open(os.path.join(folder, "kept.xml"), encoding="ascii") as file:
        expect(file.read() == "kept", "a file was changed")
    with open("/dev/full", "wb") as full:
        ran = subprocess.run([program, "check", "--junit", "full.xml", name], cwd=folder, stdout=full, stderr=subprocess.PIPE, timeout=120, check=False)
    expect(ran.returncode == 3 and os.path.exists(os.path.join(folder, "full.xml")), f"an output that is full: {ran}")


def main():
    program = os.path.abspath(sys.argv[1])
    with tempfile.TemporaryDirectory() as folder:
        for name, octets, _ in FILES:
            if octets is not None:
                with open(os.path.join(folder, name), "wb") as file:
                    file.write(octets)
        results(program, folder)
        holding(program, folder)
        refused(program, folder)
    print(f"{passed} passed, {failed} failed")
    sys.exit(failed != 0)


main()
