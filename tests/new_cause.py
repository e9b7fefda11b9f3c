#!/usr/bin/env python3
"""Whether tools/new-cause.sh lists a new cause wherever all causes are listed.

    tests/new_cause.py

The script runs in a copy of the sources, after a cause of the connection and after one of a stream. Each file that names all causes has to name the new one as
often as the one before it, but for those that are written by hand. The last line is `N passed, M failed`, a file each.
"""

import glob
import os
import re
import shutil
import subprocess
import sys
import tempfile

TOP = os.path.dirname(os.path.dirname(os.path.abspath(__file__)))
CODE = "crates/h2_spec/src/causes.rt"
# What the script says is to be written by hand: a worked row, and a sentence with values.
BY_HAND = {"crates/h2_spec_examples/proofs/CauseRows.antt", "crates/h2_explain_error/src/sentence.rt"}


def read(path):
    with open(path, encoding="utf-8") as file:
        return file.read()


def named(name, text):
    return len(re.findall(rf"\b{name}\b", text))


def faults(files, after, before):
    """Files that lack the new cause, once the script has run in this folder."""
    subprocess.run(["tools/new-cause.sh", "new-of-a-test", after], check=True, stdout=subprocess.DEVNULL)
    for path in files:
        text = read(path)
        if named("NewOfATest", text) != named(before, text):
            yield f"{path}: NewOfATest {named('NewOfATest', text)} times, {before} {named(before, text)} times"


def main():
    os.chdir(TOP)
    causes = re.findall(r"^    (\w+),$", read(CODE).split("pub enum Cause")[1].split("\n}")[0], re.M)
    sources = [path for part in ("src", "specs", "proofs") for ending in ("rt", "antt") for path in glob.glob(f"crates/*/{part}/**/*.{ending}", recursive=True)]
    files = sorted(path for path in sources if path not in BY_HAND and all(named(cause, read(path)) for cause in causes))
    wrong = []
    for after, before in (("ping-length", "PingLength"), ("bad-te", "BadTe")):
        with tempfile.TemporaryDirectory() as folder:
            for part in ("tools", "examples", "crates/h2_spec", "crates/h2_spec_laws"):
                shutil.copytree(part, f"{folder}/{part}", ignore=shutil.ignore_patterns("out"))
            for path in files:
                os.makedirs(os.path.dirname(f"{folder}/{path}"), exist_ok=True)
                shutil.copy(path, f"{folder}/{path}")
            os.chdir(folder)
            wrong += faults(files, after, before)
            os.chdir(TOP)
    print(*wrong, f"{2 * len(files) - len(wrong)} passed, {len(wrong)} failed", sep="\n")
    return 1 if wrong else 0


if __name__ == "__main__":
    sys.exit(main())
