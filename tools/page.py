#!/usr/bin/env python3
"""Puts the page together: page.py WASM OUT writes one file of the page, its style and its script (web/page.*), the code, the functions of share/js that call it, the examples, the
scripts of causes and the cases.

It is the same, octet for octet, for the same code and the same files.
"""

import base64
import glob
import gzip
import json
import os
import re
import shlex
import sys

TOP = os.path.dirname(os.path.dirname(os.path.abspath(__file__)))
MOST = 600_000  # octets of the page


def read(path):
    with open(path, encoding="utf-8") as file:
        return file.read()


def example(path, words):
    """A script as an entry of the list: its name, its text, and the words of its command line."""
    text = read(path)
    named = re.match(r"; (.*)", text)
    name = os.path.basename(path)[:-3]
    return {"name": f"{name}: {named[1]}" if named else name, "script": text, "words": words}


def cases(path):
    """The cases of a file, each with its words, which its lines `;@` have."""
    for text in re.split(r"^(?=;# )", read(path), flags=re.M):
        title = re.match(r";# (.*)", text)
        if title:
            words = [word for line in re.findall(r"^;@ (.*)", text, re.M) for word in shlex.split(line)]
            if "--book" not in words:
                yield {"name": title[1], "script": text.rstrip() + "\n", "words": words}


def stock(top=TOP):
    """The examples, the scripts of causes and the cases."""
    found = []
    words = ["GET|/|200|6869"]
    said = {"window": ["GET|/|200|000102030405060708090a0b0c0d0e0f"], "stops": ["--window", "60", "--credit", "80"], "upload": ["POST|/upload|200|6f6b"]}
    for path in sorted(glob.glob(f"{top}/examples/*.h2"), key=lambda it: (not it.endswith("get.h2"), it)):
        name = os.path.basename(path)[:-3]
        found.append({"group": "Examples", **example(path, said.get(name, words))})
    for path in sorted(glob.glob(f"{top}/examples/causes/*.h2")):
        found += [{**case, "group": "Errors, by cause", "name": f"{os.path.basename(path)[:-3]}: {case['name']}"} for case in cases(path)]
    for path in sorted(glob.glob(f"{top}/cases/**/*.h2", recursive=True)):
        group = "Cases: " + os.path.relpath(path, f"{top}/cases")[:-3].replace("/", ", ")
        found += [{"group": group, **case} for case in cases(path)]
    return found


def engine(top=TOP):
    """What calls the code, as the module of share/js has it up to what only others call."""
    module = read(f"{top}/share/js/h2_bench.mjs").partition("// ---- what others call")[0]
    return re.sub(r"^export ", "", module[module.index("export ") :], flags=re.M).rstrip()


def packed(octets):
    made = bytearray(gzip.compress(octets, 9, mtime=0))
    made[9] = 255  # the system, which some versions of Python name and others do not
    return base64.b64encode(made).decode()


def main():
    wasm, out = sys.argv[1:]
    with open(wasm, "rb") as file:
        code = file.read()
    page, style, script = (read(f"{TOP}/web/page.{kind}") for kind in ("html", "css", "js"))
    page = page.replace("@STYLE@", style.rstrip()).replace("@SCRIPT@", script.rstrip()).replace("@ENGINE@", engine())
    page = page.replace("@WASM@", packed(code)).replace("@STOCK@", packed(json.dumps(stock(), sort_keys=True).encode()))
    if len(page.encode()) > MOST:
        sys.exit(f"page.py: the page has {len(page.encode())} octets, more than {MOST}")
    with open(out, "w", encoding="utf-8") as file:
        file.write(page)
    print(f"{out}: {len(page.encode())} octets")


if __name__ == "__main__":
    main()
