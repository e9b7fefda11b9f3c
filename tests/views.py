#!/usr/bin/env python3
"""Holds what `explain` shows with --brief, --errors and --stream against what it shows without them: a part of its lines, and the same status.

    views.py PROGRAM

The lines are those of the examples, of the example of each cause, and of random sessions (tests/rebuild.py). What a line is, its colour says; the stream of an item
is that of its frame in JSON.
"""

import json
import re
import subprocess
import sys
import tempfile

import schema

FIELD, CHANGE = "\033[36m", "\033[2m"
WRONG = ("\033[31m", "\033[33m")  # an error; why it is ignored, or a warning
OTHERS = r" +(\033\[\d+m)?(others may|accepted): "  # what other servers may do, and why an item is accepted


def explain(program, octets_hex, words):
    """The output, and the status."""
    with tempfile.NamedTemporaryFile("w", suffix=".hex") as file:
        file.write(octets_hex)
        file.flush()
        ended = subprocess.run([program, "explain", file.name, *words], stdout=subprocess.PIPE, stderr=subprocess.DEVNULL, check=False, encoding="utf-8")
        return ended.stdout, ended.returncode


def parts_of(text):
    """The lines of each item by its number, and those of the end by None. The opening is item 0."""
    parts, number = [], None
    for line in text.splitlines(keepends=True):
        begins = re.match(r"\033\[1m([#@])(\d+)", line)
        if begins:
            number = int(begins[2]) if begins[1] == "#" else None
            if not parts or parts[-1][0] != number:
                parts.append((number, []))
        parts[-1][1].append(line)
    return parts


def text_wanted(text, streams, brief, errors, stream):
    """What is left of a text with colours."""
    wanted = []
    for number, lines in parts_of(text):
        if number is None:
            of_other = rf"\033\[1m@\d+ +stream (?!{stream}:)\d+: "
            lines = [line for line in lines if stream is None or not re.match(of_other, line)]
        elif errors and (number == 0 or not any(role in line for role in WRONG for line in lines)):
            continue
        elif stream is not None and streams[number] != stream:
            continue
        wanted += [line for line in lines if not brief or not line.strip().startswith((FIELD, CHANGE)) and not re.match(OTHERS, line)]
    return "".join(wanted)


def without(names, value):
    return {name: member for name, member in value.items() if name not in names}


def json_wanted(lines, brief, errors, stream):
    """What is left of the objects."""
    for line in lines:
        if "end" in line and stream is not None and "waits" in line["end"]:
            line = {"end": {**line["end"], "waits": [it for it in line["end"]["waits"] if it["stream"] == stream]}}
        if "item" in line:
            if errors and not ("error" in line or "ignored" in line or "warnings" in line):
                continue
            if stream is not None and line.get("frame", {"stream": 0})["stream"] != stream:
                continue
            if brief:
                line = without(("accepted", "changes", "fields", "table", "table_updates"), line)
                line.update({name: without(("allowed",), line[name]) for name in ("error", "ignored") if name in line})
                line["sent"] = [without(("fields",), it) for it in line["sent"]]
        yield line


def faults(program, octets_hex, words):
    """What is not as it has to be."""
    whole, status = explain(program, octets_hex, ["--color", *words])
    if whole.startswith("fault"):
        return
    lines = [json.loads(line) for line in explain(program, octets_hex, ["--json", *words])[0].splitlines()]
    streams = {line["item"]: line.get("frame", {"stream": 0})["stream"] for line in lines if "item" in line}
    some = sorted(set(streams.values()))[:3]
    for brief, errors, stream in [(True, False, None), (False, True, None), (True, True, some[-1]), *((False, False, it) for it in [*some, 2147483647])]:
        asked = ["--brief"] * brief + ["--errors"] * errors + (["--stream", str(stream)] if stream is not None else [])
        if explain(program, octets_hex, ["--color", *asked, *words]) != (text_wanted(whole, streams, brief, errors, stream), status):
            yield f"text with {' '.join(asked)}"
        found = [json.loads(line) for line in explain(program, octets_hex, ["--json", *asked, *words])[0].splitlines()]
        if found != list(json_wanted(lines, brief, errors, stream)):
            yield f"JSON with {' '.join(asked)}"


def main(program):
    passed = failed = 0
    for name, octets, words in schema.inputs(program):
        found = list(faults(program, octets, words))
        if found:
            failed += 1
            print(f"not ok: {name}: {'; '.join(found[:3])}")
        else:
            passed += 1
    print(f"{passed} passed, {failed} failed")
    sys.exit(1 if failed else 0)


if __name__ == "__main__":
    main(sys.argv[1])
