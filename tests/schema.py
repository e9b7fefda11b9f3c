#!/usr/bin/env python3
"""Holds each line of `explain --json` against docs/explain.schema.json.

    schema.py PROGRAM

The lines are those of the examples, of the example of each cause, of random sessions (tests/rebuild.py) and of faults, with long texts cut and whole. The validator has
what the schema uses: $ref, oneOf, type, enum, const, properties, required, items, pattern, minimum and maximum. It is stricter: a member that the schema does not name is a fault.
That it refuses is tried too: a line without a member, with one more, and with another value of each kind.
"""

import copy
import glob
import json
import os
import random
import re
import shlex
import subprocess
import sys
import tempfile

import rebuild

TOP = os.path.dirname(os.path.dirname(os.path.abspath(__file__)))
TYPES = {"object": dict, "array": list, "string": str, "boolean": bool, "null": type(None), "integer": int}


def is_type(name, value):
    return isinstance(value, TYPES[name]) and not (name == "integer" and isinstance(value, bool))


class Schema:
    def __init__(self, path):
        with open(path, encoding="utf-8") as file:
            self.whole = json.load(file)

    def faults(self, value, schema=None, at="line"):
        """What of a value is not as the schema says."""
        schema = self.whole if schema is None else schema
        if "$ref" in schema:
            return self.faults(value, self.whole["$defs"][schema["$ref"].rsplit("/", 1)[1]], at)
        if "oneOf" in schema:
            tried = [self.faults(value, one, at) for one in schema["oneOf"]]
            if sum(not it for it in tried) != 1:
                return [f"{at}: not one of {len(tried)}"] + min(tried, key=len)
            return []
        found = self.plain_faults(value, schema, at)
        if isinstance(value, dict):
            found += self.member_faults(value, schema, at)
        if isinstance(value, list):
            for place, element in enumerate(value):
                found += self.faults(element, schema.get("items", {}), f"{at}[{place}]")
        return found

    def plain_faults(self, value, schema, at):
        found = []
        types = schema.get("type", [])
        types = [types] if isinstance(types, str) else types
        if types and not any(is_type(name, value) for name in types):
            found.append(f"{at}: {value!r:.60} is no {' or '.join(types)}")
        if "enum" in schema and value not in schema["enum"]:
            found.append(f"{at}: {value!r:.60} is none of the values")
        if "const" in schema and (value != schema["const"] or isinstance(value, bool) != isinstance(schema["const"], bool)):
            found.append(f"{at}: {value!r:.60} is not {schema['const']!r}")
        if isinstance(value, str) and not re.search(schema.get("pattern", ""), value):
            found.append(f"{at}: {value!r:.60} is of another form")
        if is_type("integer", value) and not schema.get("minimum", value) <= value <= schema.get("maximum", value):
            found.append(f"{at}: {value} is out of range")
        return found

    def member_faults(self, value, schema, at):
        properties = schema.get("properties", {})
        found = [f"{at}: no {name}" for name in schema.get("required", []) if name not in value]
        for name, member in value.items():
            if name in properties:
                found += self.faults(member, properties[name], f"{at}.{name}")
            elif properties:
                found.append(f"{at}: {name} is unknown")
        return found


def lines_of(program, octets_hex, words):
    with tempfile.NamedTemporaryFile("w", suffix=".hex") as file:
        file.write(octets_hex)
        file.flush()
        return [json.loads(line) for form in ([], ["--full"]) for line in rebuild.run(program, ["explain", "--json", *form, file.name, *words]).splitlines()]


def inputs(program):
    """Hex and words: the examples, those of the causes, and random sessions."""
    for path in sorted(glob.glob(f"{TOP}/examples/*.hex")):
        with open(path, encoding="ascii") as file:
            yield path, file.read(), []
    for path in sorted(glob.glob(f"{TOP}/examples/*.h2") + glob.glob(f"{TOP}/examples/causes/*.h2")):
        with open(path, encoding="utf-8") as file:
            script = file.read()
        words = [word for said in re.findall("^;@ (.*)", script, re.M) for word in shlex.split(said)]
        yield path, subprocess.run([program, "asm"], input=script, stdout=subprocess.PIPE, check=True, encoding="utf-8").stdout, words
    for number in range(100):
        octets, words = rebuild.session(random.Random(f"schema {number}"))
        yield f"random session {number}", octets.hex() + "\n", words + ["--strict"] * (number % 2)
    for name, octets, words in (("no octets", "", []), ("no hex", "4", []), ("a limit", "", ["--streams", "0"]), ("a status", "", ["GET|/|199|"])):
        yield name, octets, words


def spoiled(line):
    """A line with one fault each."""
    for name in line:
        other = copy.deepcopy(line)
        del other[name]
        if name in ("item", "octets", "offset", "sent", "words", "end"):
            yield f"without {name}", other
    yield "with one member more", {**line, "must": True}
    yield "with a negative offset", {**line, "offset": -1}
    yield "with octets of another form", {**line, "octets": {"hex": "0G"}}
    yield "cut where it is short", {**line, "octets": {"hex": "", "length": 100}}
    yield "with a fault of another number", {"fault": {"number": 1}}
    if "error" in line:
        yield "with another duty", {**line, "error": {**line["error"], "server": "MUST"}}
        yield "with a cause that there is not", {**line, "error": {**line["error"], "cause": "bad-day"}}


def main(program):
    schema = Schema(f"{TOP}/docs/explain.schema.json")
    passed = failed = 0
    for name, octets, words in inputs(program):
        lines = lines_of(program, octets, words)
        faults = [f"line {number}: {fault}" for number, line in enumerate(lines) for fault in schema.faults(line)]
        faults += ["no line"] if not lines else []
        faults += [f"taken {how}" for line in lines[:-1] for how, bad in spoiled(line) if not schema.faults(bad)]
        if faults:
            failed += 1
            print(f"not ok: {name}: {'; '.join(faults[:3])}")
        else:
            passed += 1
    print(f"{passed} passed, {failed} failed")
    sys.exit(1 if failed else 0)


if __name__ == "__main__":
    main(sys.argv[1])
