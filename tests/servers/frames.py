#!/usr/bin/env python3
"""Plays cases to a server item by item, as `check --against` does, and shows the frames of both.

    tests/servers/frames.py PROGRAM PORT CASE..          CASE is a file below cases and the number of a case in it: 'start 2', 'messages/requests 8'
    tests/servers/frames.py PROGRAM PORT --broken TAP    the first case of each broken rule in the results TAP, as JSON: {"start 2": [[sent, [came, ..]], ..], ..}
"""

import json
import os
import re
import socket
import subprocess
import sys

sys.dont_write_bytecode = True
TOP = os.path.dirname(os.path.dirname(os.path.dirname(os.path.abspath(__file__))))
sys.path.insert(0, f"{TOP}/tests")
from dialogues import code_name  # noqa: E402
from page import broken_items  # noqa: E402
from script import PREFACE  # noqa: E402

# Seconds without an octet that end a wait; the answer to the PING at the end is waited for longer.
WAIT, LAST_WAIT = 0.25, 0.8
PROBE = b"\0\0\x08\x06\0\0\0\0\0probe!!!"
STATUSES = {8: 200, 9: 204, 10: 206, 11: 304, 12: 400, 13: 404, 14: 500}


def run(program, words, given):
    return subprocess.run(["h2_bench", *words, "--quiet"], executable=program, input=given, capture_output=True, text=True, check=False).stdout


def lines_of(place):
    """The lines of the script of a case."""
    name, number = place.rsplit(" ", 1)
    with open(f"{TOP}/cases/{name}.h2", encoding="utf-8") as file:
        case = re.split(r"^;# ", file.read(), flags=re.M)[int(number)]
    return [line for line in case.split("\n")[1:] if line and not line.startswith(";")]


def items_of(octets):
    """The preface, then frame by frame; what is no whole frame is the last item."""
    found = []
    if octets.startswith(PREFACE):
        found.append(octets[: len(PREFACE)])
        octets = octets[len(PREFACE) :]
    elif octets:
        return [octets]
    while octets:
        end = 9 + int.from_bytes(octets[:3], "big")
        found.append(octets[:end])
        octets = octets[end:]
    return found


def heard(wire, seconds):
    """What comes until nothing has come for this long, and whether the server closed the connection."""
    came = b""
    wire.settimeout(seconds)
    while True:
        try:
            octets = wire.recv(65536)
        except TimeoutError:
            return came, False
        except OSError:
            return came, True
        if not octets:
            return came, True
        came += octets


def exchange(port, items):
    """The octets that came after each item, and last after the PING; None where the connection was closed then or before."""
    found = []
    with socket.create_connection(("127.0.0.1", port)) as wire:
        closed = heard(wire, 0.05)[1]
        for number, item in enumerate(items):
            if not closed:
                try:
                    wire.sendall(item)
                except OSError:
                    pass
            came, closed = (b"", True) if closed else heard(wire, LAST_WAIT if number == len(items) - 1 else WAIT)
            found.append((came, closed))
    return found


def frame(line):
    """A frame of a server in words, as short as it can be."""
    name, _, rest = line.partition(" ")
    flags, _, more = rest.partition(" ")
    stream, _, payload = more.partition(" ")
    if name == "HEADERS":
        fields = re.match(r'h(?:u\d+,)*(?:i(\d+)|[anv]8=["\'](\d+)["\'])', payload)
        status = STATUSES.get(int(fields[1])) if fields and fields[1] else fields and fields[2]
        return f"HEADERS {stream} :status {status}" if status else f"HEADERS {stream}"
    if name == "GOAWAY":
        text = bytes.fromhex(payload[17:]).decode("latin1")
        return f"GOAWAY {code_name(int(payload[9:17], 16))}" + (f" {ascii(text)}" if text else "")
    if name == "RST_STREAM":
        return f"RST_STREAM {stream} {code_name(int(payload[1:]))}"
    if name in ("SETTINGS", "PING") and int(flags, 16) & 1:
        return f"{name} ACK"
    return name if name == "SETTINGS" else f"{name} {stream}"


def short(line, length):
    """A line of a script, and how many octets a long frame has."""
    return line if len(line) <= 80 else f"{line[:44]}.. ({length:,} octets)"


def played(program, port, place):
    """Of each item of a case its line in a script and the frames that came after it; `closed` where the server closed the connection."""
    octets = bytes.fromhex(run(program, ["asm"], "\n".join(lines_of(place)) + "\n"))
    items = items_of(octets)
    lines = [short(run(program, ["dis"], item.hex()).strip(), len(item) - 9) for item in items]
    whole = len(items) > 1 and len(items[-1]) >= 9 and len(items[-1]) == 9 + int.from_bytes(items[-1][:3], "big")
    asks = whole and not (items[-1][3] in (1, 9) and not items[-1][4] & 4)
    found = exchange(port, [*items, PROBE] if asks else items)
    shown = []
    for line, (came, closed) in zip([*lines, "PING 00 0 probe"], found):
        frames = [frame(text) for text in run(program, ["dis"], came.hex()).split("\n") if text]
        shown.append([line, frames + ["closed"] * (closed and "closed" not in sum((had for _, had in shown), []))])
    return shown


def broken(path):
    """The first case of each broken rule in results."""
    places = {}
    for place, rule, _ in broken_items(path):
        places.setdefault(rule, place)
    return list(dict.fromkeys(places.values()))


def main(program, port, *words):
    program = os.path.abspath(program)
    if words[0] == "--broken":
        print(json.dumps({place: played(program, int(port), place) for place in broken(words[1])}, indent=1))
        return
    for place in words:
        print(place)
        for line, frames in played(program, int(port), place):
            print(f"  > {line}", *(f"  < {one}" for one in frames), sep="\n")


if __name__ == "__main__":
    main(*sys.argv[1:])
