#!/usr/bin/env python3
"""The judge without sockets: what this server sends in each case is recorded and judged, which has to be the same; then seven wrong servers are, each of which changes
what this one sends. None of these is the same in a case, or skipped in more cases than this server is, and each breaks a rule in so many cases at least.

    tests/wrong_servers.py PROGRAM

It runs the program some 3,000 times. The last line is `N passed, M failed`.
"""

import collections
import concurrent.futures
import glob
import os
import re
import shlex
import shutil
import subprocess
import sys
import tempfile

TOP = os.path.dirname(os.path.dirname(os.path.abspath(__file__)))
RESET, SETTINGS, GOAWAY = 3, 4, 7


def run(program, words, given=b""):
    return subprocess.run(["h2_bench", *words], executable=program, input=given, capture_output=True).stdout


def frames(octets):
    """The frames of octets, each as its head's parts and its payload."""
    found = []
    while len(octets) >= 9:
        length = int.from_bytes(octets[:3], "big")
        found.append((octets[3], octets[4], int.from_bytes(octets[5:9], "big"), octets[9 : 9 + length]))
        octets = octets[9 + length :]
    return found


def octets_of(found):
    return b"".join(len(payload).to_bytes(3, "big") + bytes([kind, flags]) + stream.to_bytes(4, "big") + payload for kind, flags, stream, payload in found)


def is_error(frame):
    kind, _, _, payload = frame
    return kind == RESET and payload[:4] != bytes(4) or kind == GOAWAY and payload[4:8] != bytes(4)


def same(found, streams):
    return found


def nothing(found, streams):
    return [frame for frame in found if not is_error(frame)]


def other_code(found, streams):
    return [(kind, flags, stream, payload[:-4] + b"\0\0\0\4") if is_error((kind, flags, stream, payload)) else (kind, flags, stream, payload) for kind, flags, stream, payload in found]


def resets_for_the_end(found, streams):
    stream = streams[-1] if streams else 1
    return [(RESET, 0, stream, payload[4:8]) if kind == GOAWAY else (kind, flags, other, payload) for kind, flags, other, payload in found]


def resets_another(found, streams):
    return [(kind, flags, stream + 2 if kind == RESET else stream, payload) for kind, flags, stream, payload in found]


def answers(found, streams):
    return [(1, 5, stream, b"\x88") if kind == RESET else (kind, flags, stream, payload) for kind, flags, stream, payload in found]


def refuses(found, streams):
    return found if any(map(is_error, found)) else [*found, (GOAWAY, 0, 0, bytes(7) + b"\1")]


def deaf(found, streams):
    return [frame for frame in found if not (frame[0] == SETTINGS and frame[1] & 1)]


# In how many cases each breaks a rule at least.
LEAST = {
    "reacts to nothing": 160,
    "has code 4 everywhere": 0,
    "resets a stream where the connection has to end": 110,
    "resets another stream": 95,
    "answers 200 where it resets": 70,
    "refuses what is lawful": 75,
    "acknowledges no SETTINGS": 280,
}
CHANGES = {
    "this server": same,
    "reacts to nothing": nothing,
    "has code 4 everywhere": other_code,
    "resets a stream where the connection has to end": resets_for_the_end,
    "resets another stream": resets_another,
    "answers 200 where it resets": answers,
    "refuses what is lawful": refuses,
    "acknowledges no SETTINGS": deaf,
}


def cases_of(path):
    """The cases of a file, each as its lines."""
    found = []
    for line in open(path, encoding="utf-8").read().split("\n"):
        if line.startswith(";# "):
            found.append([])
        if found:
            found[-1].append(line)
    return found


def judged(program, path, lines, folder):
    """The verdicts in a case, by the name of the change; none where the change changes nothing."""
    words = [word for line in lines if line.startswith(";@ ") for word in shlex.split(line[3:])]
    script = "\n".join(line for line in lines if not line.startswith(";")) + "\n"
    client = bytes.fromhex(run(program, ["asm", "--quiet"], script.encode()).decode())
    if not client:
        return {}
    for place, word in enumerate(words):
        if place and words[place - 1] == "--book":
            words[place] = os.path.join(os.path.dirname(path), word)
    sent = bytes.fromhex(run(program, ["play", "--quiet", *words], client.hex().encode()).decode().split("\n")[0].removeprefix("sent "))
    found = frames(sent)
    streams = [stream for _, _, stream, _ in frames(client[24:]) if stream]
    with tempfile.TemporaryDirectory(dir=folder) as here:
        for book in glob.glob(f"{TOP}/cases/**/*.toml", recursive=True):
            shutil.copy(book, here)
        with open(f"{here}/case.h2", "w", encoding="utf-8") as file:
            file.write("\n".join(re.sub(r"--book \S*/", "--book ", line) for line in lines))
        with open(f"{here}/client", "wb") as file:
            file.write(client)
        verdicts = {}
        for name, change in CHANGES.items():
            changed = change(found, streams)
            if changed == found and change is not same:
                continue
            with open(f"{here}/server", "wb") as file:
                file.write(octets_of(changed))
            text = run(program, ["check", "--judge", f"{here}/client", f"{here}/server", f"{here}/case.h2"]).decode()
            counts = re.search(r"# same (\d+), allowed (\d+), doubtful (\d+), broken (\d+), skipped (\d+)", text)
            place = counts and next((n for n, count in enumerate(counts.groups()) if int(count)), None)
            verdicts[name] = "none" if place is None else ["same", "allowed", "doubtful", "broken", "skipped"][place]
            if name == "this server" and verdicts[name] not in ("same", "skipped"):
                print(f"{os.path.relpath(path, TOP)}: {lines[0]}\n{text}")
        return verdicts


def main(program):
    program = os.path.abspath(program)
    counts = {name: collections.Counter() for name in CHANGES}
    todo = [(path, lines) for path in sorted(glob.glob(f"{TOP}/cases/**/*.h2", recursive=True)) for lines in cases_of(path)]
    with tempfile.TemporaryDirectory() as folder, concurrent.futures.ThreadPoolExecutor(2) as pool:
        for verdicts in pool.map(lambda case: judged(program, *case, folder), todo):
            for name, verdict in verdicts.items():
                counts[name][verdict] += 1
    for name, count in counts.items():
        print(f"{name}: " + ", ".join(f"{verdict} {number}" for verdict, number in sorted(count.items())))
    skipped = counts["this server"]["skipped"]
    wrong = [
        name
        for name, count in counts.items()
        if (set(count) - {"same", "skipped"} if name == "this server" else count["same"] or count["skipped"] > skipped or count["broken"] < LEAST[name])
    ]
    print("".join(f"wrong: {name}\n" for name in wrong), end="")
    print(f"{len(counts) - len(wrong)} passed, {len(wrong)} failed")
    return 1 if wrong else 0


if __name__ == "__main__":
    sys.exit(main(sys.argv[1]))
