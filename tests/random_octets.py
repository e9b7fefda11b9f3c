#!/usr/bin/env python3
"""Plays random octets in several ways and compares what has to agree.

  tests/random_octets.py [--program FILE] [--count N] [--seed N] [--jobs N] [--keep FOLDER]

An input is made from the project's own octets (examples/ and the hex of the test crates): frames of several runs are cut out, repeated, flipped, joined,
put on other streams and cut off. --count (2,000) inputs from --seed (1) on, --jobs (4) processes side by side. For each input:
  - `play --quiet` ends by itself with status 0 and nothing on standard error;
  - `play --cut`, in pieces of one octet and of two other lengths, prints the same;
  - the last place of `play --each` has the same state, and what its places sent, joined, is what `play` sent;
  - `dis` writes a script, and `asm` makes the same octets of it (the scripts of many inputs in one run);
  - `debug` shows at positions in any order, by steps, back and runs, what `play --each` has there.
The program is the proved one of this repository unless it is named. An input that fails is kept in --keep (a new folder) as NUMBER.hex, with its words
in NUMBER.words; the status is then 1. It is no part of the gate: 2,000 inputs take about a minute.
"""

import argparse
import glob
import multiprocessing
import os
import random
import re
import subprocess
import sys
import tempfile

PREFACE = b"PRI * HTTP/2.0\r\n\r\nSM\r\n\r\n"
SETTINGS = bytes.fromhex("000000040000000000")
ACKNOWLEDGEMENT = bytes.fromhex("000000040100000000")
SIZE_UPDATE = bytes.fromhex("20")
ANSWERS = ["GET|/|200|6869", "GET|/|200|" + "61" * 3000, "POST|/|201||x=y", "GET|/a|204|", "GET|/|500|" + "00ff" * 25000]
BATCH = 25
SECONDS = 30


class Differs(Exception):
    pass


def frames_in(octets):
    """The frames that octets begin with; what follows the last one is dropped."""
    if octets.startswith(PREFACE):
        octets = octets[24:]
    frames = []
    while len(octets) >= 9 and len(octets) >= 9 + int.from_bytes(octets[:3], "big"):
        end = 9 + int.from_bytes(octets[:3], "big")
        frames.append(octets[:end])
        octets = octets[end:]
    return frames


def own_runs(top, program):
    """Lists of frames from the examples, and from the hex of the transcripts of runs."""
    found = []
    for path in sorted(glob.glob(os.path.join(top, "examples/*.hex"))):
        found.append(bytes.fromhex(open(path).read()))
    for path in sorted(glob.glob(os.path.join(top, "examples/**/*.h2"), recursive=True)):
        found.append(bytes.fromhex(subprocess.run([program, "asm"], stdin=open(path), capture_output=True, text=True, check=True).stdout))
    for path in sorted(glob.glob(os.path.join(top, "tests/runs/*.run"))):
        for text in re.findall(r"\b((?:[0-9a-f]{2} ?){9,})\b", open(path, encoding="utf-8").read()):
            found.append(bytes.fromhex(text))
    runs = [frames for frames in map(frames_in, found) if frames]
    if len(runs) < 50:
        raise SystemExit(f"only {len(runs)} runs found in {top}")
    return runs


def with_head(frame, kind=None, flags=None, stream=None):
    head = bytearray(frame[:9])
    if kind is not None:
        head[3] = kind
    if flags is not None:
        head[4] = flags
    if stream is not None:
        head[5:9] = stream.to_bytes(4, "big")
    return bytes(head) + frame[9:]


def changed(rng, frame):
    """A frame that is a little different."""
    choice = rng.randrange(8)
    if choice == 0:
        at = rng.randrange(len(frame))
        return frame[:at] + bytes([frame[at] ^ 1 << rng.randrange(8)]) + frame[at + 1:]
    if choice == 1:
        return with_head(frame, flags=frame[4] ^ rng.choice([1, 4, 8, 32]))
    if choice == 2:
        return with_head(frame, stream=rng.choice([0, 1, 1, 3, 5, 7, 9, 2, 0x80000001]))
    if choice == 3:
        return with_head(frame, kind=rng.randrange(12))
    payload = frame[9:]
    if choice == 4:
        payload = payload[:rng.randrange(len(payload) + 1)]
    elif choice == 5:
        payload += bytes(rng.randrange(256) for _ in range(rng.randrange(12)))
    elif choice == 6 and payload:
        at = rng.randrange(len(payload))
        payload = payload[:at] + bytes([rng.randrange(256)]) + payload[at + 1:]
    else:
        payload = payload * rng.randrange(1, 4)
    payload = payload[:16385]
    return len(payload).to_bytes(3, "big") + frame[3:9] + payload


def split_block(rng, frame):
    """HEADERS as HEADERS and CONTINUATION."""
    if frame[3] != 1 or frame[4] & 40 or len(frame) < 10:
        return [frame]
    at = rng.randrange(len(frame) - 8)
    first, last = frame[9:9 + at], frame[9 + at:]
    return [
        len(first).to_bytes(3, "big") + bytes([1, frame[4] & ~4]) + frame[5:9] + first,
        len(last).to_bytes(3, "big") + bytes([9, frame[4] & 4]) + frame[5:9] + last,
    ]


def with_update(frame):
    """HEADERS whose block begins with a table size update to 0, as one must behind an acknowledgement that lowers the limit."""
    if frame[3] != 1 or frame[4] & 40:
        return frame
    payload = SIZE_UPDATE + frame[9:]
    return len(payload).to_bytes(3, "big") + frame[3:9] + payload


def made(rng, runs):
    """The octets of an input."""
    frames = []
    for _ in range(rng.randrange(1, 7)):
        run = rng.choice(runs)
        start = rng.randrange(len(run))
        piece = run[start:start + rng.randrange(1, 9)] if rng.random() < 0.7 else run
        frames += piece * rng.choice([1, 1, 1, 1, 2, 3])
    frames = frames[:200]
    # Requests on rising streams go on; others mostly end the connection.
    if rng.random() < 0.7:
        stream, last = 1, None
        for at, frame in enumerate(frames):
            if frame[3] == 1:
                last, stream = stream, stream + 2
            if last is not None and frame[3] in (0, 1, 2, 3, 9) or frame[3] == 8 and last is not None and rng.random() < 0.5:
                frames[at] = with_head(frame, stream=last)
    if rng.random() < 0.5:
        frames = [part for frame in frames for part in (split_block(rng, frame) if rng.random() < 0.3 else [frame])]
    for _ in range(rng.choice([0, 0, 1, 1, 2, 4])):
        at = rng.randrange(len(frames))
        frames[at] = changed(rng, frames[at])
    if frames and rng.random() < 0.3:
        at = rng.randrange(len(frames) + 1)
        frames[at:] = [ACKNOWLEDGEMENT] + [with_update(frame) if rng.random() < 0.3 else frame for frame in frames[at:]]
    octets = b"".join(frames)
    opening = rng.random()
    if opening < 0.9:
        octets = PREFACE + SETTINGS + octets
    elif opening < 0.95:
        octets = PREFACE + octets
    for _ in range(rng.choice([0, 0, 0, 0, 1, 3])):
        if octets:
            at = rng.randrange(len(octets))
            octets = octets[:at] + bytes([octets[at] ^ 1 << rng.randrange(8)]) + octets[at + 1:]
    if rng.random() < 0.3:
        octets = octets[:rng.randrange(len(octets) + 1)]
    return octets[:60000]


def words_made(rng):
    words = []
    if rng.random() < 0.4:
        words += ["--streams", str(rng.choice([1, 1, 2, 3, 1000]))]
    if rng.random() < 0.4:
        words += ["--credit", str(rng.choice([1, 2, 100, 65535]))]
    if rng.random() < 0.3:
        words += ["--table", str(rng.choice([0, 31, 57, 100, 65536]))]
    if rng.random() < 0.3:
        words += ["--window", str(rng.choice([0, 1, 10, 70000, 2147483647]))]
    if rng.random() < 0.3:
        words += ["--frame", str(rng.choice([16385, 65536]))]
    return words + rng.sample(ANSWERS, rng.randrange(len(ANSWERS) + 1))


def run(program, words, text):
    try:
        ended = subprocess.run([program, words[0], "--quiet", *words[1:]], input=text, capture_output=True, timeout=SECONDS)
    except subprocess.TimeoutExpired:
        raise Differs(f"{words[0]}: no end after {SECONDS} s")
    if ended.returncode != 0 or ended.stderr:
        raise Differs(f"{words[0]}: status {ended.returncode}, {ended.stdout[-200:]!r}, {ended.stderr[:200]!r}")
    return ended.stdout.decode()


def places_of(text):
    """What is sent and shown at the start and after each item."""
    places = []
    for line in text.splitlines(keepends=True):
        if line.startswith("item "):
            if line != f"item {len(places)}\n":
                raise Differs(f"play --each: {line!r} is place {len(places)}")
            places.append([])
        else:
            places[-1].append(line)
    return ["".join(lines) for lines in places]


def compare_each(whole, places):
    sent = [place.split("\n", 1)[0].removeprefix("sent ").replace("-", "") for place in places]
    if "sent " + "".join(sent) + "\n" + places[-1].split("\n", 1)[1] != whole:
        raise Differs("play --each: its places are not the whole run")


def kinds_of(octets, count):
    """The type and the stream of each item's frame, for the breakpoints: None for the preface."""
    found, at = [None], 24
    while len(found) < count and at + 9 <= len(octets):
        found.append((octets[at + 3], int.from_bytes(octets[at + 5:at + 9], "big") % (1 << 31)))
        at += 9 + int.from_bytes(octets[at:at + 3], "big")
    return found


def session_of(rng, places, kinds):
    """The commands of a session, and what it prints."""
    end, now, lines, printed, stops = len(places) - 1, 0, [], [], []
    for _ in range(rng.randrange(4, 14)):
        choice = rng.choice(["step", "back", "go", "go", "run", "break", "clear"])
        if choice == "step":
            count = rng.choice([0, 1, 2, 70])
            lines.append(f"step {count}")
            refused, now = count and now == end, min(end, now + count)
            printed.append("fault 19\n" if refused else f"at {now}\n")
        elif choice == "back":
            count = rng.choice([0, 1, 3, 65])
            lines.append(f"back {count}")
            refused, now = count and now == 0, max(0, now - count)
            printed.append("fault 20\n" if refused else f"at {now}\n")
        elif choice == "go":
            target = rng.randrange(end + 2)
            lines.append(f"go {target}")
            now = target if target <= end else now
            printed.append(f"at {now}\n" if target <= end else "fault 21\n")
        elif choice == "run":
            lines.append("run")
            refused = now == end
            if not refused:
                now = next((p for p in range(now + 1, end) if matches(stops, p, kinds)), end)
            printed.append("fault 19\n" if refused else f"at {now}\n")
        elif choice == "break":
            stop = rng.choice([("at", rng.randrange(end + 2)), ("type", rng.choice([0, 1, 3, 4, 6, 8, 9])), ("stream", rng.choice([0, 1, 3]))])
            stops.append(stop)
            lines.append("break {} {}".format(*stop))
            printed.append("ok\n")
        else:
            stops = []
            lines.append("clear")
            printed.append("ok\n")
        lines.append("show")
        printed.append(f"at {now}\n{places[now]}")
    return "\n".join(lines), "".join(printed)


def matches(stops, position, kinds):
    kind = kinds[position - 1] if position - 1 < len(kinds) else None
    return any(
        what == "at" and number == position or kind is not None and (what == "type" and number == kind[0] or what == "stream" and number == kind[1])
        for what, number in stops
    )


def compare_session(rng, program, words, octets, places):
    # An item that is no whole frame ends the connection, and its position is the end.
    commands, wanted = session_of(rng, places, kinds_of(octets, len(places) - 1))
    printed = run(program, ["debug", *words], octets.hex().encode() + b"\n" + commands.encode() + b"\n")
    if printed != wanted:
        raise Differs(f"debug: it prints {printed!r}\nfor {commands!r}\nand not {wanted!r}")


def compare(rng, program, words, octets):
    text = octets.hex().encode()
    whole = run(program, ["play", *words], text)
    for length in [1, rng.randrange(2, 40), rng.randrange(40, 3000)]:
        if run(program, ["play", "--cut", str(length), *words], text) != whole:
            raise Differs(f"play --cut {length} prints something else")
    places = places_of(run(program, ["play", "--each", *words], text))
    compare_each(whole, places)
    compare_session(rng, program, words, octets, places)
    return run(program, ["dis"], text)


def batch(numbers):
    """Compares some inputs, and their scripts in one run of asm. Returns the inputs that differ."""
    wrong, scripts, joined, seen = [], [], [], {}
    for number in numbers:
        rng = random.Random(f"{SEED} {number}")
        octets, words = made(rng, RUNS), words_made(rng)
        try:
            scripts.append(compare(rng, PROGRAM, words, octets))
            joined.append(octets)
            phase = "ended"
        except Differs as fault:
            wrong.append((number, octets, words, str(fault)))
    try:
        if run(PROGRAM, ["asm"], "".join(scripts).encode()) != b"".join(joined).hex() + "\n":
            wrong.append((numbers[0], b"".join(joined), [], f"asm of dis: not the octets of inputs {numbers[0]} to {numbers[-1]}"))
    except Differs as fault:
        wrong.append((numbers[0], b"".join(joined), [], str(fault)))
    return wrong


parser = argparse.ArgumentParser()
parser.add_argument("--program")
parser.add_argument("--count", type=int, default=2000)
parser.add_argument("--seed", type=int, default=1)
parser.add_argument("--jobs", type=int, default=4)
parser.add_argument("--keep")
given = parser.parse_args()
TOP = os.path.dirname(os.path.dirname(os.path.abspath(__file__)))
given.program = given.program or subprocess.run([sys.executable, "-B", f"{TOP}/tools/program.py", "proved"], check=True, stdout=subprocess.PIPE, text=True).stdout.strip()
PROGRAM, SEED, RUNS = os.path.abspath(given.program), given.seed, own_runs(TOP, given.program)
numbers = range(given.count)
failed = 0
with multiprocessing.Pool(given.jobs) as pool:
    for wrong in pool.imap_unordered(batch, [numbers[at:at + BATCH] for at in range(0, given.count, BATCH)]):
        for number, octets, words, fault in wrong:
            failed += 1
            given.keep = given.keep or tempfile.mkdtemp(prefix="random-")
            os.makedirs(given.keep, exist_ok=True)
            with open(os.path.join(given.keep, f"{number}.hex"), "w") as file:
                file.write(octets.hex() + "\n")
            with open(os.path.join(given.keep, f"{number}.words"), "w") as file:
                file.write("\n".join(words) + "\n")
            print(f"input {number}, kept in {given.keep}: {fault}", file=sys.stderr)
print(f"{given.count} inputs from seed {given.seed}, made of {len(RUNS)} runs: {failed} differ")
sys.exit(1 if failed else 0)
