#!/usr/bin/env python3
"""Makes each state of random sessions again from the changes that `explain --json --full` lists, and compares it with `play --each`.

    rebuild.py PROGRAM [--count N] [--seed N]

A session is a few dozen frames, most of them valid, under random limits and answers. From the JSON lines alone a reader
keeps the counts of the connection, the client's settings, the server's own, the open block, the header table and the
streams. After each item these have to be the lines that `play --each` prints. 3,000 sessions by default: most of the time goes to starting the program, twice a session.
"""

import argparse
import json
import os
import random
import subprocess
import sys
import tempfile
from concurrent.futures import ThreadPoolExecutor

KINDS = {
    "open": "open",
    "half-closed (remote)": "half-remote",
    "half-closed (local)": "half-local",
    "closed, ended": "ended",
    "closed, reset by the client": "peer-reset",
    "closed, reset by the server": "we-reset",
}
LIVE = ("open", "half-remote", "half-local")
ANSWERS = [["GET|/|200|6869"], ["GET|/|200|" + "78" * 300], ["GET|/|200|" + "79" * 90 + "|early"], ["GET|/|204|"], []]


# ---- random sessions


def frame(kind, flags, stream, payload=b""):
    return len(payload).to_bytes(3, "big") + bytes([kind, flags]) + stream.to_bytes(4, "big") + payload


def literal(rng):
    """A field that enters the header table, or one that does not."""
    name, value = bytes(rng.choices(b"abc-", k=rng.randint(1, 20))), bytes(rng.choices(b"xyz 0", k=rng.randint(0, 30))).strip()
    first = rng.choice([0x40, 0x40, 0x40, 0x00, 0x10])
    return bytes([first, len(name)]) + name + bytes([len(value)]) + value


def block(rng):
    fields = b"\x82\x86\x84" if rng.random() < 0.95 else b"\x82\x86"
    if rng.random() < 0.15:
        fields += b"\x5c\x02" + rng.choice([b"10", b"50", b"99"])
    if rng.random() < 0.2:
        fields = rng.choice([b"\x20", b"\x3f\x09", b"\x3f\x45"]) + fields
    fields += b"".join(literal(rng) for _ in range(rng.randint(0, 3)))
    if rng.random() < 0.1:
        fields += bytes([0x80 + rng.randint(62, 66)])
    return fields


def headers(rng, stream):
    fields, flags = block(rng), rng.choice([0, 1])
    if rng.random() < 0.3 and len(fields) > 1:
        cut = rng.randint(0, len(fields))
        return [frame(1, flags, stream, fields[:cut]), frame(9, 4, stream, fields[cut:])]
    return [frame(1, flags | 4, stream, fields)]


def settings(rng):
    values = [(4, rng.choice([0, 1, 100, 70000, 65535])), (1, rng.choice([0, 4096])), (3, 7), (5, 20000), (6, 100000), (2, 0)]
    picked = rng.sample(values, rng.randint(0, 3))
    return frame(4, 0, 0, b"".join(i.to_bytes(2, "big") + v.to_bytes(4, "big") for i, v in picked))


def next_frames(rng, opened):
    some = rng.choice(opened) if opened else 1
    roll = rng.random()
    if roll < 0.35:
        opened.append(opened[-1] + 2 if opened else 1)
        return headers(rng, opened[-1])
    if roll < 0.55:
        size = rng.choice([0, 1, 50, 200, 1000, 16384])
        return [frame(0, rng.choice([0, 0, 1]), some, b"d" * size)]
    if roll < 0.75:
        return [frame(8, 0, rng.choice([0, some]), rng.choice([1, 10, 500, 70000]).to_bytes(4, "big"))]
    if roll < 0.85:
        return [settings(rng)]
    return [rng.choice([
        frame(4, 1, 0), frame(6, 0, 0, b"12345678"), frame(6, 1, 0, b"12345678"), frame(2, 0, some, b"\0\0\0\0\x10"),
        frame(3, 0, some, b"\0\0\0\x08"), frame(7, 0, 0, b"\0\0\0\x01\0\0\0\0"), frame(16, 0, 0, b"u=1"), frame(8, 0, some, b"\0\0\0\0"),
    ])]


def session(rng):
    """The octets of a session, and its words."""
    octets, opened = [b"PRI * HTTP/2.0\r\n\r\nSM\r\n\r\n", settings(rng)], []
    for _ in range(rng.randint(3, 30)):
        octets += next_frames(rng, opened)
    words = list(rng.choice(ANSWERS))
    for option, values in (("--window", [0, 100, 70000]), ("--credit", [50, 1000]), ("--table", [0, 60, 5000]), ("--streams", [1, 3]), ("--frame", [20000])):
        if rng.random() < 0.35:
            words = [option, str(rng.choice(values))] + words
    joined = b"".join(octets)
    return (joined[: rng.randint(24, len(joined))] if rng.random() < 0.1 else joined), words


# ---- the state, from changes alone


class State:
    def __init__(self):
        self.counts = {
            "receive window": 65535, "unreturned octets": 0, "send window": 65535, "last stream": 0,
            "last stream of client's GOAWAY": None, "code of client's GOAWAY": None,
            "client's HEADER_TABLE_SIZE": 4096, "client's ENABLE_PUSH": 1, "client's MAX_CONCURRENT_STREAMS": None,
            "client's INITIAL_WINDOW_SIZE": 65535, "client's MAX_FRAME_SIZE": 16384, "client's MAX_HEADER_LIST_SIZE": None, "size update pending": 0,
            "own HEADER_TABLE_SIZE in force": 4096, "own INITIAL_WINDOW_SIZE in force": 65535, "own MAX_FRAME_SIZE in force": 16384,
            "header table entries": 0, "header table octets": 0, "header table maximum": 4096,
        }
        self.phase, self.acked, self.block, self.table, self.streams = "preface", False, None, [], {}

    def take(self, line):
        for change in line["changes"]:
            self.change(change)
        for entry in line.get("table", []):
            if entry["what"] == "entered":
                self.table.insert(0, (entry["name"]["hex"], entry["value"]["hex"]))
            else:
                gone = self.table.pop()
                assert gone == (entry["name"]["hex"], entry["value"]["hex"]), f"another entry is evicted: {gone}"
        self.phase = {1: "settings", 2: "running"}.get(line["item"], self.phase)
        if line.get("error", {}).get("scope") == "connection":
            self.phase = f"ended {line['error']['code']['number']}"

    def change(self, change):
        what, stream = change["what"], change["stream"]
        if what == "settings acknowledged":
            self.acked = change["after"]
        elif what == "block":
            self.block = change
        elif what == "block ended":
            self.block = None
        elif stream == 0:
            self.replace(self.counts, what, change)
        else:
            self.change_stream(self.streams.setdefault(stream, {"state": "idle"}), what, change)

    def replace(self, counts, what, change):
        assert counts[what] == change["before"], f"{what} was {counts[what]}, and before is {change['before']}"
        counts[what] = change["after"]

    def change_stream(self, record, what, change):
        if what == "state":
            self.replace(record, "state", change)
        elif what == "opened":
            record.update({"receive window": change["receive_window"], "send window": change["send_window"]})
            record.update({"unreturned octets": 0, "content received": 0, "of": change["content_length"], "left": record.get("left")})
        elif what == "body remaining":
            record["left"] = change["after"]
        elif what == "body sent":
            record["left"] = None
        else:
            self.replace(record, what, change)

    def lines(self):
        c = {name: "-" if value is None else value for name, value in self.counts.items()}
        last, code = c["last stream of client's GOAWAY"], c["code of client's GOAWAY"]
        goaway = "-" if last == "-" else f"{last} {code}"
        due = int(c["own HEADER_TABLE_SIZE in force"] < c["header table maximum"])
        yield f"phase {self.phase} last {c['last stream']}"
        yield f"window recv {c['receive window']} owed {c['unreturned octets']} send {c['send window']}"
        peer = [c[f"client's {name}"] for name in ("HEADER_TABLE_SIZE", "ENABLE_PUSH", "MAX_CONCURRENT_STREAMS", "INITIAL_WINDOW_SIZE", "MAX_FRAME_SIZE", "MAX_HEADER_LIST_SIZE")]
        yield "peer table {} push {} streams {} window {} frame {} list {} signal ".format(*peer) + str(c["size update pending"])
        yield f"acked {int(self.acked)} goaway {goaway}"
        yield f"own table {c['own HEADER_TABLE_SIZE in force']} window {c['own INITIAL_WINDOW_SIZE in force']} frame {c['own MAX_FRAME_SIZE in force']} due {due}"
        b = self.block
        yield f"block stream {b['stream']} octets {b['octets']} list {b['list_size']} ends {int(b['end_stream'])}" if b else "block -"
        yield f"table {c['header table entries']} {c['header table octets']} {c['header table maximum']}"
        for index, (name, value) in enumerate(self.table, 62):
            yield f"entry {index} {name or '-'} {value or '-'}"
        for stream in sorted(self.streams):
            yield from self.stream_line(stream, self.streams[stream])

    def stream_line(self, stream, record):
        kind = KINDS.get(record["state"])
        if kind in LIVE:
            of, left = ("-" if record.get(name) is None else record[name] for name in ("of", "left"))
            yield (f"stream {stream} {kind} recv {record['receive window']} owed {record['unreturned octets']} send {record['send window']}"
                   f" got {record['content received']} of {of} left {left}")
        elif kind:
            yield f"stream {stream} {kind}"


# ---- the comparison


def run(program, words, octets=None):
    done = subprocess.run([program, *words], input=octets, stdout=subprocess.PIPE, stderr=subprocess.DEVNULL, timeout=120, check=False)
    return done.stdout.decode()


def states_of(text):
    """The lines of the state after each item that `play --each` prints; the first state is before all items."""
    states = []
    for line in text.splitlines():
        if line.startswith("item "):
            states.append([])
        elif states and not line.startswith("sent "):
            states[-1].append(line)
    return states[1:]


def compare(program, octets, words):
    """What is wrong with a session, or None."""
    with tempfile.NamedTemporaryFile("w", suffix=".hex") as file:
        file.write(octets.hex() + "\n")
        file.flush()
        explained = run(program, ["explain", "--json", "--full", file.name, *words])
    played = states_of(run(program, ["play", "--each", *words], octets.hex().encode() + b"\n"))
    state, lines = State(), [json.loads(line) for line in explained.splitlines()]
    items = [line for line in lines if line.get("item", 0) > 0]
    if len(items) != len(played):
        return f"{len(items)} items are explained, {len(played)} are played"
    for line, wanted in zip(items, played):
        try:
            state.take(line)
        except (AssertionError, KeyError) as error:
            return f"item {line['item']}: {error!r}"
        rebuilt = list(state.lines())
        if rebuilt != wanted:
            differs = [f"    {a!r}, played {b!r}" for a, b in zip(rebuilt + [None] * 9, wanted + [None] * 9) if a != b]
            return "\n".join([f"item {line['item']}: from changes"] + differs[:4])
    return None


def main():
    parser = argparse.ArgumentParser()
    parser.add_argument("program")
    parser.add_argument("--count", type=int, default=3000)
    parser.add_argument("--seed", type=int, default=1)
    given = parser.parse_args()
    sessions = [session(random.Random(f"{given.seed} {number}")) for number in range(given.count)]
    with ThreadPoolExecutor(os.cpu_count()) as pool:
        faults = list(pool.map(lambda s: compare(given.program, *s), sessions))
    failed = 0
    for number, (fault, (octets, words)) in enumerate(zip(faults, sessions)):
        if fault:
            failed += 1
            if failed <= 5:
                print(f"not ok: session {number}, words {' '.join(words)[:200]}: {fault}\n    {octets.hex()[:400]}")
    print(f"{given.count - failed} passed, {failed} failed")
    sys.exit(1 if failed else 0)


if __name__ == "__main__":
    main()
