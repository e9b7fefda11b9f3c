#!/usr/bin/env python3
"""Tests tests/dialogues.py by clients of its own: one that does what each dialogue wants, and others that do something else.

    tests/dialogues_test.py PROGRAM

It needs nothing but Python. The last line is `N passed, M failed`; the status is 1 where one failed.
"""

import concurrent.futures
import contextlib
import glob
import io
import itertools
import json
import os
import pathlib
import re
import socket
import subprocess
import sys
import tempfile
import time
import types

sys.dont_write_bytecode = True
import dialogues as under_test  # noqa: E402
import schema  # noqa: E402
from dialogues import ACK, CODES, DATA, END_HEADERS, END_STREAM, GOAWAY, HEADERS, PING, PROBE, RST_STREAM, SETTINGS, WINDOW_UPDATE, Frame, frames_of, number_at, octets_of  # noqa: E402

TOP = under_test.TOP
# Method, scheme, path of requests, without Huffman coding: GET /, GET /1, GET /2, POST /p.
GET, POST = bytes.fromhex("828684"), bytes.fromhex("838604022f70")
FIRST, SECOND = bytes.fromhex("828604022f31"), bytes.fromhex("828604022f32")

passed = failed = 0


def expect(well, what):
    global passed, failed
    if well:
        passed += 1
    else:
        failed += 1
        print(f"dialogues_test.py: {what}", flush=True)


# ---- a client


class Client:
    """A client of one dialogue. It reads frame by frame, acknowledges SETTINGS, answers PING, keeps to limits, and does `reaction` of each PING behind a step first.
    `reaction` gets the number of the PING and what the dialogue wants there, and returns that or something else: (`-`, `connection CODE`, `stream N CODE`, ..)."""

    def __init__(self, dialogue, kind, reaction, first=1, acknowledgements=1):
        self.wanted = [step.wanted[0] for step in dialogue.steps if step.wanted]
        self.kind, self.reaction, self.first, self.acknowledgements = kind, reaction, first, acknowledgements
        self.closed, self.failed = set(), False
        self.probes, self.has_left, self.ended, self.opened, self.streams, self.table, self.has_goaway, self.acknowledged = 0, False, set(), 0, 100, b"", False, 0

    def send(self, *frame):
        self.socket.sendall(octets_of(Frame(*frame)))

    def request(self, flags, block):
        self.send(HEADERS, flags, self.first + 2 * self.opened, self.table + block)
        self.opened, self.table = self.opened + 1, b""

    def run(self, port, _=None):
        with socket.create_connection(("127.0.0.1", port), 10) as self.socket:
            self.socket.sendall(under_test.PREFACE)
            self.send(SETTINGS, 0, 0, bytes.fromhex("000200000000") + (bytes.fromhex("000400000578") if self.kind == "small-window" else b""))
            self.begin()
            inbox = b""
            try:
                while not self.has_left:
                    got = self.socket.recv(1 << 16)
                    frames, inbox = frames_of(inbox + got)
                    self.has_left = not got
                    for frame in frames:
                        self.take(frame) if not self.has_left else None
                # A socket that is closed with octets in it resets the connection, maybe before the server has read all.
                self.socket.shutdown(socket.SHUT_WR)
                while self.socket.recv(1 << 16):
                    pass
            except OSError:
                pass
        return 0

    def begin(self):
        """The requests that a client makes at once."""
        if self.kind == "upload":
            self.request(END_HEADERS, POST)
            self.send(DATA, 0, self.first, bytes(1000))
            self.go_on()
        elif self.kind == "two-requests":
            self.request(END_HEADERS | END_STREAM, FIRST)
        else:
            self.request(END_HEADERS | END_STREAM, FIRST if self.kind == "next-request" else GET)

    def take(self, frame):
        stream = frame.stream & ~(1 << 31)
        if frame.kind == SETTINGS and not frame.flags & ACK and stream == 0 and len(frame.payload) % 6 == 0:
            values = dict(under_test.settings_of(frame))
            self.streams, self.table = values.get(3, self.streams), b"\x20" if values.get(1) == 0 else self.table
            for _ in range(self.acknowledgements):
                self.send(SETTINGS, ACK, 0, b"")
            self.acknowledged += 1
            self.go_on()
        elif frame.kind == PING and not frame.flags & ACK and stream == 0 and len(frame.payload) == 8:
            self.asked(frame.payload)
        elif frame.kind == GOAWAY:
            self.has_goaway, self.failed = True, any(frame.payload[4:8])
            self.ended |= {stream for stream in (self.first, self.first + 2) if stream > number_at(frame.payload, 0)}
        elif frame.kind in (DATA, HEADERS) and frame.flags & END_STREAM or frame.kind == RST_STREAM:
            self.ended.add(stream)
            self.closed |= {stream} if frame.kind == RST_STREAM else set()
            self.go_on()

    def asked(self, payload):
        if payload != PROBE:
            return self.send(PING, ACK, 0, payload)
        self.probes += 1
        words = self.reaction(self.probes, self.wanted[self.probes - 1]).split(" ")
        is_late = words[0] == "late"
        if is_late:
            self.send(PING, ACK, 0, PROBE)
            words = words[1:]
        if words[0] == "connection":
            self.send(GOAWAY, 0, 0, bytes(4) + CODES.index(words[1]).to_bytes(4, "big"))
        if words[0] == "stream":
            self.send(RST_STREAM, 0, int(words[1]) + self.first - 1, CODES.index(words[2]).to_bytes(4, "big"))
            self.ended.add(int(words[1]) + self.first - 1)
            self.closed.add(int(words[1]) + self.first - 1)
        if words[0] in ("connection", "leaves"):
            self.has_left = True
        elif words[0] != "silent":
            if not is_late:
                self.send(PING, ACK, 0, PROBE)
            self.has_left = words == ["answers", "and", "leaves"]
            self.go_on()
        return None

    def go_on(self):
        """The rest of an upload, once all PINGs are answered; the next request, where limits and GOAWAY allow it; the end, where nothing is awaited."""
        if self.kind == "upload" and self.probes == len(self.wanted) and self.opened == 1:
            self.opened = 2
            if self.first not in self.closed:
                self.send(DATA, END_STREAM, self.first, bytes(10))
        may_open = self.acknowledged and not self.has_goaway and self.streams > self.opened - len(self.ended)
        if self.kind == "two-requests" and self.opened == 1 and may_open or self.kind == "next-request" and self.opened == 1 and self.ended and may_open:
            self.request(END_HEADERS | END_STREAM, SECOND)
        requests = 2 if self.kind in ("two-requests", "upload") or self.kind == "next-request" and may_open else 1
        done = self.ended >= {self.first + 2 * at for at in range(1 if self.kind == "upload" else requests)}
        if (self.failed or done and self.opened >= requests) and self.probes == len(self.wanted):
            self.has_left = True


def options(**more):
    """The runner's options. Only where a client is to be silent its patience is short, so that a slow machine has no effect."""
    return types.SimpleNamespace(**{"program": PROGRAM, "patience": 30, "limit": 60, "command": [], **more})


def found(dialogue, kind, reaction, status=None, how=None, client=Client, **more):
    """The verdicts on a dialogue with a client; its command's status is `status`."""
    made = client(dialogue, kind, reaction, **more)
    run = lambda port, connections: made.run(port, connections) and None or status
    if INJECTED:
        return under_test.injected(dialogue, free_port(), how or options(), run)
    return under_test.verdicts(dialogue, *under_test.play(dialogue, 0, how or options(), run))


# Below the ports that Linux gives to clients.
PORTS = itertools.count(10000 + os.getpid() % 10000)


def free_port():
    """A port that nothing listens on, and that no other call was given. It is not bound to see that: a process that another thread begins would hold it for a while."""
    for port in PORTS:
        with socket.socket() as one:
            if one.connect_ex(("127.0.0.1", port)):
                return port


def obeys(_, wanted):
    return wanted.text.split(" ", 1)[1]


def goes_on(_, wanted):
    return "-" if wanted.scope == "-" else "answers and leaves"


def right_status(dialogue):
    return next(number for number in range(4) if all((number == line.number) == line.is_wanted for line in dialogue.statuses))


# ---- all dialogues


def files():
    """Each file of dialogues: its kind of client, its text, its dialogues."""
    long = f"{FOLDER}/long.h2"
    with open(long, "w", encoding="utf-8") as file:
        subprocess.run([f"{TOP}/dialogues/long.sh"], stdout=file, check=True)
    for path in [*sorted(glob.glob(f"{TOP}/dialogues/*.h2")), long]:
        with open(path, encoding="utf-8") as file:
            yield os.path.basename(path)[:-3], file.read(), under_test.read_file(path, PROGRAM)


def kinds(verdicts):
    return sorted({one.kind for one in verdicts})


def for_all(dialogues, reaction, status, how=None):
    """The kinds of verdicts for each dialogue."""
    with concurrent.futures.ThreadPoolExecutor(4) as pool:
        return list(pool.map(lambda pair: found(pair[1], pair[0], reaction, status(pair[1]), how), dialogues))


def duties(dialogue):
    return [(step.wanted[0].duty, step.wanted[0].scope) for step in dialogue.steps if step.wanted]


def test_all(dialogues):
    expect(len(dialogues) == 108, f"{len(dialogues)} dialogues, not 108")
    for (_, dialogue), verdicts in zip(dialogues, for_all(dialogues, obeys, right_status)):
        # It leaves after a GOAWAY with an error, as it may.
        expect(not verdicts or [(one.wanted, one.found) for one in verdicts] == [("MAY -", "closed")], f"the client that obeys: {dialogue.title}: {verdicts}")
    dialogues = [(name, dialogue) for name, dialogue in dialogues if name != "long"]
    for (_, dialogue), verdicts in zip(dialogues, for_all(dialogues, goes_on, right_status)):
        # A stream error need not be on the wire where the client's user sees a failure.
        broken = [duty for duty, scope in duties(dialogue) if scope == "connection" or scope == "stream" and right_status(dialogue) == 0]
        expect(("broken" in kinds(verdicts)) == ("MUST" in broken), f"the client that goes on: {dialogue.title}: {verdicts}")
        expect(("open" in kinds(verdicts)) == ("MUST?" in broken), f"the client that goes on: {dialogue.title}: {verdicts}")
    refuses = for_all(dialogues, lambda *_: "connection INTERNAL_ERROR", right_status)
    for (_, dialogue), verdicts in zip(dialogues, refuses):
        expect(("broken" in kinds(verdicts)) == (("MUST", "-") in duties(dialogue)[:1]), f"the client that refuses all: {dialogue.title}: {verdicts}")


def rules():
    """The rows of docs/RULES.md by name, each with its cells by the names of the columns."""
    found, names = {}, []
    with open(f"{TOP}/docs/RULES.md", encoding="utf-8") as file:
        for line in file:
            cells = [cell.strip() for cell in line.strip().strip("|").split(" | ")]
            if line.startswith("| Name |"):
                names = cells
            elif line.startswith("| `"):
                found[cells[0].strip("` ")] = dict(zip(names, cells))
    return found


def test_rules(text, name, rows):
    """A dialogue that names a rule of docs/RULES.md has its section in the title; one that wants an error of it has a code, a scope and a duty of its row."""
    for one in re.split(r"^;# ", text, flags=re.M)[1:]:
        title, rule, wanted = one.split("\n")[0], re.search(r"^; Rule: (.*)$", one, re.M), re.search(r"^;! (\S+) (connection|stream) (?:\d+ )?(\S+)$", one, re.M)
        expect(re.search(r"RFC \d{4}, \d", title), f"{name}: {title}: no section")
        if not rule:
            continue
        row = rows.get(rule[1], {"Rule": "", "Server": ""})
        sections = re.findall(r"RFC \d+ ([\d.]+\d)", row["Rule"] + row["Server"])
        expect(any(re.search(rf"\b{re.escape(section)}\b", title) for section in sections), f"{name}: {title}: {rule[1]} is of {sections}")
        may = row.get("A server may", "") + row.get("Open", "")
        if wanted and may:
            codes = {(letter, int(code)) for letter, several in re.findall(r"\b([CS]) (\d+(?: or \d+)*)", may) for code in several.split(" or ")}
            expect((wanted[2][0].upper(), CODES.index(wanted[3])) in codes or "; Open: " in one, f"{name}: {title}: {wanted[0]} and {may}")
            expect((wanted[1] == "MUST") == (row["Server"] == "server MUST"), f"{name}: {title}: {wanted[0]} and {row['Server']}")
        elif wanted and rule[1] != "list-too-large":
            expect(f"{wanted[3]}:" in row["Rule"], f"{name}: {title}: {wanted[0]} and {row['Rule']}")


# ---- verdicts of one dialogue each

ERROR = ";# An error\n;- HEADERS 05 1\nDATA 00 0 x61\n;! MUST connection PROTOCOL_ERROR\n;+ pong\nHEADERS 05 1 hi8\n"
STREAM = ";# A stream error\n;- HEADERS 05 1\nHEADERS 04 1 hi8,i8\n;! MUST stream 1 PROTOCOL_ERROR\n;+ pong\nDATA 01 1 x61\n;$ !0\n"
TWO = ";# A stream error beside a request\n;- HEADERS 05 1\n;- HEADERS 05 3\nHEADERS 04 1 hi8,i8\n;! MUST stream 1 PROTOCOL_ERROR\n;+ pong\nDATA 01 1 x61\n"
EITHER = STREAM.replace(";+ pong", ";! MUST connection COMPRESSION_ERROR\n;+ pong").replace(";$ !0\n", "")
WHOLE = ";# An error in a whole response\n;- HEADERS 05 1\nHEADERS 05 1 x8880\n;! MUST connection COMPRESSION_ERROR\n"
LAWFUL = ";# Lawful\n;- HEADERS 05 1\nSETTINGS 00 0 s3=5\n;< SETTINGS 01 0 -\n;! MUST -\n;+ pong\nHEADERS 05 1 hi8\n;$ 0\n"
PINGS = ";# A PING, and no DATA\n;- HEADERS 05 1\nPING 00 0 x0102030405060708\n;< PING 01 0 x0102030405060708\n;< ! DATA 00 1\n;! MUST -\n;+ pong\nHEADERS 05 1 hi8\n"
LATER = ";# An item that never comes\n;- HEADERS 05 1\n;+ RST_STREAM 00 1\nPING 00 0 x0102030405060708\n"
WARNS = ";# May\n;- HEADERS 05 1\nPING 01 0 x0102030405060708\n;! MAY -\n;+ pong\nHEADERS 05 1 hi8\n"
# A dialogue, what the client does at the PING, the status of its command, and each verdict: its kind and what was found.
REACTIONS = [
    (ERROR, "connection PROTOCOL_ERROR", None, []),
    (ERROR, "late connection PROTOCOL_ERROR", None, []),
    (ERROR, "connection INTERNAL_ERROR", None, [("allowed", "connection INTERNAL_ERROR: another code, 5.4")]),
    (ERROR, "connection NO_ERROR", None, [("allowed", "closed: no GOAWAY; 5.4.1 has SHOULD")]),
    (ERROR, "leaves", None, [("allowed", "closed: no GOAWAY; 5.4.1 has SHOULD")]),
    (ERROR, "stream 1 PROTOCOL_ERROR", None, [("broken", "stream 1 PROTOCOL_ERROR")]),
    (ERROR, "-", None, [("broken", "goes on")]),
    (ERROR, "answers and leaves", None, [("broken", "goes on")]),
    (ERROR, "silent", None, [("broken", "silent: no error, no answer to the PING, no end")]),
    (STREAM, "stream 1 PROTOCOL_ERROR", 1, []),
    (STREAM, "late stream 1 PROTOCOL_ERROR", 1, []),
    (STREAM, "stream 1 PROTOCOL_ERROR", 0, [("user", "exit status 0")]),
    (STREAM, "stream 1 INTERNAL_ERROR", 1, [("allowed", "stream 1 INTERNAL_ERROR: a generic code, 5.4")]),
    (STREAM, "stream 1 CANCEL", 1, [("open", "stream 1 CANCEL")]),
    (EITHER, "stream 1 PROTOCOL_ERROR", None, []),
    (EITHER, "connection COMPRESSION_ERROR", None, []),
    (EITHER, "-", None, [("broken", "goes on")]),
    (TWO, "stream 3 PROTOCOL_ERROR", 1, [("broken", "stream 3 PROTOCOL_ERROR")]),
    (STREAM, "connection PROTOCOL_ERROR", 1, [("allowed", "connection PROTOCOL_ERROR: a connection error for a stream error, 5.4.2")]),
    (STREAM, "-", 1, [("allowed", "goes on: nothing was sent, and the command fails")]),
    (STREAM, "-", 0, [("broken", "goes on"), ("user", "exit status 0")]),
    (LAWFUL, "-", 0, []),
    (WHOLE, "leaves", None, [("allowed", "closed: no GOAWAY; 5.4.1 has SHOULD")]),
    (WHOLE, "-", None, [("broken", "goes on")]),
    (LAWFUL + ";- DATA 01 1\n", "-", 0, []),
    (LAWFUL, "late stream 1 CANCEL", 0, []),
    (LAWFUL, "late stream 1 PROTOCOL_ERROR", 0, [("broken", "stream 1 PROTOCOL_ERROR")]),
    (LAWFUL, "-", 7, [("user", "exit status 7")]),
    (LAWFUL, "-", "killed", [("broken", "it had to be killed")]),
    (LAWFUL, "leaves", 0, [("broken", "closed")]),
    (LAWFUL, "stream 1 CANCEL", 0, [("broken", "stream 1 CANCEL")]),
    (LAWFUL, "connection PROTOCOL_ERROR", 0, [("broken", "connection PROTOCOL_ERROR")]),
    (PINGS, "-", None, []),
    (WARNS, "connection PROTOCOL_ERROR", None, [("allowed", "connection PROTOCOL_ERROR")]),
    (LATER, "-", None, [("missing", "no such item came; silent")]),
]


def read(text):
    """The dialogue of a text."""
    with tempfile.NamedTemporaryFile("w", suffix=".h2", dir=FOLDER, delete=False) as file:
        file.write(text)
    return under_test.read_file(file.name, PROGRAM)[0]


def test_reactions():
    def one(row):
        text, words, status, wanted = row
        patience = 2 if "silent" in str(wanted) else 30
        return [(it.kind, it.found) for it in found(read(text), "two-requests" if text == TWO else "get", lambda *_: words, status, options(patience=patience))]

    with concurrent.futures.ThreadPoolExecutor(4) as pool:
        for (text, words, status, wanted), got in zip(REACTIONS, pool.map(one, REACTIONS)):
            expect(got == wanted, f"{text.splitlines()[0]}: {words}, status {status}: {got}")


def test_first_stream():
    """Odd streams of a script count from the client's first one: in heads, in items, in lines, and in the last stream of GOAWAY."""
    expect(found(read(STREAM), "get", obeys, 1, first=13) == [], "a client whose first stream is 13")
    lasts = "GOAWAY 00 0 x7fffffff00000000\nGOAWAY 00 0 x0000000200000000\nGOAWAY 00 0 x0000000100000000\n"
    dialogue = read(f";# Streams\n;- HEADERS 05 1\nPRIORITY 00 2 x0000000010\n{lasts}HEADERS 05 1R hi8\n")
    connections, _ = under_test.play(dialogue, 0, options(), Client(dialogue, "get", obeys, first=13).run)
    log = connections[0].log
    sent = [(frame.kind, frame.stream, frame.payload[:4].hex()) for kind, frame in log[log.index(("step", 1)):] if kind == "sent"]
    wanted = [(2, 2, "00000000"), (GOAWAY, 0, "7fffffff"), (GOAWAY, 0, "00000002"), (GOAWAY, 0, "0000000d"), (HEADERS, (1 << 31) + 13, "88")]
    expect(sent == wanted, f"frames for a client whose first stream is 13: {sent}")


# ---- clients that are none


class Raw:
    """A client that sends octets, and then does as it is asked: `leaves`, `waits`, or `goes on` with PINGs."""

    def __init__(self, _, octets, then):
        self.octets, self.then = octets, then

    def run(self, port, connections):
        if self.then == "stays away":
            return
        with socket.create_connection(("127.0.0.1", port), 10) as one:
            one.sendall(self.octets)
            try:
                while self.then == "goes on":
                    one.sendall(octets_of(Frame(PING, ACK, 0, bytes(8))) * 10)
                    time.sleep(0.01)
                while self.then == "waits" and one.recv(1 << 16):
                    pass
                one.settimeout(0.05)
                while one.recv(1 << 16):
                    pass
            except OSError:
                pass


START = under_test.PREFACE + octets_of(Frame(SETTINGS, 0, 0, b""))
ACKNOWLEDGES = octets_of(Frame(SETTINGS, ACK, 0, b""))
ASKS = START + octets_of(Frame(HEADERS, 5, 1, GET)) + ACKNOWLEDGES
RAW = [
    (b"GET / HTTP/1.1\r\n\r\n", "waits", "broken", "octets that are no frames: 'GET / HTTP/1.1\\r\\n\\r\\n'"),
    (START + b"\xff" * 9, "waits", "broken", "octets that are no frames, or a frame of 16777215 octets: ffffffffffffffffff"),
    (START + b"\0\0\5\0", "leaves", "missing", "no such item came; closed"),
    (START, "leaves", "missing", "no such item came; closed"),
    (START, "waits", "missing", "no such item came; silent"),
    (START, "goes on", "broken", "the dialogue has not ended after 6 s"),
    (ASKS, "leaves", "broken", "closed"),
    (START + octets_of(Frame(DATA, 0, 1, b"a")), "waits", "broken", "ended by the server: data-on-idle"),
    (ASKS + octets_of(Frame(WINDOW_UPDATE, 0, 0, bytes(4))), "waits", "broken", "ended by the server: connection-increment-zero"),
    (b"", "stays away", "broken", "no connection came"),
]


def test_raw():
    for octets, then, kind, wanted in RAW:
        if INJECTED and then == "goes on":
            # It takes half a minute there.
            continue
        limits = {"limit": 6} if then in ("goes on", "stays away") else {"patience": 2} if "silent" in wanted else {}
        got = found(read(LAWFUL), octets, then, None, options(**limits), Raw)
        is_wanted = lambda one: one.kind == kind and (one.found == wanted or INJECTED and one.found.startswith("octets that are no frames") and wanted.startswith(one.found[:25]))
        expect(got and is_wanted(got[0]), f"{octets[24:60]} {then}: {got}")


def test_waiting():
    """A client that answers the PING and then waits, until the runner ends the connection: its command fails too late."""
    octets = ASKS + octets_of(Frame(PING, ACK, 0, PROBE))
    got = found(read(STREAM), octets, "waits", 1, options(patience=2), Raw)
    expect([(one.kind, one.found.split(",")[0]) for one in got] == [("broken", "goes on")], f"a client that waits: {got}")


def test_limits():
    for times, wanted in ((0, "2 SETTINGS frames are not acknowledged"), (2, "SETTINGS ACK without SETTINGS")):
        got = found(read(LAWFUL.replace(";< SETTINGS 01 0 -\n", "")), "get", obeys, 0, acknowledgements=times)
        expect([one.found for one in got] == [wanted], f"SETTINGS acknowledged {times} times: {got}")
    late = types.SimpleNamespace(base=0, log=[("step", 1), ("item", Frame(PING, ACK, 0, PROBE)), ("step", 2), ("item", Frame(SETTINGS, ACK, 0, b""))])
    late.shifted = lambda frame: frame
    [sends] = read(LAWFUL).steps[0].sends
    expect(under_test.sends_verdict(late, 1, sends) is None, "an acknowledgement behind the answer to the PING")
    never = sends._replace(is_sent=False, what=under_test.Pattern(SETTINGS, 0, 0, b""))
    expect(under_test.sends_verdict(late, 1, never) is None and under_test.sends_verdict(late, 2, never) == "it is sent", "a frame that must not come before the next step")
    got = found(read(LAWFUL), "get", obeys, 0, acknowledgements=0)
    expect([(one.line, one.found) for one in got] == [(4, "-")], f"a line ;< that does not hold: {got}")
    limits = under_test.Limits()
    limits.sent(0, Frame(SETTINGS, 0, 0, bytes.fromhex("000300000001 000500005000")))
    for frame in (Frame(HEADERS, 5, 1, GET), Frame(SETTINGS, ACK, 0, b""), Frame(HEADERS, 5, 3, GET), Frame(DATA, 1, 3, bytes(20481))):
        limits.took(frame)
    limits.sent(1, Frame(HEADERS, 5, 1, b"\x88"))
    limits.sent(2, Frame(HEADERS, 5, 3, b"\x88"))
    limits.took(Frame(HEADERS, 5, 5, GET))
    wanted = ["HEADERS on stream 3, where 1 streams are allowed and 1 are live", "DATA of 20481 octets, where 20480 are allowed"]
    expect(limits.faults == wanted, f"limits: {limits.faults}")


def test_reset():
    """On a stream that a script has reset nothing of the server goes out: here it grants an octet for each one of DATA, on the connection alone."""
    dialogue = read(";# A reset\n;@ --credit 1\n;+ DATA 00 1\nRST_STREAM 00 1 c0\n")
    octets = START + octets_of(Frame(HEADERS, END_HEADERS, 1, POST)) + octets_of(Frame(DATA, 0, 1, b"a")) * 3
    made = Raw(None, octets, "leaves")
    connections, _ = under_test.play(dialogue, 0, options(), made.run)
    sent = [(frame.kind, frame.stream) for kind, frame in connections[0].log if kind == "sent"]
    wanted = [(WINDOW_UPDATE, 0), (WINDOW_UPDATE, 1), (RST_STREAM, 1), (WINDOW_UPDATE, 0), (WINDOW_UPDATE, 0)]
    expect(sent[2:] == wanted, f"a stream that is reset: {sent}")


# ---- the bench's own view

VIEWED = """;# DATA on stream 0 (RFC 9113, 6.1)
;- HEADERS 05 1
DATA 00 0 x61
;! MUST connection PROTOCOL_ERROR
;+ pong
HEADERS 05 1 hi8
"""

# What the server sends is withheld, then the script speaks. From there on neither a frame that is ignored nor an error is judged.
VIEW = """1: #0 @0   the server's opening
1:         sent SETTINGS, MAX_CONCURRENT_STREAMS 100, MAX_HEADER_LIST_SIZE 65536
1: #2 @24  SETTINGS, empty
1:         sent SETTINGS ACK
1: #3 @33  HEADERS stream 1 END_STREAM END_HEADERS, 6 octets
1:         withheld HEADERS stream 1 END_HEADERS, 1 octet
1:         withheld DATA stream 1 END_STREAM, 2 octets
1:         script DATA stream 0, 1 octet
1:         script PING 68325f62656e6368
1: #4 @48  PING ACK 68325f62656e6368
1:         ignored: ping-acknowledgement; not judged, the script has spoken since #3
1:         script HEADERS stream 1 END_STREAM END_HEADERS, 1 octet
1: #5 @65  DATA stream 9 END_STREAM, 1 octet
1:         sent GOAWAY last 1 PROTOCOL_ERROR
1:         connection error PROTOCOL_ERROR: data-on-idle; not judged, the script has spoken since #3
"""

# A later connection has no script, so all is judged, as without one.
LATER = """2: #0 @0   the server's opening
2:         sent SETTINGS, MAX_CONCURRENT_STREAMS 100, MAX_HEADER_LIST_SIZE 65536
2: #2 @24  SETTINGS, empty
2:         sent SETTINGS ACK
2: #3 @33  DATA stream 9 END_STREAM, 1 octet
2:         connection error PROTOCOL_ERROR: data-on-idle, RFC 9113 5.1, server MUST; broken: client breach, RFC 9113 6.1
2:         stream 9 is idle; HEADERS has to open it first
2:         sent GOAWAY last 0 PROTOCOL_ERROR
"""


def view_client(port, octets, awaited, then):
    """Sends octets, waits for others, sends more, and reads to the end."""
    with socket.create_connection(("127.0.0.1", port), timeout=60) as connection:
        connection.sendall(octets)
        got = b""
        while awaited not in got:
            got += connection.recv(65536)
        connection.sendall(then)
        while connection.recv(65536):
            pass


def viewed(script, words, clients):
    """What `serve --inject` prints of clients, each of them octets, others that are awaited, and octets to send then; and its exit status."""
    port = free_port()
    command = ["h2_bench", "serve", "--inject", script, *words, str(port), str(len(clients)), "GET|/|200|6869"]
    with subprocess.Popen(command, executable=PROGRAM, stdout=subprocess.PIPE, stderr=subprocess.PIPE, text=True) as ran:
        ran.stdout.readline()
        for client in clients:
            view_client(port, *client)
        text, said = ran.stdout.read(), ran.stderr.read()
    return text + said, ran.returncode


def written(name, text):
    with open(f"{FOLDER}/{name}", "w", encoding="utf-8") as file:
        file.write(text)
    return f"{FOLDER}/{name}"


REQUEST = START + octets_of(Frame(HEADERS, END_HEADERS | END_STREAM, 1, GET + b"A\1a"))
ANSWER = octets_of(Frame(PING, ACK, 0, PROBE))
IDLE = octets_of(Frame(DATA, END_STREAM, 9, b"a"))
ACKNOWLEDGED = b"\4\1\0\0\0\0"
FOUND = 'not ok 1 - {}: DATA on stream 0 (RFC 9113, 6.1)\n  ---\n  - line: 1\n    wanted: "a client that the server goes on with"\n    found: "ended by the server: data-on-idle"\n  ...\n'


def test_view():
    """With `--explain` each item is shown with what of the server went out for it, what did not, and what the script sent."""
    path = written("view.h2", VIEWED)
    got = viewed(path, ["--explain", "--brief"], [(REQUEST, PROBE, ANSWER + IDLE), (START, ACKNOWLEDGED, IDLE)])
    expect(got == (VIEW + FOUND.format(path) + LATER, 1), f"a view: {got}")


# Of each object of a connection: its number, the frames that went out, did not, and are the script's, and what is not judged.
JSON_VIEW = [
    (0, ["SETTINGS, MAX_CONCURRENT_STREAMS 100, MAX_HEADER_LIST_SIZE 65536"], [], [], None),
    (1, [], [], [], None),
    (2, ["SETTINGS ACK"], [], [], None),
    (3, [], ["HEADERS stream 1 END_HEADERS, 1 octet", "DATA stream 1 END_STREAM, 2 octets"], ["DATA stream 0, 1 octet", "PING 68325f62656e6368"], None),
    (4, [], [], ["HEADERS stream 1 END_STREAM END_HEADERS, 1 octet"], {"reason": "ping-acknowledgement", "since": 3}),
    (5, ["GOAWAY last 1 PROTOCOL_ERROR"], [], [], {"cause": "data-on-idle", "code": {"name": "PROTOCOL_ERROR", "number": 1}, "scope": "connection", "since": 3}),
]


def frames_said(line, member):
    return [frame["words"] for frame in line.get(member, [])]


def test_view_as_json():
    """With `--json` the same are members, as docs/explain.schema.json says, and nothing is an error any more."""
    path, rules_of_lines = written("view.h2", VIEWED), schema.Schema(f"{TOP}/docs/explain.schema.json")
    for words in (["--json"], ["--json", "--full", "--strict"], ["--json", "--brief"]):
        text, status = viewed(path, words, [(REQUEST, PROBE, ANSWER + IDLE), (START, ACKNOWLEDGED, IDLE)])
        lines = [json.loads(line) for line in text.splitlines() if line.startswith("{")]
        faults = [fault for line in lines for fault in rules_of_lines.faults(line)]
        first = [line for line in lines if line["connection"] == 1]
        got = [(line["item"], *(frames_said(line, name) for name in ("sent", "withheld", "script")), line.get("not_judged")) for line in first[:-1]]
        blamed = [line["item"] for line in first[:-1] if "error" in line or "ignored" in line or "warnings" in line]
        expect((faults, got, blamed, status) == ([], JSON_VIEW, [], 1), f"a view as JSON, {words}: {faults}, {got}, {blamed}, {status}")
        expect(first[-1]["end"]["not_judged"] == {"since": 3}, f"its end, {words}: {first[-1]}")
        expect(first[-1]["end"].get("verdict", {"broken": False})["broken"] is False, f"the verdict on it, {words}: {first[-1]}")
        later = [line for line in lines if line["connection"] == 2]
        expect(later[-2]["error"]["cause"] == "data-on-idle" and "not_judged" not in later[-1]["end"], f"a later connection, {words}: {later}")


STARTED = """;# Instead of the opening
;- start
SETTINGS 00 0 s3=7
;+ HEADERS 05 1
PING 00 0 x0102030405060708
"""


def test_view_of_start():
    """A script that speaks at the start: its frames are beside the opening, and no item is judged."""
    path, ping = written("start.h2", STARTED), bytes(range(1, 9))
    client = (REQUEST, octets_of(Frame(PING, 0, 0, ping)), octets_of(Frame(PING, ACK, 0, ping)))
    text, _ = viewed(path, ["--json", "--brief"], [client])
    opening = json.loads(text.splitlines()[0])
    got = (opening["item"], *(frames_said(opening, name) for name in ("sent", "withheld", "script")))
    expect(got == (0, [], ["SETTINGS, MAX_CONCURRENT_STREAMS 100, MAX_HEADER_LIST_SIZE 65536"], ["SETTINGS, MAX_CONCURRENT_STREAMS 7"]), f"the opening: {got}")
    text, _ = viewed(path, ["--explain", "--brief"], [client])
    wanted = ["1:         withheld SETTINGS, MAX_CONCURRENT_STREAMS 100, MAX_HEADER_LIST_SIZE 65536", "1:         script SETTINGS, MAX_CONCURRENT_STREAMS 7"]
    expect(text.splitlines()[:2] == wanted, f"the opening as text: {text}")


PINGED = """;# A PING
;+ HEADERS 05 1
PING 00 0 x0102030405060708
;! MUST -
"""
RESERVED = b"\0\0\10\6\0\x80\0\0\0reserved"
REPLY = octets_of(Frame(SETTINGS, ACK, 0, b"")) + octets_of(Frame(PING, ACK, 0, bytes(range(1, 9)))) + ANSWER

# Octets of the first client before the script speaks and after that, those of a later client, the status, and the last words of the first client's lines.
STRICT = [
    (b"", REPLY, IDLE[:4], 7, "no error, no warning; not judged, the script has spoken since #3"),
    (b"", REPLY, b"", 0, "no error, no warning; not judged, the script has spoken since #3"),
    (b"", REPLY + RESERVED, b"", 0, "no error, no warning; not judged, the script has spoken since #3"),
    (b"", REPLY + IDLE[:4], b"", 0, "no error, no warning; not judged, the script has spoken since #3"),
    (RESERVED, REPLY, b"", 5, "no error, 1 warning; not judged, the script has spoken since #4"),
    (RESERVED, REPLY, IDLE[:4], 5, "no error, 1 warning; not judged, the script has spoken since #4"),
    (RESERVED, ANSWER + IDLE, b"", 1, "no error, 1 warning; not judged, the script has spoken since #4"),
]


def test_strict():
    """`not ok` is 1; else `--strict` counts what was before the script spoke, and all of later connections."""
    path = written("ping.h2", PINGED)
    for before, after, later, status, said in STRICT:
        octets = START + before + REQUEST[len(START) :]
        text, got = viewed(path, ["--strict", "--brief"], [(octets, PROBE, after), (START, ACKNOWLEDGED, later)])
        ends = [line for line in text.splitlines() if line.startswith("1: ") and " items, " in line]
        expect(got == status and len(ends) == 1 and ends[0].endswith(said), f"--strict, {before}, {after}, {later}: {got}, {text}")


RECORDED = """;# connection 1
;@ --streams 100 --credit 32768 --table 4096 --window 65535 --frame 16384
;@ 'GET|/|200|6869'
;< SETTINGS 00 0 s3=100,6=65536
PREFACE
SETTINGS 00 0 -
;< SETTINGS 01 0 -
HEADERS 05 1 hi2,i6,i4,a1="a"
;< HEADERS 04 1 hi8
;< DATA 01 1 x6869
; withheld HEADERS 04 1 hi8
; withheld DATA 01 1 x6869
; script DATA 00 0 x61
; script PING 00 0 x68325f62656e6368
PING 01 0 x68325f62656e6368
; script HEADERS 05 1 hi8
DATA 01 9 x61
;< GOAWAY 00 0 x0000000100000001
"""

# The words of a dialogue, beside its file, and those of its record, whose directory is below that of the file.
OWN_WORDS = [
    ("--frame 20000", ";@ '--frame' '20000'\n;@ 'GET|/|200|6869'\n"),
    ("'GET|/|201|6f6b' --window 70000", ";@ 'GET|/|201|6f6b' '--window' '70000'\n"),
    ("--book own.toml", ";@ --book '{}/own.toml'\n"),
]


def test_record():
    """A record of a connection with a script is a case that holds: the script's frames, and those that did not go out, are comments."""
    path, folder = written("view.h2", VIEWED), f"{FOLDER}/records"
    os.mkdir(folder)
    viewed(path, ["--record", folder], [(REQUEST, PROBE, ANSWER + IDLE), (START, ACKNOWLEDGED, IDLE)])
    texts = {name: pathlib.Path(f"{folder}/{name}").read_text(encoding="utf-8") for name in sorted(os.listdir(folder))}
    expect(sorted(texts) == [f"connection-{number}.{kind}" for number in (1, 2) for kind in ("h2", "hex")], f"the files: {sorted(texts)}")
    expect(texts["connection-1.h2"] == RECORDED, f"a record: {texts['connection-1.h2']}")
    expect(texts["connection-1.hex"] == (REQUEST + ANSWER + IDLE).hex() + "\n", f"its octets: {texts['connection-1.hex']}")
    written("own.toml", '[[answer]]\nmethod = "GET"\npath = "/"\nstatus = 202\nbody = "own"\n')
    for number, (words, wanted) in enumerate(OWN_WORDS, 3):
        path = written("own.h2", VIEWED.replace(")\n", f")\n;@ {words}\n", 1))
        viewed(path, ["--record", folder], [(REQUEST, PROBE, ANSWER + IDLE)])
        text = pathlib.Path(f"{folder}/connection-{number}.h2").read_text(encoding="utf-8")
        expect(text.startswith(";# connection 1\n" + wanted.format(FOLDER) + ";< SETTINGS "), f"{words}: {text}")
    cases = [f"{folder}/connection-{number}.h2" for number in range(1, 3 + len(OWN_WORDS))]
    ran = subprocess.run(["h2_bench", "check", *cases], executable=PROGRAM, capture_output=True, text=True, timeout=60, check=False)
    expect(ran.returncode == 0 and ran.stdout.count("\nok ") == len(cases), f"records as cases: {ran}")


# ---- lines

BAD = [
    ("PING 00 0 x0102030405060708\n", 1, "a dialogue begins with a line ;# TITLE"),
    (";+ start\n", 1, "a dialogue begins with a line ;# TITLE"),
    (";# a\nPING 00 0 x0102030405060708\n", 2, "a step begins with a line ;+ ITEM or ;- ITEM"),
    (";# a\n;! MUST -\n", 2, "a step begins with a line ;+ ITEM or ;- ITEM"),
    (";# a\n; text\n;+ began\n", 3, "an item is start, pong, or NAME FLAGS STREAM"),
    (";# a\n;+ PINGS 00 0\n", 2, "an item is start, pong, or NAME FLAGS STREAM"),
    (";# a\n;+ PING 0 0\n", 2, "an item is start, pong, or NAME FLAGS STREAM"),
    (";# a\n;+ start\n;! HAS -\n", 3, "a duty is MUST, MUST?, SHOULD, MAY"),
    (";# a\n;+ start\n;! MUST connection\n", 3, "a reaction is -, connection CODE or stream N CODE"),
    (";# a\n;+ start\n;! MUST stream 1 WRONG\n", 3, "a reaction is -, connection CODE or stream N CODE"),
    (";# a\n;+ start\n;$ none\n", 3, "a status is N or !N"),
    (";# a\n;+ start\n;= phase open\n", 3, "a mark of a dialogue is ;# ;@ ;+ ;- ;< ;! or ;$, and a space after it"),
    (";# a\n;+start\n", 2, "a mark of a dialogue is ;# ;@ ;+ ;- ;< ;! or ;$, and a space after it"),
    (";# a\n;+ start\nRAW 00\n", 3, "a line of a dialogue is one frame"),
    (";# a\n;+ start\n;< ! DATA\n", 3, "an item is start, pong, or NAME FLAGS STREAM"),
    (";# a\n;+ start\n\nPING 0 0 -\n", 4, "column 6: `0`: flags are two hex digits."),
    (";# a\n;+ start\n;< HEADERS 04 1 hi8,j9\n", 3, "column "),
    (";# a\n;+ start\n;# b\n;@ --streams none\n", 3, "the words of ;@ are refused: "),
]


def test_bad_lines():
    with socket.socket() as port, tempfile.TemporaryDirectory() as folder:
        # Nothing listens before a file is read: the port is taken, so listening would fail.
        port.bind(("127.0.0.1", 0))
        port.listen()
        for text, line, wanted in BAD:
            with open(f"{folder}/bad.h2", "w", encoding="utf-8") as file:
                file.write(text)
            with contextlib.redirect_stdout(io.StringIO()) as out, contextlib.redirect_stderr(io.StringIO()) as said:
                status = under_test.main(["--program", PROGRAM, f"{folder}/bad.h2", str(port.getsockname()[1]), "true"])
            got = (status, out.getvalue(), said.getvalue())
            expect(got[:2] == (2, "") and got[2].startswith(f"{folder}/bad.h2:{line}: {wanted}"), f"{text!r}: {got}")


def test_command():
    """A run as an author makes it: TAP, a command that is killed, and the status."""
    with tempfile.TemporaryDirectory() as folder:
        with open(f"{folder}/two.h2", "w", encoding="utf-8") as file:
            file.write(ERROR + STREAM)
        words = [sys.executable, "-B", f"{TOP}/tests/dialogues.py", "--program", PROGRAM, "--patience", "0.2", "--limit", "0.5", "two.h2", "0"]
        ran = subprocess.run([*words, "sh", "-c", "exec sleep 60"], cwd=folder, capture_output=True, text=True, timeout=60, check=False)
        block = '  ---\n  - line: {}\n    wanted: "a connection"\n    found: "no connection came; exit status killed"\n  ...\n'
        tap = f"TAP version 13\nnot ok 1 - two.h2: An error\n{block.format(1)}not ok 2 - two.h2: A stream error\n{block.format(7)}1..2\n"
        expect(ran.returncode == 1 and ran.stdout == tap, f"a command that never connects: {ran}")


BAD_FRAME = "not a line of a script; asm says what is wrong with it"


def test_bad_lines_injected():
    """The program refuses the same lines before it listens: the port is taken."""
    with socket.socket() as port:
        port.bind(("127.0.0.1", 0))
        port.listen()
        for text, line, wanted in BAD:
            path = f"{FOLDER}/bad.h2"
            with open(path, "w", encoding="utf-8") as file:
                file.write(text)
            ran = subprocess.run(["h2_bench", "serve", "--inject", path, str(port.getsockname()[1]), "1"], executable=PROGRAM, capture_output=True, text=True, timeout=60, check=False)
            wanted = {"column": BAD_FRAME, "the wo": "", "a duty": "a duty is MUST, MUST?, SHOULD or MAY"}.get(wanted[:6], wanted)
            line = line + 1 if wanted == "" else line
            expect((ran.returncode, ran.stdout) == (2, "") and ran.stderr.startswith(f"{path}:{line}: {wanted}"), f"{text!r}: {ran}")


def test_injected(dialogues):
    """The program's own verdicts are the same as those of this runner."""
    global INJECTED
    INJECTED = True
    test_bad_lines_injected()
    test_view()
    test_view_as_json()
    test_view_of_start()
    test_strict()
    test_record()
    test_reactions()
    test_raw()
    test_waiting()
    test_all(dialogues)
    INJECTED = False


def main():
    all_files, rows = list(files()), rules()
    for name, text, _ in all_files:
        test_rules(text, name, rows)
    test_bad_lines()
    test_command()
    test_reactions()
    test_raw()
    test_first_stream()
    test_waiting()
    test_limits()
    test_reset()
    test_all([(name, dialogue) for name, _, dialogues in all_files for dialogue in dialogues])
    test_injected([(name, dialogue) for name, _, dialogues in all_files for dialogue in dialogues])
    print(f"{passed} passed, {failed} failed")
    return 1 if failed else 0


if __name__ == "__main__":
    if len(sys.argv) != 2:
        sys.exit(__doc__)
    PROGRAM, INJECTED = os.path.abspath(sys.argv[1]), False
    with tempfile.TemporaryDirectory() as FOLDER:
        sys.exit(main())
