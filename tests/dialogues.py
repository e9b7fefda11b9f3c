#!/usr/bin/env python3
"""Plays dialogues with an HTTP/2 client and judges what it does. dialogues/README.md has the form of the files.

    tests/dialogues.py [OPTION..] FILE PORT COMMAND..    COMMAND runs once for each dialogue; it has to make its requests at PORT
    tests/dialogues.py [OPTION..] FILE PORT              waits for a client at PORT, for each dialogue

    --dialogue N        the N-th dialogue alone
    --patience SECONDS  how long a silent client is waited for: 3
    --limit SECONDS     how long a dialogue may take: 30
    --program FILE      the program whose `serve` is the server: the repository's
    --inject            the program weaves and judges by itself, as `serve --inject` does; this script runs the command and compares its exit status

The server is `h2_bench serve`, for each connection one; this script is between it and the client, and lets the octets of a step out behind or instead of what the server
sends. Nothing but Python and the program is needed. It prints TAP; the status is 1 where a dialogue is `not ok` (TODO does not count), 2 where a file is refused.
"""

import argparse
import collections
import json
import os
import re
import select
import shlex
import socket
import subprocess
import sys
import threading
import time

PREFACE = b"PRI * HTTP/2.0\r\n\r\nSM\r\n\r\n"
NAMES = "DATA HEADERS PRIORITY RST_STREAM SETTINGS PUSH_PROMISE PING GOAWAY WINDOW_UPDATE CONTINUATION".split()
DATA, HEADERS, PRIORITY, RST_STREAM, SETTINGS, PUSH_PROMISE, PING, GOAWAY, WINDOW_UPDATE, CONTINUATION = range(10)
CODES = ("NO_ERROR PROTOCOL_ERROR INTERNAL_ERROR FLOW_CONTROL_ERROR SETTINGS_TIMEOUT STREAM_CLOSED FRAME_SIZE_ERROR REFUSED_STREAM CANCEL COMPRESSION_ERROR "
         "CONNECT_ERROR ENHANCE_YOUR_CALM INADEQUATE_SECURITY HTTP_1_1_REQUIRED").split()
DUTIES = ("MUST", "MUST?", "SHOULD", "MAY")
END_STREAM, ACK, END_HEADERS, PADDED, HAS_PRIORITY = 0x01, 0x01, 0x04, 0x08, 0x20
# What `serve` answers where a dialogue's words have no answer.
ANSWERS = ["GET|/|200|6869", "GET|/1|200|6f6e65", "GET|/2|200|74776f", "POST|/p|201|6f6b"]
# The payload of the PING behind the octets of a step.
PROBE = b"h2_bench"
# More of a client is not read, and no server of these takes a longer payload.
MOST_OCTETS, MOST_PAYLOAD = 16 << 20, 65536
TOP = os.path.dirname(os.path.dirname(os.path.abspath(__file__)))

Frame = collections.namedtuple("Frame", "kind flags stream payload")
# The preface, as an item.
START = Frame(None, 0, 0, b"")
# Frames of this type, with at least these flags, on this stream; a payload that begins so, where there is one.
Pattern = collections.namedtuple("Pattern", "kind flags stream payload")
# What a line `;<` says: the line, its number, whether the frame is sent, and a pattern or a whole frame.
Sends = collections.namedtuple("Sends", "text line is_sent what")
# What a line `;!` says.
Wanted = collections.namedtuple("Wanted", "text line duty scope stream code")
# The status of a line `;$`, or the one that it must not be.
Status = collections.namedtuple("Status", "text line is_wanted number")


class Refused(Exception):
    """A line of a file that is none of a dialogue, with its number."""


class Step:
    def __init__(self, line, text):
        self.line, self.text, self.is_instead = line, text[3:], text[1] == "-"
        self.item = item_of(line, self.text)
        self.frames, self.sends, self.wanted = [], [], []


class Dialogue:
    def __init__(self, line, title):
        self.line, self.title, self.words, self.steps, self.statuses = line, title, [], [], []


# ---- frames


def octets_of(frame):
    return len(frame.payload).to_bytes(3, "big") + bytes([frame.kind, frame.flags]) + frame.stream.to_bytes(4, "big") + frame.payload


def frames_of(octets):
    """The whole frames at the front, with the reserved bit of their streams, and the rest."""
    found, at = [], 0
    while len(octets) - at >= 9:
        end = at + 9 + int.from_bytes(octets[at:at + 3], "big")
        if len(octets) < end:
            break
        found.append(Frame(octets[at + 3], octets[at + 4], int.from_bytes(octets[at + 5:at + 9], "big"), bytes(octets[at + 9:end])))
        at = end
    return found, bytes(octets[at:])


def number_at(octets, at):
    return int.from_bytes(octets[at:at + 4], "big")


def settings_of(frame):
    pairs = [frame.payload[at:at + 6] for at in range(0, len(frame.payload), 6)]
    return [(int.from_bytes(pair[:2], "big"), number_at(pair, 2)) for pair in pairs]


def fragment_of(frame):
    """The payload; of HEADERS the fragment of the field block, without padding and priority."""
    octets = frame.payload
    if frame.kind == HEADERS:
        if frame.flags & PADDED:
            octets = octets[1:len(octets) - (octets or b"\0")[0]]
        if frame.flags & HAS_PRIORITY:
            octets = octets[5:]
    return octets


def fits(pattern, frame, base):
    """Whether a frame of the client fits a pattern; odd streams count from its first request's, whose number is base + 1."""
    stream = pattern.stream + (base or 0) if pattern.stream % 2 else pattern.stream
    same_place = (frame.kind, frame.stream) == (pattern.kind, stream) and frame.flags & pattern.flags == pattern.flags
    return same_place and fragment_of(frame).startswith(pattern.payload)


def name_of(kind):
    return NAMES[kind] if kind < len(NAMES) else f"T{kind:02x}"


def code_name(code):
    return CODES[code] if code < len(CODES) else str(code)


# ---- files


def item_of(line, text):
    """`start`, `pong`, or a pattern."""
    if text in ("start", "pong"):
        return text
    found = re.fullmatch(r"([A-Z_]+|T[0-9a-f]{2}) ([0-9A-Fa-f]{2}) (\d{1,10})", text)
    if not found or not (found[1][0] == "T" or found[1] in NAMES):
        raise Refused(line, "an item is start, pong, or NAME FLAGS STREAM")
    kind = NAMES.index(found[1]) if found[1] in NAMES else int(found[1][1:], 16)
    return Pattern(kind, int(found[2], 16), int(found[3]), b"")


def wanted_of(line, text):
    words = text.split(" ")
    if words[0] not in DUTIES:
        raise Refused(line, f"a duty is {', '.join(DUTIES)}")
    if words[1:] == ["-"]:
        return Wanted(text, line, words[0], "-", 0, 0)
    if len(words) == 3 and words[1] == "connection" and words[2] in CODES:
        return Wanted(text, line, words[0], "connection", 0, CODES.index(words[2]))
    if len(words) == 4 and words[1] == "stream" and words[2].isdecimal() and words[3] in CODES:
        return Wanted(text, line, words[0], "stream", int(words[2]), CODES.index(words[3]))
    raise Refused(line, "a reaction is -, connection CODE or stream N CODE")


def status_of(line, text):
    if not re.fullmatch(r"!?\d{1,3}", text):
        raise Refused(line, "a status is N or !N")
    return Status(text, line, text[0] != "!", int(text.lstrip("!")))


class Reader:
    """Reads the lines of a file; `for_asm` has those whose octets `asm` writes, at their own numbers."""

    def __init__(self):
        self.dialogues, self.for_asm, self.users = [], [], []

    def line(self, number, text):
        self.for_asm.append(";")
        if text.startswith(";# "):
            self.dialogues.append(Dialogue(number, text[3:]))
        elif re.match(r";[^ ;]", text):
            self.marked(number, text)
        elif text and not text.startswith(";"):
            self.octets(number, text, self.step(number).frames.append)

    def marked(self, number, text):
        if not re.match(r";[@+<!$-] ", text):
            raise Refused(number, "a mark of a dialogue is ;# ;@ ;+ ;- ;< ;! or ;$, and a space after it")
        if text[1] in "+-":
            self.dialogue(number).steps.append(Step(number, text))
        elif text[1] == "@":
            self.dialogue(number).words += shlex.split(text[3:])
        elif text[1] == "$":
            self.dialogue(number).statuses.append(status_of(number, text[3:]))
        elif text[1] == "!":
            self.step(number).wanted.append(wanted_of(number, text[3:]))
        else:
            self.sends(number, text[3:])

    def sends(self, number, text):
        step = self.step(number)
        if text.startswith("! "):
            step.sends.append(Sends(text, number, False, item_of(number, text[2:])))
        elif text.endswith("..."):
            keep = lambda frame: step.sends.append(Sends(text, number, True, Pattern(*frame)))
            self.octets(number, text[:-3], keep)
        else:
            self.octets(number, text, lambda frame: step.sends.append(Sends(text, number, True, frame)))

    def octets(self, number, text, use):
        if text == "PREFACE" or text.startswith("RAW "):
            raise Refused(number, "a line of a dialogue is one frame")
        self.for_asm[-1] = text
        self.users.append(use)

    def dialogue(self, number):
        if not self.dialogues:
            raise Refused(number, "a dialogue begins with a line ;# TITLE")
        return self.dialogues[-1]

    def step(self, number):
        if not self.dialogue(number).steps:
            raise Refused(number, "a step begins with a line ;+ ITEM or ;- ITEM")
        return self.dialogues[-1].steps[-1]


def read_file(path, program):
    """The dialogues of a file; Refused for the first line that is none of one."""
    with open(path, encoding="utf-8") as file:
        reader = Reader()
        for number, text in enumerate(file.read().split("\n"), 1):
            reader.line(number, text)
    ran = subprocess.run([program, "asm"], input="\n".join(reader.for_asm), capture_output=True, text=True, check=False)
    if ran.returncode:
        said = re.match(r"standard input, line (\d+), (.*)", ran.stderr.strip()) or ["", 0, ran.stdout + ran.stderr]
        raise Refused(int(said[1]), said[2].strip())
    frames = frames_of(bytes.fromhex(ran.stdout))[0]
    assert len(frames) == len(reader.users), "each line is one frame"
    for use, frame in zip(reader.users, frames):
        use(frame)
    for number, dialogue in enumerate(reader.dialogues, 1):
        check_words(dialogue, program)
        dialogue.path, dialogue.number = path, number
    return reader.dialogues


def check_words(dialogue, program):
    ran = subprocess.run([program, "play", *dialogue.words], input="", capture_output=True, text=True, check=False)
    if dialogue.words and ran.returncode:
        raise Refused(dialogue.line, f"the words of ;@ are refused: {(ran.stderr or ran.stdout).strip()}")


# ---- the server


class Bench:
    """`serve` for one connection. `take` gives it an item of the client and returns what it sends for it: all up to the answer to a PING that goes behind the item."""

    def __init__(self, program, words):
        for _ in range(20):
            port = self.start(program, words)
            # Another process may have taken the port meanwhile.
            if self.process.stdout.readline().startswith("listening"):
                break
            self.process.wait()
        self.lines = []
        self.reader = threading.Thread(target=lambda: self.lines.extend(self.process.stdout), daemon=True)
        self.reader.start()
        self.socket = socket.create_connection(("127.0.0.1", port), 10)
        self.socket.setsockopt(socket.IPPROTO_TCP, socket.TCP_NODELAY, 1)
        self.inbox, self.questions, self.in_block, self.has_ended = b"", 0, False, False

    def start(self, program, words):
        """Starts it at a port that is free, and returns the port."""
        with socket.socket() as one:
            one.bind(("127.0.0.1", 0))
            port = one.getsockname()[1]
        answers = [] if any("|" in word for word in words) else ANSWERS
        command = ["h2_bench", "serve", "--json", "--errors", "--quiet", *words, str(port), "1", *answers]
        self.process = subprocess.Popen(command, executable=program, stdin=subprocess.DEVNULL, stdout=subprocess.PIPE, text=True, errors="replace")
        return port

    def receive(self):
        """Reads once; without effect where the server has ended the connection."""
        try:
            got = self.socket.recv(1 << 16)
        except OSError:
            got = b""
        self.inbox += got
        self.has_ended = not got

    def opening(self):
        while not self.has_ended and not frames_of(self.inbox)[0]:
            self.receive()
        return self.taken(None)

    def taken(self, answer):
        """The frames up to an answer, which is taken away; all that are there where there is none."""
        frames, self.inbox = frames_of(self.inbox)
        assert answer is None or self.has_ended or answer in frames
        return [frame for frame in frames if frame != answer]

    def take(self, item):
        if self.has_ended:
            return []
        if item == START:
            self.socket.sendall(PREFACE)
            return []
        if item.kind in (HEADERS, CONTINUATION):
            self.in_block = not item.flags & END_HEADERS
        self.questions += 1
        payload = self.questions.to_bytes(8, "big")
        answer = Frame(PING, ACK, 0, payload)
        # A PING is an error inside a block; for an acknowledgement nothing is sent.
        asks = not (self.in_block or item == Frame(SETTINGS, ACK, 0, b"") or item == Frame(PING, ACK, 0, PROBE))
        try:
            self.socket.sendall(octets_of(item) + (octets_of(Frame(PING, 0, 0, payload)) if asks else b""))
        except OSError:
            pass
        if not asks:
            return []
        while not self.has_ended and answer not in frames_of(self.inbox)[0]:
            self.receive()
        return self.taken(answer)

    def end(self):
        """Ends the connection, and returns the cause of the error that the server has ended it for, if it has."""
        try:
            self.socket.shutdown(socket.SHUT_WR)
            while not self.has_ended:
                self.receive()
        except OSError:
            pass
        self.socket.close()
        try:
            self.process.wait(10)
        except subprocess.TimeoutExpired:
            self.process.kill()
            self.process.wait()
        self.reader.join(10)
        items = [json.loads(line) for line in self.lines if line.startswith("{")]
        errors = [item["error"]["cause"] for item in items if "error" in item and item["error"]["scope"] == "connection"]
        return errors[0] if errors else None


# ---- a connection


class Connection:
    """A client's connection. `log` has in order: ("item", frame) of the client, ("sent", frame) to it, ("step", its number), ("end", how it ended)."""

    def __init__(self, client, steps, words, options):
        self.client, self.steps, self.options = client, steps, options
        self.bench = Bench(options.program, words)
        self.log, self.at, self.base, self.inbox, self.octets, self.reset = [], 0, None, b"", 0, set()
        self.has_preface, self.client_ended, self.cause, self.ended = False, False, None, None
        self.until = time.monotonic() + options.limit

    # What goes out for an item.

    def shifted(self, frame):
        """A frame of the script on the streams that this client has: 1 is that of its first request."""
        reserved, stream, payload = frame.stream & (1 << 31), frame.stream & ~(1 << 31), frame.payload
        base = self.base or 0
        if frame.kind == GOAWAY and len(payload) >= 8 and number_at(payload, 0) % 2 and number_at(payload, 0) != (1 << 31) - 1:
            payload = (number_at(payload, 0) + base).to_bytes(4, "big") + payload[4:]
        return frame._replace(stream=reserved | (stream + base if stream % 2 else stream), payload=payload)

    def is_next(self, item):
        """Whether the item, or `start`, is that of the next step."""
        if self.at == len(self.steps):
            return False
        wanted = self.steps[self.at].item
        if wanted == "pong":
            return item == Frame(PING, ACK, 0, PROBE)
        if wanted == "start" or item == "start":
            return wanted == item
        return fits(wanted, item, self.base)

    def answered(self, item, frames):
        """What goes out where the server sends these frames for an item: nothing more on a stream that the script has reset."""
        frames = [frame for frame in frames if frame.stream not in self.reset]
        if not self.is_next(item):
            self.log += [("sent", frame) for frame in frames]
            return b"".join(map(octets_of, frames))
        step = self.steps[self.at]
        self.at += 1
        out = [] if step.is_instead else list(frames)
        self.log += [("sent", frame) for frame in out] + [("step", self.at)]
        script = [self.shifted(frame) for frame in step.frames] + ([Frame(PING, 0, 0, PROBE)] if step.wanted else [])
        self.reset |= {frame.stream for frame in script if frame.kind == RST_STREAM and frame.stream}
        self.log += [("sent", frame) for frame in script]
        return b"".join(map(octets_of, out + script))

    def take(self, item):
        self.log.append(("item", item))
        if item.kind == HEADERS and self.base is None:
            self.base = item.stream - 1
        return self.answered(item, self.bench.take(item))

    # The client's octets.

    def taken(self):
        """What goes out for all items that are whole in the inbox."""
        out = b""
        if not self.has_preface:
            if len(self.inbox) < len(PREFACE):
                return out
            self.has_preface, self.inbox = True, self.inbox[len(PREFACE):]
            self.bench.take(START)
        frames, self.inbox = frames_of(self.inbox)
        for frame in frames:
            out += self.take(frame._replace(stream=frame.stream & ~(1 << 31)))
        return out

    def receive(self, seconds):
        """Reads once, and says whether anything, or the end, came in time."""
        if not select.select([self.client], [], [], max(0, seconds))[0]:
            return False
        try:
            got = self.client.recv(1 << 16)
        except OSError:
            got = b""
        self.octets += len(got)
        self.inbox += got
        self.client_ended = self.client_ended or not got
        return True

    def write(self, octets):
        """Writes all, and reads meanwhile; False where the client takes no more."""
        while octets:
            ready, writable, _ = select.select([] if self.client_ended else [self.client], [self.client], [], self.options.patience)
            if ready:
                self.receive(0)
            if not (ready or writable):
                return False
            if writable:
                try:
                    octets = octets[self.client.send(octets[:1 << 16]):]
                except OSError:
                    return False
        return True

    def fault(self):
        """Why the dialogue can't go on, or None."""
        front = self.inbox[:len(PREFACE)]
        if not self.has_preface and not PREFACE.startswith(front):
            return f"octets that are no frames: {ascii(front.decode('latin1'))}"
        length = int.from_bytes(self.inbox[:3], "big")
        if self.has_preface and length > MOST_PAYLOAD:
            return f"octets that are no frames, or a frame of {length} octets: {self.inbox[:9].hex()}"
        if self.octets > MOST_OCTETS:
            return f"the client has sent more than {MOST_OCTETS} octets"
        if time.monotonic() > self.until:
            return f"the dialogue has not ended after {self.options.limit:g} s"
        return None

    def talk(self):
        """Plays the connection to its end, and returns how it ended."""
        out = self.answered("start", self.bench.opening())
        while True:
            if out and not self.write(out):
                while not self.client_ended and self.receive(0.3):
                    pass
                self.taken()
                return "closed"
            if self.client_ended and not self.inbox:
                return "closed"
            if self.fault():
                return self.fault()
            if self.bench.has_ended:
                return "ended by the server"
            had = len(self.inbox)
            out = self.taken()
            if out or len(self.inbox) != had:
                continue
            if self.client_ended:
                return "closed"
            if not self.receive(min(self.options.patience, self.until - time.monotonic() + 0.1)) and not self.fault():
                return "silent"

    def run(self):
        self.client.setsockopt(socket.IPPROTO_TCP, socket.TCP_NODELAY, 1)
        try:
            ended = self.talk()
        except OSError as error:
            ended = f"the connection failed: {error}"
        self.cause = self.bench.end()
        self.log.append(("end", ended))
        self.ended = ended
        self.client.close()


# ---- what the client did

Reaction = collections.namedtuple("Reaction", "scope stream code")
GOES_ON, CLOSED, SILENT = Reaction("-", 0, 0), Reaction("closed", 0, 0), Reaction("silent", 0, 0)


def reaction_words(reaction):
    if reaction.scope == "-":
        return "goes on"
    if reaction.scope == "connection":
        return f"connection {code_name(reaction.code)}"
    if reaction.scope == "stream":
        return f"stream {reaction.stream} {code_name(reaction.code)}"
    return reaction.scope


def after(log, number):
    """The log from the octets of a step on."""
    return log[log.index(("step", number)) + 1:]


def of_client(log):
    return [what for kind, what in log if kind == "item"]


def waits(log):
    """Whether a request of the client has no whole answer."""
    asked = {frame.stream for frame in of_client(log) if frame.kind == HEADERS}
    sent = [what for kind, what in log if kind == "sent"]
    ended = {frame.stream & ~(1 << 31) for frame in sent if frame.kind in (DATA, HEADERS) and frame.flags & END_STREAM or frame.kind == RST_STREAM}
    return bool(asked - ended)


def reaction_to(connection, number, wanted):
    """What the client did with the octets of a step, from there to the end of the connection: the first GOAWAY with an error, or else the first reset of a stream, or else
    whether it left: with a request unanswered where it has to go on, without an answer to the PING where an error is wanted. Where it has to go on, a reset by NO_ERROR or
    CANCEL after the answer to the PING is none: it gives up a stream at its end."""
    log, is_alive, resets = after(connection.log, number), False, []
    for frame in of_client(log):
        if frame.kind == GOAWAY and len(frame.payload) >= 8 and number_at(frame.payload, 4):
            return Reaction("connection", 0, number_at(frame.payload, 4))
        gives_up = wanted[0].scope == "-" and is_alive and number_at(frame.payload, 0) in (0, 8)
        if frame.kind == RST_STREAM and len(frame.payload) == 4 and not gives_up:
            resets.append(Reaction("stream", frame.stream - (connection.base or 0), number_at(frame.payload, 0)))
        is_alive = is_alive or frame == Frame(PING, ACK, 0, PROBE)
    if resets:
        return resets[0]
    if connection.ended == "closed" and wanted[0].scope == "-":
        goes_on = any(kind == "step" for kind, _ in log) or not waits(connection.log)
        return GOES_ON if goes_on else CLOSED
    if is_alive:
        return GOES_ON
    return CLOSED if connection.ended == "closed" else SILENT


# ---- verdicts

# The kind of a verdict, the line, what it wants and what was found. `same`: that. `allowed`: something else that the RFC allows. `lingers`: a note too, since a runner has
# only its patience to say so. `open`: the RFC leaves it open, or the code is neither named nor generic. WRONG: `broken` on the wire, `user`: the exit status of the command,
# `missing`: the client never sent the item of a step.
Verdict = collections.namedtuple("Verdict", "kind line wanted found")
WRONG = ("broken", "user", "missing")


def same():
    return Verdict("same", 0, "", "")


def judged(wanted, reaction, fails):
    """The verdict on a reaction: the table of what RFC 9113, 5.4, allows beside what the line says. `fails`: whether the client's command has failed."""
    words = reaction_words(reaction)
    allowed = lambda why: Verdict("allowed", wanted.line, wanted.text, f"{words}: {why}")
    missed = Verdict({"MUST": "broken", "MUST?": "open"}.get(wanted.duty, "allowed"), wanted.line, wanted.text, words)
    if reaction == Reaction(wanted.scope, wanted.stream, wanted.code):
        return same()
    if reaction == SILENT:
        return missed._replace(kind="broken", found="silent: no error, no answer to the PING, no end")
    if wanted.scope == "-":
        return missed
    if reaction == CLOSED:
        return allowed("no GOAWAY; 5.4.1 has SHOULD")
    if reaction.scope == "connection":
        return allowed("another code, 5.4" if wanted.scope == "connection" else "a connection error for a stream error, 5.4.2")
    if wanted.scope == "stream" and reaction.scope == "stream" and reaction.stream == wanted.stream:
        if CODES[reaction.code:reaction.code + 1] in (["PROTOCOL_ERROR"], ["INTERNAL_ERROR"]):
            return allowed("a generic code, 5.4")
        return missed._replace(kind="open" if wanted.duty == "MUST" else missed.kind)
    if wanted.scope == "stream" and reaction == GOES_ON and fails:
        return allowed("nothing was sent, and the command fails")
    return missed


def sends_verdict(connection, number, line):
    """What was found where a line `;<` does not hold: the client has to send the frame after the step (perhaps behind the answer to the PING, which RFC 9113, 6.7, wants to
    be fast), or must not send it before the next step."""
    log = after(connection.log, number)
    ends = [at for at, (kind, _) in enumerate(log) if kind == "step" and not line.is_sent]
    frames = of_client(log[:ends[0]] if ends else log)
    if isinstance(line.what, Pattern):
        is_sent = any(fits(line.what, frame, connection.base) for frame in frames)
    else:
        is_sent = any(frame == connection.shifted(line.what) for frame in frames)
    return None if is_sent == line.is_sent else ("it is sent" if is_sent else "-")


class Limits:
    """What the SETTINGS that went to the client grant it, from its acknowledgement of each on, and what it has done against that. A value that is not acknowledged yet
    may be in force already where it allows more (RFC 9113, 6.5.3)."""

    def __init__(self):
        self.waiting, self.frame, self.streams, self.live, self.faults, self.highest = [], 16384, None, set(), [], 0

    def highest_of(self, number, in_force):
        values = [in_force] + [value for _, pairs in self.waiting for name, value in pairs if name == number]
        return None if None in values else max(values)

    def sent(self, at, frame):
        stream = frame.stream & ~(1 << 31)
        if frame.kind == SETTINGS and not frame.flags & ACK and stream == 0 and len(frame.payload) % 6 == 0:
            self.waiting.append((at, settings_of(frame)))
        if frame.kind in (DATA, HEADERS) and frame.flags & END_STREAM or frame.kind == RST_STREAM:
            self.live.discard(stream)

    def acknowledged(self):
        if not self.waiting:
            self.faults.append("SETTINGS ACK without SETTINGS")
            return
        for name, value in self.waiting.pop(0)[1]:
            self.streams = value if name == 3 else self.streams
            self.frame = value if name == 5 else self.frame

    def took(self, frame):
        most = self.highest_of(5, self.frame)
        if len(frame.payload) > most:
            self.faults.append(f"{name_of(frame.kind)} of {len(frame.payload)} octets, where {most} are allowed")
        if frame.kind == SETTINGS and frame.flags & ACK:
            self.acknowledged()
        if frame.kind == RST_STREAM:
            self.live.discard(frame.stream)
        if frame.kind == HEADERS and frame.stream > self.highest:
            self.highest = frame.stream
            most = self.highest_of(3, self.streams)
            if most is not None and len(self.live) >= most:
                self.faults.append(f"HEADERS on stream {frame.stream}, where {most} streams are allowed and {len(self.live)} are live")
            self.live.add(frame.stream)


def limits_faults(connection):
    """What a client that goes on has done against the limits; and whether it has acknowledged each SETTINGS frame that it got before the last PING that it answered."""
    limits, answered = Limits(), 0
    for at, (kind, what) in enumerate(connection.log):
        if kind == "sent":
            limits.sent(at, what)
        elif kind == "item":
            limits.took(what)
            answered = at if what == Frame(PING, ACK, 0, PROBE) else answered
    late = sum(1 for at, _ in limits.waiting if at < answered)
    return limits.faults + ([f"{late} SETTINGS frames are not acknowledged"] if late else [])


def verdicts_of_steps(dialogue, connection, fails):
    """A verdict for each step, up to the first that the client did not go on from."""
    for number, step in enumerate(dialogue.steps, 1):
        if ("step", number) not in connection.log and not step.frames and not step.wanted:
            continue
        if ("step", number) not in connection.log:
            yield Verdict("missing", step.line, step.text, f"no such item came; {connection.ended}")
            return
        if not step.wanted:
            continue
        reaction = reaction_to(connection, number, step.wanted)
        # Of several lines `;!` each is right.
        verdict = min((judged(wanted, reaction, fails) for wanted in step.wanted), key=lambda one: ("same", "allowed", "open", "broken").index(one.kind))
        for line in step.sends if verdict.kind == "same" else []:
            found = sends_verdict(connection, number, line)
            if found:
                verdict = Verdict("broken" if step.wanted[0].duty == "MUST" else "allowed", line.line, line.text, found)
        yield verdict
        if reaction != GOES_ON or verdict.kind == "broken":
            return
    for fault in limits_faults(connection)[:1]:
        yield Verdict("broken", dialogue.line, "the limits of SETTINGS", fault)


def verdicts_of_status(dialogue, status):
    """A verdict for each line `;$` that does not hold; `status` is None where no command ran."""
    if status == "killed":
        yield Verdict("broken", dialogue.line, "the command ends", "it had to be killed")
    elif status is not None:
        for line in dialogue.statuses:
            if (status == line.number) != line.is_wanted:
                yield Verdict("user", line.line, f"exit status {line.text}", f"exit status {status}")


def verdicts(dialogue, connections, status):
    """All verdicts on a dialogue that are not `same`."""
    if not connections:
        return [Verdict("broken", dialogue.line, "a connection", f"no connection came; exit status {status}" if status is not None else "no connection came")]
    connection, ended = connections[0], connections[0].ended
    statuses = list(verdicts_of_status(dialogue, status))
    if ended == "ended by the server":
        # Its error ends the dialogue: the script may have granted what the words of ;@ do not.
        return [Verdict("broken", dialogue.line, "a client that the server goes on with", f"{ended}: {connection.cause}"), *statuses]
    # A command that waits until this runner ends the connection fails too late.
    fails = status not in (None, "killed", 0) and ended == "closed"
    found = [*verdicts_of_steps(dialogue, connection, fails), *statuses]
    if ended not in ("closed", "silent"):
        found.insert(0, Verdict("broken", dialogue.line, "frames of a client, and their end", ended))
    if ended == "silent" and any(frame.kind == GOAWAY and number_at(frame.payload, 4) for frame in of_client(connection.log)):
        found.append(Verdict("lingers", dialogue.line, "the connection ends after GOAWAY with an error (5.4.1)", f"open after {connection.options.patience:g} s"))
    return [one for one in found if one.kind != "same"]


# ---- a run


def listener_at(port):
    one = socket.socket()
    one.setsockopt(socket.SOL_SOCKET, socket.SO_REUSEADDR, 1)
    one.bind(("127.0.0.1", port))
    one.listen(16)
    return one


def accept_all(listener, dialogue, options, connections, stop):
    """Serves clients until `stop`: the first one has the steps, later ones the server alone."""
    threads = []
    while not stop.is_set():
        if select.select([listener], [], [], 0.05)[0]:
            connection = Connection(listener.accept()[0], [] if connections else dialogue.steps, dialogue.words, options)
            connections.append(connection)
            threads.append(threading.Thread(target=connection.run, daemon=True))
            threads[-1].start()
    for thread in threads:
        thread.join(options.limit + options.patience + 30)


def run_command(command, limit):
    """The exit status of a command, `killed` where it has not ended in time, and what it printed."""
    process = subprocess.Popen(command, stdin=subprocess.DEVNULL, stdout=subprocess.PIPE, stderr=subprocess.STDOUT, text=True, errors="replace", start_new_session=True)
    try:
        said = process.communicate(timeout=limit)[0]
        return process.returncode, said
    except subprocess.TimeoutExpired:
        os.killpg(process.pid, 9)
        return "killed", process.communicate()[0]


def play(dialogue, port, options, run):
    """Serves a dialogue at a port while `run` runs, which gets the port and the connections so far; returns the connections and what `run` returns."""
    connections, stop, listener = [], threading.Event(), listener_at(port)
    server = threading.Thread(target=accept_all, args=(listener, dialogue, options, connections, stop), daemon=True)
    server.start()
    try:
        status = run(listener.getsockname()[1], connections)
    finally:
        stop.set()
        server.join()
        listener.close()
    return connections, status


def lines_of_program(process, until):
    """What the program prints, up to the result of the dialogue; all of it where the program has ended."""
    said = []
    reader = threading.Thread(target=lambda: said.extend(process.stdout), daemon=True)
    reader.start()
    while reader.is_alive() and time.monotonic() < until and not any(line.startswith(("ok ", "not ok ")) for line in said):
        time.sleep(0.02)
    process.kill()
    reader.join(10)
    process.wait()
    return said


def said_verdicts(lines):
    """The verdicts in what `serve --inject` prints."""
    found, is_open = [], any("# TODO" in line for line in lines)
    for line in lines:
        words = line.strip().split(": ", 1)
        if line.startswith("  - line: "):
            found.append(Verdict("open" if is_open else "broken", int(words[1]), "", ""))
        elif line.startswith(("    wanted: ", "    found: ")):
            found[-1] = found[-1]._replace(**{words[0]: words[1][1:-1]})
        elif line.startswith(("# allowed: ", "# lingers: ")):
            seen, _, wanted = words[1].rpartition("; wanted: ")
            found.append(Verdict(words[0][2:], 0, wanted, seen))
    return [one._replace(kind="missing") if one.found.startswith("no such item came") else one for one in found]


def injected(dialogue, port, options, run):
    """The verdicts on a dialogue that `serve --inject` plays at a port while `run` runs, as for `play`; no more of a connection is known."""
    command = ["h2_bench", "serve", "--quiet", "--inject", dialogue.path, "--dialogue", str(dialogue.number), str(port), "100", *ANSWERS]
    process = subprocess.Popen(command, executable=options.program, stdin=subprocess.DEVNULL, stdout=subprocess.PIPE, text=True, errors="replace")
    first = process.stdout.readline()
    assert first.startswith("listening"), first
    status = run(port, None)
    # A client that is silent is waited for as long as the program has patience, another one as long as a dialogue may take.
    lines = lines_of_program(process, time.monotonic() + (8 if options.command else options.limit + 8))
    if not any(line.startswith(("ok ", "not ok ")) for line in lines):
        return verdicts(dialogue, [], status)
    found = said_verdicts(lines)
    if status not in (None, "killed", 0):
        nothing = lambda one: one.kind == "broken" and one.found == "goes on" and " stream " in one.wanted
        found = [one._replace(kind="allowed", found="goes on: nothing was sent, and the command fails") if nothing(one) else one for one in found]
    return [*found, *verdicts_of_status(dialogue, status)]


def runner(options):
    """What makes the client's requests: the command, or somebody else while this waits for the end of the first connection."""

    def wait(_, connections):
        until = time.monotonic() + options.limit
        while not connections and time.monotonic() < until:
            time.sleep(0.02)
        while connections and not connections[0].ended:
            time.sleep(0.02)

    return (lambda *_: run_command(options.command, options.limit + options.patience)[0]) if options.command else wait


def tap(number, path, dialogue, found):
    """The lines of a verdict."""
    wrong = [one for one in found if one.kind in WRONG]
    doubts = [one for one in found if one.kind == "open"]
    name = f"{number} - {path}: {dialogue.title}".replace("\\", "\\\\").replace("#", "\\#")
    if not wrong and not doubts:
        yield f"ok {name}"
    else:
        yield f"not ok {name}" + ("" if wrong else " # TODO the RFC leaves it open, or the code is neither named nor generic")
        yield "  ---"
        for one in wrong or doubts:
            yield f"  - line: {one.line}"
            yield f"    wanted: {json.dumps(one.wanted)}"
            yield f"    found: {json.dumps(one.found)}"
        yield "  ..."
    for one in found:
        if one.kind in ("allowed", "lingers"):
            yield f"# {one.kind}: {one.found}; wanted: {one.wanted}"


def options_of(words):
    parser = argparse.ArgumentParser(description=__doc__, formatter_class=argparse.RawDescriptionHelpFormatter)
    parser.add_argument("--dialogue", type=int)
    parser.add_argument("--patience", type=float, default=3)
    parser.add_argument("--limit", type=float, default=30)
    parser.add_argument("--program", default=f"{TOP}/h2_bench")
    parser.add_argument("--inject", action="store_true")
    parser.add_argument("file")
    parser.add_argument("port", type=int)
    parser.add_argument("command", nargs=argparse.REMAINDER)
    return parser.parse_args(words)


def main(words):
    options = options_of(words)
    try:
        dialogues = read_file(options.file, options.program)
        chosen = list(enumerate(dialogues, 1))[slice(options.dialogue - 1, options.dialogue) if options.dialogue else slice(None)]
    except Refused as refused:
        print(f"{options.file}:{refused.args[0]}: {refused.args[1]}", file=sys.stderr)
        return 2
    except (OSError, UnicodeDecodeError) as error:
        print(f"{options.file}: {error}", file=sys.stderr)
        return 2
    print("TAP version 13", flush=True)
    is_well = True
    for number, dialogue in chosen:
        if not options.command:
            print(f"# listening {options.port}", flush=True)
        if options.inject:
            found = injected(dialogue, options.port, options, runner(options) if options.command else lambda *_: None)
        else:
            found = verdicts(dialogue, *play(dialogue, options.port, options, runner(options)))
        is_well = is_well and all(one.kind not in WRONG for one in found)
        print(*tap(number, options.file, dialogue, found), sep="\n", flush=True)
    print(f"1..{len(chosen)}")
    return 0 if is_well else 1


if __name__ == "__main__":
    sys.exit(main(sys.argv[1:]))
