#!/usr/bin/env python3
"""`check --against` and `check --judge`: the server of this program is the same as itself in each case that is not skipped; servers that are silent, slow, close amid a
frame, send garbage, or send without end get a verdict in bounded time and memory; what a server does over a socket, and its verdict.

    tests/against.py PROGRAM

It needs nothing but Python. The last line is `N passed, M failed`; the status is 1 where one failed.
"""

import glob
import os
import resource
import socket
import subprocess
import sys
import tempfile
import threading
import time
import xml.etree.ElementTree as ElementTree

sys.dont_write_bytecode = True
import script  # noqa: E402

TOP = os.path.dirname(os.path.dirname(os.path.abspath(__file__)))
SECONDS = 900
SETTINGS = script.octets("SETTINGS 00 0 -")
ACK = script.octets("SETTINGS 01 0 -")
PONG = script.octets("PING 01 0 x0000000000000000")
CASE = ";# PING is answered (RFC 9113, 6.7)\nPREFACE\nSETTINGS 00 0 -\nPING 00 0 x0102030405060708\n"
passed, failed = 0, 0


def expect(title, holds, found):
    global passed, failed
    if holds:
        passed += 1
    else:
        failed += 1
        print(f"{title}: found {found}")


def check(program, *words):
    """The output, standard error and status of `check` with these words."""
    run = subprocess.run(["h2_bench", "check", *words], executable=program, capture_output=True, text=True, timeout=SECONDS)
    return run.stdout, run.stderr, run.returncode


def cases():
    return sorted(glob.glob(f"{TOP}/cases/**/*.h2", recursive=True))


def sums(output):
    """The numbers of the line at the end, by their words."""
    line = next(line for line in output.splitlines() if line.startswith("# same "))
    return {part.split()[0]: int(part.split()[1]) for part in line[2:].split(", ")}


class Scripted:
    """A server that does this with each connection."""

    def __init__(self, play):
        self.listener = socket.create_server(("127.0.0.1", 0))
        self.port = self.listener.getsockname()[1]
        self.play = play
        threading.Thread(target=self.accept, daemon=True).start()

    def accept(self):
        while True:
            try:
                wire, _ = self.listener.accept()
            except OSError:
                return
            threading.Thread(target=self.serve, args=(wire,), daemon=True).start()

    def serve(self, wire):
        try:
            self.play(wire)
        except OSError:
            pass
        wire.close()

    def __enter__(self):
        return self

    def __exit__(self, *_):
        self.listener.close()


def silent(wire):
    while wire.recv(65536):
        pass


def slow(wire):
    for octet in SETTINGS + ACK:
        wire.sendall(bytes([octet]))
        time.sleep(0.005)
    silent(wire)


def cut(wire):
    wire.recv(65536)
    wire.sendall(SETTINGS + b"\x00\x00\x10\x01\x05\x00\x00\x00\x01\x88")


def garbage(wire):
    wire.sendall(bytes((7 * n + 13) % 251 for n in range(100_000)))
    silent(wire)


def trickling(wire):
    wire.sendall(SETTINGS + ACK)
    while True:
        wire.sendall(PONG)
        time.sleep(0.005)


def endless(wire):
    wire.sendall(SETTINGS)
    while True:
        wire.sendall(PONG * 1000)


# What a server does with the case of a PING, and what is said of it: a case takes 5 s and 16 MiB at most.
HOSTILE = [
    (silent, "broken 1", "seen: no answer"),
    (slow, "broken 1", "rule: ping, RFC 9113 6.7"),
    (cut, "doubtful 1", "seen: the end of the connection"),
    (garbage, "broken 1", "seen: no answer"),
    (trickling, "skipped 1", "# SKIP it took more than 5 s, or more than 16 MiB came"),
    (endless, "skipped 1", "# SKIP it took more than 5 s, or more than 16 MiB came"),
]


def scripted_servers(program, case):
    """Each server is judged in bounded time and memory, and none passes."""
    for play, counted, said in HOSTILE:
        with Scripted(play) as server:
            begun = time.monotonic()
            output, errors, status = check(program, "--against", str(server.port), case)
            seconds = time.monotonic() - begun
            expect(f"a server that is {play.__name__}", counted in output and said in output and status == ("broken 1" in counted), (status, output, errors))
            expect(f"a server that is {play.__name__} is judged in 30 s", seconds < 30, seconds)
    most = resource.getrusage(resource.RUSAGE_CHILDREN).ru_maxrss // 1024
    # One that is built without proof keeps what it has given back for a while, to find bad accesses.
    with open(program, "rb") as file:
        bound = 448 if b"__asan_init" in file.read() else 128
    expect(f"servers are judged in {bound} MiB", most < bound, f"{most} MiB")


def framed(react):
    """A server that sends SETTINGS, and for each frame of the client what `react` gives for its type, flags, stream and payload; None closes the connection."""

    def play(wire):
        wire.sendall(SETTINGS)
        got, place = b"", len(script.PREFACE)
        while octets := wire.recv(65536):
            got += octets
            while len(got) >= place + 9 and len(got) >= (end := place + 9 + int.from_bytes(got[place : place + 3], "big")):
                answer = react(got[place + 3], got[place + 4], int.from_bytes(got[place + 5 : place + 9], "big"), got[place + 9 : end])
                if answer is None:
                    return
                wire.sendall(answer)
                place = end

    return play


def polite(kind, flags, stream, payload):
    """It acknowledges SETTINGS and PING, and does nothing else."""
    if flags & 1 or kind not in (4, 6):
        return b""
    return ACK if kind == 4 else script.octets(f"PING 01 0 x{payload.hex()}")


def at(wanted, answer):
    """The same, but for frames of one type it has this answer."""
    return lambda kind, flags, stream, payload: answer if kind == wanted else polite(kind, flags, stream, payload)


GET = 'HEADERS 05 1 hi2,i6,i4,n1="localhost"'
POST = 'HEADERS 04 1 hi3,i6,i4,n1="localhost",n28="5"'
PING = "PING 00 0 x0102030405060708"
GOAWAY = "GOAWAY 00 0 x0000000000000000"
ERROR = script.octets("GOAWAY 00 0 x0000000000000001")
# What a server does, the lines of a case after PREFACE and SETTINGS, how it is counted, and what is said.
DOINGS = [
    ("closes after GOAWAY", at(6, None), [GOAWAY, PING], "allowed 1", "why: goaway, RFC 9113 6.8: the client ends its use of the connection"),
    ("closes at GOAWAY", at(7, None), [GOAWAY], "allowed 1", "why: goaway, RFC 9113 6.8: the client ends its use of the connection"),
    ("closes where all is lawful", at(6, None), [PING], "doubtful 1", "seen: the end of the connection"),
    ("ends by an error after GOAWAY", at(6, ERROR), [GOAWAY, PING], "broken 1", "seen: connection error PROTOCOL_ERROR"),
    ("says nothing of content that is too short, and answers PING", polite, [POST, "DATA 01 1 x61"], "doubtful 1", "seen: nothing"),
    ("says nothing of a field that is malformed, and answers PING", polite, [GET + ',n"a"=" b"'], "broken 1", "seen: nothing"),
    ("has not answered before an error", at(0, ERROR), [GET, "DATA 00 3 x61"], "same 1", ""),
    ("has not answered, and closes at an error", at(0, None), [GET, "DATA 00 3 x61"], "allowed 1", "seen: the end of the connection"),
    ("has not answered before the client's RST_STREAM", polite, [GET, "RST_STREAM 00 1 c8"], "skipped 1", "the stream had another state"),
    ("answers no request, and all is lawful", polite, [GET, PING], "broken 1", "seen: no answer"),
]


def servers_that_do(program, folder):
    """What a server does over a socket, and the verdict."""
    for title, react, lines, counted, said in DOINGS:
        with open(f"{folder}/doing.h2", "w", encoding="utf-8") as file:
            file.write("\n".join(["PREFACE", "SETTINGS 00 0 -", *lines, ""]))
        with Scripted(framed(react)) as server:
            output, errors, status = check(program, "--against", str(server.port), f"{folder}/doing.h2")
        expect(f"a server that {title}", counted in output and said in output and status == ("broken 1" in counted), (status, output, errors))


def nothing_listens(program, case):
    with socket.create_server(("127.0.0.1", 0)) as listener:
        port = listener.getsockname()[1]
    output, errors, status = check(program, "--against", str(port), case)
    expect("where nothing listens there is a sentence, and status 1", status == 1 and "nothing listens" in errors, (status, output, errors))


def own_server(program):
    """The server of this program, in all cases."""
    with socket.create_server(("127.0.0.1", 0)) as listener:
        port = listener.getsockname()[1]
    server = subprocess.Popen(["h2_bench", "serve", str(port), "100000", "--streams", "100"], executable=program, stdin=subprocess.DEVNULL, stdout=subprocess.DEVNULL)
    try:
        time.sleep(0.5)
        output, errors, status = check(program, "--against", str(port), *cases())
    finally:
        server.kill()
        server.wait()
    found = sums(output)
    wrong = [line for line in output.splitlines() if line.startswith("not ok")]
    expect("serve is the same as itself", status == 0 and found["allowed"] + found["doubtful"] + found["broken"] == 0 and found["same"] > 300, (found, wrong[:20], errors))
    print(f"serve: {found}")


def recorded(program, folder, case):
    """The verdict on octets that were recorded."""
    client, server = f"{folder}/client", f"{folder}/server"
    octets = script.PREFACE + SETTINGS + script.octets("PING 00 0 x0102030405060708")
    with open(client, "wb") as file:
        file.write(octets)
    for title, sent, same in (("that answers", SETTINGS + ACK + script.octets("PING 01 0 x0102030405060708"), 1), ("that answers with other octets", SETTINGS + ACK + PONG, 0)):
        with open(server, "wb") as file:
            file.write(sent)
        output, errors, status = check(program, "--judge", client, server, case)
        expect(f"a recorded server {title}", f"# same {same}," in output and status == 1 - same, (status, output, errors))


def frame_of(kind, flags, payload):
    """A frame on stream 3."""
    return len(payload).to_bytes(3, "big") + bytes([kind, flags, 0, 0, 0, 3]) + payload


# 60 frames of one block, each of 16,000 references to that field.
ENDLESS = b"".join(frame_of(9 if number else 1, 4 * (number == 59), b"\xbe" * 16_000) for number in range(60))

# A field of 60,000 octets that is put into the header table, then a block that refers to it 400 times.
REPEATED = script.octets(f'HEADERS 04 1 hu65536,a"x"="{"a" * 60_000}"') + script.octets(f"HEADERS 04 1 h{','.join(['i62'] * 400)}")


def repeated_field(program, folder, case):
    """A field that a server repeats is held once: it takes 24 MB more else; a block without end is not read on: it takes 96 MB more else. Nothing that takes more runs
    before this."""
    with open(f"{folder}/client", "wb") as file:
        file.write(script.PREFACE + SETTINGS + script.octets("PING 00 0 x0102030405060708"))
    with open(f"{folder}/server", "wb") as file:
        file.write(SETTINGS + ACK + REPEATED + ENDLESS)
    output, errors, status = check(program, "--judge", f"{folder}/client", f"{folder}/server", case)
    expect("a server that repeats a field", "unreadable-block" in output and status == 1, (status, output, errors))
    most = resource.getrusage(resource.RUSAGE_CHILDREN).ru_maxrss // 1024
    expect("a field that a server repeats is held once", most < 24, f"{most} MiB")


# PING on stream 1 is PROTOCOL_ERROR (RFC 9113, 6.7): what the server does, the last word of the line of TAP, and what JUnit XML has in the case.
VERDICTS = [
    ("the same", "GOAWAY 00 0 x0000000000000001", "ok 1", None),
    ("allowed: INTERNAL_ERROR (5.4)", "GOAWAY 00 0 x0000000000000002", "ok 1", None),
    ("doubtful: another code", "GOAWAY 00 0 x0000000000000004", "# TODO doubtful", "skipped"),
    ("broken: an answer", "PING 01 1 x0102030405060708", "not ok 1", "failure"),
]


def as_xml(program, folder):
    """Each verdict, and a case that is skipped, as TAP and as JUnit XML."""
    lines = "PREFACE\nSETTINGS 00 0 -\nPING 00 1 x0102030405060708\n"
    with open(f"{folder}/verdicts.h2", "w", encoding="utf-8") as file:
        file.write(f";# A <title> # 1\n{lines};# Other octets\nPREFACE\nPING 00 0 x0102030405060708\n")
    with open(f"{folder}/client", "wb") as file:
        file.write(script.PREFACE + SETTINGS + script.octets("PING 00 1 x0102030405060708"))
    for title, frame, words, element in VERDICTS:
        with open(f"{folder}/server", "wb") as file:
            file.write(SETTINGS + ACK + script.octets(frame))
        output, errors, status = check(program, "--judge", "--junit", f"{folder}/out.xml", f"{folder}/client", f"{folder}/server", f"{folder}/verdicts.h2")
        suite = ElementTree.parse(f"{folder}/out.xml").getroot()[0]
        judged, skipped = suite
        expect(f"{title}: the line of TAP", words in output.splitlines()[1] and status == (element == "failure"), (status, output, errors))
        expect(f"{title}: the counts of XML", (suite.get("tests"), suite.get("failures"), suite.get("skipped")) == ("2", str(int(element == "failure")), str(1 + (element == "skipped"))), suite.attrib)
        expect(f"{title}: the XML of the case", judged.get("name") == "A <title> \\# 1" and [child.tag for child in judged] == ([element] if element else []), ElementTree.tostring(judged))
        expect(f"{title}: the XML of the one that is skipped", skipped[0].tag == "skipped" and skipped[0].get("message") == "the client sent other octets", ElementTree.tostring(skipped))


# The lines of a case, and the same as they go out for `--path PUT=/up --authority a.example`.
AIMS = [
    ('HEADERS 05 1 hi2,i6,i4,n1="localhost"', 'HEADERS 05 1 hi2,i6,i4,n1="a.example"'),
    ('HEADERS 05 1 hn2="PUT",i6,i4,n1="localhost",n38="localhost"', 'HEADERS 05 1 hn2="PUT",i6,n4="/up",n1="a.example",n38="a.example"'),
    ('HEADERS 05 1 ha2="PUT",i6,a4="/x",a1="localhost"', 'HEADERS 05 1 ha2="PUT",i6,a4="/up",a1="a.example"'),
    ('HEADERS 05 1 hn2="PUT",i6,n4="x",n1="other"', 'HEADERS 05 1 hn2="PUT",i6,n4="x",n1="other"'),
    ('HEADERS 05 1 hn2="PUT",i6,i4,n1="localhost",n"x"="a,i4"', 'HEADERS 05 1 hn2="PUT",i6,i4,n1="localhost",n"x"="a,i4"'),
    ("HEADERS 05 1 x82868401096c6f63616c686f7374", "HEADERS 05 1 x82868401096c6f63616c686f7374"),
]


def aimed(program, folder):
    """What goes out: `--judge` passes over a case whose octets are not the recorded ones."""
    for line, sent in AIMS:
        for name, text in (("client", sent), ("case.h2", line)):
            octets = script.PREFACE + SETTINGS + script.octets(text)
            with open(f"{folder}/{name}", "wb") as file:
                file.write(octets if name == "client" else f"PREFACE\nSETTINGS 00 0 -\n{text}\n".encode())
        output, errors, status = check(program, "--judge", "--path", "PUT=/up", "--authority", "a.example", f"{folder}/client", f"{folder}/server", f"{folder}/case.h2")
        expect(f"{line} goes out as {sent}", "other octets" not in output and output.startswith("TAP"), (status, output, errors))
    for words in (("--path", "POST"), ("--path", "=/x"), ("--path", "POST=x"), ("--authority", 'a"b')):
        output, errors, status = check(program, "--against", "1", *words, f"{folder}/case.h2")
        expect(f"{words} are refused", status == 2 and output.startswith("error: invalid value"), (status, output))


def main(program):
    with tempfile.TemporaryDirectory() as folder:
        case = f"{folder}/ping.h2"
        with open(case, "w", encoding="utf-8") as file:
            file.write(CASE)
        repeated_field(program, folder, case)
        recorded(program, folder, case)
        as_xml(program, folder)
        aimed(program, folder)
        nothing_listens(program, case)
        scripted_servers(program, case)
        servers_that_do(program, folder)
    own_server(program)
    print(f"{passed} passed, {failed} failed")
    return 1 if failed else 0


if __name__ == "__main__":
    sys.exit(main(sys.argv[1]))
