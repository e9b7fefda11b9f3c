#!/usr/bin/env python3
"""`serve` over sockets of 127.0.0.1: what clients read, and what the server prints.

    tests/served.py PROGRAM

It needs nothing but Python. The last line is `N passed, M failed`; the status is 1 where one failed. `tests/clients.sh` has real clients.
"""

import errno
import hashlib
import json
import os
import re
import resource
import signal
import socket
import struct
import subprocess
import sys
import tempfile
import time

sys.dont_write_bytecode = True
import schema  # noqa: E402
import script  # noqa: E402

SECONDS = 60

START = script.PREFACE + script.octets("SETTINGS 00 0 -")
PING = script.octets("PING 00 0 x0102030405060708")
OPENING = script.octets("SETTINGS 00 0 s3=100,6=65536")
ACKNOWLEDGED = OPENING + script.octets("SETTINGS 01 0 -")
ANSWERED = ACKNOWLEDGED + script.octets("PING 01 0 x0102030405060708")
GOAWAY = script.octets("GOAWAY 00 0 x0000000000000001")


class Server:
    """The program as it serves at a free port; its output is read line by line."""

    def __init__(self, program, count, *words, port=None, before=None, folder=None):
        self.port = port or free_port()
        words = ["h2_bench", "serve", str(self.port), str(count), *words]
        self.errors = tempfile.TemporaryFile()
        self.process = subprocess.Popen(words, executable=program, stdin=subprocess.DEVNULL, stdout=subprocess.PIPE, stderr=self.errors, preexec_fn=before, cwd=folder)

    def __enter__(self):
        return self

    def __exit__(self, *_):
        self.process.kill()
        self.process.wait()
        self.process.stdout.close()
        self.errors.close()

    def line(self):
        return self.process.stdout.readline().decode()

    def ended(self):
        """The rest of the output, the status, and standard error."""
        rest = "" if self.process.stdout.closed else self.process.stdout.read().decode()
        status = self.process.wait(timeout=SECONDS)
        self.errors.seek(0)
        return rest, status, self.errors.read().decode()


def free_port():
    with socket.socket() as one:
        one.bind(("127.0.0.1", 0))
        return one.getsockname()[1]


def client(port, octets, ends=False):
    """A client that has sent these octets, and has ended its side or not."""
    one = socket.create_connection(("127.0.0.1", port), timeout=SECONDS)
    one.sendall(octets)
    if ends:
        one.shutdown(socket.SHUT_WR)
    return one


def read_all(one):
    """All octets that a client can read, and whether they end well, not with a reset."""
    octets = b""
    try:
        while part := one.recv(65536):
            octets += part
        return octets, True
    except ConnectionResetError:
        return octets, False
    finally:
        one.close()


def two_clients_are_served(program):
    """Two clients one after another; the second sends no preface (RFC 9113, 3.4)."""
    with Server(program, 2) as server:
        yield server.line(), f"listening {server.port}\n"
        first = client(server.port, START + PING, ends=True)
        second = client(server.port, b"G")
        yield read_all(first), (ANSWERED, True)
        yield read_all(second), (OPENING + GOAWAY, True)
        yield server.ended(), ("connection 1 end input\nconnection 2 end goaway 1\n", 0, "")


def each_line_is_flushed(program):
    """The line of a connection can be read before the next one comes."""
    with Server(program, 2) as server:
        yield server.line(), f"listening {server.port}\n"
        read_all(client(server.port, START, ends=True))
        yield server.line(), "connection 1 end input\n"
        read_all(client(server.port, START, ends=True))
        yield server.ended(), ("connection 2 end input\n", 0, "")


def the_goaway_arrives_before_unread_octets(program):
    """An increment of 0 on the connection is an error (RFC 9113, 6.9); behind it the client has sent more than one read takes."""
    with Server(program, 1) as server:
        yield server.line(), f"listening {server.port}\n"
        one = client(server.port, START + script.octets("WINDOW_UPDATE 00 0 w0") + bytes(100_000))
        yield read_all(one), (ACKNOWLEDGED + GOAWAY, True)
        yield server.ended(), ("connection 1 end goaway 1\n", 0, "")


def clients_that_leave_end_their_own_connection_only(program):
    """One closes at once, one within a frame. Whether that is the end of their input or a reset is up to the system."""
    with Server(program, 3) as server:
        yield server.line(), f"listening {server.port}\n"
        client(server.port, b"").close()
        client(server.port, (START + PING)[:40]).close()
        yield read_all(client(server.port, START + PING, ends=True)), (ANSWERED, True)
        lines = server.ended()[0].splitlines()
        yield [line.split(" ")[:2] for line in lines], [["connection", str(number)] for number in (1, 2, 3)]
        yield lines[-1], "connection 3 end input"


def answers_are_sent(program):
    """A request is answered from the words, and its body goes on with the window (RFC 9113, 6.9)."""
    with Server(program, 1, "GET|/|200|6869") as server:
        yield server.line(), f"listening {server.port}\n"
        request = script.octets("SETTINGS 00 0 s4=1") + script.octets("HEADERS 05 1 hi2,i6,i4")
        one = client(server.port, script.PREFACE + request + script.octets("WINDOW_UPDATE 00 1 w1"), ends=True)
        answer = [script.octets(line) for line in ("HEADERS 04 1 hi8", "DATA 00 1 x68", "DATA 01 1 x69")]
        yield read_all(one), (ACKNOWLEDGED + b"".join(answer), True)
        yield server.ended(), ("connection 1 end input\n", 0, "")


GET = script.octets("HEADERS 05 1 hi2,i6,i4")
GOT = script.octets("HEADERS 04 1 hi8") + script.octets("DATA 01 1 x6869")


def each_client_gets_the_limits_and_the_book(program):
    """Two clients of one entry: the limits of the words are in the server's SETTINGS (RFC 9113, 6.5.2), for each of them."""
    opening = script.octets("SETTINGS 00 0 s3=7,4=10,6=65536")
    with Server(program, 2, "--streams", "7", "--window", "10", "--credit", "10", "GET|/|200|6869") as server:
        yield server.line(), f"listening {server.port}\n"
        for number in (1, 2):
            one = client(server.port, START + GET, ends=True)
            yield read_all(one), (opening + script.octets("SETTINGS 01 0 -") + GOT, True)
            yield server.line(), f"connection {number} end input\n"
        yield server.ended(), ("", 0, "")


def a_client_of_many_writes_is_served_to_its_end(program):
    """A request in twenty writes with pauses, so that each of them is a read of the server."""
    octets = START + GET
    size = -(-len(octets) // 20)
    pieces = [octets[at:at + size] for at in range(0, len(octets), size)]
    pieces += [PING] * (20 - len(pieces))
    pongs = script.octets("PING 01 0 x0102030405060708") * sum(piece is PING for piece in pieces)
    for words in ([], ["--explain"]):
        with Server(program, 1, *words, "GET|/|200|6869") as server:
            yield server.line(), f"listening {server.port}\n"
            one = client(server.port, b"")
            one.setsockopt(socket.IPPROTO_TCP, socket.TCP_NODELAY, 1)
            for piece in pieces:
                one.sendall(piece)
                time.sleep(0.01)
            one.shutdown(socket.SHUT_WR)
            yield read_all(one), (ACKNOWLEDGED + GOT + pongs, True)
            yield server.ended()[0].splitlines()[-1:], ["connection 1 end input"]


def another_address_is_refused(program):
    """The port is that of 127.0.0.1 alone: no other address of this host is listened on."""
    with Server(program, 1) as server:
        yield server.line(), f"listening {server.port}\n"
        with socket.socket() as one:
            yield one.connect_ex(("127.0.0.2", server.port)), errno.ECONNREFUSED
        yield read_all(client(server.port, START, ends=True)), (ACKNOWLEDGED, True)
        yield server.ended(), ("connection 1 end input\n", 0, "")


# Limits and settings out of range.
REFUSED = ["--streams 0", "--streams 1001", "--credit 65536", "--table 65537", "--window 2147483648", "--frame 16383", "--frame 65537"]


def limits_out_of_range_are_refused_behind_the_port(program):
    """Fault 16 comes behind `listening PORT`, and no connection is taken, however many are asked for."""
    for limit in REFUSED:
        for count in (0, 1):
            with Server(program, count, *limit.split()) as server:
                output, status, said = server.ended()
                yield (output, status), (f"listening {server.port}\nfault 16\n", 1)
                yield said.startswith(f"{limit} is out of range: "), True


def no_connection_is_served(program):
    """With a count of 0 the port is opened and the program ends."""
    with Server(program, 0) as server:
        yield server.ended(), (f"listening {server.port}\n", 0, "")


def a_port_in_use_is_refused(program):
    """Fault 28, before a limit out of range is."""
    with socket.socket() as taken:
        taken.bind(("127.0.0.1", 0))
        taken.listen()
        port = taken.getsockname()[1]
        for words in ([], ["--streams", "0"]):
            with Server(program, 1, *words, port=port) as server:
                said = f"port {port} of 127.0.0.1 is in use: end the program that listens there, or take another port.\n"
                yield server.ended(), ("fault 28\n", 1, said)


def a_line_that_is_not_written_ends_the_server(program):
    """Its client is served; then the line can't be written: status 3, and no further connection."""
    with Server(program, 2) as server:
        yield server.line(), f"listening {server.port}\n"
        server.process.stdout.close()
        yield read_all(client(server.port, START + PING, ends=True)), (ANSWERED, True)
        yield server.ended(), ("", 3, "standard output: its reader has left; the output is not whole.\n")


def refused_answers_open_no_port(program):
    """The faults of answers and of the book come before the port is opened."""
    said = {
        26: "answer 1 of the command line: `x` has no |,",
        12: "answer 1 of the command line, part 3, STATUS: the status is 199;",
        22: "none.toml: there is no such file.",
    }
    for words, number in ((["x"], 26), (["GET|/|199|"], 12), (["--book", "none.toml", "x"], 22)):
        with Server(program, 1, *words) as server:
            output, status, errors = server.ended()
            yield (output, status), (f"fault {number}\n", 1)
            yield errors.startswith(said[number]), True


def explained(program, octets, number, *words):
    """What `explain` says of a client's octets, each line behind the number of its connection."""
    words = ["h2_bench", "explain", *words]
    run = subprocess.run(words, executable=program, input=octets.hex().encode(), stdout=subprocess.PIPE, stderr=subprocess.DEVNULL, check=False)
    lines = run.stdout.decode().splitlines()
    if "--json" in words:
        return [f'{{"connection":{number},' + line[1:] for line in lines], run.returncode
    return [f"{number}: {line}" for line in lines], run.returncode


def checked(program, path):
    """What `check` says of a file."""
    run = subprocess.run(["h2_bench", "check", path], executable=program, stdout=subprocess.PIPE, check=False)
    return run.stdout.decode().splitlines()[1:]


def text_of(path):
    with open(path, encoding="utf-8") as file:
        return file.read()


SHOWN = """connection 1 open
1: #0 @0   the server's opening
1:         sent SETTINGS, MAX_CONCURRENT_STREAMS 100, MAX_HEADER_LIST_SIZE 65536
1: #2 @24  SETTINGS, empty
1:         sent SETTINGS ACK
1: #3 @33  PING 0102030405060708
1:         sent PING ACK 0102030405060708
"""


def each_item_is_explained_as_it_comes(program):
    """The lines of an item are there before the client sends more, and the client is sent the same frames."""
    with Server(program, 1, "--explain") as server:
        yield server.line(), f"listening {server.port}\n"
        one = client(server.port, START + PING)
        yield "".join(server.line() for _ in SHOWN.splitlines()), SHOWN
        one.sendall(PING[:10])
        one.shutdown(socket.SHUT_WR)
        yield read_all(one), (ANSWERED, True)
        lines, _ = explained(program, START + PING + PING[:10], 1)
        ended, status, _ = server.ended()
        yield (ended.splitlines(), status), (lines[6:] + ["connection 1 end input"], 0)


def uncounted(line):
    """A line without its numbers: `1 octet` and `17 octets` are one."""
    return re.sub(r"\d+(?: octets?)?", "N", line)


def an_item_in_pieces_is_explained_once(program):
    """A client sends octet by octet; what is said and sent is that of all octets at once."""
    octets = START + PING + script.octets("WINDOW_UPDATE 00 0 w0") + PING
    for form in (["--explain"], ["--json"], ["--full", "--json"], ["--brief"], ["--errors"], ["--stream", "0"]):
        with Server(program, 1, *form) as server:
            yield server.line(), f"listening {server.port}\n"
            one = client(server.port, b"")
            one.setsockopt(socket.IPPROTO_TCP, socket.TCP_NODELAY, 1)
            for octet in octets:
                one.sendall(bytes([octet]))
            one.shutdown(socket.SHUT_WR)
            yield read_all(one), (ANSWERED + GOAWAY, True)
            lines, _ = explained(program, octets, 1, *(word for word in form if word != "--explain"))
            ended, status, _ = server.ended()
            found = ended.splitlines()
            yield found[0], "connection 1 open"
            # How many octets come after the end, if any, is up to the system; `explain` has a line of them, the last one.
            yield (found[1:len(lines)], status), (lines[:-1], 0)
            yield [uncounted(line) for line in found[len(lines):-1]] in ([], [uncounted(lines[-1])]), True
            yield found[-1], "connection 1 end goaway 1"


def times_are_in_front(program):
    """Each line of a connection begins with its time, which does not fall; without them the lines are those without --times."""
    octets = START + PING
    of_schema = schema.Schema(f"{schema.TOP}/docs/explain.schema.json")
    for form in ([], ["--json"]):
        with tempfile.TemporaryDirectory() as directory, Server(program, 1, "--times", "--record", directory, *form) as server:
            yield server.line(), f"listening {server.port}\n"
            yield read_all(client(server.port, octets, ends=True)), (ANSWERED, True)
            ended, status, _ = server.ended()
            found = [re.fullmatch(r"(?:\+(\d+) |(?=\{\"time\":(\d+),))(.*)", line) for line in ended.splitlines()]
            times = [int(it[1] or it[2]) for it in found]
            yield (times, status), (sorted(times), 0)
            lines = [re.sub(r"\{\"time\":\d+,", "{", it[3]) for it in found]
            yield lines, ["connection 1 open", *explained(program, octets, 1, *form)[0], "connection 1 end input"]
            yield [fault for it in found if it[2] for fault in of_schema.faults(json.loads(it[3]))], []
            case = f"{directory}/connection-1.h2"
            yield sum(bool(re.fullmatch(r"; \d+ ms", line)) for line in text_of(case).splitlines()), 3
            yield checked(program, case), [f"ok 1 - {case}: connection 1", "1..1"]


def a_verdict_is_the_status(program):
    """5 where a client broke a rule, 7 where octets of a frame are left, 0 where nothing is to be said; the worst of all decides."""
    acknowledged = START + script.octets("SETTINGS 01 0 -")
    cut, broken = acknowledged + PING[:3], acknowledged + script.octets("WINDOW_UPDATE 00 0 w0")
    for clients, wanted in (([acknowledged], 0), ([acknowledged, cut], 7), ([cut, broken, acknowledged], 5)):
        with Server(program, len(clients), "--strict") as server:
            yield server.line(), f"listening {server.port}\n"
            for octets in clients:
                read_all(client(server.port, octets, ends=True))
            ended, status, _ = server.ended()
            yield status, wanted
            wanted_lines = [line for number, octets in enumerate(clients, 1) for line in explained(program, octets, number, "--strict")[0]]
            yield [line for line in ended.splitlines() if not line.startswith("connection")], wanted_lines


ACK, POST = script.octets("SETTINGS 01 0 -"), script.octets('HEADERS 04 1 hi3,i6,i4,n1="a"')
UPLOAD = START + ACK + POST
EARLY = "warning: sent-before-granted, RFC 9113 6.9"


def read_to(one, wanted):
    """Reads what a client gets, until these octets have come."""
    octets = b""
    while wanted not in octets:
        octets += one.recv(65536)


def told_of_upload(program, words, send):
    """The lines of `serve --strict` that begin with a warning, the verdict's line and the status, for a client that `send` sends as."""
    with Server(program, 1, "--strict", *words) as server:
        server.line()
        one = client(server.port, b"")
        send(one)
        one.shutdown(socket.SHUT_WR)
        read_all(one)
        ended, status, _ = server.ended()
        lines = ended.splitlines()
        return [line.split(maxsplit=1)[1] for line in lines if "warning: " in line], lines[-2].split(maxsplit=2)[2], status


def data_before_its_credit_is_warned_of(program):
    """A stream's window is 1000, and 600 octets are returned once they are taken (RFC 9113, 6.9): 1200 at once are too many; 600 after WINDOW_UPDATE are not."""
    words = ("--window", "1000", "--credit", "600")
    half, last = script.octets("DATA 00 1 x" + 600 * "61"), script.octets("DATA 01 1 x" + 600 * "61")
    yield told_of_upload(program, words, lambda one: one.sendall(UPLOAD + half + last)), ([EARLY], "6 items, no error, 1 warning", 5)

    def waits(one):
        one.sendall(UPLOAD + half)
        read_to(one, script.octets("WINDOW_UPDATE 00 1 w600"))
        one.sendall(last)

    yield told_of_upload(program, words, waits), ([], "6 items, no error, no warning", 0)
    # 401 octets of the window are left where the second read begins; its first octet brings all back. Padding, with its length, counts.
    for padding, warned in ((99, []), (100, [EARLY])):
        padded = script.octets(f"DATA 08 1 x{padding:02x}" + 300 * "61" + padding * "00")

        def pads(one, more=script.octets("DATA 00 1 x61") + padded):
            one.sendall(UPLOAD + script.octets("DATA 00 1 x" + 599 * "61") + PING)
            read_to(one, script.octets("PING 01 0 x0102030405060708"))
            one.sendall(more)

        yield told_of_upload(program, words, pads)[0], warned


def data_shows_that_settings_were_read(program):
    """Every client may send 65,535 octets of DATA. One more needs a WINDOW_UPDATE, and SETTINGS came before it: they have to be acknowledged (RFC 9113, 6.5.3). Where
    the octets end before that, it is a note."""
    window = b"".join(script.octets("DATA 00 1 x" + length * "61") for length in (16384, 16384, 16384, 16383))
    last, late = script.octets("DATA 01 1 x61"), "warning: sent-before-acknowledged, RFC 9113 6.5.3"

    def note(at):
        return f"@{at}  warning: settings-not-acknowledged, RFC 9113 6.5.3"

    def goes_on(one, rest):
        one.sendall(START + POST + window)
        read_to(one, script.octets("WINDOW_UPDATE 00 1 w32768"))
        one.sendall(rest)

    yield told_of_upload(program, (), lambda one: goes_on(one, last)), ([late, note(65629)], "8 items, no error, 2 warnings", 5)
    yield told_of_upload(program, (), lambda one: goes_on(one, ACK + last)), ([], "9 items, no error, no warning", 0)
    yield told_of_upload(program, (), lambda one: one.sendall(START + POST + window)), ([note(65619)], "7 items, no error, 1 warning", 0)


def an_upload_that_reads_nothing_is_warned_of(program):
    """A client sends 500,000 octets of DATA with the default windows, and reads nothing before (RFC 9113, 6.9): one read has more than 65,535."""
    data = b"".join(script.octets("DATA 00 1 x" + 16384 * "61") for _ in range(30)) + script.octets("DATA 01 1 -")
    warnings, verdict, status = told_of_upload(program, (), lambda one: one.sendall(UPLOAD + data))
    yield (set(warnings), status), ({EARLY}, 5)
    yield verdict, f"35 items, no error, {len(warnings)} warning{'s' * (len(warnings) > 1)}"


def a_book_is_named_from_the_record(program):
    """A relative path of a book is written as it is from the directory of the record, so the case holds wherever the two are."""
    with tempfile.TemporaryDirectory() as top:
        for folder in ("work", "work/it's", "cases", "moved"):
            os.mkdir(f"{top}/{folder}")
        with open(f"{top}/work/it's/book.toml", "w", encoding="utf-8") as book:
            book.write('[[answer]]\nmethod = "GET"\npath = "/"\nstatus = 200\nbody = "6869"\n')
        octets = START + script.octets("SETTINGS 01 0 -") + script.octets("HEADERS 05 1 hi2,i6,i4")
        for directory, given, wanted in (("../cases", "it's/book.toml", "../work/it'\\''s/book.toml"), ("it's", "./it's/book.toml", "../it'\\''s/book.toml"),
                                         (f"{top}/work", "../work/it's/book.toml", "../work/it'\\''s/book.toml"), (".", f"{top}/work/it's/book.toml", f"{top}/work/it'\\''s/book.toml")):
            with Server(program, 1, "--record", directory, "--book", given, folder=f"{top}/work") as server:
                server.line()
                read_all(client(server.port, octets, ends=True))
                yield server.ended()[1], 0
            case = max((f"{path}/{name}" for path, _, names in os.walk(top) for name in names if name.endswith(".h2")), key=os.path.getmtime)
            yield text_of(case).splitlines()[2], f";@ --book '{wanted}'"
            yield checked(program, case), [f"ok 1 - {case}: connection 1", "1..1"]


def a_record_is_a_case(program):
    """What a client sent is kept as hex and as a case that holds, with the words of the server; no file is overwritten."""
    with tempfile.TemporaryDirectory() as directory:
        with open(f"{directory}/connection-1.hex", "w", encoding="utf-8") as taken:
            taken.write("mine")
        octets = START + PING + script.octets("HEADERS 05 1 hi2,i6,n4=\"/it\"") + PING[:5]
        with Server(program, 1, "--record", directory, "--streams", "7", "GET|/it|200|6869|x=it's") as server:
            yield server.line(), f"listening {server.port}\n"
            yield read_all(client(server.port, octets, ends=True))[1], True
            ended, status, _ = server.ended()
            yield status, 0
        yield sorted(os.listdir(directory)), ["connection-1.hex", "connection-2.h2", "connection-2.hex"]
        yield text_of(f"{directory}/connection-1.hex"), "mine"
        yield [os.stat(f"{directory}/connection-2.{kind}").st_mode & 0o777 for kind in ("hex", "h2")], [0o600, 0o600]
        yield "".join(text_of(f"{directory}/connection-2.hex").split()), octets.hex()
        words = ["h2_bench", "explain", f"{directory}/connection-2.h2"]
        run = subprocess.run(words, executable=program, stdout=subprocess.PIPE, check=False)
        yield [f"1: {line}" for line in run.stdout.decode().splitlines()], ended.splitlines()[1:-1]
        yield checked(program, f"{directory}/connection-2.h2"), [f"ok 1 - {directory}/connection-2.h2: connection 1", "1..1"]
        wanted = [
            ";# connection 1",
            ";@ --streams 7 --credit 32768 --table 4096 --window 65535 --frame 16384",
            ";@ 'GET|/it|200|6869|x=it'\\''s'",
            ";< SETTINGS 00 0 s3=7,6=65536",
            "PREFACE",
            "SETTINGS 00 0 -",
            ";< SETTINGS 01 0 -",
            "PING 00 0 x0102030405060708",
            ";< PING 01 0 x0102030405060708",
            "HEADERS 05 1 hi2,i6,n4=\"/it\"",
            ";< HEADERS 04 1 hi8,n\"x\"=\"it\\27s\"",
            ";< DATA 01 1 x6869",
            "RAW 0000080600",
        ]
        yield text_of(f"{directory}/connection-2.h2").splitlines(), wanted


def a_long_body_is_recorded_by_its_sum(program):
    """DATA of more than 100 octets is written by the length of its payload and the SHA-256 of that; the case is short, and holds."""
    with tempfile.TemporaryDirectory() as directory:
        octets = START + script.octets("HEADERS 05 1 hi2,i6,i4") + script.octets('HEADERS 05 3 hi2,i6,n4="/short"')
        with Server(program, 1, "--record", directory, "GET|/|200|" + 16484 * "61", "GET|/short|200|" + 100 * "62") as server:
            server.line()
            read_all(client(server.port, octets, ends=True))
            yield server.ended()[1], 0
        case = f"{directory}/connection-1.h2"
        data = [line for line in text_of(case).splitlines() if line.startswith(";< DATA")]
        summary = ";< DATA 00 1 length 16384 sha256 " + hashlib.sha256(16384 * b"a").hexdigest()
        yield data, [summary, ";< DATA 01 1 x" + 100 * "61", ";< DATA 01 3 x" + 100 * "62"]
        yield checked(program, case), [f"ok 1 - {case}: connection 1", "1..1"]


def a_server_that_is_killed_leaves_a_record(program):
    """What was shown of an item is in the files already, and they can be read."""
    with tempfile.TemporaryDirectory() as directory:
        with Server(program, 1, "--record", directory) as server:
            yield server.line(), f"listening {server.port}\n"
            one = client(server.port, START + PING + PING[:9])
            yield "".join(server.line() for _ in SHOWN.splitlines()), SHOWN
            server.process.kill()
            one.close()
        case = f"{directory}/connection-1.h2"
        yield checked(program, case), [f"ok 1 - {case}: connection 1", "1..1"]
        yield text_of(case).splitlines()[-1], ";< PING 01 0 x0102030405060708"
        yield "".join(text_of(f"{directory}/connection-1.hex").split()), (START + PING + PING[:9]).hex()


def a_record_has_only_what_was_written(program):
    """A client resets its connection while the server is stopped, so a write fails: the last read is in the record, without what was to be sent for it."""
    with tempfile.TemporaryDirectory() as directory:
        with Server(program, 1, "--record", directory) as server:
            server.line()
            one = client(server.port, START)
            read_to(one, ACKNOWLEDGED)
            server.process.send_signal(signal.SIGSTOP)
            os.waitpid(server.process.pid, os.WUNTRACED)
            one.sendall(PING + PING + PING[:9])
            one.setsockopt(socket.SOL_SOCKET, socket.SO_LINGER, struct.pack("ii", 1, 0))
            one.close()
            server.process.send_signal(signal.SIGCONT)
            yield server.ended()[0].splitlines()[-1], "connection 1 fault 23"
        wanted = [
            ";< SETTINGS 01 0 -",
            "; not all that was sent here was written",
            "PING 00 0 x0102030405060708",
            "PING 00 0 x0102030405060708",
            "RAW 000008060000000000",
        ]
        case = f"{directory}/connection-1.h2"
        yield text_of(case).splitlines()[-5:], wanted
        yield checked(program, case), [f"ok 1 - {case}: connection 1", "1..1"]


def small_files():
    """No file may have more than 400 octets; a write beyond fails."""
    signal.signal(signal.SIGXFSZ, signal.SIG_IGN)
    resource.setrlimit(resource.RLIMIT_FSIZE, (400, 400))


def a_full_disk_ends_the_record_only(program):
    """The client is answered to its end; the record ends with a whole line, and the next connection has one of its own."""
    with tempfile.TemporaryDirectory() as directory:
        with Server(program, 2, "--record", directory, before=small_files) as server:
            yield server.line(), f"listening {server.port}\n"
            yield read_all(client(server.port, START + 20 * PING, ends=True)), (ACKNOWLEDGED + 20 * ANSWERED[len(ACKNOWLEDGED):], True)
            yield read_all(client(server.port, START, ends=True)), (ACKNOWLEDGED, True)
            ended, status, errors = server.ended()
            yield (ended.splitlines()[-1], status), ("connection 2 end input", 0)
            yield errors.splitlines()[1:], [f"{directory}/connection-1.hex: the file would be larger than is allowed; the record of this connection ends here, and the connection goes on."]
        for number in (1, 2):
            case = f"{directory}/connection-{number}.h2"
            yield text_of(case)[-1], "\n"
            yield checked(program, case), [f"ok 1 - {case}: connection {number}", "1..1"]


def a_directory_that_is_not_there_is_refused(program):
    """Fault 22 comes before the port is opened."""
    with tempfile.TemporaryDirectory() as directory:
        file = f"{directory}/file"
        with open(file, "w", encoding="utf-8"):
            pass
        for path, reason in ((f"{directory}/none", "there is no such directory"), (file, "it is no directory")):
            with Server(program, 1, "--record", path) as server:
                output, status, errors = server.ended()
                yield (output, status), ("fault 22\n", 1)
                yield errors.splitlines()[1:], [f"{path}: {reason}; nothing is served."]
            with Server(program, 1, "--record", path, "--quiet") as server:
                yield server.ended(), ("fault 22\n", 1, "")


def the_fault_of_a_connection_has_a_sentence(program):
    """A client resets its connection; with --quiet nothing is said of it."""
    sentence = "connection 1: a read failed; mostly the client has reset the connection.\n"
    for words, said in (([], sentence), (["--quiet"], "")):
        with Server(program, 1, *words) as server:
            yield server.line(), f"listening {server.port}\n"
            one = client(server.port, START)
            read = b""
            while read != ACKNOWLEDGED:
                read += one.recv(65536)
            one.setsockopt(socket.SOL_SOCKET, socket.SO_LINGER, struct.pack("ii", 1, 0))
            one.close()
            yield server.ended(), ("connection 1 fault 22\n", 0, said)


TESTS = [
    two_clients_are_served,
    each_line_is_flushed,
    the_goaway_arrives_before_unread_octets,
    clients_that_leave_end_their_own_connection_only,
    answers_are_sent,
    each_client_gets_the_limits_and_the_book,
    a_client_of_many_writes_is_served_to_its_end,
    another_address_is_refused,
    limits_out_of_range_are_refused_behind_the_port,
    no_connection_is_served,
    a_port_in_use_is_refused,
    a_line_that_is_not_written_ends_the_server,
    refused_answers_open_no_port,
    each_item_is_explained_as_it_comes,
    an_item_in_pieces_is_explained_once,
    times_are_in_front,
    a_verdict_is_the_status,
    data_before_its_credit_is_warned_of,
    data_shows_that_settings_were_read,
    an_upload_that_reads_nothing_is_warned_of,
    a_book_is_named_from_the_record,
    a_record_is_a_case,
    a_long_body_is_recorded_by_its_sum,
    a_record_has_only_what_was_written,
    a_server_that_is_killed_leaves_a_record,
    a_full_disk_ends_the_record_only,
    a_directory_that_is_not_there_is_refused,
    the_fault_of_a_connection_has_a_sentence,
]


def differences(test, program):
    """What a test finds otherwise than it wants."""
    found = []
    try:
        for got, wanted in test(program):
            if got != wanted:
                found.append(f"  wanted {wanted!r}\n  found  {got!r}")
    except (OSError, subprocess.TimeoutExpired) as error:
        found.append(f"  {error}")
    return found


def main():
    if len(sys.argv) != 2:
        sys.exit(__doc__)
    program, failed = os.path.abspath(sys.argv[1]), 0
    for test in TESTS:
        found = differences(test, program)
        if found:
            failed += 1
            print(f"FAILED {test.__name__}: {test.__doc__}", *found, sep="\n")
    print(f"{len(TESTS) - failed} passed, {failed} failed")
    sys.exit(1 if failed else 0)


if __name__ == "__main__":
    main()
