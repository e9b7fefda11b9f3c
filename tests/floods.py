#!/usr/bin/env python3
"""What a hostile peer can make `play` or `explain` cost: time of the processor and peak of memory for floods of n, 2n and 4n octets, where 4n is the
longest input that they take (16 MiB of hex, 8,388,608 octets). It prints a table in Markdown and says which floods are linear in both.

  tests/floods.py [--program FILE] [--command play|explain] [--peer FILE] [--limit SECONDS] [--most OCTETS] [--only WORD] [--list]

--program is the proved one of this repository unless it is named, and the command is `play` unless it is named. With --peer, bench/peers/nghttp2.c as gcc builds it, the table has the time of a server's
session of nghttp2 over the longest input, in pieces of 8,000 octets; it answers each request as `play` does. Where the two send other frames for the first 262,144 octets, by the numbers of each type,
the table says so instead of a time. A run above the limit (60 seconds of the processor) is ended, and its longer ones are not
tried. --only takes the floods with this word in their name. A flood counts as linear where four times the octets take at most 8 times the time (of which
the first counts as 0.1 s at least) and 5 times the memory. Memory is what the kernel counts, and never below the 12 MiB of the measuring process. The
status is 1 where a run crashes or prints a fault.
After the floods that a peer sends come those that it makes the server send: tests/large_answers.py, for `play` and `serve`; not with --only, --list or another command.
It is no part of the gate, and takes some minutes.
"""

import argparse
import os
import resource
import subprocess
import sys
import tempfile

TOP = os.path.dirname(os.path.dirname(os.path.abspath(__file__)))
sys.path.insert(0, f"{TOP}/bench/peers")
import frames

DATA, HEADERS, RST_STREAM, SETTINGS, PING, WINDOW_UPDATE, CONTINUATION = 0, 1, 3, 4, 6, 8, 9
END_STREAM, END_HEADERS = 1, 4
GET = bytes.fromhex("828684010161")  # :method GET, :scheme http, :path /, :authority a, which doesn't enter the table


def frame(kind, flags, stream, payload=b""):
    return len(payload).to_bytes(3, "big") + bytes([kind, flags]) + stream.to_bytes(4, "big") + payload


def setting(identifier, value):
    return identifier.to_bytes(2, "big") + value.to_bytes(4, "big")


START = b"PRI * HTTP/2.0\r\n\r\nSM\r\n\r\n" + frame(SETTINGS, 0, 0)


def integer(prefix, bits, value):
    """An integer of RFC 7541, 5.1, behind the bits above its prefix."""
    most = (1 << bits) - 1
    if value < most:
        return bytes([prefix | value])
    octets, value = [prefix | most], value - most
    while value >= 128:
        octets.append(value % 128 + 128)
        value //= 128
    return bytes([*octets, value])


def string(text):
    return integer(0, 7, len(text)) + text


def entry(name, value):
    """A literal that enters the header table."""
    return b"\x40" + string(name) + string(value)


def put(space, front, items):
    """The front, and as many items as there is space for."""
    parts, left = [front], space - len(front)
    for item in items:
        if len(item) > left:
            break
        parts.append(item)
        left -= len(item)
    return b"".join(parts)


def streams():
    return range(1, 1 << 31, 2)


def forever(item):
    while True:
        yield item


# The header table with 120 entries of 34 octets, put there by a request on stream 1.
FULL_TABLE = START + frame(HEADERS, END_STREAM | END_HEADERS, 1, GET + b"".join(entry(b"a", bytes([97 + i % 26])) for i in range(120)))


def one_octet_continuations(space):
    """A literal of 60,000 octets in each block, one octet a frame."""
    def items():
        for stream in streams():
            if stream > 1:
                yield frame(HEADERS, END_STREAM, stream, GET + b"\x00" + string(b"b") + integer(0, 7, 60000))
                yield from [frame(CONTINUATION, 0, stream, b"x")] * 59999
                yield frame(CONTINUATION, END_HEADERS, stream, b"x")
    return put(space, FULL_TABLE, items())


def one_entry_continuations(space):
    """Blocks of 13,000 frames, each with one literal that enters the full table."""
    def items():
        for stream in streams():
            if stream > 1:
                yield frame(HEADERS, END_STREAM, stream, GET)
                yield from [frame(CONTINUATION, 0, stream, entry(b"a", b"b"))] * 13000
                yield frame(CONTINUATION, END_HEADERS, stream)
    return put(space, FULL_TABLE, items())


def empty_continuations(space):
    """A block that never ends: CONTINUATION of no octets."""
    return put(space, START + frame(HEADERS, 0, 1, GET), forever(frame(CONTINUATION, 0, 1)))


def open_blocks(space):
    """A block that never ends, within its limit: indexed fields, one a frame, and then frames of no octets."""
    def items():
        yield from [frame(CONTINUATION, 0, 1, b"\x82")] * 65000
        yield from forever(frame(CONTINUATION, 0, 1))
    return put(space, START + frame(HEADERS, 0, 1, GET), items())


def table_churn(space):
    """HEADERS of nearly 16,384 octets of literals, each of which enters the table and evicts one."""
    block = GET + entry(b"a", b"b") * 3275
    return put(space, FULL_TABLE, (frame(HEADERS, END_STREAM | END_HEADERS, stream, block) for stream in streams() if stream > 1))


def table_churn_of_one(space):
    """Requests with one entry of 4,000 octets each, which evicts all others."""
    block = GET + entry(b"a", b"b" * 4000)
    return put(space, FULL_TABLE, (frame(HEADERS, END_STREAM | END_HEADERS, stream, block) for stream in streams() if stream > 1))


def table_resized(space):
    """Requests that empty the table by a size update and fill it again."""
    block = b"\x20\x3f\xe1\x1f" + GET + b"".join(entry(b"a", b"b") for _ in range(120))
    return put(space, FULL_TABLE, (frame(HEADERS, END_STREAM | END_HEADERS, stream, block) for stream in streams() if stream > 1))


def header_bomb(space):
    """Blocks of 65,000 octets, each octet a field of 4,000 octets of the table."""
    def items():
        yield frame(HEADERS, END_STREAM | END_HEADERS, 1, GET + entry(b"a", b"b" * 4000))
        for stream in streams():
            if stream > 1:
                yield frame(HEADERS, END_STREAM, stream, b"\xbe" * 16250)
                yield from [frame(CONTINUATION, 0, stream, b"\xbe" * 16250)] * 2
                yield frame(CONTINUATION, END_HEADERS, stream, b"\xbe" * 16250)
    return put(space, START, items())


def rapid_reset(space):
    """A stream is opened and at once reset."""
    return put(space, START, (frame(HEADERS, END_HEADERS, stream, GET) + frame(RST_STREAM, 0, stream, b"\0\0\0\x08") for stream in streams()))


def rapid_reset_of_answers(space):
    """A stream is answered, with an answer that waits for a window, and at once reset."""
    front = START + frame(SETTINGS, 0, 0, setting(4, 0))
    return put(space, front, (frame(HEADERS, END_STREAM | END_HEADERS, stream, GET) + frame(RST_STREAM, 0, stream, b"\0\0\0\x08") for stream in streams()))


def refused_requests(space):
    """Requests of one field, each malformed and reset by the server."""
    return put(space, START, (frame(HEADERS, END_STREAM | END_HEADERS, stream, b"\x82") for stream in streams()))


def small_requests(space):
    return put(space, START, (frame(HEADERS, END_STREAM | END_HEADERS, stream, GET) for stream in streams()))


def crowding_identifiers(space):
    """Requests of one field on identifiers whose hashes all begin at the same few groups of the records' map."""
    # A hash is a product by an odd number with its halves exchanged: chosen upper halves, turned back into identifiers.
    inverse, found = pow(0x9E3779B9, -1, 1 << 32), []
    for upper in range(48):
        for lower in range(1 << 16):
            turned = (upper << 16 | lower) * inverse % (1 << 32)
            if 1 << 31 <= turned < 3 << 30:
                found.append(2 * (turned - (1 << 31)) + 1)
    count = min(len(found), (space - len(START)) // 10)
    chosen = sorted(found[:count])
    return put(space, START, (frame(HEADERS, END_STREAM | END_HEADERS, stream, b"\x82") for stream in chosen))


def pings(space):
    return put(space, START, forever(frame(PING, 0, 0, bytes(8))))


def empty_settings(space):
    return put(space, START, forever(frame(SETTINGS, 0, 0)))


# 1,000 streams that are open for content.
LIVE = START + b"".join(frame(HEADERS, END_HEADERS, stream, GET) for stream in range(1, 2001, 2))


def settings_beside_live_streams(space):
    """SETTINGS of 2,730 initial windows, beside 1,000 live streams."""
    values = b"".join(setting(4, 1 + i % 2) for i in range(2730))
    return put(space, LIVE, forever(frame(SETTINGS, 0, 0, values)))


def short_settings_beside_live_streams(space):
    """SETTINGS of one initial window, beside 1,000 live streams."""
    def items():
        while True:
            yield frame(SETTINGS, 0, 0, setting(4, 1))
            yield frame(SETTINGS, 0, 0, setting(4, 2))
    return put(space, LIVE, items())


def one_octet_data(space):
    return put(space, START + frame(HEADERS, END_HEADERS, 1, GET), forever(frame(DATA, 0, 1, b"x")))


def padded_data(space):
    """DATA of no content and 255 octets of padding."""
    return put(space, START + frame(HEADERS, END_HEADERS, 1, GET), forever(frame(DATA, 8, 1, b"\xff" + bytes(255))))


# 1,000 streams whose answers wait for their own windows, or for the connection's.
WAITING = START + frame(SETTINGS, 0, 0, setting(4, 0)) + b"".join(frame(HEADERS, END_STREAM | END_HEADERS, stream, GET) for stream in range(1, 2001, 2))
HELD = START + b"".join(frame(HEADERS, END_STREAM | END_HEADERS, stream, GET) for stream in range(1, 2001, 2))


def pings_beside_waiting_streams(space):
    """PING, beside 1,000 streams that wait for their own windows."""
    return put(space, WAITING, forever(frame(PING, 0, 0, bytes(8))))


def pings_beside_held_streams(space):
    """PING, beside 1,000 streams that wait for the connection's window."""
    return put(space, HELD, forever(frame(PING, 0, 0, bytes(8))))


def stream_increments(space):
    """WINDOW_UPDATE of 1 on each of 1,000 waiting streams in turn: one octet of DATA each."""
    def items():
        while True:
            for stream in range(1, 2001, 2):
                yield frame(WINDOW_UPDATE, 0, stream, b"\0\0\0\x01")
    return put(space, WAITING, items())


def connection_increments(space):
    """WINDOW_UPDATE of 1 on the connection, beside 1,000 streams that wait for it: one octet of DATA each."""
    return put(space, HELD, forever(frame(WINDOW_UPDATE, 0, 0, b"\0\0\0\x01")))


def last_increments(space):
    """WINDOW_UPDATE of 1 on the last of 1,000 waiting streams."""
    return put(space, WAITING, forever(frame(WINDOW_UPDATE, 0, 1999, b"\0\0\0\x01")))


SHORT = "GET|/|200|7878"
MANY = ["--streams", "1000", SHORT]
BODY = ["--streams", "1000", "GET|/|200|" + "78" * 60000]
FLOODS = [
    ("CONTINUATION of one octet, full table", one_octet_continuations, [SHORT]),
    ("CONTINUATION of one entry, full table", one_entry_continuations, [SHORT]),
    ("CONTINUATION of no octets, without end", empty_continuations, [SHORT]),
    ("CONTINUATION of one field, without end", open_blocks, [SHORT]),
    ("table churn, entries of 34 octets", table_churn, [SHORT]),
    ("table churn, entries of 4,033 octets", table_churn_of_one, [SHORT]),
    ("table emptied and filled again", table_resized, [SHORT]),
    ("header bomb, fields of 4,000 octets", header_bomb, [SHORT]),
    ("rapid reset of open streams", rapid_reset, [SHORT]),
    ("rapid reset of waiting answers", rapid_reset_of_answers, [SHORT]),
    ("small requests", small_requests, [SHORT]),
    ("refused requests", refused_requests, [SHORT]),
    ("refused requests, chosen identifiers", crowding_identifiers, [SHORT]),
    ("PING", pings, [SHORT]),
    ("SETTINGS of no value", empty_settings, [SHORT]),
    ("SETTINGS of 2,730 values, 1,000 live streams", settings_beside_live_streams, MANY),
    ("SETTINGS of one value, 1,000 live streams", short_settings_beside_live_streams, MANY),
    ("DATA of one octet", one_octet_data, [SHORT]),
    ("DATA of padding alone", padded_data, [SHORT]),
    ("PING, 1,000 streams wait for their windows", pings_beside_waiting_streams, BODY),
    ("PING, 1,000 streams wait for the connection's", pings_beside_held_streams, BODY),
    ("WINDOW_UPDATE of 1 on each of 1,000 streams", stream_increments, BODY),
    ("WINDOW_UPDATE of 1 on the last of 1,000", last_increments, BODY),
    ("WINDOW_UPDATE of 1 on the connection", connection_increments, BODY),
]


# What the program prints first, and the statuses of a run that ended as it should: `explain` has 4 for a connection error.
FRONTS = {"play": (b"sent ", (0,)), "explain": (b"#0 @0 ", (0, 4))}


def measured(program, words, path, limit):
    """Seconds of the processor and KiB of memory, or None where the limit was reached; the status, and the first octets printed."""
    with open(path, "rb") as hex_text:
        ran = subprocess.Popen(
            [program, *words], stdin=hex_text, stdout=subprocess.PIPE, preexec_fn=lambda: resource.setrlimit(resource.RLIMIT_CPU, (limit, limit))
        )
        front = ran.stdout.read(8)
        while ran.stdout.read(1 << 16):
            pass
        _, status, used = os.wait4(ran.pid, 0)
    ran.returncode = os.waitstatus_to_exitcode(status)
    return used.ru_utime + used.ru_stime, used.ru_maxrss, ran.returncode, front


def body_of(options):
    """The length of the answer's body."""
    return str(len(options[-1].rpartition("|")[2]) // 2)


def made_by(number, space, path):
    """Writes a flood of at most so many octets, as hex and, beside it, as octets; says how many there are."""
    return subprocess.run([sys.executable, __file__, "--make", str(number), str(space), path], check=True, capture_output=True, text=True).stdout.strip()


def difference(program, peer, options, path):
    """In which frames `play` and a session of nghttp2 differ for the octets of a file, in words."""
    with open(path, "rb") as hex_text:
        ours = subprocess.run([program, "play", *options], stdin=hex_text, stdout=subprocess.PIPE, check=True).stdout
    ran = subprocess.run([peer, path + ".octets", "8000", body_of(options), path + ".sent"], stdout=subprocess.DEVNULL, stderr=subprocess.DEVNULL)
    if ran.returncode:
        return "ends it"
    with open(path + ".sent", "rb") as sent:
        differs = frames.difference(frames.types_of(frames.played(ours)), frames.types_of(sent.read()))
    return f"they differ: {differs}" if differs else ""


def peer_time(peer, path, limit, options):
    """Seconds of the processor that a session of nghttp2 takes for the octets of a file, or that it ends the connection."""
    ran = subprocess.Popen(
        [peer, path, "8000", body_of(options)],
        stdout=subprocess.DEVNULL,
        stderr=subprocess.DEVNULL,
        preexec_fn=lambda: resource.setrlimit(resource.RLIMIT_CPU, (limit, limit)),
    )
    _, status, used = os.wait4(ran.pid, 0)
    ran.returncode = os.waitstatus_to_exitcode(status)
    if ran.returncode in (-9, -24):
        return f"> {limit} s"
    return f"{used.ru_utime + used.ru_stime:.2f} s" if ran.returncode == 0 else "ends it"


def is_linear(times, sizes):
    """Whether four times the octets take at most 8 times the time and 5 times the memory."""
    return times[-1] <= 8 * max(times[0], 0.1) and sizes[-1] <= 5 * sizes[0]


def main():
    parser = argparse.ArgumentParser()
    parser.add_argument("--program")
    parser.add_argument("--command", choices=FRONTS, default="play")
    parser.add_argument("--peer")
    parser.add_argument("--limit", type=int, default=60)
    parser.add_argument("--most", type=int, default=8 * 1024 * 1024)  # octets, two hex digits each
    parser.add_argument("--only", default="")
    parser.add_argument("--list", action="store_true")
    parser.add_argument("--make", nargs=3, help=argparse.SUPPRESS)
    words = parser.parse_args()
    if words.make:
        # In a process of its own, so that the measuring one stays small: a child begins with its memory.
        number, space, path = words.make
        made = FLOODS[int(number)][1](int(space))
        with open(path, "w") as file:
            file.write(made.hex())
        with open(path + ".octets", "wb") as file:
            file.write(made)
        print(len(made))
        return
    if words.list:
        print(*(flood[0] for flood in FLOODS), sep="\n")
        return
    words.program = words.program or subprocess.run([sys.executable, "-B", f"{TOP}/tools/program.py", "proved"], check=True, stdout=subprocess.PIPE, text=True).stdout.strip()
    with tempfile.TemporaryDirectory() as folder:
        wrong = measure_all(words, f"{folder}/input")
    if not words.only and words.command == "play":
        print(flush=True)
        wrong += subprocess.run([sys.executable, "-B", f"{TOP}/tests/large_answers.py", words.program]).returncode
    sys.exit(1 if wrong else 0)


def measure_all(words, path):
    """Prints a row for each flood; `path` is the file that each is written to. Returns how many went wrong."""
    print("| Flood | Octets | Time, at a quarter, a half, all | Memory | Linear |" + (" nghttp2 |" if words.peer else ""))
    print("|---|---|---|---|---|" + ("---|" if words.peer else ""), flush=True)
    wrong = 0
    start, statuses = FRONTS[words.command]
    for number, (name, _, options) in enumerate(FLOODS):
        if words.only not in name:
            continue
        times, sizes, ended = [], [], None
        for space in (words.most // 4, words.most // 2, words.most):
            octets = made_by(number, space, path)
            seconds, size, status, front = measured(words.program, [words.command, *options], path, words.limit)
            if status in (-9, -24):
                ended = f"> {words.limit} s"
                break
            if status not in statuses or not front.startswith(start):
                ended = f"status {status}, {front!r}"
                wrong += 1
                break
            times.append(seconds)
            sizes.append(size)
        linear = not ended and is_linear(times, sizes)
        shown = [f"{t:.2f} s" for t in times] + ([ended] if ended else [])
        row = f"| {name} | {int(octets):,} | {', '.join(shown)} | {', '.join(f'{s / 1024:.0f}' for s in sizes)} MiB | {'yes' if linear else '**no**'} |"
        if words.peer:
            spent = peer_time(words.peer, path + ".octets", words.limit, options)
            made_by(number, 262144, path)
            row += f" {difference(words.program, words.peer, options, path) or spent} |"
        print(row, flush=True)
    return wrong


main()
