#!/usr/bin/env python3
"""octets.py KIND COUNT [OPEN]: the octets of a client's connection, to standard output.

The preface, SETTINGS, the acknowledgement of the server's, then OPEN streams, then COUNT items of one kind. h2_bench
and nghttp2 read the same octets, and each request is one that both answer. Of a kind `fields-KIND` there are 200 items,
requests with COUNT fields of one kind. It needs python3-hpack (Debian).
"""
import struct
import sys

from hpack.huffman import HuffmanEncoder
from hpack.huffman_constants import REQUEST_CODES, REQUEST_CODES_LENGTH

HUFFMAN = HuffmanEncoder(REQUEST_CODES, REQUEST_CODES_LENGTH)
PREFACE = b"PRI * HTTP/2.0\r\n\r\nSM\r\n\r\n"
DATA, HEADERS, PRIORITY, RST_STREAM, SETTINGS, PING, WINDOW_UPDATE, CONTINUATION, UNKNOWN = 0, 1, 2, 3, 4, 6, 8, 9, 250
END_STREAM, ACK, END_HEADERS = 1, 1, 4


def frame(kind, flags, stream, payload=b""):
    return struct.pack(">I", len(payload))[1:] + struct.pack(">BBI", kind, flags, stream) + payload


def window_update(stream, count):
    return frame(WINDOW_UPDATE, 0, stream, struct.pack(">I", count))


def settings(*pairs):
    return frame(SETTINGS, 0, 0, b"".join(struct.pack(">HI", *pair) for pair in pairs))


def integer(prefix, front, value):
    most = 2**prefix - 1
    if value < most:
        return bytes([front | value])
    out, value = bytearray([front | most]), value - most
    while value >= 128:
        out.append(128 | value % 128)
        value //= 128
    return bytes(out) + bytes([value])


def string(text, huffman=True):
    if huffman:
        coded = HUFFMAN.encode(text)
        return integer(7, 128, len(coded)) + coded
    return integer(7, 0, len(text)) + text


AUTHORITY = b"www.example.com"
FIRST_GET = b"\x82\x86\x84\x41" + string(AUTHORITY)  # :method GET, :scheme http, :path /; :authority enters the table
GET = b"\x82\x86\x84\xbe"  # the same, with :authority by the table
POST = b"\x83\x86\x84\xbe"
PATH = b"/index.html?page=12&sort=name"
AGENT = b"Mozilla/5.0 (X11; Linux x86_64; rv:128.0) Gecko/20100101 Firefox/128.0"
ACCEPT = b"text/html,application/xhtml+xml,application/xml;q=0.9,*/*;q=0.8"
COOKIE = b"session=0f4a7c1e9b2d4f6a8c3e5d7b9a1c3e5f; theme=dark"
NEXT_COOKIE = b"session=0f4a7c1e9b2d4f6a8c3e5d7b9a1c3%03x; theme=dark"


def first_browser():
    """A browser's first request: six fields enter the table, the path does not."""
    return (
        b"\x82\x86\x04" + string(PATH)
        + b"\x41" + string(AUTHORITY)
        + b"\x7a" + string(AGENT)
        + b"\x53" + string(ACCEPT)
        + b"\x51" + string(b"en-US,en;q=0.5")
        + b"\x90"
        + b"\x73" + string(b"http://www.example.com/index.html")
        + b"\x60" + string(COOKIE)
    )


def next_browser():
    """A later one: the same, by the table."""
    return b"\x82\x86\x04" + string(PATH) + b"\xc3\xc2\xc1\xc0\x90\xbf\xbe"


def inserting_browser(place):
    """One that adds its path, and a cookie of its own, to a table that is soon full."""
    return (
        b"\x82\x86\x44" + string(PATH)
        + b"\x01" + string(AUTHORITY)
        + b"\x0f\x2b" + string(b"Firefox/128.0")
        + b"\x0f\x04" + string(b"text/html")
        + b"\x90"
        + b"\x60" + string(NEXT_COOKIE % (place % 4096))
    )


# Fields of one kind, one instruction each; those of the strings are RFC 7541, C.3.3 and C.4.3, but for the last.
NAME, VALUE = b"custom-key", b"custom-value"
FIELDS = {
    "static": b"\x90",
    "dynamic": b"\xbe",
    "plain": b"\x00" + string(NAME, False) + string(VALUE, False),
    "huffman": b"\x00" + string(NAME) + string(VALUE),
    "plain-added": b"\x40" + string(NAME, False) + string(VALUE, False),
    "huffman-added": b"\x40" + string(NAME) + string(VALUE),
    "agent": b"\x0f\x2b" + string(AGENT),
}
FIELDS_REQUESTS = 200


def fields_request(stream, kind, count):
    """A request with so many fields of one kind; no entry of the table but the last one is used."""
    return request(stream, b"\x82\x86\x84\x01" + string(AUTHORITY) + FIELDS[kind] * count)


def request(stream, block, *cuts):
    """A request without content, its block cut at these places into HEADERS and CONTINUATION."""
    places = [0, *cuts, len(block)]
    parts = [block[start:end] for start, end in zip(places, places[1:])]
    for place, part in enumerate(parts):
        ends = END_HEADERS if place == len(parts) - 1 else 0
        yield frame(CONTINUATION, ends, stream, part) if place else frame(HEADERS, END_STREAM | ends, stream, part)


# Items that are the same frames each time, or change with their place, on no stream or on the first one.
FRAMES = {
    "ping": lambda place: frame(PING, 0, 0, b"12345678"),
    "ping-ack": lambda place: frame(PING, ACK, 0, b"12345678"),
    "window-update": lambda place: window_update(0, 1),
    "settings": lambda place: settings(),
    "six-settings": lambda place: settings((1, 4096), (2, 0), (3, 100), (4, 65535), (5, 16384), (6, 65536)),
    "window-settings": lambda place: settings((4, place % 2)),
    "unknown": lambda place: frame(UNKNOWN, 0, 0, b"12345678"),
    "priority": lambda place: frame(PRIORITY, 0, 1, b"\0\0\0\0\x10"),
    "stream-window-update": lambda place: window_update(1, 1),
    "data": lambda place: frame(DATA, 0, 1, b"a"),
    # On 100 streams in turn, which are open.
    "stream-window-update-in-turn": lambda place: window_update(2 * (place % 100) + 1, 1),
    "data-in-turn": lambda place: frame(DATA, 0, 2 * (place % 100) + 1, b"a"),
    "full-data": lambda place: frame(DATA, 0, 1, b"a" * 16384),
    # Of as many streams as are open.
    "reset": lambda place: frame(RST_STREAM, 0, 2 * place + 1, b"\0\0\0\x08"),
}

# Items that are a request on a new stream.
REQUESTS = {
    "get": lambda stream, place: request(stream, GET),
    "get-in-two": lambda stream, place: request(stream, GET, 2),
    "get-in-four": lambda stream, place: request(stream, GET, 1, 2, 3),
    # Identifiers that a table of a fixed hash may put into few groups.
    "spread-get": lambda stream, place: request(stream + 8190 * place, GET),
    "post": lambda stream, place: [frame(HEADERS, END_HEADERS, stream, POST), frame(DATA, END_STREAM, stream, b"hi")],
    "browser": lambda stream, place: request(stream, next_browser()),
    # Inside the path.
    "browser-in-two": lambda stream, place: request(stream, next_browser(), 12),
    "browser-inserting": lambda stream, place: request(stream, inserting_browser(place)),
}


def items(kind, count, stream):
    """COUNT items of this kind; `stream` is the first identifier that is free."""
    if kind.startswith("fields-"):
        for place in range(FIELDS_REQUESTS):
            yield from fields_request(stream + 2 * place, kind.removeprefix("fields-"), count)
        return
    for place in range(count):
        if kind in FRAMES:
            yield FRAMES[kind](place)
        elif kind in REQUESTS:
            yield from REQUESTS[kind](stream + 2 * place, place)
        else:
            sys.exit(f"octets.py: there is no kind {kind}")


def opening(kind, count, opened):
    """What comes before the items: settings, windows, streams."""
    # With a small window a request's answer is pending for good: `waiting` streams, in the place of open ones. Where
    # settings are to move their windows, each has sent one octet of its two, so that no window ever lets the other pass.
    waits = kind.startswith("waiting-")
    kind = kind.removeprefix("waiting-")
    # Of these kinds the first stream has to be open.
    if kind in ("stream-window-update", "data", "full-data", "priority"):
        opened = max(opened, 1)
    yield PREFACE
    yield settings((4, 1 if kind == "window-settings" else 0)) if waits else settings()
    yield frame(SETTINGS, ACK, 0)
    yield window_update(0, 2**30)
    for place in range(opened):
        yield frame(HEADERS, END_HEADERS | (END_STREAM if waits else 0), 2 * place + 1, GET if place else FIRST_GET)
    stream = 2 * opened + 1
    if not opened:
        first = first_browser() if kind.startswith("browser") else FIRST_GET
        yield from request(stream, first + (FIELDS["plain-added"] if kind.startswith("fields-") else b""))
        stream += 2
    yield from items(kind, count, stream)


def main():
    kind, count = sys.argv[1], int(sys.argv[2])
    opened = int(sys.argv[3]) if len(sys.argv) > 3 else 0
    out = sys.stdout.buffer
    for part in opening(kind, count, opened):
        out.write(part)


main()
