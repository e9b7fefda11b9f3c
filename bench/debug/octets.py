#!/usr/bin/env python3
"""octets.py KIND MIB [--hex]: the octets of a client's connection whose hex has at most that many MiB, to standard output, or their hex with a line end.

The preface, SETTINGS, the acknowledgement of the server's, and then as many items of one kind as there is space for. Kinds with a number have blocks of 65,000
octets in frames of that many: `fields-N` of indices of one octet, each of 121 entries in turn; `literals-N` of values of one octet; `inserts-N` of new entries.
`values-N` has them in frames of one octet, and values of N octets, no two of them the same. `entry` is requests of one new entry each. `large-table` has 2,048 entries and then PINGs,
`large-table-N` a request with a new entry in each N-th item; they want `--table 65536`. Kinds `live-..` have 1,000 open streams first, so they want `--streams 1000`.
"""
import struct
import sys

PREFACE = b"PRI * HTTP/2.0\r\n\r\nSM\r\n\r\n"
DATA, HEADERS, SETTINGS, PING, WINDOW_UPDATE, CONTINUATION = 0, 1, 4, 6, 8, 9
END_STREAM, ACK, END_HEADERS = 1, 1, 4
GET = b"\x82\x86\x84"  # :method GET, :scheme http, :path /
BLOCK = 65000  # how many octets a long field block has at most
LARGE = b"\x3f\xe1\xff\x03"  # a size update to 65,536 octets
LIVE = 1000  # how many streams are open in kinds `live-..`


def frame(kind, flags, stream, payload=b""):
    return struct.pack(">I", len(payload))[1:] + struct.pack(">BBI", kind, flags, stream) + payload


def text(octets):
    assert len(octets) < 127
    return bytes([len(octets)]) + octets


def long_text(octets):
    """A string that is not Huffman's, of any length (RFC 7541, 5.1 and 5.2)."""
    left = len(octets) - 127
    if left < 0:
        return text(octets)
    length = bytearray([127])
    while left >= 128:
        length.append(128 + left % 128)
        left //= 128
    return bytes(length) + bytes([left]) + octets


PATH = b"\x04" + text(b"/index.html?page=12&sort=name")
FIRST = (
    b"\x82\x86" + PATH + b"\x41" + text(b"www.example.com")
    + b"\x7a" + text(b"Mozilla/5.0 (X11; Linux x86_64; rv:128.0) Gecko/20100101 Firefox/128.0")
    + b"\x53" + text(b"text/html,application/xhtml+xml,application/xml;q=0.9,*/*;q=0.8")
    + b"\x51" + text(b"en-US,en;q=0.5") + b"\x90"
    + b"\x73" + text(b"http://www.example.com/index.html")
    + b"\x60" + text(b"session=0f4a7c1e9b2d4f6a8c3e5d7b9a1c3e5f; theme=dark")
)
NEXT = b"\x82\x86" + PATH + b"\xc3\xc2\xc1\xc0\x90\xbf\xbe"
FULL = GET + b"".join(b"\x40" + text(b"n%03d" % i) + text(b"") for i in range(113))  # fills the header table: 113 entries of 36
EACH = 256  # how many entries a block of `large-table` adds
SHORT = GET + b"".join(b"\x40" + text(b"n%03d" % i + b"x" * 20) + text(b"v") for i in range(60))  # 60 entries that take 25 octets each


def field(kind, place):
    """A field of a long block of a kind, which is a number for values of that many octets."""
    if kind == "fields":
        return bytes([0x80 | (1 + place % 121)])
    if kind == "literals":
        return bytes([1 + place % 14, 1, 33 + place % 90])
    if kind == "inserts":
        return bytes([0x40 | (1 + place % 61), 0])
    if isinstance(kind, int):
        return b"\x04" + long_text((b"%06d" % place + b"a" * kind)[:kind])
    sys.exit(f"octets.py: there is no kind {kind}-N")


def blocks(kind, size):
    """Frames of long blocks of a kind, with that many octets each, without end."""
    yield frame(HEADERS, END_STREAM | END_HEADERS, 1, SHORT)
    stream, place = 3, 0
    while True:
        block = bytearray()
        while len(block) + len(field(kind, place)) <= BLOCK:
            block += field(kind, place)
            place += 1
        for at in range(0, len(block), size):
            last = at + size >= len(block)
            yield frame(CONTINUATION if at else HEADERS, END_HEADERS if last else 0, stream, bytes(block[at : at + size]))
        stream += 2


def entry(place):
    """A field that enters the table: no name, and a value of two octets."""
    return b"\x40\x00" + text(struct.pack(">H", place % 65536))


def beside_table(every):
    """A table of 65,536 octets with small entries, and then PINGs without end, or a request with a new entry in each of a number of items."""
    for turn in range(8):
        new = b"".join(entry(EACH * turn + place) for place in range(EACH))
        yield frame(HEADERS, END_STREAM | END_HEADERS, 2 * turn + 1, (b"" if turn else LARGE) + new)
    place = 8
    while True:
        if every and place % every == 0:
            yield frame(HEADERS, END_STREAM | END_HEADERS, 2 * place + 1, entry(EACH * 8 + place))
        else:
            yield frame(PING, 0, 0, b"12345678")
        place += 1


def beside_live(kind):
    """Items of a kind beside open streams, without end."""
    for place in range(LIVE):
        yield frame(HEADERS, END_HEADERS, 2 * place + 1, GET)
    place = 0
    while True:
        stream = 2 * (place % LIVE) + 1
        if kind == "ping":
            yield frame(PING, 0, 0, b"12345678")
        elif kind == "empty":
            yield frame(DATA, 0, stream)
        elif kind == "data":
            yield frame(DATA, 0, stream, b"a")
        elif kind == "settings":
            yield frame(SETTINGS, 0, 0, struct.pack(">HI", 4, 65535 - place % 2))
        elif kind == "update":
            yield frame(WINDOW_UPDATE, 0, stream, struct.pack(">I", 1))
        else:
            sys.exit(f"octets.py: there is no kind live-{kind}")
        place += 1


def items(kind):
    """The items of a kind, without end."""
    if kind.startswith("large-table"):
        yield from beside_table(int(kind[12:] or 0))
    name, _, rest = kind.partition("-")
    if name == "live":
        yield from beside_live(rest)
    if name == "values":
        yield from blocks(int(rest), 1)
    if rest:
        yield from blocks(name, int(rest))
    place = 0
    if kind == "data":
        yield frame(HEADERS, END_HEADERS, 1, GET)
    if kind == "table":
        yield frame(HEADERS, END_STREAM | END_HEADERS, 1, FULL)
    while True:
        stream = 2 * place + 1
        if kind in ("ping", "table"):
            yield frame(PING, 0, 0, b"12345678")
        elif kind == "get":
            yield frame(HEADERS, END_STREAM | END_HEADERS, stream, GET)
        elif kind == "browser":
            yield frame(HEADERS, END_STREAM | END_HEADERS, stream, NEXT if place else FIRST)
        elif kind == "refused":
            yield frame(HEADERS, END_STREAM | END_HEADERS, stream, GET[:1])
        elif kind == "entry":
            yield frame(HEADERS, END_STREAM | END_HEADERS, stream, bytes([0x40 | (1 + place % 61), 0]))
        elif kind == "data":
            yield frame(DATA, 0, 1, b"a" * 16384)
        elif kind == "continuation":
            first, last = place % BLOCK == 0, place % BLOCK == BLOCK - 1
            stream = 2 * (place // BLOCK) + 1
            yield frame(HEADERS if first else CONTINUATION, END_HEADERS if last else 0, stream, GET[:1])
        else:
            sys.exit(f"octets.py: there is no kind {kind}")
        place += 1


def main():
    kind, most, is_hex = sys.argv[1], int(float(sys.argv[2]) * 2**19), sys.argv[3:] == ["--hex"]
    out = bytearray(PREFACE + frame(SETTINGS, 0, 0) + frame(SETTINGS, ACK, 0))
    for item in items(kind):
        if len(out) + len(item) > most:
            break
        out += item
    sys.stdout.buffer.write(out.hex().encode() + b"\n" if is_hex else out)


if __name__ == "__main__":
    main()
