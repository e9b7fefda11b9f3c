#!/usr/bin/env python3
"""Generated sequences of ten frames: h2_bench, and hyper-h2 as another server, over the same octets: which of them ends the connection, and for
which cause. It needs Debian's python3-h2.

    PYTHONPATH=share/python /usr/bin/python3 examples/embed/sequences.py [COUNT [SEED]]
"""

import collections
import random
import sys
import time

import h2.config
import h2.connection
import h2.exceptions
import h2_bench

START = h2_bench.assemble("PREFACE\nSETTINGS 00 0 -\nSETTINGS 01 0 -\n")
REQUEST = bytes.fromhex("828684410f7777772e6578616d706c652e636f6d")


def frame(kind, flags, stream, payload):
    return len(payload).to_bytes(3, "big") + bytes([kind, flags]) + stream.to_bytes(4, "big") + payload


def any_frames(found):
    """Ten frames, most of which are right."""
    opened = 0
    for _ in range(10):
        kind = found.choice([0, 1, 1, 1, 2, 3, 4, 6, 8, 8])
        opened += kind == 1
        stream = 0 if kind in (4, 6) else 2 * opened - 1 if kind == 1 else 2 * found.randint(1, max(opened, 1)) - 1
        if found.random() < 0.05:
            stream = found.choice([0, 1, 2, 9])
        flags = {0: found.choice([0, 0, 1]), 1: found.choice([4, 5])}.get(kind, 0)
        payload = {
            0: b"x" * found.randrange(20), 1: REQUEST, 2: bytes([0, 0, 0, 0, 9]), 3: bytes([0, 0, 0, 8]),
            4: bytes([0, found.choice([1, 2, 3, 4, 6]), 0, 0, 0, found.randrange(3)]), 6: bytes(8), 8: bytes([0, 0, 0, found.choice([0, 1, 1, 9])]),
        }[kind]
        yield frame(kind, flags, stream, payload)


def is_ended_by_h2(octets):
    server = h2.connection.H2Connection(h2.config.H2Configuration(client_side=False, header_encoding=None))
    server.initiate_connection()
    try:
        server.receive_data(octets)
    except h2.exceptions.ProtocolError:
        return True
    return False


def main(count="2000", seed="1"):
    found, counted, spent = random.Random(int(seed)), collections.Counter(), 0.0
    for _ in range(int(count)):
        octets = START + b"".join(any_frames(found))
        begun = time.perf_counter()
        connection = h2_bench.Connection(["GET|/|200|6869"])
        items = connection.feed(octets)
        spent += time.perf_counter() - begun
        errors = [item.error.cause for item in items if item.error]
        by_bench, by_h2 = connection.end.ended, is_ended_by_h2(octets)
        if by_bench and not by_h2:
            counted[f"h2_bench alone ends it: {errors[-1]}"] += 1
        else:
            counted["both end it" if by_bench else "hyper-h2 alone ends it" if by_h2 else "neither ends it"] += 1
    for what, number in counted.most_common():
        print(f"{number:6} {what}")
    print(f"{count} sequences, {60 * int(count) / spent:,.0f} a minute by h2_bench alone", file=sys.stderr)


main(*sys.argv[1:])
