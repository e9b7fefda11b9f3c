#!/usr/bin/env python3
"""The lines of docs/CAPTURE.md for cleartext, as they are there: a capture of a connection, made here, goes through tshark and `explain`.

    tests/captures.py PROGRAM

Without tshark it says so and does nothing. The last line is `N passed, M failed`; the status is 1 where one failed.
"""

import os
import shutil
import socket
import struct
import subprocess
import sys
import tempfile

sys.dont_write_bytecode = True
import script  # noqa: E402

TOP = os.path.dirname(os.path.dirname(os.path.abspath(__file__)))
CLIENT, SERVER = 40000, 8080
START = script.octets("PREFACE") + script.octets("SETTINGS 00 0 -")
REST = script.octets("SETTINGS 01 0 -") + script.octets('HEADERS 05 1 hi2,i6,i4,a1="www.example.com"') + script.octets("DATA 00 3 x61")


def packet(source, target, sequence, acknowledged, flags, payload):
    """A packet of IPv4 and TCP on the loopback, without checksums."""
    tcp = struct.pack(">HHIIBBHHH", source, target, sequence, acknowledged, 5 << 4, flags, 65535, 0, 0)
    length = 20 + len(tcp) + len(payload)
    loopback = socket.inet_aton("127.0.0.1")
    return struct.pack(">BBHHHBBH4s4s", 0x45, 0, length, 0, 0, 64, 6, 0, loopback, loopback) + tcp + payload


def capture(path, parts):
    """A file of tcpdump: a connection is opened, the client sends these parts, each with its place, and the server its SETTINGS in between."""
    packets = [packet(CLIENT, SERVER, 0, 0, 0x02, b""), packet(SERVER, CLIENT, 0, 1, 0x12, b""), packet(CLIENT, SERVER, 1, 1, 0x10, b"")]
    packets += [packet(CLIENT, SERVER, 1 + place, 1, 0x18, octets) for place, octets in parts]
    packets.insert(4, packet(SERVER, CLIENT, 1, 1, 0x18, script.octets("SETTINGS 00 0 s3=100,6=65536")))
    with open(path, "wb") as file:
        file.write(struct.pack("<IHHiIII", 0xA1B2C3D4, 2, 4, 0, 0, 65535, 101))
        for number, octets in enumerate(packets):
            file.write(struct.pack("<IIII", 1, number, len(octets), len(octets)) + octets)


def lines():
    """Those of docs/CAPTURE.md that begin with tshark and need no keys."""
    with open(f"{TOP}/docs/CAPTURE.md", encoding="utf-8") as page:
        return [line.strip() for line in page if line.startswith("    tshark ") and "keylog" not in line]


def main():
    if len(sys.argv) != 2:
        sys.exit(__doc__)
    if not shutil.which("tshark"):
        print("captures.py: there is no tshark on the PATH", "0 passed, 0 failed", sep="\n")
        return 0
    program, failed = os.path.abspath(sys.argv[1]), 0
    wanted = subprocess.run([program, "explain", "--strict"], input=(START + REST).hex().encode(), capture_output=True, check=False)
    once = [(0, START), (len(START), REST)]
    # The second line is for packets that came twice or out of order.
    again = [once[0], (len(START) + 9, REST[9:]), (len(START), REST[:9]), once[0]]
    for line, parts in zip(lines(), (once, again), strict=True):
        with tempfile.TemporaryDirectory() as folder:
            capture(f"{folder}/cap.pcap", parts)
            os.symlink(program, f"{folder}/h2_bench")
            ran = subprocess.run(["bash", "-c", line], cwd=folder, capture_output=True, check=False)
        if (ran.stdout, ran.returncode) != (wanted.stdout, wanted.returncode):
            failed += 1
            print(f"FAILED {line}", ran.stdout.decode(), ran.stderr.decode(), sep="\n")
    print(f"{2 - failed} passed, {failed} failed")
    return 1 if failed else 0


sys.exit(main())
