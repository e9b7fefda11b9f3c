"""Clients that leave badly, each followed by one that must be served.

Prints a line for each check: `ok NAME`, or what is wrong.
"""

import socket
import struct
import sys
import time

port = int(sys.argv[1])
START = b"PRI * HTTP/2.0\r\n\r\nSM\r\n\r\n" + bytes.fromhex("000000040000000000")
PING = bytes.fromhex("0000080600000000000102030405060708")
PONG = bytes.fromhex("0000080601000000000102030405060708")


def connect():
    return socket.create_connection(("127.0.0.1", port), timeout=20)


def read_all(sock):
    octets = b""
    try:
        for _ in range(100000):
            part = sock.recv(65536)
            if not part:
                return octets, "end"
            octets += part
    except OSError as error:
        return octets, str(error)
    return octets, "too much"


def reset(sock):
    sock.setsockopt(socket.SOL_SOCKET, socket.SO_LINGER, struct.pack("ii", 1, 0))
    sock.close()


def served_next(name):
    sock = connect()
    sock.sendall(START + PING)
    sock.shutdown(socket.SHUT_WR)
    octets, end = read_all(sock)
    sock.close()
    good = octets.endswith(PONG) and end == "end"
    print("ok" if good else "failed", "a client after one that", name, "" if good else (octets, end), flush=True)


connect().close()
served_next("closes at once")

sock = connect()
sock.sendall(START + PING)
time.sleep(0.1)
reset(sock)
served_next("resets")

sock = connect()
sock.sendall(START + PING[:12])
time.sleep(0.1)
sock.close()
served_next("leaves within a frame")

sock = connect()
sock.sendall(b"\x16\x03\x01\x02\x00\x01\x00\x01\xfc\x03\x03" + bytes(500))
octets, end = read_all(sock)
good = octets.endswith(bytes.fromhex("0000080700000000000000000000000001")) and end == "end"
print("ok" if good else "failed", "GOAWAY to a client that speaks TLS", "" if good else (octets, end), flush=True)
sock.close()
served_next("speaks TLS")

# 100 requests for 60,000 octets with all windows open, none of which is read before the client leaves.
sock = connect()
sock.setsockopt(socket.SOL_SOCKET, socket.SO_RCVBUF, 4096)
octets = START + bytes.fromhex("000006040000000000" "0004" "7fffffff" "000004080000000000" "7fff0000")
for stream in range(1, 200, 2):
    octets += bytes.fromhex("0000090105") + stream.to_bytes(4, "big") + bytes.fromhex("8286" "0406") + b"/large"[:5]
sock.sendall(octets)
time.sleep(0.2)
reset(sock)
served_next("leaves within an answer")

# An answer waits in full buffers when the connection ends with an error; much more is in flight behind it.
sock = socket.socket()
sock.setsockopt(socket.SOL_SOCKET, socket.SO_RCVBUF, 4096)
sock.settimeout(20)
sock.connect(("127.0.0.1", port))
octets = START + bytes.fromhex("000006040000000000" "0004" "000f0000" "000004080000000000" "000f0000")
for stream in range(1, 9, 2):
    octets += bytes.fromhex("00000a0105") + stream.to_bytes(4, "big") + bytes.fromhex("8286" "0406") + b"/large"
sock.sendall(octets)
time.sleep(0.2)
sock.sendall(bytes.fromhex("000004080000000000" "00000000") + bytes(200000))
time.sleep(0.3)
octets, end = read_all(sock)
at = octets.rfind(bytes.fromhex("000008070000000000"))
good = at >= 0 and at + 17 == len(octets) and octets.count(b"x" * 1000) >= 200 and end == "end"
found = "" if good else (len(octets), at, end)
print("ok" if good else "failed", "GOAWAY behind answers that waited", found, flush=True)
sock.close()
served_next("sends much behind an error")
