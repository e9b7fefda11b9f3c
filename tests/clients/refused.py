#!/usr/bin/env python3
"""refused.py PORT PROCESS: sends the octets that standard input has as hex to a server of this process, ends its side, and prints what it receives."""
import socket
import sys
import time

port, process = int(sys.argv[1]), sys.argv[2]


def has_ended():
    try:
        with open(f"/proc/{process}/stat", encoding="ascii") as stat:
            return stat.read().rsplit(")", 1)[1].split()[0] == "Z"
    except FileNotFoundError:
        return True


while not has_ended():
    try:
        peer = socket.create_connection(("127.0.0.1", port), timeout=10)
        break
    except ConnectionRefusedError:
        time.sleep(0.002)
else:
    sys.exit(0)
try:
    peer.sendall(bytes.fromhex(sys.stdin.read()))
    peer.shutdown(socket.SHUT_WR)
except OSError:
    pass  # the server has ended the connection
try:
    while octets := peer.recv(65536):
        sys.stdout.buffer.write(octets)
except ConnectionError:
    pass
