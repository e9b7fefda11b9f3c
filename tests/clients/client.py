"""hyper-h2 against a server on 127.0.0.1. Prints a line for each check: `ok NAME`, or what is wrong."""

import socket
import sys

import h2.config
import h2.connection
import h2.events

port = int(sys.argv[1])


def report(name, good, found=""):
    print("ok" if good else "failed", name, "" if good else repr(found), flush=True)


def connect():
    sock = socket.create_connection(("127.0.0.1", port), timeout=20)
    conn = h2.connection.H2Connection(h2.config.H2Configuration(client_side=True))
    conn.initiate_connection()
    sock.sendall(conn.data_to_send())
    return sock, conn


def headers(method, path):
    return [(":method", method), (":scheme", "http"), (":authority", "127.0.0.1"), (":path", path)]


def until_ended(sock, conn, streams):
    """Events until these streams have ended, with flow control; the status and the body of each."""
    answers = {stream: [None, b""] for stream in streams}
    left = set(streams)
    for _ in range(10000):
        if not left:
            break
        octets = sock.recv(65536)
        if not octets:
            break
        for event in conn.receive_data(octets):
            if isinstance(event, h2.events.ResponseReceived):
                answers[event.stream_id][0] = dict(event.headers).get(b":status", dict(event.headers).get(":status"))
            elif isinstance(event, h2.events.DataReceived):
                answers[event.stream_id][1] += event.data
                conn.acknowledge_received_data(event.flow_controlled_length, event.stream_id)
            elif isinstance(event, (h2.events.StreamEnded, h2.events.StreamReset)):
                left.discard(event.stream_id)
            elif isinstance(event, h2.events.ConnectionTerminated):
                left.clear()
        sock.sendall(conn.data_to_send())
    return answers


def status(answer):
    return answer[0] in (b"200", "200")


sock, conn = connect()
conn.send_headers(1, headers("GET", "/"), end_stream=True)
sock.sendall(conn.data_to_send())
answer = until_ended(sock, conn, [1])[1]
report("GET", status(answer) and answer[1] == b"hello\n", answer)

# 1,000,000 octets of content, as the windows allow.
conn.send_headers(3, headers("POST", "/upload"))
left = 1000000
for _ in range(10000):
    while left and conn.local_flow_control_window(3) > 0:
        size = min(left, conn.local_flow_control_window(3), conn.max_outbound_frame_size)
        conn.send_data(3, b"u" * size, end_stream=size == left)
        left -= size
    sock.sendall(conn.data_to_send())
    if not left:
        break
    conn.receive_data(sock.recv(65536))
answer = until_ended(sock, conn, [3])[3]
report("POST of 1,000,000 octets", status(answer) and answer[1] == b"took it!", answer)

streams = list(range(5, 205, 2))
for stream in streams:
    conn.send_headers(stream, headers("GET", "/large"), end_stream=True)
sock.sendall(conn.data_to_send())
answers = until_ended(sock, conn, streams)
good = [stream for stream in streams if status(answers[stream]) and answers[stream][1] == b"x" * 60000]
report("100 answers of 60,000 octets at once", len(good) == 100, len(good))

conn.ping(b"12345678")
sock.sendall(conn.data_to_send())
events = conn.receive_data(sock.recv(65536))
report("PING", any(isinstance(e, h2.events.PingAckReceived) and e.ping_data == b"12345678" for e in events), events)
sock.close()

# A connection error behind which much is sent: WINDOW_UPDATE of 0 on stream 0, and 1,000,000 octets.
sock, conn = connect()
conn.receive_data(sock.recv(65536))
sock.sendall(conn.data_to_send())
try:
    sock.sendall(b"\x00\x00\x04\x08\x00\x00\x00\x00\x00\x00\x00\x00\x00" + bytes(1000000))
except OSError:
    pass
code = None
try:
    for _ in range(100):
        octets = sock.recv(65536)
        if not octets:
            break
        for event in conn.receive_data(octets):
            if isinstance(event, h2.events.ConnectionTerminated):
                code = int(event.error_code)
except OSError as error:
    report("no reset", False, error)
report("GOAWAY before 1,000,000 unread octets", code == 1, code)
sock.close()
