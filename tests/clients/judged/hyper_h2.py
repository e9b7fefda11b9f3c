"""hyper_h2.py KIND PORT UPLOAD: the requests of a file of dialogues by hyper-h2 (the package h2) over a socket."""
import socket
import sys

import h2.config
import h2.connection
import h2.events
import h2.exceptions
import h2.settings

kind, port, upload = sys.argv[1:4]
CONTENT = open(upload, "rb").read()
KINDS = {"get": ["/"], "small-window": ["/"], "upload": ["/p"], "two-requests": ["/1", "/2"], "next-request": ["/1", "/2"]}
if kind not in KINDS:
    sys.exit(9)


class Client:
    def __init__(self):
        self.socket = socket.create_connection(("127.0.0.1", int(port)), 20)
        self.socket.setsockopt(socket.IPPROTO_TCP, socket.TCP_NODELAY, 1)
        self.h2 = h2.connection.H2Connection(h2.config.H2Configuration(client_side=True, header_encoding="latin1"))
        values = {2: 0, 4: 1000} if kind == "small-window" else {2: 0}
        self.h2.local_settings = h2.settings.Settings(client=True, initial_values=values)
        self.h2.initiate_connection()
        self.streams, self.has_ended, self.states = [], False, {}

    def flush(self):
        self.socket.sendall(self.h2.data_to_send())

    def send(self, path):
        stream = self.h2.get_next_available_stream_id()
        method = "POST" if path == "/p" else "GET"
        self.h2.send_headers(stream, [(":method", method), (":scheme", "http"), (":authority", "localhost"), (":path", path)], end_stream=method == "GET")
        self.streams.append(stream)
        self.states[stream] = {"status": None, "octets": 0, "ended": False, "reset": None}
        self.flush()
        if method == "POST":
            self.upload(stream)

    def upload(self, stream):
        rest = CONTENT
        while rest and not self.states[stream]["reset"] and not self.has_ended:
            most = min(self.h2.local_flow_control_window(stream), self.h2.max_outbound_frame_size, len(rest))
            if most > 0:
                self.h2.send_data(stream, rest[:most], end_stream=most == len(rest))
                rest = rest[most:]
                self.flush()
            else:
                self.receive()

    def receive(self):
        octets = self.socket.recv(65536)
        self.has_ended = not octets
        for event in self.h2.receive_data(octets) if octets else []:
            state = self.states.get(getattr(event, "stream_id", None))
            if isinstance(event, h2.events.ResponseReceived):
                state["status"] = dict(event.headers).get(":status")
            elif isinstance(event, h2.events.DataReceived):
                state["octets"] += len(event.data)
                self.h2.acknowledge_received_data(event.flow_controlled_length, event.stream_id)
            elif isinstance(event, h2.events.StreamEnded):
                state["ended"] = True
            elif isinstance(event, h2.events.StreamReset) and state and not state["ended"]:
                state["reset"] = f"reset {event.error_code}"
        self.flush()

    def wait(self):
        while not self.has_ended and not all(state["ended"] or state["reset"] for state in self.states.values()):
            self.receive()


client = Client()
try:
    client.flush()
    for path in KINDS[kind]:
        client.send(path)
        if kind != "two-requests":
            client.wait()
    client.wait()
    client.h2.close_connection()
    client.flush()
except (h2.exceptions.H2Error, OSError) as error:
    print(type(error).__name__, str(error)[:200])
    try:
        client.flush()
    except OSError:
        pass
status = 0
for at in range(len(KINDS[kind])):
    state = client.states.get(client.streams[at]) if at < len(client.streams) else None
    if not (state and state["ended"] and state["status"] and not state["reset"]):
        status |= 1 << at
    print(1 << at, state)
sys.exit(status)
