"""Whole connections: python3-h2 as the client, which checks each frame that the server sends."""

import h2.config
import h2.connection
import h2.errors
import h2.events
import h2.exceptions
import h2.settings

PATHS = ["/", "/empty", "/long", "/fields"]


class Session:
    """A client of python3-h2 and the program, over one connection."""

    def __init__(self, program, found):
        self.program, self.found = program, found
        config = h2.config.H2Configuration(client_side=True, header_encoding=None)
        self.client = h2.connection.H2Connection(config)
        self.octets, self.sent, self.requests, self.ended = b"", b"", {}, set()
        self.settings = {
            "table": found.choice([4096, 0, 34, 100, 65536]),
            "window": found.choice([65535, 0, 10, 1000, 1 << 20]),
            "frame": found.choice([16384, 16385, 30000, 65536]),
        }
        self.pings, self.events = [], []
        self.book = {
            "/": (200, b"hi", []),
            "/empty": (204, b"", [("x-empty", "")]),
            "/long": (302, bytes(found.randrange(256) for _ in range(found.choice([60000, 20000]))), []),
            "/fields": (599, b"x" * 300, [("x-a", "b" * 90), ("content-type", "text/plain"), ("x-a", "=")]),
        }
        self.answers = [
            "|".join(["GET", path, str(status), body.hex(), *(f"{name}={value}" for name, value in fields)])
            for path, (status, body, fields) in self.book.items()
        ]
        self.words = [word for name, value in self.settings.items() for word in (f"--{name}", str(value))] + self.answers

    def start(self):
        self.client.initiate_connection()
        self.client.update_settings({h2.settings.SettingCodes.INITIAL_WINDOW_SIZE: self.found.choice([0, 1, 100, 65535, 1 << 20])})
        # Under the initial settings: the client has not seen the server's yet.
        for _ in range(self.found.choice([0, 0, 1, 4])):
            self.request()
            self.upload()

    def turn(self):
        """What the client has written goes to the server, and all that the server sends for it to the client."""
        self.octets += self.client.data_to_send()
        place = self.program.play(self.octets, self.words)
        fresh = place.sent[len(self.sent):]
        grew = place.sent.startswith(self.sent)
        self.sent = place.sent
        # Frame by frame, since python3-h2 takes a new SETTINGS_MAX_FRAME_SIZE at its next call only.
        while fresh:
            length = 9 + int.from_bytes(fresh[:3], "big")
            self.events += self.client.receive_data(fresh[:length])
            fresh = fresh[length:]
        return place, grew

    def request(self):
        stream = self.client.get_next_available_stream_id()
        path = self.found.choice([*PATHS, "/none"])
        ends = self.found.random() < 0.6
        fields = [(":method", "GET"), (":scheme", "http"), (":authority", "localhost"), (":path", path), ("x-n", str(stream))]
        self.client.send_headers(stream, fields, end_stream=ends)
        self.requests[stream] = path
        if ends:
            self.ended.add(stream)

    def upload(self):
        for stream in self.requests:
            if stream in self.ended or self.found.random() < 0.5:
                continue
            room = min(self.client.local_flow_control_window(stream), self.client.max_outbound_frame_size)
            pad = self.found.choice([None, None, 0, 7])
            size = self.found.randrange(0, max(room - 20, 1))
            ends = self.found.random() < 0.5
            if room > 30:
                self.client.send_data(stream, b"u" * size, end_stream=ends, pad_length=pad)
                if ends:
                    self.ended.add(stream)

    def grant(self, stream, count):
        """WINDOW_UPDATE on a stream, unless python3-h2 has closed it."""
        try:
            self.client.increment_flow_control_window(count, stream)
        except (KeyError, h2.exceptions.StreamClosedError):
            pass

    def other(self):
        kind = self.found.randrange(5)
        if kind == 0:
            ping = bytes(self.found.randrange(256) for _ in range(8))
            self.client.ping(ping)
            self.pings.append(ping)
        elif kind == 1:
            self.client.increment_flow_control_window(self.found.choice([1, 1000, 100000]))
        elif kind == 2 and self.requests:
            self.grant(self.found.choice(list(self.requests)), self.found.choice([1, 50, 30000]))
        elif kind == 3:
            codes = h2.settings.SettingCodes
            self.client.update_settings({
                codes.INITIAL_WINDOW_SIZE: self.found.choice([0, 10, 65535, 100000]),
                codes.MAX_FRAME_SIZE: self.found.choice([16384, 20000]),
                codes.HEADER_TABLE_SIZE: self.found.choice([0, 4096, 10000]),
            })


def sessions(program, found, count, report):
    """Random sessions: python3-h2 accepts each frame, both sides agree on the windows, and each response is that of the book as far as windows allow."""
    for _ in range(count):
        session = Session(program, found)
        session.start()
        session.turn()
        for _ in range(12):
            for step in found.choices([session.request, session.upload, session.other], k=2):
                step()
            try:
                place, grew = session.turn()
            except h2.exceptions.ProtocolError as error:
                report(False, "python3-h2 refuses what was sent", repr(error), session.octets.hex(), session.words)
                break
            report(grew and place.phase == "running", "what was sent stays, and the connection goes on", place.phase, session.octets.hex())
            compare_windows(session, place, report)
            compare_settings(session, place, report)
        else:
            finish(session, report)


def compare_windows(session, place, report):
    client = session.client
    windows = (client.outbound_flow_control_window, client.inbound_flow_control_window)
    report(windows == (place.window["recv"], place.window["send"]), "the windows of the connection", windows, place.window)
    for stream in session.requests:
        kind, numbers = place.streams[stream]
        if kind == "open":
            window = client._get_stream_by_id(stream).outbound_flow_control_window
            report(window == int(numbers["recv"]), "the window of a stream", stream, window, numbers)


def compare_settings(session, place, report):
    """From its acknowledgement on, which python3-h2 sends at once; its encoder has then begun a block with the size update, or has not begun one yet."""
    found = {name: place.own[name] for name in session.settings}
    report(found == session.settings, "the server's settings", session.settings, place.own)
    if not place.own["due"]:
        report(place.table[2] == session.client.encoder.header_table_size or place.table[2] == 4096, "the header table", place.table, session.settings)


def finish(session, report):
    """The client opens all windows, ends all requests, and then has each whole response."""
    client = session.client
    client.increment_flow_control_window(1 << 24)
    for stream in session.requests:
        if stream not in session.ended:
            client.end_stream(stream)
        session.grant(stream, 1 << 24)
    session.turn()
    responses, bodies, ended, pings = {}, {}, set(), []
    for event in session.events:
        if isinstance(event, h2.events.ResponseReceived):
            responses[event.stream_id] = [(bytes(n), bytes(v)) for n, v in event.headers]
        elif isinstance(event, h2.events.DataReceived):
            bodies[event.stream_id] = bodies.get(event.stream_id, b"") + event.data
        elif isinstance(event, h2.events.StreamEnded):
            ended.add(event.stream_id)
        elif isinstance(event, h2.events.PingAckReceived):
            pings.append(event.ping_data)
        elif isinstance(event, (h2.events.ConnectionTerminated, h2.events.StreamReset)):
            report(False, "an error for a lawful client", repr(event))
    report(pings == session.pings, "each PING is answered in order", pings, session.pings)
    for stream, path in session.requests.items():
        status, body, fields = session.book.get(path, (404, b"", []))
        wanted = [(b":status", str(status).encode())] + [(n.encode(), v.encode()) for n, v in fields]
        report(responses.get(stream) == wanted, "a response", stream, path, responses.get(stream))
        report(bodies.get(stream, b"") == body and stream in ended, "a body", stream, path, len(bodies.get(stream, b"")), len(body))
