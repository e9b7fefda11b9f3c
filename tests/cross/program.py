"""The program under test, or its library: each call carries out a command and reads what it prints."""

import subprocess

PREFACE = b"PRI * HTTP/2.0\r\n\r\nSM\r\n\r\n"
SETTINGS = bytes.fromhex("000000040000000000")


class Place:
    """What `play` prints of one state, and the octets that were sent before it."""

    def __init__(self, lines):
        self.sent, self.phase, self.table, self.entries, self.streams = b"", None, None, [], {}
        self.window, self.block, self.own = {}, {}, {}
        for line in lines:
            word, _, rest = line.partition(" ")
            if word == "sent":
                self.sent = b"" if rest == "-" else bytes.fromhex(rest)
            elif word == "phase":
                self.phase = rest.rsplit(" last ", 1)[0]
            elif word == "window":
                parts = rest.split()
                self.window = dict(zip(parts[::2], map(int, parts[1::2])))
            elif word == "own":
                parts = rest.split()
                self.own = dict(zip(parts[::2], map(int, parts[1::2])))
            elif word == "table":
                self.table = tuple(map(int, rest.split()))
            elif word == "entry":
                _, name, value = rest.split(" ")
                self.entries.append((octets(name), octets(value)))
            elif word == "block":
                parts = rest.split()
                self.block = dict(zip(parts[::2], parts[1::2]))
            elif word == "stream":
                parts = rest.split()
                self.streams[int(parts[0])] = (parts[1], dict(zip(parts[2::2], parts[3::2])))


def octets(text):
    return b"" if text == "-" else bytes.fromhex(text)


class Program:
    def __init__(self, path):
        self.path = path

    def run(self, words, text):
        words = [words[0], "--quiet", *words[1:]]
        if self.path is None:
            import h2_bench  # share/python, by run.sh

            ran = h2_bench.run(words, text)
            printed, status, said = ran.printed, ran.status, ""
        else:
            ended = subprocess.run([self.path, *words], input=text, capture_output=True)
            printed, status, said = ended.stdout, ended.returncode, ended.stderr
        if said or status not in (0, 1):
            raise SystemExit(f"{words}: status {status}, {said!r}")
        return printed.decode()

    def play(self, data, answers=()):
        return Place(self.run(["play", *answers], data.hex().encode()).splitlines())

    def play_each(self, data, answers=()):
        """A Place for the start and for each item."""
        places = []
        for line in self.run(["play", "--each", *answers], data.hex().encode()).splitlines():
            if line.startswith("item "):
                places.append([])
            places[-1].append(line)
        return [Place(lines) for lines in places]

    def asm(self, script):
        return bytes.fromhex(self.run(["asm"], script.encode()).strip())

    def dis(self, data):
        return self.run(["dis"], data.hex().encode())

    def table(self, limit, lines):
        return self.run(["table", str(limit)], b"".join(line + b"\n" for line in lines)).splitlines()


def frame(kind, flags, stream, payload):
    return len(payload).to_bytes(3, "big") + bytes([kind, flags]) + stream.to_bytes(4, "big") + payload
