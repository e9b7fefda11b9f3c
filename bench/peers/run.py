#!/usr/bin/env python3
"""run.py [--program FILE] [--only WORD] [--parts]: instructions of an item, of `play` and of a session of nghttp2, on the same octets.

The program is the proved one of this repository unless another is named; it is measured as it ships. Counts are callgrind's, of two numbers of items: their
difference over the items between them. Of `play` the inclusive count of the function that plays the octets is taken: nghttp2 reads and writes no hex, no state and
no sentence; --parts prints what these take. Both take the octets in pieces of 8,000 and answer with two octets. Before a row is
counted both servers run, and the numbers of frames of each type that they send have to be the same; where they are not, the row says how they differ.
With --only the rows that have this word in their name. It prints a table in Markdown for docs/PERFORMANCE.md, and is no part of the gate. It needs
libnghttp2-dev, python3-hpack and valgrind (Debian).
"""

import argparse
import os
import re
import subprocess
import sys
import tempfile

import frames

HERE = os.path.dirname(os.path.abspath(__file__))
TOP = os.path.dirname(os.path.dirname(HERE))
ANSWERS = ["GET|/|200|6869", "POST|/|200|6869", "GET|/index.html?page=12&sort=name|200|6869"]
OTHERS = [f"GET|/{place}|200|6869" for place in range(997)]
PIECE = "8000"

# What `play` does, by the names of functions; the first is the connection's. A function that the compiler put into its caller counts there.
PARTS = {
    "connection": r"h2_cmd_batch::commands::play::played\b",
    "text in": r"h2_cmd_batch::input::read_all\b",
    "hex in": r"h2_cmd_batch::input::read_hex\b",
    "hex out": r"h2_io::hex_text::HexTextText::write_to\b",
    "warnings": r"h2_cmd_messages::hex::say_warnings\b",
}

# Name, kind of octets.py, items (or fields of each of 200 requests) of the first and of the second run, streams that are open or wait, entries of the book in
# front of the answers.
ROWS = [
    ("PING, answered", "ping", 1000, 6000, 0, []),
    ("PING with ACK", "ping-ack", 1000, 6000, 0, []),
    ("WINDOW_UPDATE on the connection", "window-update", 1000, 6000, 0, []),
    ("WINDOW_UPDATE on a stream", "stream-window-update", 1000, 6000, 0, []),
    ("the same, on 100 streams in turn", "stream-window-update-in-turn", 1000, 6000, 100, []),
    ("DATA of one octet", "data", 1000, 6000, 0, []),
    ("DATA of one octet, on 100 streams in turn", "data-in-turn", 1000, 6000, 100, []),
    ("DATA of 16,384 octets", "full-data", 50, 450, 0, []),
    ("SETTINGS of no value", "settings", 1000, 6000, 0, []),
    ("SETTINGS of six values", "six-settings", 1000, 6000, 0, []),
    ("PRIORITY", "priority", 1000, 6000, 0, []),
    ("a frame of an unknown type", "unknown", 1000, 6000, 0, []),
    ("RST_STREAM of an open stream, 990 to 1 open", "reset", 90, 890, 990, []),
    ("GET of four indexed fields", "get", 1000, 6000, 0, []),
    ("the same as HEADERS and one CONTINUATION", "get-in-two", 1000, 6000, 0, []),
    ("the same as HEADERS and three CONTINUATION", "get-in-four", 1000, 6000, 0, []),
    ("the same beside 100 open streams", "get", 1000, 6000, 100, []),
    ("the same, with identifiers 8,192 apart", "spread-get", 1000, 6000, 0, []),
    ("the same, with 997 other entries in the book in front", "get", 500, 2500, 0, OTHERS),
    ("POST of four indexed fields, with DATA of two octets", "post", 1000, 6000, 0, []),
    ("a browser's GET that inserts nothing", "browser", 500, 3500, 0, []),
    ("the same, cut inside a literal", "browser-in-two", 500, 3500, 0, []),
    ("a browser's GET that inserts each time", "browser-inserting", 500, 3500, 0, []),
    ("PING beside 990 waiting streams", "waiting-ping", 500, 2500, 990, []),
    ("WINDOW_UPDATE on the connection beside 990 waiting streams", "waiting-window-update", 500, 2500, 990, []),
    ("SETTINGS of a window of 0 or 1 beside 990 waiting streams", "waiting-window-settings", 100, 300, 990, []),
    ("a field of a request: an index of the static table", "fields-static", 10, 60, 0, []),
    ("an index of the dynamic table, 22 octets", "fields-dynamic", 10, 60, 0, []),
    ("a literal of 22 octets", "fields-plain", 10, 60, 0, []),
    ("the same as Huffman strings", "fields-huffman", 10, 60, 0, []),
    ("a literal of 22 octets that enters the table", "fields-plain-added", 10, 60, 0, []),
    ("the same as Huffman strings, that enters the table", "fields-huffman-added", 10, 60, 0, []),
    ("a user-agent of 70 octets as a Huffman string", "fields-agent", 10, 60, 0, []),
]
FIELDS_REQUESTS = 200


def inclusive(path):
    """The inclusive counts of each function that a callgrind file names, and the total."""
    counts, name, total, after_call = {}, None, 0, False
    with open(path, encoding="utf-8", errors="replace") as file:
        for line in file:
            if line.startswith("fn="):
                name = line[3:].strip()
            elif line.startswith("calls="):
                after_call = True
            elif line[:1].isdigit() or line[:1] in "+-*":
                count = int(line.split()[1])
                counts[name] = counts.get(name, 0) + count
                total += 0 if after_call else count
                after_call = False
    return counts, total


def counted(command, made, text=b""):
    """The inclusive counts of a command's functions, and the total."""
    path = f"{made}/callgrind"
    words = ["valgrind", "--tool=callgrind", "--compress-strings=no", "--compress-pos=no", f"--callgrind-out-file={path}", *command]
    subprocess.run(words, input=text, stdout=subprocess.DEVNULL, stderr=subprocess.DEVNULL, check=True)
    return inclusive(path)


def parts_of(counts):
    """The counts of the connection and of what else `play` does."""
    found = {part: sum(count for function, count in counts.items() if re.match(name, function)) for part, name in PARTS.items()}
    if not found["connection"]:
        sys.exit(f"run.py: the program has no function {PARTS['connection']}")
    return found


class Servers:
    """The two programs, in a folder for what they read and write."""

    def __init__(self, program, made):
        self.program, self.made, self.peer = program, made, f"{made}/nghttp2"
        subprocess.run(["gcc", "-O2", "-o", self.peer, f"{HERE}/nghttp2.c", "-lnghttp2"], check=True)

    def octets(self, kind, count, opened):
        made = subprocess.run(["/usr/bin/python3", f"{HERE}/octets.py", kind, str(count), str(opened)], check=True, stdout=subprocess.PIPE).stdout
        with open(f"{self.made}/octets", "wb") as file:
            file.write(made)
        return made.hex().encode()

    def play(self, book):
        return [self.program, "play", "--cut", PIECE, "--streams", "1000", *book, *ANSWERS]

    def session(self, *more):
        return [self.peer, f"{self.made}/octets", PIECE, "2", *more]

    def difference(self, book, text):
        """In which frames what both send differs, in words."""
        ours = subprocess.run(self.play(book), input=text, stdout=subprocess.PIPE, check=True).stdout
        ran = subprocess.run(self.session(f"{self.made}/sent"), stdout=subprocess.DEVNULL, stderr=subprocess.DEVNULL)
        if ran.returncode:
            return "nghttp2 ends the connection"
        with open(f"{self.made}/sent", "rb") as file:
            theirs = file.read()
        return frames.difference(frames.types_of(frames.played(ours)), frames.types_of(theirs))

    def counts(self, kind, count, opened, book):
        """What `play` takes in all, its parts, and what nghttp2 takes."""
        text = self.octets(kind, count, opened)
        differs = self.difference(book, text)
        if differs:
            return None, None, differs
        counts, total = counted(self.play(book), self.made, text)
        return {"all": total, **parts_of(counts)}, counted(self.session(), self.made)[1], ""


def cells(servers, kind, few, many, opened, book, show_parts):
    """The cells of a row: ours, nghttp2's, their ratio, and the parts of ours where they are asked for."""
    ours_few, theirs_few, differs = servers.counts(kind, few, opened, book)
    if not differs:
        ours_many, theirs_many, differs = servers.counts(kind, many, opened, book)
    if differs:
        return ["-", "-", f"they differ: {differs}"]
    items = (many - few) * (FIELDS_REQUESTS if kind.startswith("fields-") else 1)
    each = {part: (ours_many[part] - ours_few[part]) / items for part in ours_many}
    ours = each["connection"]
    theirs = (theirs_many - theirs_few) / items
    shown = [f"{each[part]:,.0f}" for part in ("all", *list(PARTS)[1:])] if show_parts else []
    return [f"{ours:,.0f}", f"{theirs:,.0f}", f"{ours / theirs:.2f}", *shown]


def main():
    parser = argparse.ArgumentParser()
    parser.add_argument("--program")
    parser.add_argument("--only", default="")
    parser.add_argument("--parts", action="store_true")
    words = parser.parse_args()
    program = words.program or subprocess.run([sys.executable, "-B", f"{TOP}/tools/program.py", "proved"], check=True, stdout=subprocess.PIPE, text=True).stdout.strip()
    columns = ["Item", "h2_bench", "nghttp2", "Ratio", *(["all of `play`", *list(PARTS)[1:]] if words.parts else [])]
    print("|".join(["", *(f" {column} " for column in columns), ""]))
    print("|" + "---|" * len(columns), flush=True)
    with tempfile.TemporaryDirectory() as made:
        servers = Servers(program, made)
        for name, kind, few, many, opened, book in ROWS:
            if words.only in name:
                row = cells(servers, kind, few, many, opened, book, words.parts)
                print(f"| {name} | {' | '.join(row)} |", flush=True)


main()
