#!/usr/bin/env python3
"""large_answers.py [--explained] PROGRAM [WORD]: how much memory large answers make `play` and `serve` take, above that of the same book and one request.

A client opens its windows and asks for a body of 1 MiB again and again. A row is bounded where this takes at most 32 MiB more than an answer that is one
octet. Memory is the peak of resident memory that the kernel counts. `serve` is read from as fast as it writes, over 127.0.0.1. It prints a table in Markdown;
with WORD the rows that have it in their name. The status is 1 where a program doesn't answer all. tests/floods.py calls it.

--explained: only a few requests, of servers that explain and record, and of a case whose lines say what is sent; each has to be bounded. The last line is
`N passed, M failed`.
"""

import os
import socket
import subprocess
import sys
import tempfile
import time

BODY = 1 << 20
MOST = 32 * 1024  # KiB
FEW = 40
HEADERS, SETTINGS, WINDOW_UPDATE = 1, 4, 8
END_STREAM, END_HEADERS = 1, 4
LARGE, SMALL = "2f6c", "2f73"  # /l and /s


def frame(kind, flags, stream, payload=b""):
    return len(payload).to_bytes(3, "big") + bytes([kind, flags]) + stream.to_bytes(4, "big") + payload


def get(stream, path):
    """:method GET, :scheme http, :path, :authority a; nothing enters the table (RFC 7541, 6.2.2)."""
    return frame(HEADERS, END_STREAM | END_HEADERS, stream, bytes.fromhex("82860402" + path + "010161"))


PREFACE = b"PRI * HTTP/2.0\r\n\r\nSM\r\n\r\n"
LARGE_WINDOWS = frame(SETTINGS, 0, 0, b"\0\4\x7f\xff\xff\xff")
OPEN = frame(WINDOW_UPDATE, 0, 0, (0x7FFFFFFF - 65535).to_bytes(4, "big"))


def asked(count, path):
    """So many requests at once, with all windows open."""
    return PREFACE + LARGE_WINDOWS + OPEN + b"".join(get(2 * place + 1, path) for place in range(count))


def released(count, path):
    """So many requests, whose answers wait for the connection's window, and then one WINDOW_UPDATE."""
    return PREFACE + LARGE_WINDOWS + b"".join(get(2 * place + 1, path) for place in range(count)) + OPEN


# Name, the client's octets for a path, answers, options.
ROWS = [
    ("100 requests at once", lambda path: asked(100, path), 100, []),
    ("1,000 requests at once", lambda path: asked(1000, path), 1000, ["--streams", "1000"]),
    ("1,000 waiting answers, one WINDOW_UPDATE", lambda path: released(1000, path), 1000, ["--streams", "1000"]),
]


def measured(program, words, text):
    """The peak of a program that reads this text, in KiB, and whether its status is 0."""
    with tempfile.TemporaryFile() as held:
        held.write(text.encode())
        held.seek(0)
        ran = subprocess.Popen([program, *words], stdin=held, stdout=subprocess.DEVNULL)
        _, status, used = os.wait4(ran.pid, 0)
    ran.returncode = os.waitstatus_to_exitcode(status)
    return used.ru_maxrss, ran.returncode == 0


def play(program, words, octets, _):
    """The peak of `play`, in KiB, and whether it answered."""
    return measured(program, ["play", *words], octets.hex())


def case_of(count, path, said):
    """A case of so many requests, with these lines behind each that say what is sent for it."""
    opening = f"RAW {(PREFACE + LARGE_WINDOWS + OPEN).hex()}\n;< ...\n"
    return opening + "".join(f"RAW {get(2 * place + 1, path).hex()}\n{said}" for place in range(count))


def peak(process):
    with open(f"/proc/{process}/status", encoding="utf-8") as file:
        return next(int(line.split()[1]) for line in file if line.startswith("VmHWM"))


def free_port():
    with socket.socket() as listener:
        listener.bind(("127.0.0.1", 0))
        return listener.getsockname()[1]


def is_listening(path, port):
    """Whether a server has said so within ten seconds, in the file of its output."""
    for _ in range(1000):
        with open(path, "rb") as file:
            if file.readline() == f"listening {port}\n".encode():
                return True
        time.sleep(0.01)
    return False


def serve(program, words, octets, wanted):
    """The peak of `serve`, in KiB, once the client has read so many octets, and whether it read them."""
    port = free_port()
    output = tempfile.NamedTemporaryFile()
    server = subprocess.Popen([program, "serve", *words, str(port), "1"], stdout=output)
    try:
        if not is_listening(output.name, port):
            return 0, False
        with socket.create_connection(("127.0.0.1", port), 60) as client:
            client.sendall(octets)
            read = 0
            while read < wanted:
                count = len(client.recv(1 << 20))
                if count == 0:
                    return peak(server.pid), False
                read += count
            return peak(server.pid), True
    finally:
        server.kill()
        server.wait()


def explained(program):
    """Whether memory is bounded where what is sent is explained, printed, recorded, or compared with the lines of a case."""
    passed, failed = 0, 0
    with tempfile.TemporaryDirectory() as made:
        book = write_book(made)
        rows = [(["serve", "--quiet", *options], lambda words, path, octets: serve(program, words[1:], asked(FEW, path), octets))
                for options in (["--explain"], ["--json", "--full"], ["--strict"], ["--record", made])]
        for said in ("", ";< ...\n"):
            rows.append((["check", "-"], lambda words, path, _, said=said: measured(program, words, case_of(FEW, path, said))))
        for words, run in rows:
            small, answers_small = run([*words, "--book", book], SMALL, FEW)
            large, answers_large = run([*words, "--book", book], LARGE, FEW * BODY)
            if answers_small and answers_large and large - small <= MOST:
                passed += 1
            else:
                failed += 1
                print(f"{' '.join(words)}: {FEW} answers of 1 MiB take {(large - small) / 1024:,.0f} MiB more than small ones, or were not answered whole")
    print(f"{passed} passed, {failed} failed")
    sys.exit(1 if failed else 0)


def write_book(made):
    """The path of a book with a large and a small answer."""
    book = f"{made}/book.toml"
    with open(book, "w", encoding="utf-8") as file:
        for path, length in (("/l", BODY), ("/s", 1)):
            file.write(f'[[answer]]\nmethod = "GET"\npath = "{path}"\nstatus = 200\nbody-fill = [{length}, "x"]\n')
    return book


def main():
    if sys.argv[1] == "--explained":
        explained(sys.argv[2])
    program, only = sys.argv[1], sys.argv[2] if len(sys.argv) > 2 else ""
    wrong = 0
    print("| Answers of 1 MiB | `play`: memory above small answers | `serve` | At most 32 MiB |")
    print("|---|---|---|---|", flush=True)
    with tempfile.TemporaryDirectory() as made:
        book = write_book(made)
        for name, octets, count, options in ROWS:
            if only not in name:
                continue
            words, above = ["--book", book, *options], []
            for run in (play, serve):
                small, answers_small = run(program, words, octets(SMALL), count)
                large, answers_large = run(program, words, octets(LARGE), count * BODY)
                wrong += not (answers_small and answers_large)
                above.append(large - small)
            bounded = "yes" if max(above) <= MOST else "**no**"
            print(f"| {name} | {above[0] / 1024:,.0f} MiB | {above[1] / 1024:,.0f} MiB | {bounded} |", flush=True)
    sys.exit(1 if wrong else 0)


main()
