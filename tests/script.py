"""The lines of a script as octets: the preface, frames and raw octets, as docs/FORMATS.md says under "Scripts".

It shares nothing with the program, so that octets wanted of the program do not come from it. Strings of a field block are written without Huffman coding.
"""

import re

PREFACE = b"PRI * HTTP/2.0\r\n\r\nSM\r\n\r\n"

# The types of frames in the order of their numbers (RFC 9113, 6).
NAMES = "DATA HEADERS PRIORITY RST_STREAM SETTINGS PUSH_PROMISE PING GOAWAY WINDOW_UPDATE CONTINUATION".split()

FRAME = re.compile(r"([A-Z_]+|T[0-9a-f]{2}) ([0-9A-Fa-f]{2}) ([0-9]+)(R?) (.*)", re.DOTALL)
PARTS = re.compile(r"([iu])([0-9]+)|([anv])(?:([0-9]+)|\"([^\"]*)\")=\"([^\"]*)\"")

# The first bits of an instruction and how many bits its first number has (RFC 7541, 6).
INDEXED, UPDATE = (0x80, 7), (0x20, 5)
LITERALS = {"a": (0x40, 6), "n": (0x00, 4), "v": (0x10, 4)}


def integer(first, bits, value):
    """An integer behind the first bits of its octet (RFC 7541, 5.1)."""
    most = (1 << bits) - 1
    if value < most:
        return bytes([first | value])
    octets, value = [first | most], value - most
    while value >= 128:
        octets.append(value % 128 + 128)
        value //= 128
    return bytes([*octets, value])


def string(text):
    """A string without Huffman coding (RFC 7541, 5.2); `\\` and two hex digits are an octet."""
    octets = re.sub(rb"\\([0-9a-f]{2})", lambda it: bytes.fromhex(it[1].decode()), text.encode())
    return integer(0, 7, len(octets)) + octets


def instruction(part):
    letter, number, mode, index, name, value = part.groups()
    if letter:
        return integer(*(INDEXED if letter == "i" else UPDATE), int(number))
    head = integer(*LITERALS[mode], int(index or 0))
    return head + (b"" if index else string(name)) + string(value)


def block(text):
    """The instructions of a field block, with commas between them."""
    octets, at = b"", 0
    while at < len(text):
        part = PARTS.match(text, at)
        if not part:
            raise ValueError(f"no instruction: {text[at:]}")
        octets += instruction(part)
        at = part.end() + 1
    return octets


def settings(text):
    pairs = [pair.split("=") for pair in text.split(",")]
    return b"".join(int(name).to_bytes(2, "big") + int(value).to_bytes(4, "big") for name, value in pairs)


def payload(text):
    kind, rest = text[0], text[1:]
    if kind == "-":
        return b""
    if kind == "x":
        return bytes.fromhex(rest)
    if kind == "s":
        return settings(rest)
    if kind in "wc":
        return int(rest).to_bytes(4, "big")
    if kind == "h":
        return block(rest)
    raise ValueError(f"no payload: {text}")


def octets(line):
    """The octets of a line; None where it is none."""
    if line == "PREFACE":
        return PREFACE
    if line.startswith("RAW "):
        return bytes.fromhex(line[4:])
    parts = FRAME.fullmatch(line)
    if not parts:
        return None
    name, flags, stream, reserved, text = parts.groups()
    kind = NAMES.index(name) if name in NAMES else int(name[1:], 16)
    body = payload(text)
    head = len(body).to_bytes(3, "big") + bytes([kind]) + bytes.fromhex(flags)
    return head + (int(stream) + (1 << 31 if reserved else 0)).to_bytes(4, "big") + body
