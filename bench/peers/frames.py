"""What a server sends, as the number of frames of each type; with the flag ACK a type counts apart."""

import collections

NAMES = ["DATA", "HEADERS", "PRIORITY", "RST_STREAM", "SETTINGS", "PUSH_PROMISE", "PING", "GOAWAY", "WINDOW_UPDATE", "CONTINUATION"]
ACKNOWLEDGED = ("SETTINGS", "PING")


def types_of(octets):
    """How many frames of each type these octets are; RFC 9113, 4.1."""
    found, at = collections.Counter(), 0
    while at < len(octets):
        length, kind, flags = int.from_bytes(octets[at : at + 3], "big"), octets[at + 3], octets[at + 4]
        name = NAMES[kind] if kind < len(NAMES) else f"type {kind}"
        found[f"{name} ACK" if name in ACKNOWLEDGED and flags & 1 else name] += 1
        at += 9 + length
    return found


def played(output):
    """The octets that `play` says were sent."""
    return bytes.fromhex(output[: output.index(b"\n")].removeprefix(b"sent ").decode())


def difference(ours, theirs):
    """In which types two servers differ, in words; empty where in none."""
    names = [name for name in sorted(ours | theirs) if ours[name] != theirs[name]]
    return ", ".join(f"{ours[name]} and {theirs[name]} {name}" for name in names)
