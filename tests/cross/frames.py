"""Frames: `dis` and `asm` against python3-hyperframe."""

from hyperframe import frame as frames

from program import PREFACE

NAMES = ["DATA", "HEADERS", "PRIORITY", "RST_STREAM", "SETTINGS", "PUSH_PROMISE", "PING", "GOAWAY", "WINDOW_UPDATE", "CONTINUATION"]


def octets_of(found, most=60):
    return bytes(found.randrange(256) for _ in range(found.randrange(most)))


def padding(found, frame):
    if found.random() < 0.4:
        frame.flags.add("PADDED")
        frame.pad_length = found.randrange(30)


def any_frame(found):
    """A frame of hyperframe, and the form of its payload in a script where that is not plain hex."""
    stream = 2 * found.randrange(1, 1 << 30) - 1
    kind = found.randrange(11)
    form = None
    if kind == 0:
        made = frames.DataFrame(stream, octets_of(found))
        padding(found, made)
    elif kind == 1:
        made = frames.HeadersFrame(stream, octets_of(found), depends_on=0, stream_weight=0, exclusive=False)
        padding(found, made)
        if found.random() < 0.4:
            made.flags.add("PRIORITY")
            made.depends_on, made.stream_weight, made.exclusive = found.randrange(1 << 31), found.randrange(256), found.random() < 0.5
    elif kind == 2:
        made = frames.PriorityFrame(stream, depends_on=found.randrange(1 << 31), stream_weight=found.randrange(256), exclusive=found.random() < 0.5)
    elif kind == 3:
        code = found.randrange(1 << 32)
        made, form = frames.RstStreamFrame(stream, code), f"c{code}"
    elif kind == 4:
        # hyperframe 6.0 writes only the low eight bits of an identifier.
        settings = {found.randrange(1 << 8): found.randrange(1 << 32) for _ in range(found.randrange(5))}
        made = frames.SettingsFrame(0, settings)
        form = "s" + ",".join(f"{name}={value}" for name, value in made.settings.items()) if settings else "-"
    elif kind == 5:
        made = frames.PushPromiseFrame(stream, promised_stream_id=2 * found.randrange(1, 1 << 30), data=octets_of(found))
        padding(found, made)
    elif kind == 6:
        made = frames.PingFrame(0, bytes(found.randrange(256) for _ in range(8)))
    elif kind == 7:
        made = frames.GoAwayFrame(0, last_stream_id=found.randrange(1 << 31), error_code=found.randrange(1 << 32), additional_data=octets_of(found))
    elif kind == 8:
        step = found.randrange(1, 1 << 31)
        made, form = frames.WindowUpdateFrame(found.choice([0, stream]), step), f"w{step}"
    elif kind == 9:
        made = frames.ContinuationFrame(stream, octets_of(found))
    else:
        made = frames.ExtensionFrame(found.randrange(10, 256), stream_id=stream, flag_byte=found.randrange(256), body=octets_of(found))
        made.body_len = len(made.body)  # hyperframe sets it only when it parses.
    if not isinstance(made, frames.ExtensionFrame):
        for flag in made.defined_flags:
            if flag.name in ("END_STREAM", "END_HEADERS") and found.random() < 0.5:
                made.flags.add(flag.name)
    return made, form


def lines(program, found, count, report):
    """Random frames of hyperframe: the line that `dis` writes has its type, flags, stream and payload, and `asm` gives the octets again."""
    for _ in range(count):
        made = [any_frame(found) for _ in range(60)]
        octets = [frame.serialize() for frame, _ in made]
        front, rest = found.choice([(b"", b""), (PREFACE, b""), (PREFACE, octets_of(found, 9)), (b"", octets_of(found, 9))])
        script = program.dis(front + b"".join(octets) + rest)
        report(program.asm(script) == front + b"".join(octets) + rest, "asm of dis", script)
        wanted = (["PREFACE"] if front else []) + [None] * len(made) + ([f"RAW {rest.hex()}"] if rest else [])
        written = script.splitlines()
        if not report(len(written) == len(wanted), "the number of lines", script):
            continue
        at = 1 if front else 0
        report([w for w in wanted if w] == [written[i] for i, w in enumerate(wanted) if w], "PREFACE and RAW", script)
        for line, (frame, form), spelled in zip(written[at:], made, octets):
            name, flags, stream, payload = line.split(" ", 3)
            kind = spelled[3]
            report(name == (NAMES[kind] if kind < 10 else f"T{kind:02x}"), "the name of a type", line, spelled.hex())
            report(int(flags, 16) == spelled[4] and int(stream) == frame.stream_id, "flags and stream", line, spelled.hex())
            if form:
                report(payload == form, "a payload", line, form)
            elif payload[0] == "x" or payload == "-":
                report(bytes.fromhex(payload[1:]) == spelled[9:], "a payload as hex", line, spelled.hex())
            else:
                report(payload[0] == "h" and kind in (1, 9), "a payload as a field block", line, spelled.hex())
