"""HPACK: decoder, encoder and header table against RFC 7541's Appendix C and python3-hpack."""

import glob
import json
import re

import hpack
from hpack.hpack import encode_integer
from hpack.huffman import HuffmanEncoder
from hpack.huffman_constants import REQUEST_CODES, REQUEST_CODES_LENGTH
from hpack.table import HeaderTable

import appendix_c
from program import PREFACE, SETTINGS, frame

NAMES = [b"x-a", b"x-b", b"accept", b"user-agent", b"cookie", b"x-" + b"long" * 20, b"etag"]
MODES = {"a": (0x40, 6), "n": (0x00, 4), "v": (0x10, 4)}
huffman = HuffmanEncoder(REQUEST_CODES, REQUEST_CODES_LENGTH)


def headers_frames(found, block, stream):
    """One HEADERS with END_STREAM, or HEADERS and CONTINUATION cut at a random place."""
    if len(block) < 2 or found.random() < 0.5:
        return [frame(1, 5, stream, block)]
    cut = found.randrange(len(block) + 1)
    return [frame(1, 1, stream, block[:cut]), frame(9, 4, stream, block[cut:])]


def text_of(octets):
    plain = lambda o: 0x20 <= o <= 0x7E and o not in b"\"'\\"
    return "".join(chr(o) if plain(o) else f"\\{o:02x}" for o in octets)


class Instructions:
    """Random instructions over a table: their octets by python3-hpack's integers and Huffman code, their script, and the fields that they mean."""

    def __init__(self, found):
        self.found, self.table = found, HeaderTable()

    def text(self, octets):
        coded = self.found.random() < 0.5
        body = huffman.encode(octets) if coded else octets
        length = encode_integer(len(body), 7)
        length[0] |= 0x80 if coded else 0
        quote = "'" if coded else '"'
        return bytes(length) + body, quote + text_of(octets) + quote

    def value(self):
        kind = self.found.random()
        if kind < 0.1:
            return b""
        if kind < 0.3:
            return bytes(self.found.randrange(256) for _ in range(self.found.randrange(40)))
        return bytes(self.found.choice(b"abcdefghij0123456789-/. ") for _ in range(self.found.choice([1, 5, 20, 130, 300])))

    def update(self):
        size = self.found.choice([0, 31, 64, 200, 1337, 4096])
        self.table.maxsize = size
        octets = encode_integer(size, 5)
        octets[0] |= 0x20
        return bytes(octets), f"u{size}"

    def indexed(self):
        index = self.found.randrange(1, 62 + len(self.table.dynamic_entries))
        octets = encode_integer(index, 7)
        octets[0] |= 0x80
        name, value = self.table.get_by_index(index)
        return bytes(octets), f"i{index}", (bytes(name), bytes(value))

    def literal(self):
        mode = self.found.choice("anv")
        first, prefix = MODES[mode]
        value = self.value()
        value_octets, value_text = self.text(value)
        if self.found.random() < 0.5:
            index = self.found.randrange(1, 62 + len(self.table.dynamic_entries))
            octets = encode_integer(index, prefix)
            octets[0] |= first
            name, name_text = bytes(self.table.get_by_index(index)[0]), str(index)
            name_octets = bytes(octets)
        else:
            name = self.found.choice(NAMES)
            spelled, name_text = self.text(name)
            name_octets = bytes([first]) + spelled
        if mode == "a":
            self.table.add(name, value)
        return name_octets + value_octets, f"{mode}{name_text}={value_text}", (name, value)

    def block(self):
        """Octets, script and fields."""
        parts = [(*self.update(), None) for _ in range(self.found.choice([0, 0, 0, 1, 2]))]
        for _ in range(self.found.randrange(1, 9)):
            parts.append(self.indexed() if self.found.random() < 0.4 else self.literal())
        return b"".join(p[0] for p in parts), ",".join(p[1] for p in parts), [p[2] for p in parts if p[2]]


def same_table(place, table, size=None):
    entries = [(bytes(name), bytes(value)) for name, value in table.dynamic_entries]
    total = sum(len(name) + len(value) + 32 for name, value in entries)
    return place.entries == entries and place.table == (len(entries), total, table.maxsize) and size in (None, total)


def appendix(program, found, count, report):
    """RFC 7541, Appendix C: the table after each block, and the spelling of single instructions."""
    for name, size, blocks in appendix_c.SEQUENCES:
        data, ends, stream, first = PREFACE + SETTINGS, [], 1, b"" if size == 4096 else bytes.fromhex("3fe101")
        for text, _, _ in blocks:
            data += frame(1, 5, stream, first + bytes.fromhex(text))
            stream, first = stream + 2, b""
        places = program.play_each(data)
        for at, (text, entries, total) in enumerate(blocks):
            place = places[3 + at]
            wanted = [(n.encode(), v.encode()) for n, v in entries]
            report(place.entries == wanted and place.table == (len(wanted), total, size), f"Appendix {name}, block {at + 1}", place.entries)
    for name, script, text in appendix_c.SPELLINGS:
        spelled = program.asm(f"HEADERS 04 1 h{script}\n")[9:]
        written = program.dis(frame(1, 4, 1, bytes.fromhex(text)))
        report(spelled.hex() == text and written == f"HEADERS 04 1 h{script}\n", f"Appendix {name}, {script}", spelled.hex(), written)


def constants(program, found, count, report):
    """Appendices A and B as python3-hpack has them: each entry's name and size, each octet's code both ways."""
    for index, (name, value) in enumerate(HeaderTable.STATIC_TABLE, 1):
        literal = encode_integer(index, 6)
        literal[0] |= 0x40
        place = program.play(PREFACE + SETTINGS + frame(1, 5, 1, bytes(literal) + b"\x00"))
        report(place.entries == [(name, b"")], "the name of a static entry", index, place.entries)
        place = program.play(PREFACE + SETTINGS + frame(1, 1, 1, bytes([0x80 | index])))
        report(place.block.get("list") == str(len(name) + len(value) + 32), "the size of a static entry", index, place.block)
    for octet in range(256):
        for text in (bytes([octet]), bytes([octet, 48, octet]), bytes([octet] * 9)):
            coded = huffman.encode(text)
            literal = b"\x40\x01x" + bytes([0x80 | len(coded)]) + coded
            report(program.asm(f"HEADERS 04 1 ha\"x\"='{text_of(text)}'\n")[9:] == literal, "the code of an octet", octet)
            place = program.play(PREFACE + SETTINGS + frame(1, 5, 1, literal))
            report(place.entries == [(b"x", text)], "an octet of a code", octet, place.entries)


def decoder(program, found, count, report):
    """Random blocks, whole or cut in two: the header table after each block is that of python3-hpack's decoder."""
    for _ in range(count):
        made, decoders, data, wanted = Instructions(found), hpack.Decoder(), PREFACE + SETTINGS, []
        for stream in range(1, 61, 2):
            octets, script, fields = made.block()
            got = [(bytes(n), bytes(v)) for n, v in decoders.decode(octets, raw=True)]
            report(got == fields, "python3-hpack reads the fields that were meant", script)
            frames = headers_frames(found, octets, stream)
            data += b"".join(frames)
            copy = HeaderTable()
            copy.maxsize = decoders.header_table.maxsize
            copy.dynamic_entries.extend(decoders.header_table.dynamic_entries)
            wanted.append((len(frames), copy, script))
        places, at = program.play_each(data), 2
        for frames, table, script in wanted:
            at += frames
            report(len(places) > at and same_table(places[at], table), "the header table after a block", script, data.hex())


def encoder_of_hpack(program, found, count, report):
    """Requests by python3-hpack's encoder, its table size changing: the header table after each block, and the answer that each request gets."""
    paths = [f"/{n}" for n in range(8)]
    answers = [f"GET|{path}|{201 + n}|" for n, path in enumerate(paths)]
    for _ in range(count):
        encoder, data, wanted = hpack.Encoder(), PREFACE + SETTINGS, []
        for stream in range(1, 61, 2):
            if found.random() < 0.2:
                encoder.header_table_size = found.choice([0, 100, 500, 4096])
            n = found.randrange(8)
            fields = [(b":method", b"GET"), (b":scheme", b"http"), (b":path", paths[n].encode())]
            for _ in range(found.randrange(6)):
                value = bytes(found.choice(b"abcdefgh0123456789") for _ in range(found.randrange(60)))
                fields.append(hpack.NeverIndexedHeaderTuple(b"authorization", value) if found.random() < 0.1 else (found.choice(NAMES), value))
            block = encoder.encode(fields, huffman=found.random() < 0.5)
            data += frame(1, 5, stream, block)
            copy = HeaderTable()
            copy.maxsize = encoder.header_table.maxsize
            copy.dynamic_entries.extend(encoder.header_table.dynamic_entries)
            wanted.append((stream, 201 + n, copy))
        places = program.play_each(data, answers)
        for at, (stream, status, table) in enumerate(wanted):
            place = places[3 + at]
            report(same_table(place, table), "the header table after a request", data.hex())
            response = hpack.Decoder().decode(place.sent[9:], raw=True)
            report(response == [(b":status", str(status).encode())], "the answer that a request gets", response, status)


def broken(program, found, count, report):
    """Blocks with octets changed, dropped or added: an error of one decoder is an error of the other, and without one the tables are the same."""
    differ = 0
    for _ in range(count * 20):
        made = Instructions(found)
        before, _, _ = made.block()
        block = bytearray(made.block()[0])
        for _ in range(found.randrange(1, 4)):
            at = found.randrange(len(block) + 1)
            kind = found.randrange(3)
            if kind == 0 and at < len(block):
                block[at] ^= 1 << found.randrange(8)
            elif kind == 1:
                block[at:at + 1] = b""
            else:
                block.insert(at, found.choice([0, 0x1F, 0x3F, 0x7F, 0x80, 0xFF, found.randrange(256)]))
        place = program.play(PREFACE + SETTINGS + frame(1, 5, 1, before) + b"".join(headers_frames(found, bytes(block), 3)))
        decoders = hpack.Decoder()
        decoders.decode(before, raw=True)
        try:
            decoders.decode(bytes(block), raw=True)
            refused = False
        except hpack.HPACKError:
            refused = True
        if place.phase == "ended 9" and not refused and re.search(rb"[\x80-\xff]{5}", bytes(block)):
            differ += 1  # An integer of more than five continuation octets, which this server refuses.
            continue
        same = place.phase == "ended 9" if refused else place.phase == "running" and same_table(place, decoders.header_table)
        report(same, "a broken block", place.phase, f"python3-hpack refuses: {refused}", bytes(before).hex(), bytes(block).hex())
    if differ:
        print(f"  {differ} blocks with an integer of more than five continuation octets, which this server refuses")


def spelled(program, found, count, report):
    """Scripts of random instructions: `asm` gives the octets of python3-hpack's integers and Huffman code, which its decoder reads, and `dis` the script."""
    for _ in range(count):
        made, decoders, lines, wanted, meant = Instructions(found), hpack.Decoder(), [], b"", []
        for stream in range(1, 41, 2):
            octets, script, fields = made.block()
            lines.append(f"HEADERS 05 {stream} h{script}\n")
            wanted += frame(1, 5, stream, octets)
            meant.append(fields)
        octets = program.asm("".join(lines))
        report(octets == wanted, "asm of instructions", lines)
        report(program.dis(octets) == "".join(lines), "dis of instructions", lines)
        at = 0
        for fields in meant:
            length = int.from_bytes(octets[at:at + 3], "big")
            got = [(bytes(n), bytes(v)) for n, v in decoders.decode(octets[at + 9:at + 9 + length], raw=True)]
            report(got == fields, "python3-hpack reads what asm wrote", fields)
            at += 9 + length


def tables(program, found, count, report):
    """`table`: counts, sizes and entries are those of python3-hpack's table."""
    for _ in range(count * 4):
        limit = found.choice([0, 40, 100, 1000, 4096, 65536])
        table, lines, wanted = HeaderTable(), [], []
        table.maxsize = limit
        for _ in range(60):
            if found.random() < 0.15:
                size = found.choice([0, 33, 90, 700, limit, limit + 1])
                lines.append(b"max %d" % size)
                if size > limit:
                    wanted.append("fault 3")
                    continue
                table.maxsize = size
            else:
                name, value = found.choice(NAMES), bytes(found.choice(b"ab \xff") for _ in range(found.randrange(120)))
                lines.append(b"add " + name + b" " + value)
                table.add(name, value)
            total = sum(len(n) + len(v) + 32 for n, v in table.dynamic_entries)
            wanted.append(f"{len(table.dynamic_entries)} {total} {table.maxsize}")
        for at, (name, value) in enumerate(table.dynamic_entries):
            wanted.append(f"entry {62 + at} {bytes(name).hex()} {bytes(value).hex() or '-'}")
        report(program.table(limit, lines) == wanted, "table", limit, lines)


def stories(program, folder, report):
    """hpack-test-case: the table after each block of a story is that of python3-hpack's decoder, whose fields are those of the story."""
    for path in sorted(glob.glob(f"{folder}/**/story_*.json", recursive=True)):
        cases = json.load(open(path, encoding="utf-8"))["cases"]
        if not all("wire" in case for case in cases) or any(case.get("header_table_size", 4096) > 4096 for case in cases):
            continue
        decoders, data, wanted = hpack.Decoder(), PREFACE + SETTINGS, []
        for at, case in enumerate(cases):
            block = bytes.fromhex(case["wire"])
            fields = [(n.decode(), v.decode()) for n, v in decoders.decode(block, raw=True)]
            meant = [next(iter(field.items())) for field in case["headers"]]
            report(fields == meant, path)
            data += frame(1, 5, 2 * at + 1, block)
            copy = HeaderTable()
            copy.maxsize = decoders.header_table.maxsize
            copy.dynamic_entries.extend(decoders.header_table.dynamic_entries)
            wanted.append(copy)
        places = program.play_each(data)
        for at, table in enumerate(wanted):
            report(same_table(places[3 + at], table), f"{path}, block {at}")
