"""h2_bench in Python: what an HTTP/2 server must do with the octets of a client, and why.

    import h2_bench
    connection = h2_bench.Connection(["GET|/|200|6869"], streams=10)
    for item in connection.feed(octets):
        print(item.item, item.words, item.error and item.error.cause, [sent.words for sent in item.sent])

It calls libh2_bench.so, whose one function is proved to do what the commands of h2_bench do, and needs no other package. docs/EMBED.md says what is proved
and what is not. The library is the file that the environment's H2_BENCH_LIBRARY names; else that of `tools/lib.sh`, of the release, or the installed one.
"""

from __future__ import annotations

import ctypes
import json
import os
import threading
from dataclasses import MISSING, dataclass, field, fields, is_dataclass
from typing import Any, Iterable, Mapping, NamedTuple, Optional, Sequence, Union, get_args, get_origin, get_type_hints

__all__ = [
    "Accepted", "Allowed", "AnswerLeft", "Change", "Code", "Connection", "Counted", "End", "Entry", "Error", "Fault", "Field", "Frame", "Ignored", "Item", "Payload", "Ran",
    "Reactions", "RequestLeft", "Sent", "Setting", "Spelling", "Verdict", "Wait", "Warned", "assemble", "check", "disassemble", "explain", "run",
]

VERSION = 1  # of what the library takes and gives; that of the JSON is Item.version of item 0


class Fault(Exception):
    """The library refused something. `number` is that of docs/FORMATS.md, `sentence` says why, `line` is the line of a script that is bad, else 0."""

    def __init__(self, number: int, sentence: str, line: int = 0) -> None:
        super().__init__(f"fault {number}: {sentence}")
        self.number, self.sentence, self.line = number, sentence, line


class Ran(NamedTuple):
    """What a command printed, its exit status, and the sentence that says why something was refused, or nothing."""

    printed: bytes
    status: int
    sentence: str


# ---- what an item is: the objects of docs/explain.schema.json, with its names. Octets are bytes here, cut where `full` is off; a list is a tuple.


@dataclass(frozen=True)
class Code:
    """An error code (RFC 9113, 7)."""

    name: str
    number: int


@dataclass(frozen=True)
class Frame:
    """The head of a frame; `registered` is the name of a type that the server does not use."""

    flags: int
    length: int
    stream: int
    type: str
    type_number: int
    registered: Optional[str] = None


@dataclass(frozen=True)
class Setting:
    """A setting of SETTINGS; `registered` is the name of one that the server does not use."""

    id: int
    name: str
    value: int
    registered: Optional[str] = None


@dataclass(frozen=True)
class Payload:
    """The parts of a frame's payload: those that its type has."""

    code: Optional[Code] = None
    content: Optional[bytes] = None
    debug: Optional[bytes] = None
    dependency: Optional[int] = None
    exclusive: Optional[bool] = None
    fragment: Optional[bytes] = None
    increment: Optional[int] = None
    last_stream: Optional[int] = None
    octets: Optional[bytes] = None
    padding: Optional[int] = None
    settings: Optional[tuple[Setting, ...]] = None
    weight: Optional[int] = None


@dataclass(frozen=True)
class Spelling:
    """How a field was written (RFC 7541, 6)."""

    kind: str
    index: Optional[int] = None
    name_huffman: Optional[bool] = None
    name_index: Optional[int] = None
    value_huffman: Optional[bool] = None


@dataclass(frozen=True)
class Field:
    """A field of a block."""

    name: bytes
    spelling: Spelling
    value: bytes


@dataclass(frozen=True)
class Entry:
    """What became of an entry of the client's header table: `what` is `entered` or `evicted`, `octets` its size."""

    name: bytes
    octets: int
    value: bytes
    what: str


@dataclass(frozen=True)
class Sent:
    """A frame that the server sends for the item."""

    frame: Frame
    octets: bytes
    payload: Payload
    words: str
    fields: tuple[Field, ...] = ()


@dataclass(frozen=True)
class Reactions:
    """Codes of a connection error and of a stream error, and other reactions."""

    connection: tuple[str, ...]
    other: tuple[str, ...]
    stream: tuple[str, ...]


@dataclass(frozen=True)
class Allowed:
    """What a server may do by a rule: `least` it has to; `open` is what one sentence of the RFC speaks for and another against."""

    connection: tuple[str, ...]
    least: str
    open: Reactions
    other: tuple[str, ...]
    stream: tuple[str, ...]


@dataclass(frozen=True)
class Error:
    """Why an item is an error. `scope` is `connection` or `stream`, `server` how far the RFC decides the server's reaction, `client` what the client broke."""

    cause: str
    client: str
    client_section: str
    code: Code
    scope: str
    section: str
    sentence: str
    server: str
    allowed: Optional[Allowed] = None
    also: tuple[str, ...] = ()
    case: Optional[str] = None


@dataclass(frozen=True)
class Ignored:
    """Why a frame is ignored; the members are as of an error."""

    client: str
    client_section: str
    reason: str
    section: str
    sentence: str
    server: str
    allowed: Optional[Allowed] = None
    case: Optional[str] = None


@dataclass(frozen=True)
class Accepted:
    """A rule by which an item is accepted that another server may refuse; the members are as of an error."""

    allowed: Allowed
    client: str
    client_section: str
    name: str
    section: str
    sentence: str
    server: str


@dataclass(frozen=True)
class Warned:
    """A rule that the client broke and that the server let pass."""

    name: str
    section: str
    sentence: str


@dataclass(frozen=True)
class Change:
    """What an item changed, of a stream or, with `stream` 0, of the connection: the members that such a change has. A limit that is not there is None."""

    stream: int
    what: str
    after: Union[int, bool, str, None] = None
    before: Union[int, bool, str, None] = None
    connection_window: Optional[int] = None
    content_length: Optional[int] = None
    end_stream: Optional[bool] = None
    list_size: Optional[int] = None
    octets: Optional[int] = None
    receive_window: Optional[int] = None
    send_window: Optional[int] = None
    stream_window: Optional[int] = None


@dataclass(frozen=True)
class Item:
    """An item of the client: the preface, a frame; item 0 is the server's opening. `json` is the object that it was read from."""

    item: int
    octets: bytes
    offset: int
    sent: tuple[Sent, ...]
    words: str
    accepted: tuple[Accepted, ...] = ()
    changes: tuple[Change, ...] = ()
    error: Optional[Error] = None
    fields: tuple[Field, ...] = ()
    frame: Optional[Frame] = None
    ignored: Optional[Ignored] = None
    payload: Optional[Payload] = None
    table: tuple[Entry, ...] = ()
    table_updates: tuple[int, ...] = ()
    version: Optional[int] = None
    warnings: tuple[Warned, ...] = ()
    json: Mapping[str, Any] = field(default_factory=dict, repr=False, compare=False)


@dataclass(frozen=True)
class Counted:
    """How often a cause was an error."""

    cause: str
    count: int


@dataclass(frozen=True)
class Verdict:
    """What `--strict` says of the client: `broken`, `limited` and `unfinished` are the statuses 5, 6 and 7."""

    broken: bool
    errors: tuple[Counted, ...]
    limited: bool
    unfinished: bool
    warnings: int


@dataclass(frozen=True)
class RequestLeft:
    """What the client may still send of a request; `missing` are the octets that its content-length says, else None."""

    connection_window: int
    missing: Optional[int]
    owed: int
    returned_at: int
    window: int


@dataclass(frozen=True)
class AnswerLeft:
    """What the server has still to send of an answer, and the windows for it."""

    connection_window: int
    remaining: int
    window: int


@dataclass(frozen=True)
class Wait:
    """What a live stream waits for."""

    answer: Optional[AnswerLeft]
    request: Optional[RequestLeft]
    stream: int


@dataclass(frozen=True)
class End:
    """What is after the last item: how many `octets` of no whole item, at `offset`. `code` is that of the connection error that ended the connection, if one did;
    else the next item `needs` so many octets."""

    ended: bool
    items: int
    octets: int
    offset: int
    at_least: Optional[bool] = None
    code: Optional[int] = None
    frame: Optional[Frame] = None
    needs: Optional[int] = None
    verdict: Optional[Verdict] = None
    waits: tuple[Wait, ...] = ()
    warnings: tuple[Warned, ...] = ()
    json: Mapping[str, Any] = field(default_factory=dict, repr=False, compare=False)


def _octets(found: Mapping[str, Any]) -> bytes:
    return bytes.fromhex(found["hex"])


def _reader(kind: Any) -> Any:
    """What makes a value of this type of one of JSON; None where it is one already."""
    parts = get_args(kind)
    if get_origin(kind) is tuple:
        each = _reader(parts[0])
        return (lambda found: tuple(map(each, found))) if each else tuple
    if get_origin(kind) is Union:
        return _reader(parts[0])
    if is_dataclass(kind):
        return lambda found: _read(kind, found)
    return _octets if kind is bytes else None


# By the class its defaults, and what reads those members that are more than a text or a number.
_FORMS: dict[type, tuple[dict[str, Any], list[tuple[str, Any]]]] = {}


def _form(kind: Any) -> Any:
    readers = [(name, _reader(it)) for name, it in get_type_hints(kind).items() if name != "json"]
    return {it.name: it.default for it in fields(kind) if it.default is not MISSING}, [it for it in readers if it[1]]


def _read(kind: Any, found: Mapping[str, Any]) -> Any:
    """An object of JSON as a dataclass, in a third of the time of its `__init__`."""
    if kind not in _FORMS:
        _FORMS[kind] = _form(kind)
    defaults, readers = _FORMS[kind]
    given = {**defaults, **found}
    for name, reader in readers:
        if found.get(name) is not None:
            given[name] = reader(found[name])
    made = object.__new__(kind)
    object.__setattr__(made, "__dict__", given)
    return made


def _with_json(kind: Any, found: Mapping[str, Any]) -> Any:
    made = _read(kind, found)
    made.__dict__["json"] = found
    return made


# ---- the library


class _End(ctypes.Structure):
    """struct h2_bench_end of h2_bench.h."""

    _fields_ = [("fault", ctypes.c_uint8), ("status", ctypes.c_uint8), ("printed", ctypes.c_size_t), ("sentence", ctypes.c_size_t)]


_FAULTS = {1: "out of memory", 22: "a word or the name of the file is not UTF-8"}


class _Place(threading.local):
    """Where a thread's calls put what was printed; it grows, and is used again."""

    def __init__(self) -> None:
        self.out = ctypes.create_string_buffer(1 << 16)


_place = _Place()


def _load() -> Any:
    here = os.path.dirname(os.path.abspath(__file__))
    top = os.path.dirname(os.path.dirname(here))
    places = [f"{top}/out/lib", f"{top}/release", os.path.join(os.path.dirname(top), "lib")]
    named = os.environ.get("H2_BENCH_LIBRARY")
    found = [named] if named else [path for path in (f"{place}/libh2_bench.so" for place in places) if os.path.isfile(path)]
    call = ctypes.CDLL(found[0] if found else "libh2_bench.so").h2_bench_run
    call.restype = ctypes.c_size_t
    call.argtypes = [ctypes.c_char_p, ctypes.c_size_t] * 4 + [ctypes.c_void_p, ctypes.c_size_t, ctypes.POINTER(_End)]
    return call


_call = _load()


def run(words: Sequence[str], input: bytes = b"", name: str = "", file: bytes = b"") -> Ran:
    """Carries out a command: `words` are those of the command line without the program's name, as ["asm"], `input` is standard input. `file` is the one file
    that the command can read, under the path `name`. Raises Fault where memory does not suffice, or a word is no text."""
    if any("\n" in word for word in words):
        raise ValueError("a word has no line feed")
    said, path = "\n".join(["h2_bench", *words]).encode("utf-8", "surrogatepass"), name.encode("utf-8", "surrogatepass")
    end = _End()
    while True:
        out = _place.out
        count = _call(said, len(said), path, len(path), file, len(file), input, len(input), out, len(out), ctypes.byref(end))
        if end.fault != 2:
            break
        _place.out = ctypes.create_string_buffer(2 * (end.printed + end.sentence))
    if end.fault:
        raise Fault(end.fault if end.fault != 1 else 0, _FAULTS[end.fault])
    given = ctypes.string_at(out, count)
    return Ran(given[: end.printed], end.status, given[end.printed :].decode("utf-8", "replace").strip())


def _printed(words: Sequence[str], input: bytes, name: str = "", file: bytes = b"") -> bytes:
    """What a command prints; where it was refused, the fault is raised."""
    ran = run(words, input, name, file)
    if ran.status == 2:
        raise ValueError(ran.sentence or ran.printed.decode().strip())
    last = ran.printed[ran.printed.rfind(b"\n", 0, -1) + 1 :] if ran.status == 1 else b""
    if last.startswith(b"fault "):
        number, *place = map(int, last.split()[1:])
        raise Fault(number, ran.sentence, place[0] if place else 0)
    if last.startswith(b'{"fault"'):
        raise Fault(json.loads(last)["fault"]["number"], ran.sentence)
    return ran.printed


# ---- what it offers


class Connection:
    """A connection of a server with these answers, each METHOD|PATH|STATUS|BODYHEX, and these limits: `streams`, `credit`, `table`, `window`, `frame`.
    `book` is the text of a TOML file with further answers (docs/BOOKS.md), none with `body-file`.

    It is the octets so far: each call plays them from the first on, so feed what is there at once rather than octet by octet. With `full` off, long texts
    of items are cut to 100 octets."""

    def __init__(self, answers: Iterable[str] = (), *, book: Union[str, bytes] = b"", full: bool = True, **limits: int) -> None:
        unknown = set(limits) - {"streams", "credit", "table", "window", "frame"}
        if unknown:
            raise TypeError(f"no such limit: {', '.join(sorted(unknown))}")
        self._book = book.encode() if isinstance(book, str) else book
        named = ["--book=book.toml"] if self._book else []
        self._words = [*(f"--{name}={value}" for name, value in limits.items()), *named, "--", *answers]
        self._how = ["--json", "--strict", *(["--full"] if full else [])]
        self._hex: list[str] = []
        self._given = 0
        self._end: Optional[End] = None
        self.octets = b""

    @property
    def end(self) -> End:
        """What is after the last item of the octets so far."""
        if self._end is None:
            self._run()
        return self._end

    def _printed(self, command: str, *how: str) -> bytes:
        return _printed([command, *how, *self._words], "".join(self._hex).encode(), "book.toml" if self._book else "", self._book)

    def _run(self) -> list[bytes]:
        *items, last = self._printed("explain", *self._how).splitlines()
        self._end = _with_json(End, json.loads(last)["end"])
        return items

    def feed(self, octets: bytes) -> list[Item]:
        """Takes octets of the client, in any cut. Gives the items that are whole now and were not given before; the first call gives item 0 too, the
        server's opening. What comes after the last item is in `end`."""
        self._hex.append(bytes(octets).hex())
        self.octets += octets
        items = self._run()
        before, self._given = self._given, len(items)
        return [_with_json(Item, json.loads(line)) for line in items[before:]]

    def state(self) -> str:
        """The state after the octets so far, a line for each part, as docs/FORMATS.md has it."""
        return self._printed("play").decode().partition("\n")[2]

    def sent(self) -> bytes:
        """All octets that the server has sent so far, its opening first."""
        line = self._printed("play").partition(b"\n")[0]
        return bytes.fromhex(line.decode().removeprefix("sent "))

    def explain(self, *options: str) -> str:
        """The text of `explain` with these options, such as "--brief", "--errors", "--stream=1"."""
        return self._printed("explain", *options).decode()


def assemble(script: str) -> bytes:
    """The octets of a script (docs/FORMATS.md). Raises Fault 18 with its first bad line."""
    return bytes.fromhex(_printed(["asm"], script.encode("utf-8", "surrogatepass")).decode())


def disassemble(octets: bytes) -> str:
    """The script of octets: assembled, it is the same octets."""
    return _printed(["dis"], bytes(octets).hex().encode()).decode()


def explain(octets: bytes, answers: Iterable[str] = (), *options: str) -> str:
    """The text of `explain` for the octets of a new connection, with these answers and options."""
    return _printed(["explain", *options, "--", *answers], bytes(octets).hex().encode()).decode()


def check(case: str, name: str = "case.h2") -> str:
    """The results of the cases of a text as TAP (docs/CASES.md); `name` is what its file is called there. Their lines `;@` have limits and answers."""
    return _printed(["check", name], b"", name, case.encode("utf-8", "surrogatepass")).decode()
