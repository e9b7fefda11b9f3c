#!/usr/bin/env python3
"""Plays all dialogues with the clients that are installed, and writes docs/CLIENTS.md.

    tests/judge_clients.py run [CLIENT..]      plays them with these clients, or all; the results go to out/clients/CLIENT.json
    tests/judge_clients.py show CLIENT WORD..  plays those whose title has the words, and shows the frames
    tests/judge_clients.py write               docs/CLIENTS.md from the results, and what tests/clients/judged/looked-at.tsv says of them by hand

Debian's packages: curl nghttp2-client nodejs golang-go golang-golang-x-net-dev python3-h2 python3-httpx librust-h2-dev cargo libprotocol-http2-perl ruby ruby-http-2. What is
not installed is skipped. Traffic is on 127.0.0.1 alone. PATIENCE is the seconds for a silent client (9), JOBS how many dialogues run side by side (2); with ONLY those are
played again whose title has these words, and the other results are kept.
"""

import concurrent.futures
import datetime
import glob
import json
import os
import re
import shutil
import subprocess
import sys
import tempfile
import types

sys.dont_write_bytecode = True
import dialogues as runner  # noqa: E402

TOP = runner.TOP
CLIENTS = f"{TOP}/tests/clients/judged"
KEPT = f"{TOP}/out/clients"
PAGE = f"{TOP}/docs/CLIENTS.md"
LOOKED_AT = f"{CLIENTS}/looked-at.tsv"
PYTHON = "/usr/bin/python3"
# Each client: what it is, the command that prints its version, and what that has in common with no other text.
KNOWN = {
    "curl": ("curl", ["curl", "--version"], r"curl ([\d.]+).*(nghttp2/[\d.]+)"),
    "nghttp": ("nghttp", ["nghttp", "--version"], r"nghttp (nghttp2/[\d.]+)"),
    "h2load": ("h2load", ["h2load", "--version"], r"h2load (nghttp2/[\d.]+)"),
    "node": ("node's http2", ["node", "-p", "'node ' + process.version.slice(1) + ' nghttp2/' + process.versions.nghttp2"], r"node ([\d.]+) (nghttp2/[\d.]+)"),
    "go": ("Go's x/net/http2", ["sh", "-c", "go version; dpkg-query -W golang-golang-x-net-dev"], r"go version go([\d.]+)[^$]*x-net-dev\s+1:([\d.]+)"),
    "rust": ("Rust's h2", ["dpkg-query", "-W", "librust-h2-dev"], r"librust-h2-dev\S*\s+([\d.]+)"),
    "hyper-h2": ("hyper-h2", [PYTHON, "-c", "import h2; print('h2', h2.__version__)"], r"h2 ([\d.]+)"),
    "httpx": ("httpx", [PYTHON, "-c", "import httpx, httpcore; print('httpx', httpx.__version__, 'httpcore', httpcore.__version__)"], r"httpx ([\d.]+) (httpcore [\d.]+)"),
    "perl": ("Perl's Protocol::HTTP2", ["perl", "-MProtocol::HTTP2", "-e", "print \"perl $Protocol::HTTP2::VERSION\""], r"perl ([\d.]+)"),
    "ruby": ("Ruby's http-2", ["ruby", "-e", "require 'http/2'; puts \"ruby #{HTTP2::VERSION}\""], r"ruby ([\d.]+)"),
}
# The files whose dialogues need more than GET /, by name.
OTHER_KINDS = ("upload", "two-requests", "next-request", "small-window")
# What a page shows of a verdict, and what it means. The first that a dialogue has counts.
SIGNS = [
    ("X", "broken", "breaks a MUST on the wire"),
    ("x", "unseen", "seems to break one; not looked at"),
    ("U", "user", "right on the wire, wrong word to its user"),
    ("S", "silent", "silent, or had to be killed"),
    ("m", "missing", "never sends the item of a step"),
    ("?", "open", "the RFC leaves it open, or the code is neither named nor generic"),
    ("L", "lingers", "right, but open after its own GOAWAY with an error (5.4.1)"),
    ("a", "allowed", "something else that the RFC allows"),
    ("=", "same", "what the dialogue says"),
    ("-", "skipped", "not run: the client has no such mode"),
]


def version_of(name):
    """What a client and its version are, or None where it is not installed."""
    said, command, pattern = KNOWN[name]
    if not shutil.which(command[0]):
        return None
    ran = subprocess.run(command, stdout=subprocess.PIPE, stderr=subprocess.DEVNULL, text=True, check=False)
    found = re.search(pattern, ran.stdout, re.S)
    return f"{said} {' with '.join(found.groups())}" if found else None


def build_go(folder):
    environment = {**os.environ, "GO111MODULE": "off", "GOFLAGS": "", "GOPATH": f"{folder}/go:/usr/share/gocode", "GOCACHE": f"{folder}/cache"}
    subprocess.run(["go", "build", "-o", f"{folder}/client", f"{CLIENTS}/client.go"], env=environment, check=True)
    return [f"{folder}/client"]


def build_rust(folder):
    shutil.copytree(f"{CLIENTS}/rust", f"{folder}/rust")
    config = ["--config", 'source.crates-io.replace-with="debian"', "--config", 'source.debian.directory="/usr/share/cargo/registry"']
    subprocess.run(["cargo", "build", "--release", "--offline", "--quiet", "--target-dir", f"{folder}/target", *config], cwd=f"{folder}/rust", check=True)
    return [f"{folder}/target/release/judged"]


def command_of(name, folder):
    """The command of a client, which is built in a folder where it has to be."""
    if name == "go":
        return build_go(folder)
    if name == "rust":
        return build_rust(folder)
    scripts = {"curl": ["bash", "curl.sh"], "nghttp": ["bash", "nghttp.sh"], "h2load": ["bash", "h2load.sh"], "node": ["node", "client.js"], "hyper-h2": [PYTHON, "hyper_h2.py"],
               "httpx": [PYTHON, "httpx_client.py"], "perl": ["perl", "client.pl"], "ruby": ["ruby", "client.rb"]}
    return [scripts[name][0], f"{CLIENTS}/{scripts[name][1]}"]


def program():
    return os.path.join(TOP, subprocess.run([f"{TOP}/h2_bench", "--which"], stdout=subprocess.PIPE, text=True, check=False, cwd=TOP).stdout.strip())


def all_dialogues(folder):
    """Each dialogue with its file's name and the kind of its client."""
    long = f"{folder}/long.h2"
    with open(long, "w", encoding="utf-8") as file:
        subprocess.run([f"{TOP}/dialogues/long.sh"], stdout=file, check=True)
    for path in [*sorted(glob.glob(f"{TOP}/dialogues/*.h2")), long]:
        name = os.path.basename(path)[:-3]
        for dialogue in runner.read_file(path, program()):
            yield name, name if name in OTHER_KINDS else "get", dialogue


# ---- a run


def shown(frame):
    """A frame in a line."""
    head = f"{runner.name_of(frame.kind)} {frame.flags:02x} {frame.stream & ~(1 << 31)}"
    if frame.kind == runner.GOAWAY and len(frame.payload) >= 8:
        return f"{head} last {runner.number_at(frame.payload, 0)} {runner.code_name(runner.number_at(frame.payload, 4))} {ascii(frame.payload[8:80].decode('latin1'))}"
    if frame.kind == runner.RST_STREAM and len(frame.payload) == 4:
        return f"{head} {runner.code_name(runner.number_at(frame.payload, 0))}"
    return f"{head} {frame.payload[:24].hex() or '-'}" + (f".. {len(frame.payload)} octets" if len(frame.payload) > 24 else "")


def played(dialogue, kind, command, upload, options):
    """What a client did in a dialogue, as values that JSON has."""
    said = []

    def run(port, _):
        status, output = runner.run_command([*command, kind, str(port), upload], options.limit + options.patience)
        said.append(output)
        return status

    connections, status = runner.play(dialogue, 0, options, run)
    if status == 9:
        return {"kind": "skipped", "verdicts": []}
    verdicts = runner.verdicts(dialogue, connections, status)
    log = [[kind, what if kind in ("step", "end") else shown(what)] for kind, what in connections[0].log] if connections else []
    log = log[:12] + log[-60:] if len(log) > 72 else log
    return {"kind": kind_of(verdicts), "verdicts": [list(one) for one in verdicts], "status": status, "output": said[0][-600:], "connections": len(connections), "log": log}


def kind_of(verdicts):
    kinds = {"silent" if one.found.startswith(("silent", "it had to be killed")) else one.kind for one in verdicts}
    return next((kind for _, kind, _ in SIGNS if kind in kinds), "same")


def run_clients(names):
    os.makedirs(KEPT, exist_ok=True)
    options = types.SimpleNamespace(program=program(), patience=float(os.environ.get("PATIENCE", "9")), limit=40)
    for name in names or KNOWN:
        if not version_of(name):
            print(f"{name}: skipped, not installed", flush=True)
            continue
        with tempfile.TemporaryDirectory() as folder:
            upload = f"{folder}/upload"
            with open(upload, "wb") as file:
                file.write(b"u" * 200000)
            command, only = command_of(name, folder), os.environ.get("ONLY", "")
            rows = [row for row in all_dialogues(folder) if only in row[2].title]
            with concurrent.futures.ThreadPoolExecutor(int(os.environ.get("JOBS", "2"))) as pool:
                results = list(pool.map(lambda row: played(row[2], row[1], command, upload, options), rows))
        found = [{"file": file, "title": dialogue.title, **result} for (file, _, dialogue), result in zip(rows, results)]
        if only:
            with open(f"{KEPT}/{name}.json", encoding="utf-8") as file:
                again = {row["title"]: row for row in found}
                found = [again.get(row["title"], row) for row in json.load(file)["dialogues"]]
        with open(f"{KEPT}/{name}.json", "w", encoding="utf-8") as file:
            json.dump({"version": version_of(name), "date": datetime.datetime.now(datetime.timezone.utc).strftime("%Y-%m-%d"), "dialogues": found}, file, indent=1)
        print(name, {kind: sum(row["kind"] == kind for row in found) for _, kind, _ in SIGNS}, flush=True)


def show(name, words):
    options = types.SimpleNamespace(program=program(), patience=float(os.environ.get("PATIENCE", "9")), limit=40)
    with tempfile.TemporaryDirectory() as folder:
        with open(f"{folder}/upload", "wb") as file:
            file.write(b"u" * 200000)
        command = command_of(name, folder)
        for _, kind, dialogue in all_dialogues(folder):
            if all(word in dialogue.title for word in words):
                result = played(dialogue, kind, command, f"{folder}/upload", options)
                print(f"{dialogue.title}: {result['kind']}", *result["verdicts"], sep="\n    ")
                print(*(f"    {kind} {what}" for kind, what in result.get("log", [])), f"    status {result.get('status')}: {result.get('output')}", sep="\n")


# ---- the page


def looked_at():
    """What was found by hand: (client, title), or (client, lingers), with a sentence."""
    with open(LOOKED_AT, encoding="utf-8") as file:
        return {tuple(line.rstrip("\n").split("\t")[:2]): line.rstrip("\n").split("\t")[2] for line in file if line.count("\t") == 2}


def octets_of(dialogue):
    """The octets of the frames up to the first line `;!`, of long ones the first."""
    frames = []
    for step in dialogue.steps:
        octets = [runner.octets_of(frame).hex() for frame in step.frames]
        frames += [text if len(text) <= 48 else text[:32] + ".." for text in octets]
        if step.wanted:
            break
    return " ".join(frames[:4]) + (" .." if len(frames) > 4 else "")


def short(title):
    """A title without the number of the RFC that most are of."""
    return title.replace("(RFC 9113, ", "(").replace("; RFC 9113, 6.7,", "; 6.7").replace("(RFC ", "(").replace("; RFC ", "; ")


def together(places):
    """Places `FILE N`, those of one file together: `blocks 2, 4; frames 1`."""
    numbers = {}
    for place in places:
        file, number = place.rsplit(" ", 1)
        numbers.setdefault(file, []).append(number)
    return "; ".join(f"{file} {', '.join(found)}" for file, found in numbers.items())


def wanted_of(dialogue):
    """The reaction that is wanted, with its duty where that is not MUST, and whether the client's user sees a success."""
    lines = next((step.wanted for step in dialogue.steps if step.wanted), [])
    words = [line.text.removeprefix("MUST ").replace("connection ", "C ").replace("stream ", "S").replace("_ERROR", "") for line in lines]
    ends = {"0": ["ok"], "!0": ["fails"]}.get(dialogue.statuses[0].text if dialogue.statuses else "", [])
    return "; ".join([" or ".join(words)] * bool(words) + ends)


def write():
    results = {}
    for name in KNOWN:
        if os.path.exists(f"{KEPT}/{name}.json"):
            with open(f"{KEPT}/{name}.json", encoding="utf-8") as file:
                results[name] = json.load(file)
    seen = looked_at()
    kinds = {(name, row["title"]): row["kind"] for name, result in results.items() for row in result["dialogues"]}
    for key, kind in kinds.items():
        if kind in ("broken", "user", "silent") and key not in seen:
            kinds[key] = "unseen"
    with tempfile.TemporaryDirectory() as folder:
        dialogues = list(all_dialogues(folder))
    with open(PAGE, "w", encoding="utf-8") as file:
        file.write("\n".join(page(results, seen, kinds, dialogues)) + "\n")
    unused = sorted(key for key in seen if key[1] != "lingers" and kinds.get(key) not in ("broken", "user", "silent", "open", "missing", "lingers"))
    print(*(f"looked-at.tsv: {name}: {title}: {kinds.get((name, title))} now" for name, title in unused), sep="\n")


def page(results, seen, kinds, dialogues):
    signs = {kind: sign for sign, kind, _ in SIGNS}
    names = list(results)
    dates = sorted({result["date"] for result in results.values()})
    yield from ["# What clients do", "",
                f"The {len(dialogues)} [dialogues](../dialogues/README.md) with {len(names)} clients, on {' to '.join(dates)}. `tests/judge_clients.py` writes this page. These are the versions",
                "of Debian 12 (node's is newer), most of 2022 and 2023: look at a newer one before you write to an author. Each `X`, `U` and `S` was read as frames by hand.", ""]
    yield from [f"- `{name}`: {result['version']}" for name, result in results.items()]
    yield from ["", "| | | " + " | ".join(names) + " |", "|---|---|" + "---|" * len(names)]
    for sign, kind, said in SIGNS:
        counts = [sum(one == kind for (client, _), one in kinds.items() if client == name) for name in names]
        if any(counts):
            yield f"| `{sign}` | {said} | " + " | ".join(map(str, counts)) + " |"
    named, places = {}, {}
    for file, _, dialogue in dialogues:
        places[file] = places.get(file, 0) + 1
        named[dialogue.title] = f"{file} {places[file]}"
    yield from ["", "## Found", "", "`blocks 2` is the second dialogue of dialogues/blocks.h2; [All](#all) has its title, [Octets](#octets) what the client got. Go's first stream is 3",
                "where 1 is written. *Takes it*: it answers the PING after the octets, and its user gets the response as if nothing had been."]
    for name, result in results.items():
        rows = [row for row in result["dialogues"] if (name, row["title"]) in seen and kinds[name, row["title"]] in ("broken", "user", "silent")]
        by_sentence = {}
        for row in rows:
            by_sentence.setdefault((kinds[name, row["title"]], seen[name, row["title"]]), []).append(named[row["title"]])
        lingers = [named[row["title"]] for row in result["dialogues"] if row["kind"] == "lingers"]
        if lingers and (name, "lingers") in seen:
            by_sentence["lingers", seen[name, "lingers"]] = lingers
        yield from ["", f"### {name}", ""] * bool(by_sentence)
        yield from [f"- `{signs[kind]}` {together(found)}: {sentence}." for (kind, sentence), found in by_sentence.items()]
    yield from ["", "## All", "", "Wanted: `-` it goes on, `C` a connection error, `S1` an error of stream 1; all MUST where no other word is there. `ok`, `fails`: what its user has to see.", "",
                "| | Dialogue | Wanted | " + " | ".join(names) + " |", "|---|---|---|" + "---|" * len(names)]
    for _, _, dialogue in dialogues:
        row = "|".join(signs[kinds[name, dialogue.title]] for name in names)
        yield f"|{named[dialogue.title]}|{short(dialogue.title)}|{wanted_of(dialogue)}|{row}|"
    yield from ["", "## Octets", "", "The frames to the client of each dialogue that one failed.", "", "| | Octets |", "|---|---|"]
    for _, _, dialogue in dialogues:
        if any(kinds[name, dialogue.title] in ("broken", "user", "silent", "unseen") for name in names):
            yield f"|{named[dialogue.title]}|`{octets_of(dialogue)}`|"


def main(word="", *more):
    if word == "run" and all(name in KNOWN for name in more):
        run_clients(more)
    elif word == "show" and more and more[0] in KNOWN:
        show(more[0], more[1:])
    elif word == "write" and not more:
        write()
    else:
        sys.exit(__doc__)


if __name__ == "__main__":
    main(*sys.argv[1:])
