#!/usr/bin/env python3
"""Makes docs/RULES.md from the sources, and checks what the documents say of the repository.

    tools/docs.py            writes docs/RULES.md: each cause of an error and each reason to ignore a frame, with its rule, both duties, where it is decided, its cases
    tools/docs.py --check    compares that page, and looks at all others; each fault is shown, and the last line is `N passed, M failed`, a thing looked up each

What is checked:

  - each cause, reason and special case has a definition, a function and a case, each cause its script in examples/causes and one place in the text of docs/TABLE.md;
  - the error that this script shows is one that the row of the cause allows, and of the scope that the laws have;
  - where TABLE.md has a cause in brackets with sections, as `(6.9.1; **own**; CAUSE)`, one of them is the section of its rule, of what the client had to do, or of one of
    its special cases, and **own** is there where the RFC demands nothing;
  - each file, link (with its heading), crate, path, function and type that README.md, CONTRIBUTING.md, CHANGELOG.md or docs/*.md names is there, and is in the file that is
    named with it: `feed` (feeding.rt), `feed` (h2_conn, feeding.rt);
  - each crate and file that a comment of a source names is there;
  - the ranges of limits and settings that sentences, help and the page have are those of `Config::is_allowed`;
  - docs/PROOFS.md counts the functions without a contract, and their lines, as `tools/calls.py --without` does;
  - README.md has at most 8 KB, and the pages of docs that are written by hand have at most 120 KB.

CRATE, NAME, TOPIC and FILE are any name in a path: `tests/runs/TOPIC.run`.
"""

import collections
import glob
import os
import re
import subprocess
import sys

MADE = "docs/RULES.md"
MADE_ELSEWHERE = ("docs/CLIENTS.md", "docs/SERVERS.md")
TABLE = "docs/TABLE.md"
Row = collections.namedtuple("Row", "variant name server section client client_section least connection stream also open_connection open_stream open_also sentence said")

# ---- the table of rules, as h2_spec has it

CLIENT = {"MustNot": "client MUST NOT", "Must": "client MUST", "Breach": "client breach", "Limit": "limit", "Nothing": "nothing"}
SERVER = {"Must": "server MUST", "Should": "server SHOULD", "May": "server MAY", "Own": "own"}
LEAST = {"Connection": "connection error", "Stream": "stream error", "Malformed": "malformed", "None": "none", "Ignore": "ignored", "Accept": "accepted"}
ALSO = {"ignore": "ignore", "accept": "accept", "wait": "wait", "answer": "4xx", "close": "close", "http1": "HTTP/1.1"}
# A row of a table of h2_spec, as its macro `column` reads it.
LISTED = re.compile(r'''
    "(?P<name>[^"]*)",\ (?P<server>\w+)\ "(?P<section>[^"]*)",\ (?P<client>\w+)\ "(?P<client_section>[^"]*)",\ (?P<least>\w+)
    \ \[(?P<connection>[^]]*)\]\ \[(?P<stream>[^]]*)\]\ \[(?P<also>[^]]*)\]
    (?:\ open\ \[(?P<open_connection>[^]]*)\]\ \[(?P<open_stream>[^]]*)\]\ \[(?P<open_also>[^]]*)\])?,\s*"(?P<sentence>(?:[^"\\]|\\.)*)";''', re.X)
# Definitions and functions that only translate a reason or a fault into a cause.
TRANSLATES = {"request_cause", "trailers_cause", "fault_cause", "cause_by"}
# Files of definitions that have the words of rules, or list them, and not when they hold.
WORDS = {"Cause", "CauseWords", "IgnoredWords", "Rules", "SpecialCases", "AcceptedWords", "ErrorContext", "Special", "Ignoring", "Account"}
# Crates whose functions decide; those above them speak of causes alone.
DECIDING = ["h2_frame", "h2_conn_rules", "h2_conn", "h2_spec"]
# The enums of the rows, as definitions import them.
MODULES = {"Cause": "causes.Cause", "Ignored": "ignored.Ignored", "SpecialCase": "special_cases.SpecialCase"}
# What decides where a translated reason or fault arises: (definition, its file), (function, its crate and file).
DECIDED = {
    "bad-name": ("has_bad_name Request.antt", "has_bad_name h2_hpack_validity/mark.rt"),
    "bad-value": ("has_bad_value Request.antt", "is_bad_value h2_hpack_validity/octets.rt"),
    "late-pseudo-field": ("is_late_pseudo Request.antt", "note h2_request_well_formed/walk.rt"),
    "unknown-pseudo-field": ("is_unknown_pseudo Request.antt", "note h2_request_well_formed/walk.rt"),
    "double-pseudo-field": ("is_double_pseudo Request.antt", "is_again h2_request_well_formed/walk.rt"),
    "lacking-pseudo-field": ("lacks_pseudo Request.antt", "lacks h2_request_well_formed/well_formed.rt"),
    "connection-field": ("is_of_connection Request.antt", "is_of_connection h2_hpack_validity/mark.rt"),
    "bad-te": ("has_bad_te Request.antt", "has_bad_te h2_hpack_validity/mark.rt"),
    "bad-content-length": ("has_bad_length, is_other_length Request.antt", "counted h2_request_well_formed/walk.rt"),
    "trailers-bad-name": ("has_bad_name Request.antt", "has_bad_name h2_hpack_validity/mark.rt"),
    "trailers-bad-value": ("has_bad_value Request.antt", "is_bad_value h2_hpack_validity/octets.rt"),
    "trailers-pseudo-field": ("is_pseudo Request.antt", "is_pseudo h2_hpack_validity/mark.rt"),
    "trailers-connection-field": ("is_of_connection Request.antt", "is_of_connection h2_hpack_validity/mark.rt"),
    "trailers-bad-te": ("has_bad_te Request.antt", "has_bad_te h2_hpack_validity/mark.rt"),
    "integer-too-long": ("groups_at Integer.antt", "read_int h2_prim/integer.rt"),
    "index-zero": ("index_fault Block.antt", "index_fault h2_fields/effect.rt"),
    "index-out-of-tables": ("index_fault, name_in Block.antt", "index_fault, read_literal h2_fields/effect.rt"),
    "huffman-string": ("huffman_text Huffman.antt", "huff_append h2_prim/huffman.rt"),
    "size-update-late": ("update_result Block.antt", "apply_update h2_fields/effect.rt"),
    "size-update-too-large": ("update_result Block.antt", "apply_update h2_fields/effect.rt"),
    "size-update-missing": ("where_not_due Block.antt, fragment_read Headers.antt", "apply_indexed, apply_literal h2_fields/effect.rt, refused_end h2_conn_rules/block.rt"),
    "block-truncated": ("fragment_read Headers.antt", "refused_end h2_conn_rules/block.rt"),
}
# Rules and definitions that have no cause: the topic, the files of definitions (of h2_spec where no crate is named), and what decides or does it.
TOPICS = [
    ("integers, Huffman strings (RFC 7541, 5)", "Integer.antt HuffmanCode.antt Huffman.antt", "read_int, write_int h2_prim/integer.rt, huff_read, huff_write h2_prim/huffman.rt, read_str h2_prim/string.rt"),
    ("the header tables (RFC 7541, 2.3 and 4)", "StaticTable.antt DynamicTable.antt", "static_field h2_table/static_table.rt, DynTable h2_table/dynamic_table.rt, Edit h2_table/edit.rt"),
    ("instructions and blocks (RFC 7541, 3 and 6)", "Instruction.antt Block.antt", "read_instr, write_instr h2_hpack_instruction/instruction.rt, decode_piece h2_fields/fragment.rt, Collected h2_fields/collected.rt, BlockDecoder h2_fields/block.rt"),
    ("frame heads, items, frames sent (RFC 9113, 3.4 and 4)", "Frame.antt FrameType.antt Octets.antt", "Splitter h2_frame/splitter.rt, read_head, write_frame h2_frame/head.rt"),
    ("padding counts for windows (6.1, 6.9)", "Effect.antt", "incoming h2_conn/data_frame.rt"),
    ("the states of streams, their records (5.1)", "Stream.antt", "Streams h2_streams/records.rt, server_ended h2_streams/kinds.rt, is_live h2_spec/streams.rt"),
    ("windows and credit as numbers (5.2, 6.9)", "Window.antt", "Window, Credit h2_spec/flow.rt"),
    ("PING, GOAWAY (6.7, 6.8)", "Effect.antt", "on_ping, on_goaway h2_conn_rules/control.rt"),
    ("the server's settings come into force (6.5.3)", "SettingsFrame.antt", "comes_into_force h2_conn_rules/settings.rt, on_acknowledged h2_conn/receive.rt, shift_recv h2_streams/records.rt, set_limit, due h2_table/dynamic_table.rt"),
    ("SETTINGS_INITIAL_WINDOW_SIZE moves windows (6.9.2)", "Change.antt", "shift_send h2_streams/records.rt, follows_initial_window h2_streams/shift.rt, new_stream h2_conn_rules/headers.rt"),
    ("ranges of the limits and settings given (6.5.2)", "State.antt", "is_allowed h2_spec/connection.rt, config_at h2_cmd_args/command.rt"),
    ("how the sides of a stream end, how an answer begins (8.1)", "StreamEnds.antt Headers.antt", "peer_ended, answered h2_conn_rules/ends.rt, request_outcome h2_conn_rules/headers.rt"),
    ("the book, its answers and their words (**own**)", "Answer.antt Book.antt AnswerWords.antt", "Book h2_request_book/book.rt, response_block h2_hpack_instruction/response.rt, parse_answer h2_cmd_play/answer.rt, add_answer h2_cmd_play/adding.rt"),
    ("how bodies are cut, in which order streams send", "SendPending.antt h2_spec_laws/Allowances.antt h2_spec_laws/Cutting.antt h2_spec_laws/Order.antt", "send_ready h2_conn_send/send_pending.rt, write_allowance h2_conn_send/pieces.rt, update_and_send h2_conn_send/send_update.rt"),
    ("whole runs, the opening", "Trace.antt Opening.antt h2_conn/Runs.antt", "open_and_feed, play h2_conn/play.rt, Conn h2_conn/conn.rt"),
    ("what is sent keeps to what is granted", "h2_spec_laws/Grants.antt h2_conn/Granted.antt", "grants_are_kept h2_spec_laws/grants_laws.rt"),
    ("the rows of this page", "Cause.antt Ignored.antt Rules.antt CauseWords.antt IgnoredWords.antt SpecialCases.antt", "Cause h2_spec/causes.rt, Ignored h2_spec/ignored.rt, SpecialCase h2_spec/special_cases.rt, case_of_error h2_explain_item/special.rt"),
    ("what is shown of a state", "View.antt Show.antt", "Shown, view h2_conn_view/view.rt"),
    ("warnings, what a live stream waits for, the verdict of `--strict`", "h2_explain_item/Warnings.antt h2_explain_item/FrameFacts.antt h2_explain_item/RunFacts.antt h2_explain_text/Waits.antt h2_explain/Verdicts.antt", "warnings_of h2_explain_item/warning.rt, frame_facts h2_explain_item/frame_facts.rt, run_facts h2_explain_item/run_facts.rt, wait_of h2_explain_text/waits.rt, Tally, ClientVerdict h2_explain/verdict.rt"),
]


def read(path):
    with open(path, encoding="utf-8") as file:
        return file.read()


def rows_of(module):
    """The rows of a table of h2_spec: causes, ignored, special_cases or accepted."""
    source = read(f"crates/h2_spec/src/{module}.rt")
    body = re.search(r"\npub enum \w+ \{\n(.*?)\n\}", source, re.S)[1]
    variants = re.findall(r"((?:    /// [^\n]*\n)+)    (\w+),", body + "\n")
    listed = [match.groupdict() for match in LISTED.finditer(source)]
    assert variants and len(listed) == len(variants), f"{module}.rt has {len(variants)} variants and {len(listed)} rows"
    return [Row(variant=name, said=" ".join(re.findall(r"/// ([^\n]*)", text)), **row) for (text, name), row in zip(variants, listed)]


def reactions(connection, stream, also):
    """Reactions in words: codes of a connection error, codes of a stream error, others."""
    connection, stream = (connection or "").split(), (stream or "").split()
    parts = [f"{scope} {' or '.join(codes)}" for scope, codes in (("C", connection + [it for it in stream if it not in connection]), ("S", stream)) if codes]
    return ", ".join(parts + [ALSO[word] for word in (also or "").split()])


def duties(row):
    """The cells of a row: what the client broke, the server's duty, the least of it, what others may do, what is open."""
    named = (reactions(row.open_connection, "", ""), reactions("", row.open_stream, "").split(", ")[-1], reactions("", "", row.open_also))
    return f"{CLIENT[row.client]}, {row.client_section} | {SERVER[row.server]} | {LEAST[row.least]} | {reactions(row.connection, row.stream, row.also)} | {', '.join(filter(None, named))}"


def warning_rows():
    """The warnings: (name, section, sentence, whether it is a note)."""
    source = read("crates/h2_explain_item/src/diagnosis/warning.rt")
    notes = re.findall(r"one_if\(self\.([\w.]+)\)", re.search(r"fn note_count.*?\n    }\n", source, re.S)[0])
    are_notes = [field in notes for field in re.findall(r"Warning::\w+ => self\.([\w.]+),", source)]
    listed = [re.search(rf"static {name}: \[[^;]*; \d+\] = \[(.*?)\n\];", source, re.S)[1] for name in ("NAMES", "SECTIONS", "SENTENCES")]
    columns = [re.findall(r'"((?:[^"\\]|\\.)*)"', it) for it in listed]
    assert all(len(it) == len(are_notes) for it in columns) and sum(are_notes) == len(notes), "the columns of warning.rt differ in length"
    return list(zip(*columns, are_notes))


def codes_of():
    """The error code of each cause, by its variant."""
    body = re.search(r"pub fn code\(self\).*?match self \{(.*?)\n        \}", read("crates/h2_spec/src/causes.rt"), re.S)[1]
    codes, waiting = {}, []
    for variant, code in re.findall(r"Cause::(\w+)|ErrorCode::(\w+)", body):
        if code:
            codes.update({name: re.sub(r"(?<!^)(?=[A-Z])", "_", code).upper() for name in waiting})
            waiting = []
        else:
            waiting.append(variant)
    return codes


# ---- where a rule is decided


def is_code(line):
    return not re.match(r"\s*(use |pub use |ghost |///|//|--)", line)


def spelled(text, enum, variant):
    """How a file of definitions spells a variant, by its `use` lines; None where it does not import it."""
    for line in re.findall(rf"^use \S*{re.escape(MODULES[enum])}\.TheVariants.*$", text, re.M):
        alias = re.search(r" as (\w+)$", line)
        if alias:
            return rf"(?<![\w.]){alias[1]}\.{variant}(?!\w)"
        if re.search(rf"\b{variant}\b", line):
            return rf"(?<![\w.]){variant}(?!\w)"
    return None


def places(lines, head, word, right_of):
    """The names at whose definition or function a word is."""
    name, found = None, []
    for line in lines:
        begins = re.match(head, line)
        if begins:
            name = begins[1]
        if name and is_code(line) and re.search(word, right_of(line)) and name not in found:
            found.append(name)
    return found


def definitions(enum, variant):
    """The definitions that result in a variant: (name, path)."""
    for path in sorted(glob.glob("crates/*/specs/**/*.antt", recursive=True)):
        name = os.path.basename(path)[:-5]
        if "h2_spec_laws" in path or name in WORDS and (enum, name) != ("SpecialCase", "Special"):
            continue
        text = read(path)
        word = spelled(text, enum, variant)
        if word:
            right = lambda line: line.split(" = ", 1)[-1] if re.match(r"[\w(]", line) else line
            for name in places(text.split("\n"), r"(?:abbrev |unfoldable )?(?:pub )?([\w-]+) : ", word, right):
                yield name, path


def functions(enum, variant):
    """The functions that return a variant: (name, path)."""
    for crate in DECIDING if enum != "SpecialCase" else ["h2_explain_item"]:
        for path in sorted(glob.glob(f"crates/{crate}/src/**/*.rt", recursive=True)):
            if os.path.basename(path) not in ("causes.rt", "ignored.rt"):
                for name in places(read(path).split("\n"), r"\s*(?:pub(?:\(crate\))? )?(?:const )?fn (\w+)", rf"\b{enum}::{variant}\b", lambda line: line):
                    yield name, path


def listed(pairs):
    """Names with their crate and file, those of one file together."""
    by_file = {}
    for name, path in pairs:
        if name not in TRANSLATES:
            by_file.setdefault((path.split("/")[1], os.path.basename(path)), []).append(name)
    return ", ".join(f"{', '.join(f'`{name}`' for name in names)} ({crate}, {file})" for (crate, file), names in by_file.items())


def given(text, folder, known):
    """The same from DECIDED: each name has to be declared in its file."""
    found = []
    for names, file in re.findall(r"((?:\w+, )*\w+) ([\w/]+\.\w+)", text):
        crate, _, file = file.rpartition("/")
        paths = [path for path in known.get(file, []) if path.startswith(f"crates/{crate or 'h2_spec'}/{folder}/")]
        for name in names.split(", "):
            assert any(declares(name, path) for path in paths), f"docs.py: DECIDED has {name} in {file}, and it is not there"
            found.append((name, paths[0]))
    return listed(found)


def cases():
    """The names that lines `;!` and `;?` of cases expect: (mark, name) with the files of these cases."""
    found = {}
    for path in sorted(glob.glob("cases/**/*.h2", recursive=True)):
        for said in re.findall(r"^;([!?]) (\S+)$", read(path), re.M):
            if path not in found.setdefault(said, []):
                found[said].append(path)
    return found


EXPLAINED = re.compile(r"^;> (?:\w+ error \w+|ignored): (?P<name>[\w-]+), (?P<section>[^,]+), (?P<server>[^;]+); broken: (?P<client>[^,\n]+), (?P<client_section>.+)$", re.M)


def special_files(row, of):
    """The files of cases with a line of `explain` that has the duties of a special case, for a cause or a reason that it is of."""
    names = {name for name in re.findall(r"`([a-z-]+)`", row.said)}
    wanted = (row.section, SERVER[row.server], CLIENT[row.client], row.client_section)
    assert names <= {it.name for it in of}, f"docs.py: {row.name} is of {names}"
    for path in sorted(glob.glob("cases/**/*.h2", recursive=True)):
        if any(said["name"] in names and said.group("section", "server", "client", "client_section") == wanted for said in EXPLAINED.finditer(read(path))):
            yield path


def made_page(known, wrong):
    """docs/RULES.md; what a cause or reason lacks is added to `wrong`."""
    played, codes = cases(), codes_of()
    causes, reasons, special = rows_of("causes"), rows_of("ignored"), rows_of("special_cases")
    out = ["# Rules", "",
           "Each cause of an error, each special case, each reason to ignore a frame, and what is accepted: its section, what the client broke, what a server has to do and may do",
           "([TABLE.md](TABLE.md#the-duties-rules-conforming) has the words), the definition and the function that decide, and the files of its cases.",
           "[TABLE.md](TABLE.md) says each rule in its place, `examples/causes/CAUSE.h2` shows it. Definitions are in `crates/h2_spec/specs` unless their crate is named.",
           "`tools/docs.py` writes this page."]
    head = "The client broke | Server | At least | A server may | Open"
    for title, mark, enum, rows in (("Causes of errors", "!", "Cause", causes), ("Reasons to ignore a frame", "?", "Ignored", reasons)):
        out += ["", f"## {title}", "", f"| Name | Rule | {head} | Decided by | Cases |", "|---|---|---|---|---|---|---|---|---|"]
        for row in rows:
            if row.name in DECIDED:
                decided = [given(text, folder, known) for text, folder in zip(DECIDED[row.name], ("specs", "src"))]
            else:
                decided = [listed(definitions(enum, row.variant)), listed(functions(enum, row.variant))]
            files = played.get((mark, row.name), [])
            wrong += [f"{row.name} has no {what}" for what, cell in zip(("definition", "function", "case"), (*decided, files)) if not cell]
            code = f"{codes[row.variant]}: " if enum == "Cause" else ""
            out.append(f"| `{row.name}` | {row.section}; {code}{row.sentence} | {duties(row)} | {'; '.join(decided)} | {', '.join(files)} |")
    out += ["", "## Special cases", "", "Here `explain` prints other duties than those of the cause or reason.", "", f"| Name | Of | Rule | {head} | Decided by | Cases |", "|---|---|---|---|---|---|---|---|---|---|"]
    for row in special:
        decided, files = [listed(definitions("SpecialCase", row.variant)), listed(functions("SpecialCase", row.variant))], list(special_files(row, causes + reasons))
        wrong += [f"{row.name} has no {what}" for what, cell in zip(("definition", "function", "case"), (*decided, files)) if not cell]
        out.append(f"| `{row.name}` | {row.said.rstrip('.')} | {row.section} | {duties(row)} | {'; '.join(decided)} | {', '.join(files)} |")
    out += ["", "## What is accepted", "", "Items without an error for which the RFC says more than that they are lawful.", "", f"| Name | Rule | {head} |", "|---|---|---|---|---|---|---|"]
    out += [f"| `{row.name}` | {row.section}; {row.sentence} | {duties(row)} |" for row in rows_of("accepted")]
    out += ["", "## Warnings", "", "What `explain` [warns](EXPLAIN.md#warnings) of. A note is no broken rule: `--strict` has no status 5 for it.", "",
            "| Name | Section | Sentence | Is |", "|---|---|---|---|"]
    out += [f"| `{name}` | {section} | {sentence} | {'a note' if is_note else 'a broken rule'} |" for name, section, sentence, is_note in warning_rows()]
    out += ["", "## Rules without a cause", "", "| Topic | Definitions | Functions and types |", "|---|---|---|"]
    for topic, files, does in TOPICS:
        for file in files.split():
            crate, _, name = f"h2_spec/{file}".rpartition("/")
            assert any(path.startswith(f"crates/{crate.split('/')[-1]}/specs/") for path in known.get(name, [])), f"docs.py: TOPICS has {file}, and it is not there"
        said = ", ".join(f"{name} ({crate})" if crate else name for crate, _, name in (file.rpartition("/") for file in files.split()))
        out.append(f"| {topic} | {said} | {given(does, 'src', known)} |")
    names = {"!": {row.name for row in causes}, "?": {row.name for row in reasons}}
    wrong += [f"{files[0]} expects {name}, which is no name" for (mark, name), files in sorted(played.items()) if name != "-" and name not in names[mark]]
    return "\n".join(out) + "\n"


# ---- the text of docs/TABLE.md


def faults_of_table():
    """What the text of TABLE.md says otherwise than the rows of h2_spec."""
    text = read(TABLE)
    causes, special = {row.name: row for row in rows_of("causes")}, rows_of("special_cases")
    scripts = {os.path.basename(path)[:-3] for path in glob.glob("examples/causes/*.h2")}
    for name in sorted(set(causes) ^ scripts):
        yield f"{name} is not both a cause and a script in examples/causes"
    in_text = collections.Counter(re.findall(r"`([a-z]+(?:-[a-z]+)+)`", text))
    for name in causes:
        if in_text[name] != 1:
            yield f"{TABLE} names {name} {in_text[name]} times; each cause has one place there"
    for bracket in re.findall(r"\(([^()]*)\)", text):
        named = [name for name in re.findall(r"`([a-z][a-z-]*)`", bracket) if name in causes]
        sections = set(re.findall(r"(?<![\d.])\d+(?:\.\d+)+(?![\d.])", bracket))
        if len(named) != 1 or not sections:
            continue
        row = causes[named[0]]
        allowed = {row.section, row.client_section} | {it for one in special if f"`{row.name}`" in one.said for it in (one.section, one.client_section)}
        if not sections & {section.split()[-1] for section in allowed}:
            yield f"{TABLE}: `{row.name}` is in brackets with {', '.join(sorted(sections))}, and its sections are {', '.join(sorted(allowed))}"
        if row.server == "Own" and "**own**" not in bracket:
            yield f"{TABLE}: `{row.name}` is own, and its brackets do not say so"


# ---- what this server does

CODES = {"PROTOCOL_ERROR": "1", "FLOW_CONTROL_ERROR": "3", "STREAM_CLOSED": "5", "FRAME_SIZE_ERROR": "6", "REFUSED_STREAM": "7", "COMPRESSION_ERROR": "9", "ENHANCE_YOUR_CALM": "11"}


def faults_of_errors():
    """Errors that the scripts of examples/causes show, and that the rows do not allow, or whose scope the laws have otherwise."""
    of_stream = set(re.findall(r"^is_of_stream (\w+) = true$", read("crates/h2_spec_laws/specs/Conformance.antt"), re.M))
    for row in rows_of("causes"):
        said = re.search(rf"(connection|stream) error (\w+): {row.name}, ", read(f"examples/causes/{row.name}.h2"))
        if not said:
            yield f"examples/causes/{row.name}.h2 has no line of the error {row.name}"
            continue
        named = row.stream.split() + (row.connection.split() if said[1] == "connection" else [])
        if CODES[said[2]] not in named:
            yield f"{row.name}: this server's {said[1]} error {said[2]} is not in its row"
        if (said[1] == "stream") != (row.variant in of_stream):
            yield f"{row.name}: this server's error is one of the {said[1]}, and is_of_stream says otherwise"


# ---- the ranges of the limits

RANGES = {  # where a range is said, and how; what is decided is proved to be what the definition says
    "crates/h2_spec/src/connection.rt": r"(?P<least>\d+)?(?: <= self\.\w+ && )?self\.(?P<name>\w+) <= (?P<most>\d+)",
    "crates/h2_cmd_messages/src/limits.rt": r'option: "--(?P<name>\w+)",\s*least: (?P<least>\d+),\s*most: (?P<most>\d+)',
    "crates/h2_cmd_args/src/usages.rt": r'name: "(?P<name>\w+)",\s*kind: Kind::Number\(4294967295\),\s*help: ".*, (?P<least>\d+) to (?P<most>\d+); \d+ where',
    "web/page.js": r'\["(?P<name>\w+)", "[\w ]*", \d+, (?P<least>\d+), (?P<most>\d+), "--\w+"\]',
}


def faults_of_ranges():
    """Ranges of limits and settings that sentences, help and the page have otherwise than `Config::is_allowed`."""
    said = {path: {it["name"]: (int(it["least"] or 0), int(it["most"])) for it in re.finditer(how, read(path))} for path, how in RANGES.items()}
    decided = said["crates/h2_spec/src/connection.rt"]
    for path, ranges in said.items():
        for name in sorted({*decided, *ranges}):
            if ranges.get(name) != decided.get(name):
                yield f"{path}: the range of {name} is {ranges.get(name)}, and that of `is_allowed` is {decided.get(name)}"


# ---- what has no contract

COUNT = re.compile(r"(h2_\w+) \((\d+)(?: of its (\d+))? functions, ([\d,]+) lines")


def faults_of_counts():
    """Counts of docs/PROOFS.md that are not those of `tools/calls.py --without`."""
    counts = COUNT.findall(read("docs/PROOFS.md"))
    ran = subprocess.run([sys.executable, "tools/calls.py", "--without", *[crate for crate, *_ in counts]], stdout=subprocess.PIPE, text=True, check=True)
    for (crate, bare, of, lines), said in zip(counts, ran.stdout.splitlines()):
        found = re.fullmatch(rf"{crate}: (\d+) of (\d+) functions, (\d+) lines", said)
        if (bare, of or found[2], lines.replace(",", "")) != found.groups():
            yield f"docs/PROOFS.md: {crate} has without a contract {said.split(': ')[1]}"


# ---- names

FOLDERS = ("crates", "docs", "edits", "examples", "tests", "tools", "bench", "cases", "dialogues", "share", "specs", "proofs", "src", "must-fail", ".ci")
FILE = re.compile(r"(?<![\w./*-])[\w.-]*\w\.(?:rt|antt|sh|py)\b")
QUOTED = re.compile(r"`([^`\s]+)`")
LINK = re.compile(r"\]\(([^)\s#]*)(#[^)\s]*)?\)")
CRATE = re.compile(r"\bh2_[a-z_]+\b")
# Names between backticks, then the crate and file that they are in, or the file alone.
PLACED = re.compile(r"((?:`[\w:]+`(?:, | and )?)+) \((?:of )?(?:(h2_\w+)(?:'s)?(?:, | ))?(\w+\.(?:rt|antt))[,;)]")
# The same as `feed` of h2_conn, feeding.rt.
OF = re.compile(r"`([\w:]+)` of (h2_\w+), (\w+\.(?:rt|antt))")
# Names of more than one word: `take_and_report`, `IsConsistent`, `Conn::feed`.
NAME = re.compile(r"`((?:\w+::)*[A-Za-z]+(?:_\w+|[a-z][A-Z]\w*)|(?:\w+::)+\w+)`")
# A file that an example shows.
SHOWN = re.compile(r"^    \$ cat ([\w.-]+)$", re.M)
# Crates of the kit, which no source here names, and names of programs.
KIT = {"std_alloc", "std_collections", "std_heap", "std_io", "toml_datetime", "toml_parser", "toml_writer", "fast_float"}
# Pages that speak of code.
OF_CODE = ("CONTRIBUTING.md", "docs/ARCHITECTURE.md", "docs/DECISIONS.md", "docs/PERFORMANCE.md", "docs/PROOFS.md", "docs/RULES.md")
DECLARES = r"(?:\b(?:fn|struct|enum|trait|type|const|static|macro_rules!|mod|data|record) %s\b|^(?:abbrev |unfoldable )?(?:pub )?%s : )"


def declares(name, path):
    word = re.escape(name.split("::")[-1])
    return re.search(DECLARES % (word, word), read(path), re.M) is not None


def sources():
    """Each source file and script, by its name alone."""
    found = {}
    for pattern in ("crates/*/src/**/*.rt", "crates/*/specs/**/*.antt", "crates/*/proofs/**/*.antt", "tools/*", "tests/*", "tests/*/*", "bench/**/*", "examples/embed/*", "cases/**/*", "dialogues/*"):
        for path in glob.glob(pattern, recursive=True):
            if os.path.isfile(path):
                found.setdefault(os.path.basename(path), []).append(path)
    return found


def words_of(known):
    """The words of all sources."""
    found = set(KIT)
    for path in {path for paths in known.values() for path in paths if path != "tools/docs.py"}:
        with open(path, encoding="utf-8", errors="replace") as file:
            found.update(re.findall(r"\w+", file.read()))
    return found


def exists(path, folder):
    """Whether a path is there: from the top, from the page's folder, or from a crate's."""
    path = re.sub(r"\b(?:CRATE|NAME|TOPIC|FILE|CAUSE)\b|\{[^}]*\}", "*", path).rstrip("/").split(":")[0].replace("..", "*")
    return any(glob.glob(prefix + path, recursive=True) for prefix in ("", folder + "/", "crates/*/"))


def anchors(path):
    """The headings of a page as links name them."""
    return {re.sub(r"[^\w\- ]", "", title.lower()).replace(" ", "-") for title in re.findall(r"^#+ (.*)$", read(path), re.M)}


def is_linked(target, anchor, page):
    path = os.path.normpath(os.path.join(os.path.dirname(page), target)) if target else page
    return os.path.exists(path) and (not anchor or anchor[1:] in anchors(path))


def names(page, known, crates, all_words):
    """The names of a page: (its line, the name, whether it is there)."""
    folder, shown = os.path.dirname(page) or ".", SHOWN.findall(read(page))
    for number, line in enumerate(read(page).split("\n"), 1):
        for word in FILE.findall(line):
            yield number, word, word in known or word in shown
        for word in CRATE.findall(line):
            yield number, word, word in crates
        for word in QUOTED.findall(line):
            if "/" in word and word.split("/")[0] in FOLDERS and "/out/" not in word:
                yield number, word, exists(word, folder)
        for target, anchor in LINK.findall(line):
            if "://" not in target:
                yield number, target + anchor, is_linked(target, anchor, page)
        for said, crate, file in PLACED.findall(line):
            paths = [path for path in known.get(file, []) if not crate or path.startswith(f"crates/{crate}/")]
            for word in re.findall(r"`([\w:]+)`", said):
                yield number, f"{word} ({crate + ', ' if crate else ''}{file})", any(declares(word, path) for path in paths)
        for word, crate, file in OF.findall(line):
            yield number, f"{word} of {crate}, {file}", any(declares(word, path) for path in known.get(file, []) if path.startswith(f"crates/{crate}/"))
        for word in NAME.findall(line) if page in OF_CODE else []:
            yield number, word, all(part in all_words for part in word.split("::"))


def crates_in_comments(crates):
    """The crates that comments of sources name: (place, the name, whether it is there)."""
    for path in sorted(glob.glob("crates/*/src/**/*.rt", recursive=True) + glob.glob("crates/*/specs/**/*.antt", recursive=True) + glob.glob("crates/*/proofs/**/*.antt", recursive=True)):
        for number, line in enumerate(read(path).split("\n"), 1):
            comment = re.search(r"(?:^\s*|\s)(?://|--)(.*)", line)
            for word in CRATE.findall(comment[1]) if comment else []:
                yield f"{path}:{number}", word, word in crates


def comments(path):
    """The comments of a source: (the line that one begins on, its words). Lines of comments without another line between them are one."""
    begun, words = 0, []
    for number, line in enumerate([*read(path).split("\n"), ""], 1):
        comment = re.match(r"\s*(?://[/!]?|--)(.*)", line)
        if comment:
            begun = begun if words else number
            words.append(comment[1])
        elif words:
            yield begun, " ".join(words)
            words = []


def files_in_comments(known):
    """The files that comments of sources name: (place, the name, whether it is there): in the crate itself, in one that the comment names, or in h2_spec."""
    sources = {path for paths in known.values() for path in paths if re.search(r"^crates/.*\.(?:rt|antt)$", path)}
    for path in sorted(sources):
        for number, text in comments(path):
            crates = {path.split("/")[1], "h2_spec", *CRATE.findall(text)}
            for word in re.findall(r"(?<![\w.])[\w/]+\.(?:rt|antt)\b", text):
                there = [it for it in known.get(os.path.basename(word), []) if f"/{it}".endswith(f"/{word}")]
                yield f"{path}:{number}", word, any(it.split("/")[1] in crates for it in there)


def check(made, wrong, known):
    """Shows what is wrong, and counts."""
    # The calls of the header begin as the names of crates do.
    crates = {*re.findall(r"^(\w+)[^:\n]*:", read("crates.txt"), re.M), *CRATE.findall(read("share/h2_bench.h"))}
    wrong += [*faults_of_table(), *faults_of_errors(), *faults_of_ranges(), *faults_of_counts()]
    if not os.path.exists(MADE) or read(MADE) != made:
        wrong.append(f"{MADE} is not what tools/docs.py writes: run it")
    if os.path.getsize("README.md") > 8192:
        wrong.append("README.md has more than 8 KB")
    by_hand = sum(os.path.getsize(page) for page in glob.glob("docs/*.md") if page not in (MADE, *MADE_ELSEWHERE))
    if by_hand > 120 * 1024:
        wrong.append(f"the pages of docs that are written by hand have {by_hand} octets, more than 120 KB")
    passed, all_words = 3 * len(rows_of("causes")) + len(rows_of("ignored")) + 4, words_of(known)
    for page in ["README.md", "CONTRIBUTING.md", "CHANGELOG.md", *sorted(glob.glob("docs/*.md"))]:
        for number, word, there in names(page, known, crates, all_words):
            passed += 1
            if not there:
                wrong.append(f"{page}:{number}: {word} is not there")
    for place, word, there in crates_in_comments(crates):
        passed += 1
        if not there:
            wrong.append(f"{place}: there is no crate {word}")
    for place, word, there in files_in_comments(known):
        passed += 1
        if not there:
            wrong.append(f"{place}: {word} is not there")
    for line in wrong:
        print(line)
    print(f"{max(passed - len(wrong), 0)} passed, {len(wrong)} failed")
    return 1 if wrong else 0


def main():
    os.chdir(os.path.join(os.path.dirname(os.path.abspath(__file__)), ".."))
    known, wrong = sources(), []
    made = made_page(known, wrong)
    if sys.argv[1:] == ["--check"]:
        return check(made, wrong, known)
    with open(MADE, "w", encoding="utf-8") as file:
        file.write(made)
    for line in wrong:
        print(line, file=sys.stderr)
    return 1 if wrong else 0


sys.exit(main())
