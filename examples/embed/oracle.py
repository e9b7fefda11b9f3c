#!/usr/bin/env python3
"""What a server must do with a script's octets, an item a line: PYTHONPATH=share/python examples/embed/oracle.py"""

import h2_bench

SCRIPT = """PREFACE
SETTINGS 00 0 -
HEADERS 05 1 hi2,i6,i4,a1="www.example.com"
PING 00 0 x0102030405060708
DATA 01 3 x00
"""

octets = h2_bench.assemble(SCRIPT)
connection = h2_bench.Connection(["GET|/|200|6869"], streams=10)
for cut in (octets[:60], octets[60:]):
    for item in connection.feed(cut):
        verdict = f"{item.error.scope} error {item.error.cause}" if item.error else f"ignored {item.ignored.reason}" if item.ignored else "taken"
        print(f"#{item.item} @{item.offset} {item.words}: {verdict}; sent", ", ".join(sent.words for sent in item.sent) or "nothing")
print(connection.end.verdict)
print(connection.state().splitlines()[0])
try:
    h2_bench.assemble("PREFACE\nFOO\n")
except h2_bench.Fault as fault:
    print(fault.number, fault.line, fault.sentence)
