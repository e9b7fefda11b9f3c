#!/usr/bin/env python3
"""Writes docs/SERVERS.md to standard output: the results of tests/servers.sh, and what looked-at.tsv says of them by hand.

    tests/servers/page.py FOLDER

A line of looked-at.tsv is a server, the name of a rule and what was seen, tab-separated. Where no rule of its own is broken, a rule is lawful and the title of a case. What was
seen begins with "Not broken: " where the verdict is wrong. What has no line is shown as not looked at; lines without a broken rule are named on standard error.
"""

import collections
import json
import os
import re
import sys

TOP = os.path.dirname(os.path.dirname(os.path.dirname(os.path.abspath(__file__))))
LOOKED_AT = f"{TOP}/tests/servers/looked-at.tsv"
NAMES = ("nghttpd", "node", "go", "h2o", "nginx", "haproxy", "apache")
NOT_BROKEN = "Not broken: "
# The instructions of most requests, which the page leaves out.
REQUEST = 'i6,i4,n1="localhost"'
# A rule that a server broke: the section, what was wanted and allowed, and the cases, each with the number of its item.
Fault = collections.namedtuple("Fault", "section wanted allowed places")


def read(path):
    with open(path, encoding="utf-8") as file:
        return file.read().strip() + "\n"


def broken_items(path):
    """Each item of results that is broken: the place of its case, as `start 2`; its rule, with the title where that is lawful; and the values of its block."""
    counts = collections.Counter()
    for name, title, block in re.findall(r"^(?:not )?ok \d+ - cases/(\S*)\.h2: ([^\n]*)\n((?:  [^\n]*\n)*)", read(path), re.M):
        counts[name] += 1
        for item in re.split(r"^  - ", block, flags=re.M):
            if "verdict: broken" in item:
                values = dict(re.findall(r"^ *(\w+): (.*)$", item, re.M))
                rule = values.get("rule", "").split(",")[0]
                yield f"{name} {counts[name]}", f"{rule} {title}" if rule == "lawful" else rule, values


def faults_of(path):
    """The broken rules in results, by their names."""
    found = {}
    for place, rule, values in broken_items(path):
        fault = found.setdefault(rule, Fault((values["rule"].split(", ") + [""])[1], values.get("wanted", "-"), values.get("allowed", "-"), {}))
        fault.places.setdefault(place, int(values.get("item", 0)))
    return found


def looked_at():
    """What was seen by hand: (server, rule), with a sentence."""
    return {tuple(line.split("\t")[:2]): line.split("\t")[2] for line in read(LOOKED_AT).split("\n") if line.count("\t") == 2}


def sentences():
    """The sentence of each rule in docs/RULES.md, or what it is a special case of, in their order."""
    found = {}
    for line in re.findall(r"^\| (`[\w-]+` \| .*) \|$", read(f"{TOP}/docs/RULES.md"), re.M):
        name, said = line.split(" | ")[:2]
        found.setdefault(name.strip("`"), re.sub(r"^RFC \d+[ \d.]*; (?:[A-Z_]+: )?", "", said))
    return found


class Page:
    def __init__(self, folder):
        self.folder = folder
        self.names = [name for name in NAMES if os.path.exists(f"{folder}/{name}.tap") and "# same " in read(f"{folder}/{name}.tap")]
        self.faults = {name: faults_of(f"{folder}/{name}.tap") for name in self.names}
        self.seen, self.said = looked_at(), sentences()

    def sentence(self, name, rule):
        return self.seen.get((name, rule), "*not looked at*")

    def is_broken(self, name, rule):
        return not self.sentence(name, rule).startswith(NOT_BROKEN)

    def row(self, name):
        """The line of a server in the table."""
        sums = re.search(r"# same (\d+), allowed (\d+), doubtful (\d+), broken (\d+), skipped (\d+)", read(f"{self.folder}/{name}.tap")).groups()
        return f"| {read(f'{self.folder}/{name}.version').strip()} | {' | '.join(sums)} | {sum(self.is_broken(name, rule) for rule in self.faults[name])} |"

    def in_case(self, name, rule):
        """The first case of a broken rule, with the line of its item and what came after it; of a field block, that is where the connection ended."""
        place, number = next(iter(self.faults[name][rule].places.items()))
        items = json.loads(read(f"{self.folder}/{name}.frames")).get(place, [])
        ended = next((at for at, (_, came) in enumerate(items[:number], 1) if any(word.startswith("GOAWAY") for word in came)), number)
        sent, came = items[ended - 1] if ended <= len(items) else ("-", [])
        behind = items[ended][1] if ended < len(items) else []
        said = re.sub(r"HEADERS \d+ :status (\d+)(, DATA \d+)?", r"status \1", ", ".join(came)) or "nothing"
        if any(word.startswith("GOAWAY") for word in behind):
            said += f"; for the next frame {', '.join(behind)}"
        return f"{place}: `{sent.replace(REQUEST, '..')}`; came: {said}"

    def of_rule(self, rule, broken):
        """A rule, and the servers that broke it, or did not break it: those of which the same is said together."""
        names = [name for name in self.names if rule in self.faults[name] and self.is_broken(name, rule) == broken]
        if not names:
            return
        fault = self.faults[names[0]][rule]
        wanted = (fault.allowed if fault.wanted == "no error" else fault.wanted).replace("connection error ", "C ").replace("stream error ", "S ")
        word, _, title = rule.partition(" ")
        said = title.replace("RFC 9113, ", "") or f"{fault.section.removeprefix('RFC 9113 ')}: {self.said.get(rule, '-')}"
        yield from ["", f"**`{word}`**, {said}." + (f" Wanted: {wanted}." if wanted != "S PROTOCOL_ERROR" else "")]
        groups = {}
        for name in names:
            count = len(self.faults[name][rule].places)
            label = name + (f" ({count})" if count > 1 else "")
            groups.setdefault((self.sentence(name, rule).removeprefix(NOT_BROKEN), self.in_case(name, rule)), []).append(label)
        yield from (f"- {', '.join(labels)}: {sentence}. {case}" for (sentence, case), labels in groups.items())

    def lines(self):
        count = len(re.findall(r"^(?:not )?ok ", read(f"{self.folder}/{self.names[0]}.tap"), re.M))
        dates = sorted({read(f"{self.folder}/{name}.date").strip() for name in self.names})
        yield from ["# What servers do", "",
                    f"The {count} [cases](../cases) with {len(self.names)} servers, on {' to '.join(dates)}, by `check --against` ([CASES.md](CASES.md#other-servers) has the verdicts).",
                    "`tests/servers.sh` writes this page. The versions are those of Debian 12 (node's is newer): look at a newer one before you write to an author.",
                    "Each broken rule was read as frames by hand. h2o, nginx, haproxy and Apache are proxies of a server that reads each request: alone, most of them answer",
                    "before a request ends, which is lawful (RFC 9113, 8.1), and what comes then can't be judged.", "",
                    "| Server | same | allowed | doubtful | broken | skipped | broken rules |", "|---|---|---|---|---|---|---|"]
        yield from map(self.row, self.names)
        yield from ["", "## Broken rules", "",
                    "`start 2` is the second case of cases/start.h2; then comes the frame that the rule is about, as a script has it (`..` is `" + REQUEST + "`), and what the",
                    "server sent for it. A number after a server: it broke the rule in that many cases. Sections without a number of an RFC are of RFC 9113. `C` is an error of the",
                    "connection, `S` of the stream; where nothing is said, a request is malformed: S PROTOCOL_ERROR or a status of 400 and more is wanted (8.1.1).",
                    "*Takes it*: it does what it would do for a lawful frame."]
        order = list(self.said)
        rules = sorted({rule for found in self.faults.values() for rule in found}, key=lambda rule: (order.index(rule) if rule in self.said else len(order), rule))
        for rule in rules:
            yield from self.of_rule(rule, True)
        wrong = [line for rule in rules for line in self.of_rule(rule, False)]
        if wrong:
            yield from ["", "## Verdicts that are wrong", "", "`check` says that these rules are broken; by hand they are not.", *wrong]

    def unused(self):
        """Lines of looked-at.tsv without a broken rule."""
        known = {(name, rule) for name in self.names for rule in self.faults[name]}
        return [f"looked-at.tsv: {name}: {rule} is not broken now" for name, rule in self.seen if (name, rule) not in known]


def main(folder):
    page = Page(folder)
    print("\n".join(page.lines()))
    for line in page.unused():
        print(line, file=sys.stderr)


if __name__ == "__main__":
    main(sys.argv[1])
