#!/usr/bin/env python3
"""Prints, for each public function of a library crate, what it does, the clauses of its contract, and its errors, as the sources have them, as Markdown.

    tools/calls.py [CRATE..]                of these crates, or of all that the program uses
    tools/calls.py --without [CRATE..]      instead, how many functions of each have no clause `ensures`, and their lines of code
"""

import glob
import os
import re
import sys

# A clause longer than this is shown by its name alone.
SHORT = 90
HEAD = """# Calls of the library crates

For each public function: what it does, its errors with what each leaves, and the clauses of its contract. A clause is
shown whole where it is short; the others are in the source, beside the function. `result` is what the function returns,
`self.old` and `self.new` are a value before and after the call. docs/PROOFS.md says how to read a contract, and what no
contract says.
"""
FUNCTION = re.compile(r"^(\s*)(pub )?(?:const )?fn (\w+)")
IMPL = re.compile(r"^(?:unsafe )?impl(?:<.*?>)? (\w+)(?:<.*>)?(?: where .*)? \{$")
TRAIT = re.compile(r"^pub trait (\w+)")


def read(path):
    with open(path, encoding="utf-8") as file:
        return file.read()


def crates():
    """The crates that the program uses, directly or not, and h2_flow, in the order of crates.txt: (name, its sources)."""
    uses = {}
    for line in read("crates.txt").split("\n"):
        if ":" in line and not line.startswith("#"):
            name, used = line.split(":", 1)
            uses[name.split()[0]] = used.split()
    reached, todo = {"h2_flow"}, ["h2_program"]
    while todo:
        for used in uses.get(todo.pop(), []):
            if used in uses and used not in reached:
                reached.add(used)
                todo.append(used)
    return [(name, sources(name)) for name in uses if name in reached]


def sources(crate):
    return sorted(glob.glob(f"crates/{crate}/src/**/*.rt", recursive=True))


def exported(paths):
    """The modules of a crate that are public, and the names that it exports from others."""
    root = read(next(path for path in paths if path.endswith("/lib.rt")))
    modules = set(re.findall(r"^pub mod (\w+);", root, re.M))
    names = set()
    for listed in re.findall(r"^pub use (?:\w+::)+(?:\{([^}]*)\}|(\w+));", root, re.M):
        names |= {name.strip() for name in (listed[0] or listed[1]).split(",")}
    for path in paths:
        if os.path.basename(path)[:-3] in modules | {"lib"}:
            names |= set(re.findall(r"^pub (?:struct|enum|trait) (\w+)", read(path), re.M))
    return modules | {"lib"}, names


def variants():
    """The variants of each public enum."""
    found = {"AllocError": ["AllocError"], "DeviceFault": ["DeviceFault"]}
    for path in glob.glob("crates/*/src/**/*.rt", recursive=True):
        for name, body in re.findall(r"^pub enum (\w+)[^{]*\{\n(.*?)^\}", read(path), re.S | re.M):
            found.setdefault(name, re.findall(r"^    (\w+)", body, re.M))
    return found


def signature(lines, start):
    """What is between a function's first line and its body, as one text."""
    text = []
    for line in lines[start:]:
        if line.strip() in ("{", "{}"):
            break
        text.append(line.strip())
        if line.endswith(";") or line.endswith((" {", " {}")) and not re.match(r"\s*(ensures|requires)\b", line):
            break
    return " ".join(text)


def clauses(text):
    """The clauses of a signature: (its word, its name, its text)."""
    found = []
    for head in re.finditer(r"\b(requires|ensures)\*? (?:(\w+) )?\{ ", text):
        depth, end = 1, head.end()
        while depth and end < len(text):
            depth += {"{": 1, "}": -1}.get(text[end], 0)
            end += 1
        found.append((head.group(1), head.group(2), re.sub(r"\s+", " ", text[head.end() : end - 1]).strip()))
    return found


def first_sentence(doc):
    paragraph = re.sub(r"\s+", " ", " ".join(doc).split("  ")[0]).strip()
    ended = re.match(r"(.*?[.:])(?: (?=[A-Z`])|$)", paragraph)
    return (ended.group(1) if ended else paragraph).rstrip(".:") + "."


def paragraphs(doc):
    return [re.sub(r"\s+", " ", part).strip() for part in " ".join(doc).split("  ") if part.strip()]


def errors(text, doc, known):
    """The type of a result's error, and what the documentation says of it: the section Errors, or the paragraphs that begin with an error."""
    answer = re.search(r"-> Result<.*, (\w+)(?:<[^<>]*>)?>(?: |$)", re.split(r" (?:requires|ensures)\b", text)[0])
    if not answer:
        return ""
    name, said = answer.group(1), paragraphs(doc)
    if "# Errors" in said:
        said = said[said.index("# Errors") + 1 :]
    else:
        first = [re.match(r"`(?:\w+::)?(\w+)", part) for part in said]
        said = [part for part, word in zip(said, first) if word and word.group(1) in [name, *known.get(name, [])]]
    return f" Errors, `{name}`: " + " ".join(said) if said else f" Errors: `{name}`."


def shown(clause):
    word, name, text = clause
    head = f"{word} {name}" if name else word
    return f"`{head} {{ {text} }}`" if len(text) <= SHORT and "`" not in text else f"`{head}`"


def functions(path, public, names):
    """The public functions of a file: (its name, first line, documentation)."""
    lines, doc, owner = read(path).split("\n"), [], None
    owned_by_trait = False
    for at, line in enumerate(lines):
        if TRAIT.match(line):
            owner, owned_by_trait = TRAIT.match(line).group(1), True
        elif line.startswith(("impl", "unsafe impl")):
            owner, owned_by_trait = (IMPL.match(line).group(1) if IMPL.match(line) else ""), False
        elif line == "}":
            owner, owned_by_trait = None, False
        found = FUNCTION.match(line)
        if line.strip().startswith("///"):
            doc.append(line.strip()[3:].strip() or "  ")
        elif found:
            free = not found.group(1) and found.group(2) and (public or found.group(3) in names)
            method = found.group(1) == "    " and owner in names and (found.group(2) or owned_by_trait)
            if owner is None and free or owner and method:
                yield (f"{owner}::" if owner else "") + found.group(3), signature(lines, at), doc
            doc = []
        elif not line.strip().startswith("#["):
            doc = []


def page(asked):
    out, known = [HEAD], variants()
    for crate, paths in [(name, sources(name)) for name in asked]:
        modules, names = exported(paths)
        rows = []
        for path in paths:
            module = os.path.basename(path)
            for name, text, doc in functions(path, module[:-3] in modules, names):
                rows.append(f"- **`{name}`** ({module}). {first_sentence(doc)}")
                said = clauses(text)
                rows[-1] += errors(text, doc, known)
                if said:
                    rows.append("  " + "; ".join(shown(clause) for clause in said))
        if rows:
            about = re.match(r"//! (.*?)(?:\n(?!//! )|\n//! (?=[A-Z])|\n#)", read(f"crates/{crate}/src/lib.rt"), re.S)
            said = first_sentence(re.sub(r"\n//! ", " ", about.group(1)).split("\n")) if about else ""
            out += [f"\n## {crate}\n", said, "", *rows]
    return "\n".join(out).replace("\n\n\n", "\n\n") + "\n"


def written(path):
    """The functions of a file that have a body, and those that a trait declares: (the trait, name, whether it has a clause `ensures`, lines of code, or 0)."""
    lines, trait, declares = read(path).split("\n"), "", False
    for at, line in enumerate(lines):
        of_trait = re.match(r"(?:pub )?trait (\w+)|(?:unsafe )?impl\b.*?(\w+)(?:<.*>)? for ", line)
        if of_trait:
            trait, declares = of_trait.group(1) or of_trait.group(2), bool(of_trait.group(1))
        elif re.match(r"impl|unsafe impl|\}", line):
            trait, declares = "", False
        found = re.match(r"( *)(?:pub(?:\(\w+\))? )?(?:const )?fn (\w+)", line)
        if found:
            end = at if line.endswith("}") else next((k for k in range(at, len(lines)) if lines[k] == found.group(1) + "}"), at)
            code = [text for text in lines[at : end + 1] if text.strip() and not text.strip().startswith("//")]
            said = any(word == "ensures" for word, _, _ in clauses(signature(lines, at)))
            yield trait, found.group(2), said, 0 if declares else len(code)


def without(asked):
    """A line for each crate: functions without a clause, of their own or of their trait."""
    every = [(name, function) for name, paths in [*crates(), ("h2_program", sources("h2_program"))] for path in paths for function in written(path)]
    promised = {(trait, name) for _, (trait, name, said, code) in every if said and not code}
    for crate in asked:
        bodies = [function for name, function in every if name == crate and function[3]]
        bare = [code for trait, name, said, code in bodies if not said and (trait, name) not in promised]
        if bare:
            print(f"{crate}: {len(bare)} of {len(bodies)} functions, {sum(bare)} lines")


def main():
    os.chdir(os.path.join(os.path.dirname(os.path.abspath(__file__)), ".."))
    known = [name for name, _ in crates()]
    bare = sys.argv[1:2] == ["--without"]
    asked = sys.argv[2 if bare else 1 :] or known
    unknown = [name for name in asked if not os.path.isdir(f"crates/{name}/src")]
    if unknown:
        sys.exit(f"calls.py: there is no crate {unknown[0]}")
    if bare:
        without(asked)
    else:
        print(page(asked), end="")


main()
