#!/usr/bin/env python3
"""Brings this repository's own names to the spelling of today's Rattle, once, after port.py.

usage: python3 tools/respell.py            at the top: rewrites crates/*/{specs,proofs,src}
       python3 tools/respell.py --names    only lists each name with its new spelling, and the names that would fall together

A name that specs/ or proofs/ declare with a dash gets an underscore for it (first-off-from: first_off_from), and one that
begins with a capital, which is a type or a fact, is put together (Penalty-meaning: PenaltyMeaning). Names that Rattle makes,
as goals and steps, are left, and so are the texts and the functions of src/.
"""
import collections
import re
import sys
from pathlib import Path

DASHED = re.compile(r"(?<![\w'\-])[A-Za-z][A-Za-z0-9_']*(?:-[A-Za-z0-9_']+)+(?![\w'\-])")
DECLARED = re.compile(
    r"^\s*(?:(?:abbrev|unfoldable|pub|data|record|opaque)\s+)*(«?[A-Za-z][\w'\-]*»?)\s*(?:(?:\{[^}]*\}|\([^)]*\))\s*)*:(?!=)"
)
RULESET = re.compile(r"^\s*(?:pub )?ruleset ([\w\-']+)")
LET = re.compile(r"\blet ([A-Za-z][\w'\-]*)")
BOUND = re.compile(r"[({]([A-Za-z][\w'\- ]*?) :")
LAMBDA = re.compile(r"λ ([^.]*)\.")
PLAIN = re.compile(r"^[A-Za-z][\w'\-]*$")


def proof_files():
    for folder in ("specs", "proofs"):
        yield from sorted(Path("crates").glob(f"*/{folder}/**/*.antt"))


def declared():
    names = collections.defaultdict(set)
    for path in proof_files():
        answers = path.name in ("Answers.antt", "Invariants.antt", "Choices.antt")
        for line in path.read_text().splitlines():
            if line.lstrip().startswith("--"):
                continue
            found = DECLARED.match(line)
            # an answer has the name of its goal, which Rattle makes
            if found and not (answers and "goal." in line):
                names[found.group(1)].add(str(path))
            found = RULESET.match(line)
            if found:
                names[found.group(1)].add(str(path))
            for name in LET.findall(line):
                names[name].add(str(path))
            for group in BOUND.findall(line):
                for name in group.split():
                    names[name].add(str(path))
            for group in LAMBDA.findall(line):
                for name in group.replace("(", " ").replace(")", " ").replace(",", " ").split():
                    if PLAIN.match(name):
                        names[name].add(str(path))
    return {name: where for name, where in names.items() if "-" in name}


def respelled(name):
    parts = name.split("-")
    if name[0].isupper() and not all(c.isupper() for c in parts[0]):
        return "".join(part[0].upper() + part[1:] for part in parts)
    return "_".join(parts)


def tokens():
    found = collections.defaultdict(set)
    for path in [*proof_files(), *sorted(Path("crates").glob("*/src/**/*.rt"))]:
        for line in path.read_text().splitlines():
            if line.lstrip().startswith(("--", "//")):
                continue
            for word in re.findall(r"[A-Za-z_][\w']*(?:-[\w']+)*", line):
                found[word].add(str(path))
    return found


def turned(text, names, comment):
    out = []
    for line in text.splitlines(keepends=True):
        code, mark, rest = line, "", ""
        if comment == "//":
            at = line.find("//")
            if at >= 0:
                code, mark, rest = line[:at], "", line[at:]

        def new(match):
            word = match.group(0)
            before = code[: match.start()]
            if before.endswith("goal."):
                return word
            return names.get(word, word)

        out.append(DASHED.sub(new, code) + mark + rest)
    return "".join(out)


def main(argv):
    names = {name: respelled(name) for name in declared()}
    if argv[:1] == ["--names"]:
        there = tokens()
        olds = collections.defaultdict(list)
        for old, new in sorted(names.items()):
            olds[new].append(old)
            print(old, new)
        for new, those in sorted(olds.items()):
            if len(those) > 1 or new in there:
                print("falls together:", new, those, sorted(there.get(new, []))[:6])
        return 0
    for path in [*proof_files(), *sorted(Path("crates").glob("*/src/**/*.rt"))]:
        was = path.read_text()
        now = turned(was, names, "//" if path.suffix == ".rt" else "--")
        if now != was:
            path.write_text(now)
    return 0


if __name__ == "__main__":
    raise SystemExit(main(sys.argv[1:]))
