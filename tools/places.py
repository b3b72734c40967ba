#!/usr/bin/env python3
"""Lists places in crates/*/src that may be written plainer, by the points of docs/DESIGN-PASS.md.

usage: python3 tools/places.py [POINT..]     at the top: the places of each point (1 to 8), and how many there are
       python3 tools/places.py --counts      only the counts
       python3 tools/places.py --calls 2     twins, where the names of what is called count as well

What it lists is what a reader then looks at: a place can be right as it is. Point 2 compares the functions' bodies with
all names, numbers and texts taken for one another; point 5 does so with single clauses, and with pairs of parameters.
Point 8 is about proofs: it counts answers and lemmas by crate, and names no place.
"""
import collections
import re
import sys
from pathlib import Path

FILES = sorted(Path("crates").glob("*/src/*.rt"))

# points that a line shows
LINES = {
    "1": [
        ("a number for a layer or a cause", r"\b(layer|number): u8,|Fault::new\(\d|\blayer: \d|\.number\(\)|fn number\("),
        ("a case that means none, or an error among the answers", r"^\s+(Other|Nothing|NotACall|Refused\(\w+\)|Unknown),$"),
        ("an Option of a Result, or the other way", r"Option<Result<|Result<Option<"),
        ("a flag with a value beside it", r"^\s+pub \w+: bool,$|[(,] ?known: bool"),
        ("an answer taken apart and put together again", r"Ok\((\w+)\) => Ok\(\1\)|Some\((\w+)\) => \2,$|Err\(_\) => None|None => false|Ok\((\w+)\) => Some\(\3\)"),
        ("an error handed on by hand", r"if let Err\((\w+)\) = .*\{$|Err\((\w+)\) => Err\("),
    ],
    "3": [
        ("a loop over a range", r"\bfor \w+ in .*\.\."),
        ("a loop over numbered items", r"\.enumerate\(\)"),
        ("a loop that asks for the next item", r"while let Some\(\w+\) ="),
        ("a loop that asks whether anything is left", r"while .*\.len\(\) > 0"),
        ("a loop for a test of all, a search, or the largest", r"^        if !\w+\(\*\w+\) \{$|if size > most"),
    ],
    "4": [
        ("a conversion by hand", r"fn (number|from_mark|fault_from|pack)\("),
        ("a refusal without a place, written out", r"^\s+place: 0,$"),
        ("equality, order, copying or a default by hand", r"impl.* (PartialEq|Eq|PartialOrd|Ord|Clone|Copy|Default) for |fn new\(\) -> Tally"),
        ("printing by hand", r"println!\(rt; \"\w"),
        ("a byte by its number", r"\w\]? == (10|48|49|50|51|52|70)\b|!= 10\b|with_byte\(\d|\] = 10;|^\s+(48|55) \+|byte (>=|<) \d"),
    ],
    "6": [
        ("an array, with its length beside it", r"^\s+(pub )?\w+: \[\w+; \w+\],$"),
        ("a place and how much of it is filled", r"(count|rows|columns): usize[ ,}]"),
    ],
    "7": [
        ("a macro that hands a call on", r"^macro_rules!"),
        ("a match on which case is to act", r"^\s+(\(Stage::\w+(\(\w+\))?, Frame|Call::\w+ => read_)"),
    ],
}
TOKEN = re.compile(r"b?\"[^\"]*\"|b?'[^']*'|[A-Za-z_]\w*|\d[\w]*|[^\s\w]")
KEYWORDS = {"fn", "pub", "let", "mut", "if", "else", "match", "for", "in", "while", "loop", "return", "self", "Self", "impl", "struct", "enum", "as"}


def shape(text, calls=False):
    """The tokens, with all names, numbers and texts as one, but for the names of calls where these are to count."""
    out = []
    text = re.sub(r"//.*", "", text)
    called = set(re.findall(r"(\w+)(?:::<[^>]*>)?\(", text)) if calls else set()
    for token in TOKEN.findall(text):
        if token in KEYWORDS or token in called or not re.match(r"[\w\"']|b['\"]", token):
            out.append(token)
        else:
            out.append("x")
    return " ".join(out)


def functions():
    """Each function: place, name, head without clauses, clauses, body."""
    for path in FILES:
        lines = path.read_text().split("\n")
        i = 0
        while i < len(lines):
            m = re.match(r"^( *)(pub(\(crate\))? )?(extern \"C\" )?fn (\w+)", lines[i])
            if not m:
                i += 1
                continue
            indent = m.group(1)
            j = i
            while lines[j] != indent + "}" and not re.match(rf"^{indent}\S.*[;}}]$", lines[j]):
                j += 1
            block = lines[i : j + 1]
            clauses = [line for line in block if re.match(r"^\s+(requires|ensures)\b", line)]
            rest = [line for line in block if line not in clauses]
            body = rest.index(indent + "{") if indent + "{" in rest else len(rest)
            if body == len(rest):
                body = next((k + 1 for k, line in enumerate(rest) if line.endswith("{")), len(rest))
            yield path, i + 1, m.group(5), "\n".join(rest[:body]), clauses, "\n".join(rest[body:])
            i = j + 1


def crate(path):
    return path.parts[1]


def by_lines(point):
    for what, pattern in LINES[point]:
        for path in FILES:
            for k, line in enumerate(path.read_text().split("\n")):
                if not line.strip().startswith("//") and re.search(pattern, line):
                    yield what, f"{path}:{k + 1}: {line.strip()}"


def twins(calls=False):
    groups = collections.defaultdict(list)
    for path, line, name, head, clauses, body in functions():
        if crate(path).endswith("_examples"):
            continue
        if len(TOKEN.findall(body)) >= 8:
            groups[shape(body, calls)].append(f"{path}:{line}: fn {name}")
    for places in groups.values():
        if len(places) > 1:
            for place in places:
                yield f"functions of one shape ({places[0].split('fn ')[1]})", place
    aliases = collections.defaultdict(list)
    for path in FILES:
        for k, line in enumerate(path.read_text().split("\n")):
            m = re.match(r"^(?:pub )?(?:type|macro_rules!) (\w+)", line.replace("macro_rules! ", "macro_rules! "))
            if m:
                aliases[m.group(1)].append(f"{path}:{k + 1}: {line}")
    for name, places in aliases.items():
        if len(places) > 1:
            for place in places:
                yield f"the same type or macro ({name})", place


def repeated():
    facts = collections.defaultdict(list)
    pairs = collections.defaultdict(list)
    meanings = []
    for path, line, name, head, clauses, body in functions():
        if crate(path).endswith("_examples"):
            continue
        for clause in clauses:
            if "kinds.now.roughness) (" in clause:
                meanings.append(f"{path}:{line}: fn {name}")
            m = re.match(r"^\s+requires( \w+)? \{ (.*) \}$", clause)
            if m:
                for fact in re.split(r" × ", m.group(2)):
                    fact = re.sub(r"\b[A-Z]\.(\w+)", r"P.\1", fact.strip("() "))
                    fact = re.sub(r"\b(misfit|bend|penalty|stiffness|weight|columns|multipliers|values|rows|result|self|rise|fall|minute|minutes|residual|row|figure|readings|denominator|a|b|v|w|x|sum)\b(?=[. ]|$)", "_", fact)
                    facts[(crate(path), fact)].append(f"{path}:{line}: fn {name}")
        params = re.findall(r"(\w+): (&?(?:mut )?[\w\[\]<>, ']+?)(?=,|\))", head[head.find("(") :])
        for a, b in zip(params, params[1:]):
            pairs[(crate(path), a[0], b[0])].append(f"{path}:{line}: fn {name}")
    for place in dict.fromkeys(meanings):
        yield "the meaning of three kinds, written out", place
    for (c, fact), places in facts.items():
        if len(set(places)) >= 3:
            for place in dict.fromkeys(places):
                yield f"a fact in three contracts or more ({fact[:60]})", place
    for (c, a, b), places in pairs.items():
        if len(set(places)) >= 4:
            for place in dict.fromkeys(places):
                yield f"parameters that travel together ({a}, {b})", place


def proofs():
    for folder in sorted(Path("crates").iterdir()):
        answers = lemmas = 0
        for path in folder.glob("proofs/**/*.antt"):
            names = len(re.findall(r"^(?:pub )?[\w'\-]+ :(?!=)", path.read_text(), re.M))
            if path.name == "Answers.antt":
                answers += names
            elif path.name not in ("Invariants.antt", "Lib.antt"):
                lemmas += names
        if answers or lemmas:
            yield "answers and lemmas", f"{folder.name}: {answers} answers, {lemmas} lemmas"


def places(point):
    if point == "2":
        return list(twins("--calls" in sys.argv))
    if point == "5":
        return list(repeated())
    if point == "8":
        return list(proofs())
    return list(by_lines(point))


def main():
    only = "--counts" in sys.argv
    points = [a for a in sys.argv[1:] if not a.startswith("--")] or list("12345678")
    for point in points:
        found = places(point)
        kinds = collections.Counter(what for what, _ in found)
        print(f"point {point}: {len(found)}")
        for what, count in kinds.items():
            print(f"    {count:3} {what}")
            if not only:
                for w, place in found:
                    if w == what:
                        print(f"            {place}")


main()
