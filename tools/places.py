#!/usr/bin/env python3
"""Counts the places of older forms in crates/*/src: python3 tools/places.py [-v] [REVISION]

Without a revision it reads the working tree. With -v it prints each line that it counts.
docs/DESIGN-PASS.md says what each point is; twins, facts and parameters are found by comparing functions,
the other points by the lines that match a pattern.
"""
import collections
import difflib
import glob
import itertools
import re
import subprocess
import sys

LINES = [
    ("1", "a refusal's number as a constant", r"const [A-Z_]+: Cause\b"),
    ("1", "a variant's number by hand", r"=> \d+,$"),
    ("1", "a class by its number", r"\bclass: u8"),
    ("1", "a number or an own enum for none", r"\bfn find\b.*-> usize|const (END|BLANK)\b|enum Answer\b|enum Step\b|for a missing one|type Told"),
    ("3", "a loop over a range, or on a condition", r"\bfor \w+ in [^{]*\.\.|\bwhile |\bloop \{"),
    ("3", "a count moved by hand", r"\b\w+ \+= 1;"),
    ("4", "a conversion or printing by hand", r"\bfn (from_number|number|reckoning_named|short|word|tell|answered|refused|item|show)\b|\bShow for\b|\bFrom<.*> for\b"),
    ("6", "an array or a Vec by reference, or a length beside", r": \[[^\]]*; [A-Z0-9_]+\],?$|&(mut )?Vec<|\b(len|count): (usize|u8),$|\bitem\(&self"),
    ("7", "a match that only wraps or passes on", r"\b(Err\(\w+\)|None) => (Some\()?Err\b|\bSome\((\w+)\) => (Ok|Some)\(|\bOk\(\(\)\) => Ok\(|\bOk\((\w+)\) => Ok\("),
]


def files(revision):
    if revision is None:
        for path in sorted(glob.glob("crates/*/src/**/*.rt", recursive=True)):
            yield path, open(path).read()
        return
    names = subprocess.run(["git", "ls-tree", "-r", "--name-only", revision, "crates"], capture_output=True, text=True, check=True).stdout.split("\n")
    for path in names:
        if re.fullmatch(r"crates/\w+/src/.*\.rt", path):
            yield path, subprocess.run(["git", "show", f"{revision}:{path}"], capture_output=True, text=True, check=True).stdout


def functions(path, text):
    """Name, parameters, clauses and body of each function."""
    text = re.sub(r"//.*", "", text)
    for m in re.finditer(r"\bfn (\w+)", text):
        at, depth, start = m.end(), 0, None
        while at < len(text) and text[at] != "(":
            at += 1
        for end in range(at, len(text)):
            depth += {"(": 1, ")": -1}.get(text[end], 0)
            if depth == 0:
                break
        params = text[at + 1:end]
        head = re.match(r"(?:(?!requires\b|ensures\b)(?:[^{;]|;(?=[^\[\]]*\])))*(?:(?:requires|ensures)\*? *\w* *\{[^\n]*\}\s*)*", text[end + 1:])
        clauses = re.findall(r"(?:requires|ensures)\*? *\w* *\{ *([^\n]*?) *\}\n", head.group(0))
        start = end + 1 + head.end()
        body = ""
        if start < len(text) and text[start] == "{":
            depth = 0
            for stop in range(start, len(text)):
                depth += {"{": 1, "}": -1}.get(text[stop], 0)
                if depth == 0:
                    break
            body = text[start:stop + 1]
        yield path.split("/")[1], m.group(1), params, clauses, body


def skeleton(body):
    """The tokens, with every name of a type or variant, every string and every number alike."""
    tokens = re.findall(r'"[^"]*"|[A-Za-z_]\w*|\d\w*|\S', body)
    return ["X" if re.match(r'"|\d|[A-Z]', t) else t for t in tokens]


def main():
    args = [a for a in sys.argv[1:] if a != "-v"]
    verbose = "-v" in sys.argv
    sources = list(files(args[0] if args else None))
    for point, what, pattern in LINES:
        hits = [(p, n, line) for p, text in sources for n, line in enumerate(text.split("\n"), 1) if re.search(pattern, line)]
        print(f"{len(hits):4}  point {point}: {what}")
        for p, n, line in hits if verbose else []:
            print(f"          {p[7:]}:{n}: {line.strip()}")
    all_functions = [f for p, text in sources for f in functions(p, text)]
    shapes = [(f, skeleton(f[4])) for f in all_functions]
    shapes = [(f, s) for f, s in shapes if len(s) >= 16]
    twins = [(f, g) for (f, s), (g, t) in itertools.combinations(shapes, 2)
             if abs(len(s) - len(t)) <= 6 and difflib.SequenceMatcher(None, s, t).ratio() >= 0.9]
    print(f"{len(twins):4}  point 2: pairs of functions alike but for types, variants, texts and numbers")
    for f, g in twins if verbose else []:
        print(f"          {f[0]}.{f[1]} and {g[0]}.{g[1]}")
    facts = collections.defaultdict(set)
    groups = collections.defaultdict(set)
    for crate, name, params, clauses, _ in all_functions:
        for clause in clauses:
            for part in clause.split(" × "):
                part = re.sub(r"\b(self|[a-z]\w*)(\.(old|new|now))+", "_", part.strip("() "))
                part = re.sub(r"\b[a-z]\w?\b", "_", part)
                facts[crate, part].add(name)
        names = sorted(set(re.findall(r"(\w+) *:(?!:)", re.sub(r"<[^<>]*>", "", params))) - {"rt", "f"})
        for k in (2, 3, 4):
            for c in itertools.combinations(names, k):
                groups[crate, c].add(name)
    facts = {k: v for k, v in facts.items() if len(v) >= 3 and not k[1].startswith("result")}
    print(f"{len(facts):4}  point 5: facts in the contracts of three or more functions of a crate")
    for (crate, fact), names in sorted(facts.items()) if verbose else []:
        print(f"          {crate}: {fact[:90]}: {', '.join(sorted(names))}")
    groups = {k: v for k, v in groups.items() if len(v) >= 3}
    largest = {k: v for k, v in groups.items()
               if not any(k[0] == l[0] and set(k[1]) < set(l[1]) and v == w for l, w in groups.items())}
    print(f"{len(largest):4}  point 5: parameters that travel together in three or more functions of a crate")
    for (crate, names), where in sorted(largest.items()) if verbose else []:
        print(f"          {crate}: ({', '.join(names)}): {', '.join(sorted(where))}")


main()
