#!/usr/bin/env python3
"""Respells this repository's own definitions and lemmas: words in snake case, types in camel case.

usage: python3 tools/respell.py        once, at the top, right after the toolchain's port.py

It goes over specs/, proofs/ and src/ of every crate, and over README.md and docs/*.md. It changes nothing
but the names below, each as a whole word. Names of functions in src/ are not among them.
"""
import glob
import re
import sys

# Names in two parts whose spelling has to be said: types, constructors and fields that had a dash.
SAID = {
    "Bad-link": "BadLink",
    "Bad-naming": "BadNaming",
    "Comes-out": "ComesOut",
    "Well-sized": "WellSized",
    "on-left": "on_left",
    "on-right": "on_right",
    "leaf-alone": "leaf_alone",
    "fork-last": "fork_last",
    "trail-of": "trail_of",
    "squares-of": "squares_of",
    "at-end": "at_end",
    "at-cell": "at_cell",
    "at-record": "at_record",
    "off-record": "off_record",
    "off-cell": "off_cell",
    "in-at": "in_at",
    "c-x": "c_x",
    "c-h": "c_h",
    "x-h": "x_h",
}

# Definitions and lemmas in lower camel case; a lemma's parts stay joined by dashes.
CAMEL = """
afterChain afterHeader afterPost afterRecords afterTake allInRange boxOf boxPosted boxTaken boxesMeaning
bridgeMeaning chainOf checkedBytes classNumber crcOf decimalOf decodedIf evaluateWith faultCause faultFrame
faultLayer faultNode faultText faultWith figuresText forkAt forkCell forkOutcome frameOf-parts frameText framesIn
fromFirst headText helpText helpWith isClass isDecimal isFull isProcessor leafAt leftFirst lineMeaning lineText
mapOk nodeAt nodeText nodesOf notZero orFault parentsOf pileOf postAnswer processorChecked reasonText reckoningOf
recordedAt recordedCount refusalNumber refusalOf refusalText refusedWith rightFirst slipText takeAnswer tooFast
tooLarge traceOf withCell wrongCheck cellText joinedWith leafOutcome linesText outcomeLine outcomeText reportText
""".split()

WORD = r"\w'^-"


def snake(name):
    return re.sub(r"(?<=[a-z0-9])([A-Z])", lambda m: "_" + m.group(1).lower(), name)


def main():
    names = dict(SAID)
    names.update((n, snake(n)) for n in CAMEL)
    code = [p for part in ("specs", "proofs", "src") for end in ("rt", "antt") for p in glob.glob(f"crates/*/{part}/**/*.{end}", recursive=True)]
    docs = ["README.md"] + glob.glob("docs/*.md")
    texts = {p: open(p, encoding="utf-8").read() for p in sorted(code + docs)}
    whole = "\n".join(texts[p] for p in code if p.endswith(".antt"))
    for old, new in names.items():
        if re.search(rf"(?<![{WORD}]){re.escape(new)}(?![{WORD}])", whole):
            print(f"look: {old} becomes {new}, which stands already", file=sys.stderr)
    either = "|".join(re.escape(n) for n in sorted(names, key=len, reverse=True))
    pattern = re.compile(rf"(?<![{WORD}])(?:{either})(?![{WORD}])")
    for p, text in texts.items():
        new = pattern.sub(lambda m: names[m.group(0)], text)
        if new != text:
            with open(p, "w", encoding="utf-8") as f:
                f.write(new)


main()
