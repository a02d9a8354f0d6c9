#!/usr/bin/env python3
"""Lists the places in crates/*/src at which the design pass looks, a line each, by point.

    python3 tools/places.py          counts, by point and kind
    python3 tools/places.py -l [3b]  the places themselves, of all kinds or of one

Text alone decides, so a place listed is one to be read, and docs/DESIGN-PASS.md says of each kind what became of its places.
"""
import collections
import glob
import re
import sys

FN = r"fn \w+(?:<[^{;]*?>)?\((?:[^(){};]|\([^(){};]*\))*\)"

KINDS = [
    ("1a", "an enum of the repository's own", r"\benum \w+ \{"),
    ("1b", "a function that answers a bool and writes through a &mut", FN.replace("(?:[^(){};]|", "(?=[^{;]*&mut)(?:[^(){};]|", 1) + r" -> bool"),
    ("1c", "a number that tells a kind", r"\((?:u64|usize), (?:u64|usize)\)\s*$|match numbers\[0\]|kind: u64"),
    ("1d", "a match that only hands an error or a none on", r"Err\(\w+\) => return |else \{\s*return (?:None|Err)|Err\(_\) => Err\("),
    ("3a", "a loop over a range of places", r"\bfor \w+ in [^{\n]*\.\.[^{\n]* \{"),
    ("3b", "a while", r"\bwhile [^{\n]+ \{"),
    ("3c", "a slice that is walked by hand", r"\b(?:rest|left) = (?:after|later|behind\(|&)"),
    ("3d", "a loop that only looks for an element", r"\bfor [^{\n]+ in [^{\n]+ \{\s*if [^{]+ \{\s*return (?:true|false|Some)"),
    ("4a", "equality, order or copying by hand", r"fn (?:is_same|same|eq|cmp|partial_cmp|clone)\b"),
    ("4b", "text by hand", r"fn (?:push_\w+|number_and_place|told\w*|fmt)\b"),
    ("5a", "a row with a count of its facts, passed on as two", r"row: &\[u64\],\s*(?:count|facts): usize"),
    ("5b", "a requires that a row is normal", r"requires[^{\n]*\{ Normal "),
    ("5c", "a requires that a row has room for its facts", r"requires[^{\n]*\{[^}\n]*6 \* (?:count|facts) \+ 1 ≤ length row"),
    ("5d", "places and levels of a walk, passed on as two", r"places: &mut \[usize\],\s*levels: &mut"),
    ("6a", "a count beside an array, in a struct", r"pub count: usize,\s*pub \w+: \[|pub \w+: \[[^\n]+\],\s*pub count: usize"),
    ("6b", "a borrowed part with a count beside it", r"\w+: &mut \[[^\]]+\],\s*(?:\w+: usize, )?count: usize"),
    ("6c", "the used part of an array, cut by its count", r"\[(?:0)?\.\.\w+(?:\.\w+)*\.count\]"),
    ("7a", "a function pointer, a dyn or a table of functions", r"\bfn\(|\bdyn "),
    ("7b", "a switch on which step to run", r"match (?:turn|step|choice|making|round)\b|% 3 \{"),
]


def places():
    for path in sorted(glob.glob("crates/*/src/**/*.rt", recursive=True)):
        text = open(path).read()
        for kind, _, pattern in KINDS:
            for found in re.finditer(pattern, text, re.M):
                line = text.count("\n", 0, found.start()) + 1
                yield kind, path, line, found.group(0).split("\n")[0].strip()


def main():
    found = list(places())
    if len(sys.argv) > 1:
        for kind, path, line, text in found:
            if len(sys.argv) == 2 or sys.argv[2] == kind:
                print(f"{kind} {path}:{line} {text}")
        return
    counts = collections.Counter(kind for kind, _, _, _ in found)
    for kind, words, _ in KINDS:
        print(f"{kind} {counts[kind]:4} {words}")


main()
