#!/usr/bin/env python3
"""Brings this repository's own definitions and lemmas to the spelling of today's Rattle, after port.py has run.

usage: python3 tools/respell.py        at the top of the repository, once

Types and facts are in upper camel case, everything else in snake case: 'Keeps-all' is 'KeepsAll', 'facts-in' is 'facts_in'.
Only names that a file of this repository declares are turned, and only where no library's name is meant. In the files of a
function's proof the names that Rattle makes keep the spelling of the source: 'returns-in-default-used-term' is
'returns-in_default-used_term'. Comments, strings, and the functions, fields and variants of src/ stay as they are.
"""

import os
import re
import sys

NAME = re.compile(r"[^\W\d][\w'′]*(?:-[\w'′]+)+")
DECLARED = re.compile(r"^(?:\s*(?:(?:pub|abbrev|unfoldable|record|data|ghost) )+|)([^\W\d][\w'′-]*)(?= (?::|\(|\{))")
MEMBER = re.compile(r"^\s+(?:pub )?([^\W\d][\w'′-]*) :(?!=)")
BOUND = re.compile(r"(?:let |λ |λ \(|[({] ?)([^\W\d][\w'′]*(?:-[\w'′]+)+)(?= :| =|\.|$)")
ALIAS = re.compile(r" as ([^\W\d][\w'′]*(?:-[\w'′]+)+)")
GROUP = re.compile(r"[({]([^(){}:=]*-[^(){}:=]*) :")


def texts(root="."):
    for folder, dirs, files in os.walk(os.path.join(root, "crates")):
        dirs[:] = sorted(d for d in dirs if d != "out")
        for name in sorted(files):
            if name.endswith((".rt", ".antt")):
                yield os.path.join(folder, name)


def is_goal_file(path):
    parts = path.split(os.sep)
    return "proofs" in parts and os.path.basename(path) in ("Answers.antt", "Invariants.antt", "Proof.antt", "Choices.antt")


def turned(name):
    if name[0].isupper():
        return "".join(p[:1].upper() + p[1:] for p in name.split("-"))
    return name.replace("-", "_")


def split_comments(line):
    at = line.find("--")
    while at > 0 and line[at - 1] not in " \t":
        at = line.find("--", at + 1)
    return (line, "") if at < 0 else (line[:at], line[at:])


def declared(text, goal_file, members):
    names = set()
    for line in text.splitlines():
        line, _ = split_comments(line)
        m = DECLARED.match(line)
        if m and "-" in m.group(1) and not re.search(r": goal\.", line) and not m.group(1).startswith(("invariant-", "decreases-")):
            names.add(m.group(1))
        if not goal_file:
            m = MEMBER.match(line)
            if m and "-" in m.group(1):
                names.add(m.group(1))
                members.add(m.group(1))
    return names


def imported(text):
    """The names that a file takes from elsewhere: from this repository, and from the library."""
    own, other = set(), set()
    for path, names in re.findall(r"^(?:pub )?(?:ghost )?use (Rattle\.[\w.'+-]+)\.\{([^}]*)\}", text, re.M):
        crate = path.split(".")[1]
        names = {n.strip().split(" as ")[-1].strip() for n in names.split(",")}
        (own if crate in CRATES else other).update(n for n in names if "-" in n)
    return own, other


CRATES = set(os.listdir("crates")) if os.path.isdir("crates") else set()


def source_words(crate):
    """The identifiers of more than one word in the crate's source and in what it calls, longest first."""
    words = {"in_default", "in_ok", "in_err"}
    for c in CRATES:
        src = os.path.join("crates", c, "src")
        for folder, _, files in os.walk(src):
            for f in files:
                if f.endswith(".rt"):
                    with open(os.path.join(folder, f), encoding="utf-8") as it:
                        words.update(re.findall(r"\b[a-zA-Z][a-zA-Z0-9]*(?:_[a-zA-Z0-9]+)+\b", re.sub(r"//.*", "", it.read())))
    return sorted(words, key=lambda w: (-w.count("_"), w))


def by_source(name, words):
    parts = "-" + name + "-"
    for w in words:
        old = "-" + w.replace("_", "-") + "-"
        while old in parts:
            parts = parts.replace(old, "-" + w + "-")
    return parts[1:-1]


def main():
    files = {p: open(p, encoding="utf-8").read() for p in texts()}
    public = set()
    local = {}
    members = set()
    for p, t in files.items():
        if p.endswith(".antt"):
            names = declared(t, is_goal_file(p), members)
            local[p] = names
            if not is_goal_file(p):
                public |= names
    taken = {}
    for n in sorted(public):
        taken.setdefault(turned(n), []).append(n)
    for new, old in taken.items():
        if len(old) > 1:
            print(f"fall together: {old} -> {new}")
    every = set()
    for p, t in files.items():
        if p.endswith(".antt"):
            for line in t.splitlines():
                every.update(re.findall(r"[^\W\d][\w'′-]*", split_comments(line)[0]))
    for new, old in taken.items():
        if new in every:
            print(f"look: {old[0]} -> {new}, and {new} stands already")
    words = source_words(None)
    left = {}
    for p, t in files.items():
        own, other = imported(t)
        goal_file = is_goal_file(p)
        mine = local.get(p, set())
        bound = set()
        if p.endswith(".antt"):
            for line in t.splitlines():
                code = split_comments(line)[0]
                bound.update(BOUND.findall(code))
                bound.update(ALIAS.findall(code))
                if not goal_file and " = " in code:
                    bound.update(n for n in code.split(" = ")[0].split() if NAME.fullmatch(n))
                for group in GROUP.findall(code):
                    bound.update(n for n in group.split() if NAME.fullmatch(n))
        else:
            for line in re.findall(r"^ghost use .*", t, re.M):
                bound.update(re.findall(r" as ([^\W\d][\w'′]*(?:-[\w'′]+)+)", line))
        bound -= other

        def by_goal(n):
            return n.startswith(("returns", "loop-", "in-", "then-", "else-", "if-", "invariant-", "decreases-"))

        def turn(m, line):
            n = m.group(0)
            before = line[: m.start()]
            if p.endswith(".antt") and n in bound and line[m.end() : m.end() + 1] == "." and not by_goal(n):
                return turned(n)
            if before.endswith("."):
                root = re.search(r"([\w.'-]+)\.$", before)
                if root and (root.group(1).startswith("Rattle.") or root.group(1) in ("goal",)):
                    crate = root.group(1).split(".")[1] if "." in root.group(1) else ""
                    if crate in CRATES and n in public:
                        return turned(n)
                    return by_source(n, words) if goal_file else n
                if n in public and (not goal_file or n in members and not by_goal(n)):
                    return turned(n)
                return by_source(n, words)
            if n in other and n not in mine:
                return n
            if n in mine or n in own:
                return turned(n) if n in mine or n in public or n in bound else by_source(n, words)
            if p.endswith(".rt"):
                return turned(n) if n in public or n in bound else n
            if not goal_file:
                if n in public or n in bound:
                    return turned(n)
                left.setdefault(n, set()).add(p)
                return n
            if n in members and not by_goal(n) and line[m.end() :].startswith(" ="):
                return turned(n)
            if n in bound and re.search(r"let $|λ $|[({] ?$", before) or n in bound and not by_goal(n):
                return turned(n)
            return by_source(n, words)

        out = []
        for line in t.split("\n"):
            if p.endswith(".antt"):
                code, comment = split_comments(line)
            else:
                at = line.find("//")
                code, comment = (line, "") if at < 0 else (line[:at], line[at:])
            pieces = re.split(r'("(?:[^"\\]|\\.)*")', code) if p.endswith(".rt") else [code]
            for i in range(0, len(pieces), 2):
                pieces[i] = NAME.sub(lambda m, s=pieces[i]: turn(m, s), pieces[i])
            out.append("".join(pieces) + comment)
        new = "\n".join(out)
        if os.path.basename(p) in ("lib.rt", "main.rt") and "#![tactic(auto)]" not in new:
            head = re.match(r"(?://.*\n|\n)*", new).group(0)
            new = head + "#![tactic(auto)]\n" + new[len(head) :]
        if new != t:
            with open(p, "w", encoding="utf-8") as it:
                it.write(new)
    for n in sorted(left):
        print(f"left: {n} in {sorted(left[n])[0]} and {len(left[n]) - 1} more")


if __name__ == "__main__":
    main()
