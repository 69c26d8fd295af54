#!/usr/bin/env python3
"""Spells the repository's own definitions and lemmas as today's Rattle spells names: `count-before` as `count_before`, `Is-bag` as `IsBag`.

usage: python3 tools/respell.py        once, at the top of the repository, after the kit's own script

Names are those that the files of specs/ and the lemma files of proofs/ define. Names of functions and of the goals that the check makes are
not touched, nor are strings. It stops, and writes nothing, where two names would fall together.
"""
import collections
import glob
import re
import sys

NAME = r"[A-Za-z_][A-Za-z0-9_]*'*(?:-[A-Za-z0-9_]+'*)+"
WHOLE = re.compile(r"(?<![A-Za-z0-9_'\-])" + NAME + r"(?![A-Za-z0-9_'\-])")
# lemmas of the library that a crate here once wrote for itself
THE_LIBRARYS = {"drop-set-lt", "get_or-append_right", "get_or-set_other", "not-true"}
PLAIN = re.compile(r"[A-Za-z_][A-Za-z0-9_]*'*(?:-[A-Za-z0-9_]+'*)*")


def bare(text):
    return re.sub(r"--.*", "", text)


def defined(paths):
    found = set()
    head = re.compile(r"(?m)(?:^\s*|\blet\s+|\bwhere\s+)(?:(?:pub|abbrev|unfoldable|record|data|opaque)\s+)*(" + NAME + r")(?![\w'-])(?=[^=\n]*?:(?!=))([^\n]*)")
    for p in paths:
        text = bare(open(p, encoding="utf-8").read())
        for m in head.finditer(text):
            if not re.match(r"\s*:\s*(goal|given)\b", m[2]):
                found.add(m[1])
        for m in re.finditer(r"\b(?:record|data)\s+(" + NAME + r")(?![\w'-])", text):
            found.add(m[1])
    return found


def spelled(name):
    parts = name.split("-")
    if name[0].isupper():
        return "".join(p[:1].upper() + p[1:] for p in parts)
    return "_".join(parts)


def turned(text, names):
    return WHOLE.sub(lambda m: spelled(m[0]) if m[0] in names else m[0], text)


def in_ticks(text, names):
    return re.sub(r"`[^`\n]*`", lambda m: turned(m[0], names), text)


def antt(text, names):
    out = []
    for line in text.split("\n"):
        code, dash, said = line.partition("--")
        if dash:
            listed = re.match(r"     +\S.*?(?=  |$)", said) if not code.strip() else None
            if listed:
                said = turned(listed[0], names) + in_ticks(said[listed.end():], names)
            else:
                said = in_ticks(said, names)
        out.append(turned(code, names) + dash + said)
    return "\n".join(out)


def rust(text, names):
    out = []
    for line in text.split("\n"):
        m = re.match(r'((?:[^"/]|"(?:[^"\\]|\\.)*"|/(?!/))*)(//.*)?$', line)
        code, said = (m[1], m[2] or "") if m else (line, "")
        pieces = re.split(r'("(?:[^"\\]|\\.)*")', code)
        code = "".join(x if i % 2 else turned(x, names) for i, x in enumerate(pieces))
        out.append(code + in_ticks(said, names))
    return "\n".join(out)


def main():
    laid = sorted(glob.glob("crates/*/specs/*.antt") + glob.glob("crates/*/proofs/*.antt"))
    all_antt = sorted(glob.glob("crates/*/specs/**/*.antt", recursive=True) + glob.glob("crates/*/proofs/**/*.antt", recursive=True))
    sources = sorted(glob.glob("crates/*/src/**/*.rt", recursive=True))
    edits = sorted(glob.glob("crates/*/must-fail/*.edit"))
    pages = sorted(glob.glob("docs/*.md") + glob.glob("README.md"))
    names = defined(laid) - THE_LIBRARYS
    by = collections.defaultdict(set)
    for n in names:
        by[spelled(n)].add(n)
    taken = set()
    for p in laid:
        for m in re.finditer(r"(?m)^\s*(?:(?:pub|abbrev|unfoldable|record|data)\s+)+(" + PLAIN.pattern + ")", bare(open(p, encoding="utf-8").read())):
            if "-" not in m[1]:
                taken.add(m[1])
    together = [(s, sorted(ns)) for s, ns in by.items() if len(ns) > 1] + [(s, sorted(ns)) for s, ns in by.items() if s in taken]
    for s, ns in sorted(together):
        print(f"look: {', '.join(ns)} and another name fall together as {s}")
    if "--dry" in sys.argv:
        return 0
    for paths, turn in ((all_antt, antt), (sources, rust), (edits, turned), (pages, in_ticks)):
        for p in paths:
            old = open(p, encoding="utf-8").read()
            new = turn(old, names)
            if new != old:
                open(p, "w", encoding="utf-8").write(new)
    print(f"{len(names)} names")
    return 0


if __name__ == "__main__":
    raise SystemExit(main())
