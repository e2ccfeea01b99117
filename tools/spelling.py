#!/usr/bin/env python3
"""Brings this repository's own definitions and lemmas to the spelling of today's Rattle: words in snake case, joined to other names by dashes.

usage: python3 tools/spelling.py            at the top of the repository: rewrites crates/ (.antt, .rt, must-fail/*.edit), README.md and docs/ in place
       python3 tools/spelling.py --look     writes nothing; prints names that would fall together

A word is turned where it begins with a small letter and has a capital behind a small letter or a digit (isVoid, countBelow, fullV): is_void, count_below, full_v.
Types and modules begin with a capital and stay; so do strings, and names of src/, which have no such words. Run once, behind port.py.
"""
import os
import re
import subprocess
import sys

PART = re.compile(r"(?<![A-Za-z0-9_'\u0080-\uffff])[a-z][a-z0-9]*(?:_[a-z0-9]+)*(?:[A-Z][a-z0-9_]*)+(?![A-Za-z0-9])")
STRING = re.compile(r'b?"(?:[^"\\]|\\.)*"')


def snake(word):
    return re.sub(r"([a-z0-9])([A-Z])", r"\1_\2", word).lower()


def turn(text, names):
    def one(m):
        w = m.group(0)
        if names is not None and w not in names:
            return w
        return snake(w)

    return PART.sub(one, text)


def turn_code(text, names):
    """Turns all but string literals."""
    out, at = [], 0
    for m in STRING.finditer(text):
        out.append(turn(text[at : m.start()], names))
        out.append(m.group(0))
        at = m.end()
    out.append(turn(text[at:], names))
    return "".join(out)


def files(top, *ends):
    for folder, dirs, found in os.walk(top):
        dirs[:] = sorted(d for d in dirs if d not in ("out", ".git"))
        for f in sorted(found):
            if f.endswith(ends):
                yield os.path.join(folder, f)


def words(text):
    return set(PART.findall(text))


def landed():
    """The words of this kind that HEAD's .antt files have: port.py has turned some of them already, in those files alone."""
    found = subprocess.run(["git", "grep", "-h", "-I", "-o", "-E", "[a-z][A-Za-z0-9_]*[A-Z][A-Za-z0-9_]*", "HEAD", "--", "crates/*.antt"], capture_output=True, text=True, check=True)
    return {w for w in found.stdout.split() if PART.fullmatch(w)}


def main():
    old = landed()
    look = "--look" in sys.argv
    names = set()
    for p in files("crates", ".antt"):
        names |= words(open(p, encoding="utf-8").read())
    apart = {}
    for n in names:
        apart.setdefault(snake(n), set()).add(n)
    for s, ns in sorted(apart.items()):
        if len(ns) > 1:
            print("together:", s, sorted(ns))
    for p in files("crates", ".antt", ".rt"):
        t = open(p, encoding="utf-8").read()
        here = set(re.findall(r"(?<![A-Za-z0-9_'-])[a-z][a-z0-9_]*(?![A-Za-z0-9_'-])", t))
        for w in sorted(words(t) & names):
            if snake(w) in here:
                print("beside:", p, w, snake(w))
    if look:
        return
    for p in files("crates", ".antt", ".rt", ".edit"):
        t = open(p, encoding="utf-8").read()
        n = turn_code(t, names) if p.endswith(".rt") else turn(t, old | names if p.endswith(".edit") else names)
        if n != t:
            open(p, "w", encoding="utf-8").write(n)
    for p in [*files("docs", ".md"), "README.md"]:
        t = open(p, encoding="utf-8").read()
        n = turn(t, old | names)
        if n != t:
            open(p, "w", encoding="utf-8").write(n)


main()
