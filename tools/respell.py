#!/usr/bin/env python3
"""Brings the repository's own definitions and lemmas to today's spelling: words in snake case, types in camel case.

usage: python3 tools/respell.py          at the top of the repository, once, after the toolchain's port.py

A dash stays only where it joins two names, as the law `less-within` of `less` and `within` has it; a plain word is added with `_`.
Names of functions in src/, strings, inputs and outputs keep their spelling, and so do names of the library and those that Rattle makes (goals, steps).
It stops without writing where two names would fall together."""

import collections
import os
import re
import sys

WORD = r"A-Za-z0-9_'ℕ\-"
TOKEN = re.compile(rf"(?<![{WORD}◌])[A-Za-z][{WORD}]*(?![{WORD}◌])")
OWN = re.compile(r"^\s*((?:(?:abbrev|unfoldable|record|data|pub|ruleset)\s+)*)([^\s(){}λ?]+)(?: \(.*?\))* : ?(.*)$")
IMPORT = re.compile(r"^(?:pub )?(?:ghost )?use ([^{;]+?)\.\{(.*?)\};?$")
STD = "length take drop map get_or append reverse replicate sum count_by bit_and bit_or".split()


def texts(root, ends):
    for folder, dirs, files in os.walk(os.path.join(root, "crates")):
        dirs[:] = sorted(d for d in dirs if d != "out")
        for f in sorted(files):
            if f.endswith(ends):
                yield os.path.join(folder, f)


def read(p):
    with open(p, encoding="utf-8") as f:
        return f.read()


def collect(root):
    """The names that the repository defines: {name: kinds}, where a kind is def, lemma or field; and the foreign ones."""
    crates = {c for c in os.listdir(os.path.join(root, "crates"))}
    own, foreign, made = collections.defaultdict(set), set(), set()
    for p in texts(root, (".antt", ".rt")):
        block = None
        for line in read(p).split("\n"):
            m = IMPORT.match(line)
            if m:
                path = m[1].split(".")
                ours = len(path) > 2 and path[0] == "Rattle" and path[1] in crates and path[-1] not in ("Goals", "Given")
                for w in m[2].split(","):
                    if " as " in w:
                        own[w.split(" as ")[1].strip()].add("def")
                if not ours:
                    foreign |= {w.split(" as ")[0].strip() for w in m[2].split(",")}
                continue
            if not p.endswith(".antt") or line.lstrip().startswith("--"):
                continue
            if line and not line.startswith(" "):
                block = "field" if re.match(r"(pub )?(abbrev |unfoldable )?(pub )?(record|data) ", line) else None
            m = OWN.match(line)
            if not m or m[2] in ("let", "in", "use"):
                continue
            words, name, of = m[1].split(), m[2], m[3]
            if of.startswith("goal."):
                made.add(name)
            elif block == "field" and line.startswith(" "):
                own[name].add("field")
            elif {"abbrev", "unfoldable", "record", "data"} & set(words) or "/specs/" in p:
                own[name].add("def")
            else:
                own[name].add("lemma")
    return own, foreign, made


def spelling(name, known):
    """A name's new spelling."""
    name = name.replace("′", "'").replace("getD", "get_or")
    if name[0].isupper() and not re.match(r"[A-Z][A-Za-z]*-(is|like)$", name):
        return "".join(w[0].upper() + w[1:] for w in re.split(r"[-_]", name) if w)
    parts = name.split("-")
    out = parts[0]
    for i in range(1, len(parts)):
        left = any("-".join(parts[k:i]) in known or "_".join(parts[k:i]) in known for k in range(i))
        right = any("-".join(parts[i:k]) in known or "_".join(parts[i:k]) in known for k in range(i + 1, len(parts) + 1))
        out += ("-" if left and right else "_") + parts[i]
    return out


def mapping(root):
    own, foreign, made = collect(root)
    known = {n for n, kinds in own.items() if "def" in kinds and not n[0].isupper()} | set(STD)
    types = {spelling(n, set()) for n in own if n[0].isupper()}
    turns, off = {}, []
    for n, kinds in own.items():
        if n in foreign or n in made:
            continue
        statement = spelling(n[0].upper() + n[1:], set()) in types
        new = spelling(n, known) if kinds == {"lemma"} and not statement else spelling(n, set())
        if new != n:
            turns[n] = new
    back = collections.defaultdict(list)
    for n in own:
        back[turns.get(n, n)].append(n)
    off += [f"{', '.join(ns)} would all be {new}" for new, ns in back.items() if len(ns) > 1]
    off += [f"{n} would be the library's {new}" for n, new in turns.items() if new in foreign]
    return turns, {n for n, kinds in own.items() if "field" in kinds}, off


def respelled(text, turns, fields, proof, strings=True):
    def turn(m):
        w = m[0]
        if w not in turns:
            return w
        before = text[: m.start()]
        if before.endswith("."):
            if w not in fields or (proof and re.search(r"(?<![\w'])c\.$", before)):
                return w
        if not strings and before.rsplit("\n", 1)[-1].count('"') % 2:
            return w
        return turns[w]

    return TOKEN.sub(turn, text)


def main():
    root = "."
    turns, fields, off = mapping(root)
    if off:
        print("\n".join(off), file=sys.stderr)
        return 1
    n = 0
    for p in texts(root, (".antt", ".rt", ".edit")):
        old = read(p)
        proof = bool(re.search(r"/(Answers|Invariants|Choices|Turns)\.antt$", p))
        new = respelled(old, turns, fields, proof, strings=not p.endswith(".rt"))
        if new != old:
            with open(p, "w", encoding="utf-8") as f:
                f.write(new)
            n += 1
    for p in ["README.md"] + [os.path.join("docs", f) for f in sorted(os.listdir("docs")) if f.endswith(".md") and f != "PORT.md"]:
        old = read(p)
        new = re.sub(r"`[^`\n]+`", lambda m: respelled(m[0], turns, fields, False), old)
        if new != old:
            with open(p, "w", encoding="utf-8") as f:
                f.write(new)
            n += 1
    print(f"{len(turns)} names turned in {n} files")
    return 0


if __name__ == "__main__":
    raise SystemExit(main())
