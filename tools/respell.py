#!/usr/bin/env python3
"""Respells the definitions and lemmas of this repository: words joined by a dash are joined by an underscore.

usage: python3 tools/respell.py            at the top of the repository

It looks for names with a dash in crates/*/specs/*.antt and crates/*/proofs/*.antt. Those that a file there
imports from a library keep their spelling. It writes the others with underscores, in every .antt file and in the
ghost text of every .rt file; strings and comments stay. It stops, and writes nothing, where two names would become one.
"""

import glob
import re
import sys

STRING = r'"(?:\\.|[^"\\\n])*"'
NAME = r"[^\s(){}.;,λ\"@«»]+"
ANTT = re.compile(rf"(?P<skip>{STRING}|--[^\n]*)|(?P<name>{NAME})")
RUST = re.compile(rf"(?P<skip>{STRING}|b?'(?:\\.|[^'\\\n])'|//[^\n]*)|(?P<name>{NAME})")
LIBRARY = re.compile(r"use (?:Rattle\.std|Prim|mathlib|lib|native)\b[\w.'-]*\.\{([^}]*)\}")


def names(text, tokens):
    return {m["name"] for m in tokens.finditer(text) if m["name"]}


def has_dash(name):
    return "-" in name.strip("-◌")


def read(path):
    with open(path, encoding="utf-8") as f:
        return f.read()


def main():
    antt = sorted(glob.glob("crates/*/specs/**/*.antt", recursive=True) + glob.glob("crates/*/proofs/**/*.antt", recursive=True))
    rust = sorted(glob.glob("crates/*/src/**/*.rt", recursive=True))
    texts = {p: read(p) for p in antt + rust}
    library = {n.strip() for t in texts.values() for m in LIBRARY.finditer(t) for n in m[1].split(",")}
    # a file of proofs/F/ names what the toolchain makes; its own definitions are none of the repository's names
    own = {n for p in antt if "/specs/" in p or p.count("/") == 3 for n in names(texts[p], ANTT) if has_dash(n)} - library
    taken = {n for p in antt for n in names(texts[p], ANTT)} | library
    new = {n: n.replace("-", "_") for n in own}
    fallen = sorted(n for n in own if new[n] in taken) + ([] if len(set(new.values())) == len(new) else ["two of them"])
    if fallen:
        print("names that fall together: " + " ".join(fallen), file=sys.stderr)
        return 1
    for p, t in texts.items():
        tokens = ANTT if p.endswith(".antt") else RUST
        turned = tokens.sub(lambda m: m["skip"] or new.get(m["name"], m["name"]), t)
        if turned != t:
            with open(p, "w", encoding="utf-8") as f:
                f.write(turned)
    print(f"{len(new)} names: " + " ".join(sorted(new)))
    return 0


if __name__ == "__main__":
    sys.exit(main())
