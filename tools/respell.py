#!/usr/bin/env python3
"""Brings the repository's own definitions and lemmas to snake case, after the toolchain's port.py has run.

usage: tools/respell.py [FOLDER]      FOLDER: the checkout's top (default: the one that this file is in)

tools/names.tsv has a line for each name: the old one, the new one, and a path (or its beginning) below crates/ where it holds,
empty for everywhere. Changed are the files of specs/ and proofs/, clauses and comments of src/ (no strings), and what stands in
backticks in README.md and docs/ (docs/LANDINGS.md, a record of earlier states, stays). It runs once: a few new names are old ones too.
"""
import os
import re
import sys

HERE = os.path.dirname(os.path.abspath(__file__))
TOKEN = re.compile(r"(?<![\w'◌-])[\w'][\w'-]*(?![\w'-])")
STRING = re.compile(r'b?"(?:[^"\\\n]|\\.)*"')


def names():
    everywhere, some = {}, []
    with open(os.path.join(HERE, "names.tsv"), encoding="utf-8") as f:
        for line in f:
            old, new, where = line.rstrip("\n").split("\t")
            if where:
                some.append((old, new, where))
            else:
                everywhere[old] = new
    return everywhere, some


def respelled(text, table):
    return TOKEN.sub(lambda m: table.get(m[0], m[0]), text)


def source(text, table):
    out, last = [], 0
    for m in STRING.finditer(text):
        out += [respelled(text[last:m.start()], table), m[0]]
        last = m.end()
    return "".join(out) + respelled(text[last:], table)


def page(text, table):
    return re.sub(r"`[^`\n]+`", lambda m: respelled(m[0], table), text)


def main():
    top = sys.argv[1] if len(sys.argv) > 1 else os.path.dirname(HERE)
    everywhere, some = names()
    changed = 0
    for folder in ("crates", "docs", "."):
        for at, below, files in os.walk(os.path.join(top, folder)):
            below[:] = [] if folder == "." else [d for d in below if d != "out"]
            for name in files:
                path = os.path.join(at, name)
                if name.endswith(".antt") and folder == "crates":
                    how = respelled
                elif name.endswith(".rt") and folder == "crates":
                    how = source
                elif name.endswith(".md") and name not in ("LANDINGS.md", "PORT.md"):
                    how = page
                else:
                    continue
                table = dict(everywhere)
                inside = os.path.relpath(path, os.path.join(top, "crates"))
                table.update({o: n for o, n, w in some if inside.startswith(w)})
                with open(path, encoding="utf-8") as f:
                    old = f.read()
                new = how(old, table)
                if new != old:
                    with open(path, "w", encoding="utf-8") as f:
                        f.write(new)
                    changed += 1
    print(f"respell: {changed} files changed")


if __name__ == "__main__":
    main()
