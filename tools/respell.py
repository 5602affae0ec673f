#!/usr/bin/env python3
"""Gives the repository's own definitions, fields and lemmas the spelling of today's Rattle, by the table respell.tsv beside this file.

usage: python3 tools/respell.py        at the top of the repository, once, after the toolchain's own script

Words are in snake case, and types in upper camel case; a lemma that would have its function's name ends in _lem. Names of functions, types and
fields of the code, strings, inputs and outputs stay: none of them is in the table.
"""
import os
import re

here = os.path.dirname(os.path.realpath(__file__))
with open(os.path.join(here, "respell.tsv"), encoding="utf-8") as f:
    table = dict(line.rstrip("\n").split("\t") for line in f)
token = re.compile(r"[^\W\d](?:[\w'₀₁₂]|-(?=\w))*")


def respell(text):
    return token.sub(lambda m: table.get(m[0], m[0]), text)


for folder, dirs, files in os.walk("crates"):
    dirs[:] = sorted(d for d in dirs if d not in ("out", "target"))
    for name in sorted(files):
        if name.endswith((".rt", ".antt", ".edit")):
            path = os.path.join(folder, name)
            with open(path, encoding="utf-8") as f:
                old = f.read()
            new = respell(old)
            if new != old:
                with open(path, "w", encoding="utf-8") as f:
                    f.write(new)
