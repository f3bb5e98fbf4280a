#!/usr/bin/env python3
"""Functions of crates/*/src whose bodies are the same once numbers, number types, constants' names and paths are set
aside: python3 tools/twins.py. Bodies of one line are not looked at."""
import collections
import glob
import os
import re

os.chdir(os.path.join(os.path.dirname(os.path.abspath(__file__)), ".."))
CLAUSES = r"(?:\n    (?:ensures|requires)[^\n]*(?:\n(?!\{)[^\n]*)*)?"
FUNCTION = re.compile(r"(?:pub )?fn (\w+)[^{;]*?" + CLAUSES + r"\n\{\n(.*?)\n\}\n", re.S)
ASIDE = [
    (r"\b(0x[0-9A-Fa-f_]+|\d[\d_]*)(u8|u16|u32|u64|usize)?\b", "N"),
    (r"\b(u8|u16|u32|u64|usize)\b", "T"),
    (r"\b[A-Z][A-Z_]+\b", "K"),
    (r"\b\w+::(?=\w)", ""),
    (r"\s+", " "),
]
bodies = collections.defaultdict(list)
for path in sorted(glob.glob("crates/*/src/**/*.rt", recursive=True)):
    text = re.sub(r"//.*", "", open(path, encoding="utf-8").read())
    for name, body in FUNCTION.findall(text):
        for pattern, word in ASIDE:
            body = re.sub(pattern, word, body)
        if body.count(";") + body.count("{") >= 2:
            bodies[body].append(path.split("/")[1] + "::" + name)
twins = [names for names in bodies.values() if len(names) > 1]
for names in twins:
    print(" ".join(names))
print(len(twins), "groups of twins")
