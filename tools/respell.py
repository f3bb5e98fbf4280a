#!/usr/bin/env python3
"""Brings this repository's own ghost names to today's spelling: definitions, fields, constructors and lemmas in snake
case.

usage: python3 tools/respell.py [--list] [FILE..]

At the top of the repository; with no FILE, every .rt and .antt file of crates/. Run once, right after the kit's port.py,
which respells only some of them. Types, modules and names of the source keep their spelling; text in strings and octets'
literals stays. --list prints the names that change, and each two that would fall together.
"""
import collections
import pathlib
import re
import sys

TOKEN = re.compile(r'"(?:[^"\\\n]|\\.)*"|b\'[^\'\n]*\'|[A-Za-z0-9_\'′₀-₉ℕℤ]+(?:-[A-Za-z0-9_\'′₀-₉ℕℤ]+)*')
# a name of one letter and one capital is a variable
CAMEL = re.compile(r"^[a-z][a-z0-9']*[a-z0-9'][A-Z]|^[a-z]+[A-Z][a-z]")


# lemmas whose names a definition's new spelling would take
LEMMAS = {
    n: n + "_lem"
    for n in (
        "cell_in entry_in field_is front_of head_in look_in one_more one_on room_in rows_in spot_in value_in within_of"
    ).split()
}


def snake(piece):
    if not CAMEL.match(piece):
        return piece
    return re.sub(r"(?<=[a-z0-9'])([A-Z])", lambda m: "_" + m[1].lower(), piece)


def respelt(token):
    if token.startswith(('"', "b'")):
        return token
    return "-".join(snake(p) for p in token.split("-"))


def turned(text, ghost):
    """The text respelt; ghost says that it is antt, where the lemmas of LEMMAS stand."""

    def one(m):
        if ghost and m[0] in LEMMAS and text[max(0, m.start() - 1) : m.start()] != ".":
            return LEMMAS[m[0]]
        return respelt(m[0])

    return TOKEN.sub(one, text)


def files(names):
    if names:
        return [pathlib.Path(n) for n in names]
    return sorted(p for p in pathlib.Path("crates").rglob("*") if p.suffix in (".rt", ".antt") and "out" not in p.parts)


def main(argv):
    only_list = "--list" in argv
    paths = files([a for a in argv if a != "--list"])
    seen = collections.Counter()
    for p in paths:
        for m in TOKEN.finditer(p.read_text(encoding="utf-8")):
            seen[m[0]] += 1
    new = collections.defaultdict(set)
    for t in seen:
        new[respelt(t)].add(t)
    fall = {n: olds for n, olds in new.items() if len(olds) > 1}
    if only_list:
        for n, olds in sorted(new.items()):
            if olds != {n}:
                print(" ".join(sorted(olds)), "->", n)
    for n, olds in sorted(fall.items()):
        print("together:", " ".join(sorted(olds)), "->", n)
    if only_list:
        return 1 if fall else 0
    for p in paths:
        text = p.read_text(encoding="utf-8")
        out = turned(text, p.suffix == ".antt")
        if out != text:
            p.write_text(out, encoding="utf-8")
    return 0


if __name__ == "__main__":
    sys.exit(main(sys.argv[1:]))
