#!/usr/bin/env python3
"""Turns this repository's own definitions and lemmas to the spelling of today's Rattle.

usage: python3 tools/respell.py [TABLE]        at the top of the repository, once, after the kit's own script

Words are in snake case, types in camel case. The table beside this file has a line for each name: old, a tab, new.
A name is turned where it stands whole, as a token, in a proof, a definition or a clause. Strings and comments stay.
"""

import os
import re
import sys

HERE = os.path.dirname(os.path.realpath(__file__))
ENDS = r"\s(){}\[\];,.«»:∷"
TOKEN = re.compile(rf"[^{ENDS}]+")


def table(path):
    with open(path, encoding="utf-8") as f:
        return dict(line.rstrip("\n").split("\t") for line in f if line.strip())


def sources(root):
    for folder, dirs, files in os.walk(root):
        dirs[:] = sorted(d for d in dirs if d != "out")
        for name in sorted(files):
            if name.endswith((".antt", ".rt")):
                yield os.path.join(folder, name)


def pieces(text, comment):
    """The text in pieces, each with whether names are turned in it: comments and strings are pieces of their own."""
    stays = re.compile(rf'(?:^|(?<=\s)){re.escape(comment)}[^\n]*|"(?:[^"\\\n]|\\.)*"', re.M)
    at = 0
    for m in stays.finditer(text):
        yield text[at : m.start()], True
        yield m.group(), False
        at = m.end()
    yield text[at:], True


def main():
    names = table(sys.argv[1] if len(sys.argv) > 1 else os.path.join(HERE, "respell.tsv"))
    turned = 0
    for path in sources("crates"):
        with open(path, encoding="utf-8") as f:
            text = f.read()
        comment = "--" if path.endswith(".antt") else "//"
        new = "".join(
            TOKEN.sub(lambda m: names.get(m.group(), m.group()), piece) if turns else piece
            for piece, turns in pieces(text, comment)
        )
        if new != text:
            turned += 1
            with open(path, "w", encoding="utf-8") as f:
                f.write(new)
    print(f"respell: {len(names)} names, {turned} files changed")


main()
