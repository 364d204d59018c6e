#!/usr/bin/env python3
"""Respells the repository's own names: words in snake case, types in camel case, a dash only between two names.

    python3 tools/respell.py

Run once at the top, after the port script. It reads tools/respell.txt, a line for each name, old and new, and turns each
name where it stands whole: in specs/ and proofs/, and in the contracts and ghost lines of src/. Comments keep their words
but for names between backticks; strings keep all. A second run changes nothing.
"""
import pathlib
import re

TABLE = pathlib.Path(__file__).with_suffix(".txt")
NAMES = dict(line.split() for line in TABLE.read_text().splitlines())
WORD = re.compile(r"[^\s(){}.,;@`\"]+")
QUOTED = re.compile(r"`[^`]*`")
STRING = re.compile(r'"(?:[^"\\]|\\.)*"')


def respelled(text):
    return WORD.sub(lambda m: NAMES.get(m.group(), m.group()), text)


def outside_strings(text):
    out, at = [], 0
    for m in STRING.finditer(text):
        out += [respelled(text[at:m.start()]), m.group()]
        at = m.end()
    return "".join(out + [respelled(text[at:])])


def line_of(line, comment):
    code, mark, words = line.partition(comment)
    return outside_strings(code) + mark + QUOTED.sub(lambda m: respelled(m.group()), words)


for path in sorted(pathlib.Path("crates").rglob("*")):
    comment = {".antt": "--", ".rt": "//"}.get(path.suffix)
    if comment is None or "out" in path.parts:
        continue
    old = path.read_text()
    new = "".join(line_of(line, comment) for line in old.splitlines(keepends=True))
    if new != old:
        path.write_text(new)
