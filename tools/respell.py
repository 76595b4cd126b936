#!/usr/bin/env python3
"""Respells the names of definitions, lemmas and fields as the library spells its own: words in snake case (`payloadLimit` is `payload_limit`),
fields and constructors of records and data with no dash (`open-ones` is `open_ones`). Names of types, of modules and of the source stay.

usage: respell.py [FOLDER]     rewrites crates/, README.md and docs/ below FOLDER (this one) in place; a second run changes nothing
"""
import glob
import os
import re
import sys

ROOT = sys.argv[1] if len(sys.argv) > 1 else "."
WORD = re.compile(r"(?<![A-Za-z0-9_])[a-z][A-Za-z0-9_]*[A-Z][A-Za-z0-9_]*")
STRING = re.compile(r'b?"(?:[^"\\\n]|\\.)*"')
END = r"(?![^\s(){}.;,`:=\]])"


def snake(word):
    word = re.sub(r"([a-z0-9])([A-Z])", r"\1_\2", word)
    return re.sub(r"([A-Z])([A-Z][a-z])", r"\1_\2", word).lower()


def below(pattern):
    paths = glob.glob(os.path.join(ROOT, pattern), recursive=True)
    return sorted(p for p in paths if os.path.isfile(p) and "/out/" not in p)


def read(path):
    with open(path, encoding="utf-8") as f:
        return f.read()


def dashed(kind):
    """The dashed names that this repository declares in its blocks of that kind."""
    found = set()
    for path in below("crates/*/specs/**/*.antt") + below("crates/*/proofs/**/*.antt"):
        for block in re.findall(r"(?ms)^(?:abbrev )?(?:pub )?%s [^\n]*\n.*?(?=\n\n|\Z)" % kind, read(path)):
            found.update(re.findall(r"(?m)^ +(?:pub )?([a-z][^\s:(){}]*-[^\s:(){}]*) :", block))
    return "|".join(sorted(map(re.escape, found), key=len, reverse=True)) or "(?!)"


def main():
    fields, constructors = dashed("record"), dashed("data")
    # a field that is read, or that is given or declared in a record, and a constructor wherever it stands
    member = re.compile(
        r"(?<=[\w)\]'′]\.)(?:%s)%s|(?<=[{;] )(?:%s)(?= [=:])|(?:(?<=\n  )|(?<=\n    )|(?<=\n      )|(?<=\n        )|(?<=  pub ))(?:%s)(?= [=:])|(?<![^\s(){}.,;])(?:%s)%s"
        % (fields, END, fields, fields, constructors, END)
    )
    words = lambda text: WORD.sub(lambda w: snake(w[0]), text)
    for path in below("crates/**/*.antt") + below("crates/*/src/**/*.rt") + below("crates/*/must-fail/*.edit") + below("README.md") + below("docs/**/*.md"):
        text = read(path)
        if path.endswith(".md"):
            new = re.sub(r"`[^`\n]+`", lambda m: member.sub(lambda w: w[0].replace("-", "_"), words(m[0])), text)
        else:
            parts, at = [], 0
            for s in STRING.finditer(text):
                parts += [words(text[at : s.start()]), s[0]]
                at = s.end()
            new = member.sub(lambda m: m[0].replace("-", "_"), "".join(parts + [words(text[at:])]))
        if new != text:
            with open(path, "w", encoding="utf-8") as f:
                f.write(new)


main()
