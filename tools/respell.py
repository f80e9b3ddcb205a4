#!/usr/bin/env python3
"""Respells the repository's own definitions and lemmas: lower camel case becomes snake case (numberText: number_text).

usage: respell.py [--list]      at the top of the repository, once, behind the kit's port.py

It renames what crates/*/specs and crates/*/proofs declare, in .antt, in .rt (where such names stand in contracts alone)
and in must-fail edits. Types keep their capitals, parts of a name that a dash joins are respelled one by one.
"""
import glob
import re
import sys

NAME = r"[A-Za-z0-9_'₀-₉μλκφψ·-]+"
DECLARED = re.compile(r"(?m)^\s*(?:(?:unfoldable|abbrev|pub|record|data)\s+)*(" + NAME + r")(?:\s+\([^)]*\))*\s*:\s")
TOKEN = re.compile(r"(?<![A-Za-z0-9_'₀-₉])[a-z][A-Za-z0-9_'₀-₉]*")


def snake(word):
    return re.sub(r"(?<=[a-z0-9])([A-Z])", lambda m: "_" + m.group(1).lower(), word)


def files(*ends):
    out = []
    for end in ends:
        out += glob.glob("crates/*/**/*." + end, recursive=True)
    return sorted(f for f in out if "/out/" not in f)


def read(path):
    with open(path, encoding="utf-8") as f:
        return f.read()


def main():
    words, spelled = {}, set()
    for path in files("antt"):
        text = re.sub(r"--[^\n]*", "", read(path))
        for name in DECLARED.findall(text):
            for word in re.split(r"[-·]", name):
                if re.match(r"[a-z]", word) and re.search(r"[a-z0-9][A-Z]", word):
                    words[word] = snake(word)
                spelled.add(word)
    falls = [(old, new) for old, new in words.items() if new in spelled]
    twice = {}
    for old, new in words.items():
        twice.setdefault(new, []).append(old)
    for old, new in sorted(falls):
        print(f"look: {old} becomes {new}, which is declared somewhere too")
    for new, olds in sorted(twice.items()):
        if len(olds) > 1:
            print(f"look: {olds} all become {new}")
    if "--list" in sys.argv:
        for old in sorted(words):
            print(f"{old} {words[old]}")
        return
    changed = 0
    for path in files("antt", "rt", "edit"):
        text = read(path)
        new = TOKEN.sub(lambda m: words.get(m.group(0), m.group(0)), text)
        if new != text:
            changed += 1
            with open(path, "w", encoding="utf-8") as f:
                f.write(new)
    print(f"{len(words)} words respelled in {changed} files")


main()
