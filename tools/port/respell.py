#!/usr/bin/env python3
"""Turns the names of this repository's definitions and lemmas to today's spelling.

usage: python3 tools/port/respell.py        at the top of the repository, once, after the toolchain's own port.py

names.tsv beside this file has a line for each name: the old spelling, a tab, the new one. A name is replaced where it
stands as a whole word, in sources, specs, proofs and must-fail edits. Besides, `AllByRecursion`, which port.py brings in
under the name `All`, goes by its own name: the library has another `All`.
"""
import os
import re

HERE = os.path.dirname(os.path.realpath(__file__))
WORD = re.compile(r"[^\s(){}\[\],;:.∷×λ`\"«»|/=]+")
CODE = re.compile(r"^(?:(?!--|//).)*", re.M)  # a line without its comment
ALIAS = "AllByRecursion as All"


def names():
    with open(os.path.join(HERE, "names.tsv"), encoding="utf-8") as f:
        return dict(line.rstrip("\n").split("\t") for line in f)


def texts():
    for root in ("crates", "unfinished"):
        for folder, folders, files in os.walk(root):
            folders[:] = sorted(d for d in folders if d != "out")
            for name in sorted(files):
                if name.endswith((".antt", ".rt", ".edit")):
                    yield os.path.join(folder, name)


def respelled(text, table):
    if ALIAS in text:
        text = text.replace(ALIAS, "AllByRecursion")
        text = CODE.sub(lambda line: WORD.sub(lambda m: "AllByRecursion" if m[0] == "All" else m[0], line[0]), text)
    return WORD.sub(lambda m: table.get(m[0], m[0]), text)


def main():
    table = names()
    changed = 0
    for path in texts():
        with open(path, encoding="utf-8") as f:
            old = f.read()
        new = respelled(old, table)
        if new != old:
            changed += 1
            with open(path, "w", encoding="utf-8") as f:
                f.write(new)
    print(f"respell: {len(table)} names, {changed} files")


if __name__ == "__main__":
    main()
