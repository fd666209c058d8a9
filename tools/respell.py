#!/usr/bin/env python3
"""Brings the repository's own definitions and lemmas to snake case: each line of respell.txt beside this file is an old and a new name.

usage: python3 tools/respell.py [TOP]     (once, at the top of the checkout or of the folder TOP, after the kit's port.py)

Whole names alone are changed, in .antt files, in .rt files and in must-fail edits; no name of a function of src/ is in the list.
In comments and strings only names that are no words of prose (those with a capital inside) change in comments, and none in strings."""
import os
import re
import sys

HERE = os.path.dirname(os.path.realpath(__file__))
NAME = re.compile(r'[^\s:(){};.,"\[\]`]+')


def table():
    with open(os.path.join(HERE, "respell.txt"), encoding="utf-8") as f:
        return dict(line.split() for line in f)


def respell(text, names, comment):
    out = []
    for line in text.split("\n"):
        at = re.search(r'(^|\s)' + comment + r'(\s|$)', line)
        code, said = (line[:at.start()], line[at.start():]) if at else (line, "")
        parts = re.split(r'("(?:[^"\\]|\\.)*")', code)
        parts[::2] = [NAME.sub(lambda m: names.get(m.group(), m.group()), p) for p in parts[::2]]
        said = NAME.sub(lambda m: names.get(m.group(), m.group()) if "-" not in m.group() else m.group(), said)
        out.append("".join(parts) + said)
    return "\n".join(out)


def main():
    top = sys.argv[1] if len(sys.argv) > 1 else "."
    names = table()
    changed = 0
    for folder, dirs, files in os.walk(os.path.join(top, "crates")):
        dirs[:] = sorted(d for d in dirs if d != "out")
        for name in sorted(files):
            if not name.endswith((".antt", ".rt", ".edit")):
                continue
            path = os.path.join(folder, name)
            with open(path, encoding="utf-8") as f:
                old = f.read()
            new = respell(old, names, "//" if name.endswith(".rt") else "--")
            if new != old:
                changed += 1
                with open(path, "w", encoding="utf-8") as f:
                    f.write(new)
    print(f"respell: {changed} files")


main()
