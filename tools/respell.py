#!/usr/bin/env python3
"""Respells the repository's own definitions and lemmas: words in snake case, types in camel case.

usage: python3 tools/respell.py [ROOT]     ROOT: the top of the checkout, else this script's

respell.txt beside it has a line `OLD NEW` for each name. Only whole words change, in the .antt and .rt files and the must-fail edits of crates/; strings stay,
comments change between backquotes alone, and so does nothing that directly follows `c.` below proofs/F/, where a name is made by Rattle.
"""

import os
import re
import sys

WORD = re.compile(r"[^\s(){}\[\];,.\"`:]+(?:::[^\s(){}\[\];,.\"`:]+)*")


def main(argv):
    here = os.path.dirname(os.path.realpath(__file__))
    root = argv[0] if argv else os.path.dirname(here)
    with open(os.path.join(here, "respell.txt"), encoding="utf-8") as f:
        names = dict(line.split() for line in f)
    for folder, dirs, files in os.walk(os.path.join(root, "crates")):
        dirs[:] = sorted(d for d in dirs if d != "out")
        for file in files:
            if file.endswith((".antt", ".rt", ".edit")):
                turn(os.path.join(folder, file), names)


def turn(path, names):
    with open(path, encoding="utf-8") as f:
        text = f.read()
    made = re.search(r"/proofs/.*/[^/]*$", path) is not None
    mark = "//" if path.endswith((".rt", ".edit")) else "--"
    new = "\n".join(line_of(line, names, mark, made) for line in text.split("\n"))
    if new != text:
        with open(path, "w", encoding="utf-8") as f:
            f.write(new)


def line_of(line, names, mark, made):
    code, comment = parted(line, mark)
    strings = re.split(r'("(?:[^"\\]|\\.)*")', code)
    strings[::2] = [words(part, names, made) for part in strings[::2]]
    quoted = re.split(r"(`[^`]*`)", comment)
    quoted[1::2] = [words(part, names, False) for part in quoted[1::2]]
    return "".join(strings) + "".join(quoted)


def parted(line, mark):
    """The code of a line and its comment."""
    quoted = False
    for k, c in enumerate(line):
        if c == '"' and (k == 0 or line[k - 1] not in "\\'"):
            quoted = not quoted
        if not quoted and line.startswith(mark, k) and (mark == "//" or (k == 0 or line[k - 1] == " ") and line[k + 2 : k + 3] in (" ", "")):
            return line[:k], line[k:]
    return line, ""


def words(part, names, made):
    def word(m):
        own = made and part[: m.start()].endswith("c.") and not re.search(r"[^\s(\[{,;]c\.$", part[: m.start()])
        return m[0] if own else names.get(m[0], m[0])

    return WORD.sub(word, part)


if __name__ == "__main__":
    main(sys.argv[1:])
