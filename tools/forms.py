#!/usr/bin/env python3
"""Lists the places of older forms in crates/*/src, point by point, as docs/DESIGN-PASS.md counts them.

    python3 tools/forms.py [POINT..]      the points to list, of 1 to 7; with none, the counts alone
"""
import collections
import glob
import re
import sys

SOURCES = sorted(glob.glob("crates/*/src/*.rt"))
GHOST = re.compile(r"^\s*(ghost|requires|ensures)\b")


def lines(path):
    return open(path, encoding="utf-8").read().split("\n")


def code(path):
    """The lines of a file with their numbers, without comments, ghost lines and clauses."""
    for n, line in enumerate(lines(path), 1):
        bare = re.sub(r"//.*", "", line)
        if bare.strip() and not GHOST.match(bare):
            yield n, bare


def grep(pattern, keep=lambda line: True):
    found = re.compile(pattern)
    return [(p, n, line.strip()) for p in SOURCES for n, line in code(p) if found.search(line) and keep(line)]


def functions():
    """Each function: its file, line, name, parameters, clauses and body."""
    for path in SOURCES:
        text = open(path, encoding="utf-8").read()
        for m in re.finditer(r"^([ ]*)(?:pub(?:\(crate\))? )?(?:final )?fn (\w+)", text, re.M):
            end = text.find("\n" + m.group(1) + "}", m.end())
            semi = re.compile(r";\n").search(text, m.end())
            if end < 0 or (semi and semi.start() < text.find("{\n", m.end()) and text.find("{\n", m.end()) > 0 and "requires" not in text[m.end():semi.start()]
                           and "ensures" not in text[m.end():semi.start()]):
                continue
            whole = text[m.start():end]
            opening = re.search(r"^%s\{\n|\{\n" % m.group(1), whole, re.M)
            body = re.split(r"\n%s\{\n" % m.group(1), whole, maxsplit=1)
            head, inner = (body[0], body[1]) if len(body) == 2 else (whole[:opening.end()], whole[opening.end():]) if opening else (whole, "")
            yield path, text.count("\n", 0, m.start()) + 1, m.group(2), head, inner


def requires():
    """Clauses `requires` that stand, but for names of variables, in three functions or more."""
    seen = collections.defaultdict(list)
    for path, n, name, head, _ in functions():
        for clause in re.findall(r"^\s*requires(?: \w+)? \{ (.*) \}$", head, re.M):
            shape = re.sub(r"\b(place|parent|sibling|member|at|from|first|step|end|v|s|n|k|c)\b", "_", clause)
            seen[(path.split("/")[1], shape)].append((path, n, name))
    return {k: v for k, v in seen.items() if len(v) >= 3}


def alike():
    """Functions of three lines or more whose bodies differ in names and constants alone."""
    seen = collections.defaultdict(list)
    for path, n, name, _, body in functions():
        bare = re.sub(r"//.*", "", body)
        shape = re.sub(r"\b\w+\b", lambda m: m.group(0) if m.group(0) in WORDS else "_", bare)
        shape = re.sub(r"b?'(\\.|[^'])'|\"[^\"]*\"", "_", shape)
        shape = " ".join(shape.split())
        if shape.count(";") + shape.count("=>") + shape.count("{") >= 2:
            seen[shape].append((path, n, name))
    return {k: v for k, v in seen.items() if len(v) >= 2}


WORDS = set("if else match while loop for in let mut return Some None Ok Err Self self true false as ref move".split())

POINTS = {
    1: [
        ("enums of the repository's own", lambda: grep(r"^\s*(pub )?enum \w+")),
        ("numbers as errors", lambda: grep(r"Result<.*, (usize|u8|u16|u32|u64)>")),
        ("an error handed on by hand", lambda: grep(r"Err\((\w+|_)\) => (return )?Err\(")),
        ("an absence handed on by hand", lambda: grep(r"None => (return )?(None|Err\(.*|Ok\(None\))\)?,?$")),
        ("a value that means none", lambda: grep(r"\b(NONE|NOBODY|NOWHERE)\b", lambda line: "use " not in line)),
        ("a flag in a struct or among parameters", lambda: grep(r"^\s*(pub )?\w+: bool,$")),
    ],
    2: [("functions that differ in names and constants alone", lambda: [x for v in alike().values() for x in v])],
    3: [
        ("a number that steps by one", lambda: grep(r"\b\w+ (\+|-)= 1;")),
        ("while and loop", lambda: grep(r"\b(while|loop)\b")),
    ],
    4: [
        ("impls of std's traits by hand", lambda: grep(r"^impl .*\b(PartialEq|Eq|PartialOrd|Ord|Clone|Copy|Hash|Debug|Default|From|TryFrom|Display)\b")),
        ("tests of bytes by comparisons", lambda: grep(r"\bb [<>]=? |b == b'")),
        ("a match of ten arms and more that answers true or false", lambda: [
            (p, n, name) for p, n, name, _, body in functions() if len(re.findall(r"=> (true|false),", body)) >= 6]),
        ("a value printed field by field", lambda: grep(r"let (\w+) = \w+\.\1;")),
    ],
    5: [
        ("clauses `requires` that stand in three functions of a crate and more", lambda: [x for v in requires().values() for x in v]),
        ("functions of five parameters and more", lambda: [
            (p, n, name) for p, n, name, head, _ in functions() if len(re.findall(r"[\(,]\s*(?:mut )?\w+: ", re.sub(r"^[^(]*<.*?>\(", "(", re.split(r"\n\s*(?:requires|ensures)", head)[0], flags=re.S))) >= 5]),
    ],
    6: [
        ("a place in a text beside the text", lambda: [
            (p, n, name) for p, n, name, head, _ in functions() if re.search(r"text: &\[u8\],\s*(at|from): usize", head)]),
        ("arenas of indices", lambda: grep(r"Vec<Node>,$")),
    ],
    7: [("function pointers, boxed closures, dyn", lambda: grep(r"\bfn\(|dyn |Box<"))],
}


def main():
    asked = {int(a) for a in sys.argv[1:]}
    for point, kinds in POINTS.items():
        for what, find in kinds:
            found = find()
            by = collections.Counter(p.split("/")[1] for p, _, _ in found)
            print(f"{point}. {what}: {len(found)}" + (" (" + ", ".join(f"{c}={k}" for c, k in sorted(by.items())) + ")" if found else ""))
            if point in asked:
                for p, n, line in found:
                    print(f"     {p}:{n}: {line}")


main()
