#!/usr/bin/env python3
"""Spells the repository's own definitions and lemmas in snake case, by tools/respell.tsv (a row for each name: old, a tab, new).

usage: tools/respell.py [ROOT]         in .antt and .rt files, in must-fail/*.edit, and in the code spans of README.md, docs/READING.md and docs/DECISIONS.md
       tools/respell.py --table        prints the rows for the names that specs/ and proofs/ of the crates declare

It turns whole names alone, none in a string, and none in a file that imports that name from a library. In the proof of a function a name behind a dot stays where it
has a dash, since it is a step's. Run it once, right after the kit's port.py.
"""
import glob
import os
import re
import sys

HERE = os.path.dirname(os.path.realpath(__file__))
NAME = r'[^\s(){}.;,@"«»`]+'
TOKEN = re.compile(rf'(b?"(?:\\.|[^"\\\n])*"|b?\'(?:\\.|[^\'\\\n])\'(?!{NAME}))|(\.?)({NAME})')
DECLARED = re.compile(rf"^\s*(?:(?:pub|abbrev|unfoldable|data|record) )*({NAME})((?: (?:\{{[^{{}}\n]*\}}|\([^()\n]*\)|{NAME}))*) : ")
USE = re.compile(r"^\s*(?:ghost )?use ([^\s;{]+)(?:\{([^}]*)\})?", re.M)


def snake(name):
    words = re.sub(r"(?<=[a-z0-9'])([A-Z])", lambda m: "_" + m[1].lower(), name)
    return words.replace("-", "_")


def texts(root, kinds):
    for folder, dirs, files in os.walk(os.path.join(root, "crates")):
        dirs[:] = sorted(d for d in dirs if d != "out")
        for f in sorted(files):
            if f.endswith(kinds):
                yield os.path.join(folder, f)


def of_function(path):
    return re.search(r"/proofs/.+/", path) is not None


def own(root):
    crates = set(os.listdir(os.path.join(root, "crates")))
    return lambda path: path.startswith("Rattle.") and path.split(".")[1] in crates or path.startswith("package.")


def foreign(text, is_own):
    names = set()
    for path, items in USE.findall(text):
        if not is_own(path):
            for item in items.split(",") if items else [path.rsplit(".", 1)[-1]]:
                names.add(item.split(" as ")[-1].strip())
    return names


def table(root):
    names = set()
    for path in texts(root, (".antt",)):
        if of_function(path):
            continue
        for line in open(path, encoding="utf-8"):
            m = DECLARED.match(line)
            if m:
                names.add(m[1])
    return {n: snake(n) for n in sorted(names) if snake(n) != n and re.match(r"[a-z]", n)}


# Lemmas that port.py spelled as a definition's name is spelled now.
LEMMAS = {n: n + "_lem" for n in "digit_value load_is no_steps read_as rest_in same_step step_count too_long".split()}


def turned(text, rows, left, after_dot, lemmas=False):
    def one(m):
        if lemmas and m[3] in LEMMAS and text[m.end() : m.end() + 1] != "." and not (m[2] and not after_dot("-")):
            return m[2] + LEMMAS[m[3]]
        if m[1] or m[3] not in rows or m[3] in left or (m[2] and not after_dot(m[3])):
            return m[0]
        return m[2] + rows[m[3]]

    return TOKEN.sub(one, text)


def main():
    args = sys.argv[1:]
    if args == ["--table"]:
        for old, new in table(".").items():
            print(f"{old}\t{new}")
        return
    root = args[0] if args else "."
    rows = dict(line.rstrip("\n").split("\t") for line in open(os.path.join(HERE, "respell.tsv"), encoding="utf-8"))
    is_own = own(root)
    for path in texts(root, (".antt", ".rt", ".edit")):
        text = open(path, encoding="utf-8").read()
        step = of_function(path)
        left = foreign(text, is_own)
        if path.endswith(".edit"):
            target = re.search(r"^file: (.*)$", text, re.M)
            target = os.path.join(os.path.dirname(os.path.dirname(path)), target[1].strip()) if target else ""
            if os.path.exists(target):
                left = foreign(open(target, encoding="utf-8").read(), is_own)
        new = turned(text, rows, left, lambda n: not (step and "-" in n), path.endswith(".antt"))
        if new != text:
            open(path, "w", encoding="utf-8").write(new)
    for path in ("README.md", "docs/READING.md", "docs/DECISIONS.md"):
        path = os.path.join(root, path)
        text = open(path, encoding="utf-8").read()
        new = re.sub(r"`[^`\n]+`", lambda m: turned(m[0], rows, set(), lambda n: True), text)
        if new != text:
            open(path, "w", encoding="utf-8").write(new)


main()
