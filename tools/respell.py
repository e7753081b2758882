#!/usr/bin/env python3
"""Brings this repository's own names to the spelling of today's Rattle, by the table respell.tsv beside this file.

usage: python3 tools/respell.py        at the top of a checkout, once, right after the kit's port script

A row of the table is an old name, a tab, a new name. Words are in snake case: turnedOf becomes turned_of, and data-taken
data_taken. Where a lemma would then be spelled like a definition, it ends in _lem. What turns: whole names in specs/ and
proofs/, in what a .rt file says besides strings, in must-fail edits, and in the code spans of README.md, CONTRIBUTING.md
and docs/. A name with dashes behind a dot, or one that a function's own proof file declares, is Rattle's or that file's
and stays there, and one in a comment is prose. Functions of src/, exported names, strings, inputs and outputs keep their names.
"""
import os
import re
import sys

HERE = os.path.dirname(os.path.realpath(__file__))
WORD = re.compile(r"[A-Za-z_][^\s(){}\[\].;,@\"«»:|`←λ⟨⟩]*")
TEXT = re.compile(r'b?"(?:[^"\\]|\\.)*"', re.S)
COMMENT = re.compile(r"(?:(?<=\s)|^)(?:--|//|#)(?=\s)[^\n]*", re.M)
SPAN = re.compile(r"`[^`\n]+`")
DECLARED = re.compile(r"^(?:(?:abbrev|unfoldable|pub) )*([A-Za-z_][^\s(){}.;,:]*) :", re.M)


def rows():
    with open(os.path.join(HERE, "respell.tsv"), encoding="utf-8") as f:
        return dict(line.rstrip("\n").split("\t") for line in f)


def own_fields(table):
    with open(os.path.join(HERE, "respell-fields.txt"), encoding="utf-8") as f:
        return {line.strip() for line in f}


def turned(text, table, fields, stay=frozenset(), code=False):
    quiet = [m.span() for m in COMMENT.finditer(text)]

    def one(m):
        word = m[0]
        if "-" in word and any(a <= m.start() < b for a, b in quiet):
            return word
        new = table.get(word)
        if new is None or word in stay:
            return word
        if code and not re.search("[A-Z]", word):
            return word
        behind_dot = m.start() > 0 and text[m.start() - 1] == "."
        if "-" in word and behind_dot and word not in fields:
            return word
        return new

    return WORD.sub(one, text)


def source(text, table, fields):
    out, last = [], 0
    for m in TEXT.finditer(text):
        out += [turned(text[last : m.start()], table, fields, code=True), m[0]]
        last = m.end()
    return "".join(out + [turned(text[last:], table, fields, code=True)])


def main():
    table, fields = rows(), own_fields(rows())
    for folder, dirs, files in os.walk("crates"):
        dirs[:] = sorted(d for d in dirs if d != "out")
        for name in sorted(files):
            path = os.path.join(folder, name)
            if not name.endswith((".antt", ".rt", ".edit")):
                continue
            with open(path, encoding="utf-8") as f:
                old = f.read()
            if name.endswith(".rt"):
                new = source(old, table, fields)
            elif name.endswith(".edit"):
                specs = re.search(r"^file: .*\.antt", old, re.M)
                new = turned(old, table, fields) if specs else source(old, table, fields)
            else:
                inner = re.search(r"/proofs/[^/]+/", path)
                stay = {w for w in DECLARED.findall(old) if "-" in w} if inner else set()
                new = turned(old, table, fields, stay)
            if new != old:
                with open(path, "w", encoding="utf-8") as f:
                    f.write(new)
    pages = ["README.md", "CONTRIBUTING.md"] + ["docs/" + p for p in sorted(os.listdir("docs")) if p.endswith(".md") and not p.startswith("PORT")]
    for path in pages:
        with open(path, encoding="utf-8") as f:
            old = f.read()
        new = SPAN.sub(lambda m: turned(m[0], table, set(table)), old)
        if new != old:
            with open(path, "w", encoding="utf-8") as f:
                f.write(new)


if __name__ == "__main__":
    sys.exit(main())
