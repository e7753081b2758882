"""Prints the functions of src/ that are equal but for names, words and numbers, a group a line.

    python3 tools/twins.py [ROOT]

Functions of fewer than fourteen words and signs are left out.
"""

import glob
import re
import sys

FUNCTION = re.compile(r"^( *)(?:pub )?fn (\w+)[^\n]*?(?:\n(?!\1\{)[^\n]*)*?(?:\{\n|\n\1\{\n)(.*?)\n\1\}\n", re.M | re.S)
KEPT = {"let", "mut", "if", "else", "match", "while", "for", "in", "return", "loop", "as", "true", "false"}


def shape(body):
    """The body with each name told by when it first comes, or None where it is short."""
    body = re.sub(r"//[^\n]*", "", body)
    body = re.sub(r'b?"(?:\\.|[^"\\])*"', "S", body)
    parts = re.findall(r"\w+|[^\w\s]", body)
    if len(parts) < 14:
        return None
    names = {}
    return " ".join(
        "#" if part[0].isdigit() else part if part in KEPT or not re.match(r"\w", part) else str(names.setdefault(part, len(names)))
        for part in parts
    )


root = sys.argv[1] if len(sys.argv) > 1 else "."
groups = {}
for path in sorted(glob.glob(root + "/crates/*/src/**/*.rt", recursive=True)):
    crate = path.split("/crates/")[1].split("/")[0]
    for found in FUNCTION.finditer(open(path).read()):
        groups.setdefault(shape(found.group(3)), []).append(crate + "::" + found.group(2))
twins = [names for form, names in groups.items() if form and len(names) > 1]
for names in twins:
    print(", ".join(names))
print(len(twins), "groups,", sum(map(len, twins)), "functions")
