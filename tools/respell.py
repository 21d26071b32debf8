#!/usr/bin/env python3
"""Brings the repository's own definitions and lemmas to the spelling of today's Rattle: words in snake case.

usage: python3 tools/respell.py [FOLDER]

It goes by tools/respelled.tsv, a line for each name: the old one, a tab, the new one. It was run once, on what port.py
made of the repository, and refuses a tree that has no old name: a second run would respell what the first one wrote.
Functions of src/, strings, inputs and outputs are not touched.
"""

import os
import re
import sys

HERE = os.path.dirname(os.path.realpath(__file__))
# what a name of antt is made of: anything but blanks, brackets and these
WORD = re.compile(r"[^\s(){}\[\],;.:\u2237\u27e6\u27e7@\"`|]+")


def table():
    with open(os.path.join(HERE, "respelled.tsv"), encoding="utf-8") as f:
        return dict(line.rstrip("\n").split("\t") for line in f)


def respell(text, names):
    return WORD.sub(lambda m: names.get(m.group(0), m.group(0)), text)


def antt(text, names, plain):
    """A comment keeps English words with a dash, as up-to; a name in camel case is respelled there too."""
    out = []
    for line in text.split("\n"):
        code, mark, comment = line.partition("--") if line.lstrip().startswith("--") or " -- " in line else (line, "", "")
        out.append(respell(code, names) + mark + respell(comment, plain))
    return "\n".join(out)


def rust(text, names, plain):
    """Other names stand in imports alone; no name of the code is in camel case. Strings stay."""
    out = []
    for line in text.split("\n"):
        if line.lstrip().startswith("ghost use"):
            out.append(respell(line, names))
        else:
            parts = re.split(r'("(?:[^"\\]|\\.)*")', line)
            out.append("".join(p if p.startswith('"') else respell(p, plain) for p in parts))
    return "\n".join(out)


def edit(text, names):
    return "\n".join(line if line.startswith(("file:", "wrong:")) else respell(line, names) for line in text.split("\n"))


def document(text, names, plain):
    spans = re.split(r"(`[^`]*`)", text)
    inside = {a: b for a, b in names.items() if a in plain or "-" in a}
    return "".join(respell(s, inside if s.startswith("`") else plain) for s in spans)


def turn(path, names, plain):
    with open(path, encoding="utf-8") as f:
        old = f.read()
    if path.endswith(".antt"):
        new = antt(old, names, plain)
    elif path.endswith(".rt"):
        new = rust(old, names, plain)
    elif path.endswith(".edit"):
        new = edit(old, names)
    else:
        new = document(old, names, plain)
    if new != old:
        with open(path, "w", encoding="utf-8") as f:
            f.write(new)


def old_names(root, names):
    """Whether a definition has a name of the old spelling."""
    for folder, dirs, files in os.walk(os.path.join(root, "crates")):
        dirs[:] = [d for d in dirs if d != "out"]
        for f in files:
            if f.endswith(".antt"):
                with open(os.path.join(folder, f), encoding="utf-8") as it:
                    if any(w in names for w in WORD.findall(it.read())):
                        return True
    return False


def main(root):
    names = table()
    # what no function of src/ is called: a name in camel case
    plain = {a: b for a, b in names.items() if "-" not in a and a.lower() != a}
    if not old_names(root, plain):
        sys.exit("respell.py: no name of the old spelling is left")
    for folder, dirs, files in os.walk(root):
        dirs[:] = sorted(d for d in dirs if d not in ("out", ".git", "target", "tools"))
        for f in sorted(files):
            path = os.path.join(folder, f)
            in_crates = os.path.relpath(path, root).startswith("crates" + os.sep)
            if f.endswith((".antt", ".rt", ".edit")) and in_crates or f.endswith(".md"):
                turn(path, names, plain)


if __name__ == "__main__":
    main(sys.argv[1] if len(sys.argv) > 1 else os.path.dirname(HERE))
