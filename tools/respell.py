#!/usr/bin/env python3
"""Gives the repository's own definitions and lemmas the spelling of today's library: words in snake case.

usage: python3 tools/respell.py [FOLDER]      in FOLDER (or here), once, after the kit's port.py

The names stand in respell.txt beside this script, a line each: old, new. Three names of the model's lemmas are respelled
in the crates that a line's third word lists alone. Functions of src/, exported names, strings, inputs and outputs keep theirs.
"""
import os
import re
import sys

HERE = os.path.dirname(os.path.realpath(__file__))
WORD = re.compile(r"(?<![\w'-])[A-Za-zμκ_][\w'₀-₉-]*")
TEXT = re.compile(r'"(?:[^"\\\n]|\\.)*"')
CAMEL = re.compile(r"[a-z0-9][A-Z]")


def names():
    everywhere, within = {}, {}
    with open(os.path.join(HERE, "respell.txt"), encoding="utf-8") as f:
        for line in f:
            old, new, *crates = line.split()
            if crates:
                for c in crates:
                    within.setdefault(c, {})[old] = new
            else:
                everywhere[old] = new
    return everywhere, within


def respelled(line, table, code):
    """A line with the table's names; of a comment and of a page only names in camel case and those in backticks."""
    kept = TEXT.findall(line) if code == "rt" else []
    if kept:
        line = TEXT.sub("\0", line)
    comment = len(line)
    if code in ("rt", "antt"):
        mark = {"rt": "//", "antt": "--"}[code]
        m = re.search(r"(?:^|\s)" + mark + r"(?=\s|$)", line)
        comment = m.start() if m else comment
    head, tail = line[:comment], line[comment:]
    if code == "page":
        head, tail = "", line
    head = WORD.sub(lambda m: table.get(m.group(), m.group()), head)

    def quoted(m):
        return WORD.sub(lambda w: table.get(w.group(), w.group()), m.group())

    tail = re.sub(r"`[^`\n]*`", quoted, tail)
    tail = WORD.sub(lambda m: table.get(m.group(), m.group()) if CAMEL.search(m.group()) else m.group(), tail)
    line = head + tail
    for k in kept:
        line = line.replace("\0", k, 1)
    return line


def turn(path, table, code):
    with open(path, encoding="utf-8") as f:
        old = f.read()
    new = "".join(respelled(l, table, code) for l in old.splitlines(keepends=True))
    if new != old:
        with open(path, "w", encoding="utf-8") as f:
            f.write(new)


def main(root):
    everywhere, within = names()
    crates = os.path.join(root, "crates")
    for c in sorted(os.listdir(crates)):
        table = everywhere | within.get(c, {})
        for folder, dirs, files in os.walk(os.path.join(crates, c)):
            dirs[:] = sorted(d for d in dirs if d != "out")
            for f in sorted(files):
                path = os.path.join(folder, f)
                if f.endswith((".rt", ".antt")):
                    turn(path, table, f.rsplit(".", 1)[1])
                elif f.endswith((".edit", ".edit.txt")):
                    turn(path, table, "edit")
    pages = [os.path.join(root, "README.md")] + [os.path.join(root, "docs", f) for f in sorted(os.listdir(os.path.join(root, "docs")))]
    for path in pages:
        if path.endswith(".md") and not path.endswith("PORT.md"):
            turn(path, everywhere, "page")


if __name__ == "__main__":
    main(sys.argv[1] if len(sys.argv) > 1 else ".")
