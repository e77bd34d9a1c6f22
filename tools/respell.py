#!/usr/bin/env python3
"""Respells the repository's own names of definitions and lemmas, by the table in respell.txt.

usage: python3 tools/respell.py [FOLDER]    the folder that holds crates/, the current one if none is given

Words are in snake case, and a dash joins two names of definitions. Names of functions, strings, inputs and outputs stay.
It is run after the toolchain's own script has turned the rest of the spelling; a second run changes nothing. The page that lists old
names beside new ones, docs/PORT.md, stays as it is.
"""

import os
import re
import sys

HERE = os.path.dirname(os.path.abspath(__file__))
WORD = re.compile(r"(?<![\w'-])[A-Za-z][\w'-]*")
TEXT = re.compile(r'"(?:[^"\\]|\\.)*"')


def table():
    names, fields = {}, set()
    with open(os.path.join(HERE, "respell.txt"), encoding="utf-8") as lines:
        for line in lines:
            if line.startswith("#") or not line.strip():
                continue
            words = line.split()
            names[words[0]] = words[1]
            if len(words) > 2:
                fields.add(words[0])
    return names, fields


def respell(text, names, fields):
    def turn(found):
        old = found.group(0)
        if old not in names:
            return old
        # Behind a dot stands a field, or a name that the prover made.
        if text[found.start() - 1 : found.start()] == "." and "-" in old and old not in fields:
            return old
        return names[old]

    return WORD.sub(turn, text)


def outside_text(text, names, fields):
    out, at = [], 0
    for found in TEXT.finditer(text):
        out += [respell(text[at : found.start()], names, fields), found.group(0)]
        at = found.end()
    return "".join(out) + respell(text[at:], names, fields)


def in_marks(text, names, fields):
    return re.sub(r"`[^`\n]*`", lambda m: respell(m.group(0), names, fields), text)


def main(root):
    if not os.path.isdir(os.path.join(root, "crates")):
        sys.exit(f"{root} has no folder crates")
    names, fields = table()
    changed = 0
    for folder, dirs, files in os.walk(root):
        dirs[:] = sorted(d for d in dirs if d not in ("out", "target", ".git"))
        for name in sorted(files):
            path = os.path.join(folder, name)
            inside = os.path.relpath(path, root).split(os.sep)[0] == "crates"
            if inside and name.endswith(".antt"):
                how = respell
            elif inside and name.endswith((".rt", ".edit")):
                how = outside_text
            elif name.endswith(".md") and name != "PORT.md":
                how = in_marks
            else:
                continue
            with open(path, encoding="utf-8") as file:
                old = file.read()
            new = how(old, names, fields)
            if new != old:
                with open(path, "w", encoding="utf-8") as file:
                    file.write(new)
                changed += 1
    print(f"{changed} files changed")


if __name__ == "__main__":
    main(sys.argv[1] if len(sys.argv) > 1 else ".")
