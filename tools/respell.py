#!/usr/bin/env python3
"""Gives the definitions, fields and lemmas of this repository the spelling of today's Rattle, by the table respell.tsv.

usage: python3 tools/respell.py [ROOT]      rewrites the .rt and .antt files below ROOT/crates (default: this repository)

A row of the table is an old name, a tab and the new name, or a file, a tab, and these two, which then hold in that file alone. Whole words
turn in the code, but in no string; in a comment a name in camel case turns, and any name that stands between backquotes. Functions of src/,
exported names and strings keep theirs: no row has one. Run it once, on what port.py made.
"""

import os
import re
import sys

HERE = os.path.dirname(os.path.abspath(__file__))
WORD = re.compile(r"[^\s(){}.;,@\"«»\[\]λ`]+")
# strings and comments of antt and of Rattle
PARTS = {
    ".antt": re.compile(r'"(?:[^"\\\n]|\\.)*"|\{-.*?-\}|(?<![^\s(){}.;,@"«»])--[^\n]*', re.S),
    ".rt": re.compile(r'b?"(?:[^"\\\n]|\\.)*"|//[^\n]*'),
}
SPAN = re.compile(r"`[^`\n]*`")


def table(path):
    everywhere, in_file = {}, {}
    with open(path, encoding="utf-8") as f:
        for line in f:
            row = line.rstrip("\n").split("\t")
            if len(row) == 3:
                in_file.setdefault(row[0], {})[row[1]] = row[2]
            else:
                everywhere[row[0]] = row[1]
    return everywhere, in_file


def turned(text, names):
    return WORD.sub(lambda m: names.get(m[0], m[0]), text)


def comment(text, names):
    camel = {a: b for a, b in names.items() if "-" not in a}
    out, at = [], 0
    for m in SPAN.finditer(text):
        out += [turned(text[at : m.start()], camel), turned(m[0], names)]
        at = m.end()
    return "".join(out) + turned(text[at:], camel)


def respelled(text, ending, names):
    out, at = [], 0
    for m in PARTS[ending].finditer(text):
        out.append(turned(text[at : m.start()], names))
        out.append(comment(m[0], names) if m[0].startswith(("--", "//", "{-")) else m[0])
        at = m.end()
    return "".join(out) + turned(text[at:], names)


def main(argv):
    root = os.path.abspath(argv[0] if argv else os.path.join(HERE, ".."))
    everywhere, in_file = table(os.path.join(HERE, "respell.tsv"))
    for folder, dirs, files in os.walk(os.path.join(root, "crates")):
        dirs[:] = sorted(d for d in dirs if d not in ("out", "target"))
        for name in sorted(files):
            ending = os.path.splitext(name)[1]
            if ending not in PARTS:
                continue
            path = os.path.join(folder, name)
            with open(path, encoding="utf-8") as f:
                text = f.read()
            names = everywhere | in_file.get(os.path.relpath(path, root), {})
            new = respelled(text, ending, names)
            if new != text:
                with open(path, "w", encoding="utf-8") as f:
                    f.write(new)


if __name__ == "__main__":
    main(sys.argv[1:])
