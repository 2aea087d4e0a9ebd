#!/usr/bin/env python3
"""Spells this repository's choice at any universe `If b then x else y`: `if b then x else y` is the library's, at Type 0 and with another grouping.

usage: tools/own_if.py [FOLDER]        once, at the top, after tools/respell.py; a second run changes nothing
"""
import os
import re
import sys

TOKEN = re.compile(r"(?<![\w\-.'◌])if(?=[\s◌])")


def turned(path, text):
    if path.endswith(".antt"):
        # comments keep their words
        parts = [re.match(r"((?:(?!(?:^|(?<=\s))--).)*)(.*)", line) for line in text.split("\n")]
        return "\n".join(TOKEN.sub("If", it[1]) + it[2] for it in parts)
    # clauses and ghost items of a source file
    out, at = [], 0
    clause = re.compile(r"(ghost use [^;]*;)|\b(?:requires|ensures)\b\s*\w*\s*\{|\bghost \w+: \{")
    while True:
        m = clause.search(text, at)
        if not m:
            return "".join(out) + text[at:]
        out.append(text[at : m.start()])
        end = m.end()
        if not m[1]:
            depth = 1
            while depth:
                depth += {"{": 1, "}": -1}.get(text[end], 0)
                end += 1
        out.append(TOKEN.sub("If", text[m.start() : end]))
        at = end


def main(top):
    count = 0
    for folder, folders, files in os.walk(os.path.join(top, "crates")):
        folders[:] = sorted(f for f in folders if f not in ("out", ".git", "must-fail"))
        for name in sorted(files):
            path = os.path.join(folder, name)
            if not name.endswith((".antt", ".rt")):
                continue
            with open(path, encoding="utf-8", newline="") as f:
                old = f.read()
            new = turned(path, old)
            if new != old:
                count += 1
                with open(path, "w", encoding="utf-8", newline="") as f:
                    f.write(new)
    print(f"own_if: {count} files")


if __name__ == "__main__":
    main(sys.argv[1] if len(sys.argv) > 1 else ".")
