#!/usr/bin/env python3
"""Brings this repository's own definitions and lemmas to the spelling of today's Rattle: words in snake case, types and facts in upper camel case.

usage: tools/respell.py [FOLDER]        once, at the top, after /opt/rattle/port/port.py

What turns, in specs/, proofs/ and src/ (comments too; strings stay) and in must-fail edits:
  - a word with humps: byteAt, length-bytesOf  ->  byte_at, length-bytes_of
  - a fact with a small letter in front (FACTS):  goodE  ->  GoodE
  - a lemma that would fall together with a word that turns (CLASHES, in proof files alone):  one_more  ->  one-more, for oneMore is one_more now
Names of src/ (functions, fields, variants, exported names) have no humps with a small first letter, so they stay.
Run it once: a second run would take the words that turned for the lemmas that clash with them.
"""
import os
import re
import sys

WORD = re.compile(r'[^\s(){}.;,@"«»`]+')
QUIET = re.compile(r'"(?:\\.|[^"\\\n])*"')
HUMP = re.compile(r"(?<=[a-z0-9])[A-Z]+")
FACTS = {
    w: w[0].upper() + w[1:]
    for w in """okS okItems okArms okTarget okE okEs okBody okHead okField okTyped okRoot okBodyTy gotoOk goodTy goodTyped goodHead goodItems goodArms
    goodTarget goodE goodEs goodBody goodGlobal goodGlobals goodN keptBelow landsAt""".split()
} | {"good_s": "GoodS"}
# lemmas that port.py had turned from dashes to underscores, and that the words of the first row would meet
CLASHES = """put_lowest owner_of at_first goes_on in_place field_put after_run same_at ends_by goes_to one_more end_line field_is answers_of runs_on held_on
cells_fit body_bytes no_step read_cell""".split()


def snake(word):
    parts = word.split("-")
    for i, p in enumerate(parts):
        if re.match("[a-z]", p) and HUMP.search(p):
            parts[i] = HUMP.sub(lambda m: "_" + m[0].lower(), p)
    return "-".join(parts)


def turned(word):
    base = word.rstrip("'₀₁₂₃₄₅₆₇₈₉")
    tail = word[len(base) :]
    if base in FACTS:
        return FACTS[base] + tail
    return snake(base) + tail


def lemma(text):
    """The lemmas among the clashes, and what cites them, with their dashes back: no function or field of src/ has such a name."""
    head = re.compile(r'(?<![^\s(){}.;,@])(' + "|".join(CLASHES) + r')(?![^\s(){}.;,@"])')
    return head.sub(lambda m: m[1].replace("_", "-"), text)


def respelled(path, text):
    if path.endswith(".antt"):
        text = lemma(text)
    out, at = [], 0
    for q in list(QUIET.finditer(text)) if path.endswith((".rt", ".edit")) else []:
        out += [WORD.sub(lambda m: turned(m[0]), text[at : q.start()]), q[0]]
        at = q.end()
    out.append(WORD.sub(lambda m: turned(m[0]), text[at:]))
    return "".join(out)


def main(top):
    count = 0
    for folder, folders, files in os.walk(os.path.join(top, "crates")):
        folders[:] = sorted(f for f in folders if f not in ("out", ".git"))
        for name in sorted(files):
            if not name.endswith((".antt", ".rt", ".edit")):
                continue
            path = os.path.join(folder, name)
            with open(path, encoding="utf-8", newline="") as f:
                old = f.read()
            new = respelled(path, old)
            if new != old:
                count += 1
                with open(path, "w", encoding="utf-8", newline="") as f:
                    f.write(new)
    print(f"respell: {count} files")


if __name__ == "__main__":
    main(sys.argv[1] if len(sys.argv) > 1 else ".")
