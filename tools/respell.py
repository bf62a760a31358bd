#!/usr/bin/env python3
"""Brings the repository's own names to today's spelling: words in snake case. Run once, at the top, right after the kit's port.py.

usage: python3 tools/respell.py

    sumTo-ext, minutesOf  ->  sum_to-ext, minutes_of

A word that begins with a small letter and has a capital inside is respelled in every .rt and .antt file below crates/, strings aside.
Types, modules and parts of a name that begin with a capital keep it. A lemma that would have its function's name gets _lem.
Run it once: a second run would take the respelled names for the lemmas.
"""

import glob
import re

# Names that would fall together with a respelled one in their file: the lemma, or the walk's own ghost value, steps aside.
ASIDE = {
    "crates/theory/proofs/Field.antt": {"is_digit": "is_digit_lem"},
    "crates/worklist/proofs/Listing.antt": {"numbers_after": "numbers_after_lem"},
    "crates/moves/proofs/Thin.antt": {"to_fill": "to_fill_here"},
    "crates/moves/proofs/ThinBytes.antt": {"to_fill": "to_fill_here"},
}
TOKEN = re.compile(r"\"(?:[^\"\\]|\\.)*\"|[^\W\d_][\w'-]*|_[\w'-]+")


def part(p):
    if not p[:1].islower():
        return p
    return re.sub(r"([a-z0-9])([A-Z]+)", lambda m: m.group(1) + "_" + m.group(2).lower(), p)


def word(w):
    return "-".join(part(p) for p in w.split("-"))


def turned(text, aside):
    return TOKEN.sub(lambda m: m.group(0) if m.group(0)[0] == '"' else aside.get(m.group(0)) or word(m.group(0)), text)


def main():
    for end in ("rt", "antt"):
        for path in sorted(glob.glob(f"crates/*/*/**/*.{end}", recursive=True)):
            if "/out/" in path:
                continue
            with open(path, encoding="utf-8") as f:
                old = f.read()
            new = turned(old, ASIDE.get(path, {}))
            if new != old:
                with open(path, "w", encoding="utf-8") as f:
                    f.write(new)
                print(path)


if __name__ == "__main__":
    main()
