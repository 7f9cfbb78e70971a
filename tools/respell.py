#!/usr/bin/env python3
"""Gives the definitions and lemmas of this repository today's spelling: words in snake case, one rule for all.

usage: python3 tools/respell.py [FOLDER]     once, after port.py, at the top of a checkout (or of FOLDER)

A word that begins in lower case and has a capital inside, as recordAt, is written record_at; in a name with dashes each part is a word of its own, as in
record_at-all. Words of specs/ and proofs/, of clauses and comments of src/ and of the edits are turned; text between quotes is not. Where a lemma
already has the new name of a definition, the lemma gets the ending _lem. Code of src/ has no such words, so functions keep their names.
"""
import glob
import os
import re
import sys

# Facts that were spelled as words: the crate, the old name, the new one.
FACTS = [("context", "misses", "Misses")]
# Lemmas whose names a definition gets: the crate, the lemma.
LEMMAS = [
    ("type_formatter", "kept_in"),
    ("utf8", "run_past"),
    ("checked_calls", "size_is"),
    ("rules", "size_step"),
]
WORD = re.compile(r"(?<![\w'])[a-z][a-z0-9_]*[A-Z][A-Za-z0-9_]*'*(?![\w])")
QUOTED = re.compile(r'"(?:\\.|[^"\\\n])*"')


def snake(word):
    word = re.sub(r"([a-z0-9])([A-Z])", r"\1_\2", word)
    return re.sub(r"([A-Z]+)([A-Z][a-z])", r"\1_\2", word).lower()


def outside_quotes(text, turn):
    out, end = [], 0
    for m in QUOTED.finditer(text):
        out += [turn(text[end : m.start()]), m.group(0)]
        end = m.end()
    return "".join(out) + turn(text[end:])


def turned(path, text):
    for crate, name, fact in FACTS:
        if path.endswith(".antt") and f"/{crate}/proofs/" in path:
            text = re.sub(rf"(?<![\w.'-]){name}(?![\w'-])", fact, text)
    for crate, lemma in LEMMAS:
        if path.endswith(".antt") and f"/{crate}/proofs/" in path:
            text = re.sub(rf"(?<![\w.'-]){lemma}(?![\w'-])", lemma + "_lem", text)
    return outside_quotes(text, lambda t: WORD.sub(lambda m: snake(m.group(0)), t))


def main():
    root = sys.argv[1] if len(sys.argv) > 1 else "."
    paths = []
    for p in ("crates/*/specs/**/*.antt", "crates/*/proofs/**/*.antt", "crates/*/src/**/*.rt", "crates/*/must-fail/*.edit", "edits/*/*.edit"):
        paths += glob.glob(os.path.join(root, p), recursive=True)
    changed = 0
    for path in sorted(paths):
        with open(path, encoding="utf-8") as f:
            old = f.read()
        new = turned(path, old)
        if new != old:
            changed += 1
            with open(path, "w", encoding="utf-8") as f:
                f.write(new)
    print(f"respelled {changed} of {len(paths)} files")


if __name__ == "__main__":
    main()
