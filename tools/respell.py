#!/usr/bin/env python3
"""Brings the repository's own names of definitions and lemmas to snake case: run once, at the top, behind the kit's port.py.

usage: tools/respell.py

A word of a name that begins with a small letter and has a capital in it (firstBad, length-putAll) becomes first_bad, length-put_all, in crates/*/specs and
crates/*/proofs, in the clauses and ghost lines of crates/*/src, in crates/*/must-fail, and in README.md and docs/. Names that the kit declares keep their spelling:
they are those that a file imports from a module that is none of the repository's crates. Code has no such words, so that functions, exported names, strings,
inputs and outputs stay. Two words that would become one, or one that would become another word of the same files, stop the run before anything is written.
"""

import glob
import os
import re
import sys

TOP = os.path.dirname(os.path.dirname(os.path.realpath(__file__)))
WORD = re.compile(r"[A-Za-z0-9_'\u2080-\u2089]+")
CAMEL = re.compile(r"[a-z][a-z0-9_']*[A-Z][A-Za-z0-9_'\u2080-\u2089]*")


# Words that stand in snake case already: port.py has turned some uses of the first two, and the others are names of helpers within a file that has the word in no other
# spelling.
ALREADY = {"first_of", "put_all", "listed_in", "no_digit", "one_more", "too_large"}

# Where the plain spelling is taken by a lemma of the same file or of one that it imports.
OTHERWISE = {"numberDigits": "digits_checked", "rowFits": "fits_row"}


def snake(word):
    if word in OTHERWISE:
        return OTHERWISE[word]
    return re.sub(r"([a-z0-9])([A-Z])", r"\1_\2", word).lower()


def read(path):
    with open(path, encoding="utf-8") as f:
        return f.read()


def files(*patterns):
    return sorted(p for q in patterns for p in glob.glob(os.path.join(TOP, q), recursive=True))


def from_the_kit(texts):
    """The words that some file imports from the kit."""
    crates = {os.path.basename(c) for c in glob.glob(os.path.join(TOP, "crates", "*"))}
    words = set()
    for t in texts:
        for m in re.finditer(r"^use ([^\s{]+?)\.\{([^}]*)\}", t, re.M | re.S):
            path = m[1].split(".")
            if path[0] != "Rattle" or len(path) < 2 or path[1] not in crates:
                words |= set(WORD.findall(m[2]))
    return words


def main():
    antt = files("crates/*/specs/**/*.antt", "crates/*/proofs/**/*.antt")
    texts = [read(p) for p in antt]
    tokens = {w for t in texts for w in WORD.findall(t)}
    kit = from_the_kit(texts)
    turned = {w: snake(w) for w in tokens if CAMEL.fullmatch(w) and w not in kit}
    # Modules of proofs are named as the functions of src/ are, which a definition may be too.
    functions = {m for p in files("crates/*/src/**/*.rt") for m in re.findall(r"\bfn (\w+)", read(p))}
    together = [s for s in set(turned.values()) if list(turned.values()).count(s) > 1]
    taken = [s for s in turned.values() if s in tokens and s not in functions and s not in ALREADY]
    if together or taken:
        print("respell: names fall together:", together, taken)
        return 1
    beside = files("crates/*/must-fail/*.edit", "README.md", "docs/**/*.md")
    said = tokens | set(turned.values())
    for p in beside:
        for w in WORD.findall(read(p)):
            if CAMEL.fullmatch(w) and w not in turned and w not in kit and snake(w) in said:
                turned[w] = snake(w)
    for p in antt + files("crates/*/src/**/*.rt") + beside:
        old = read(p)
        new = WORD.sub(lambda m: turned.get(m[0], m[0]), old)
        if new != old:
            with open(p, "w", encoding="utf-8") as f:
                f.write(new)
    print(f"respell: {len(turned)} words")
    return 0


if __name__ == "__main__":
    sys.exit(main())
