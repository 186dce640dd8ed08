#!/usr/bin/env python3
"""Turns the definitions and lemmas of this repository to snake case, as today's Rattle spells them.

usage: tools/snake_names.py [--check]     at the top of the repository, once, after the kit's port.py

A name turns if a file of specs/ or a lemma file of proofs/ has it, it begins with a small letter or a symbol, and it has a dash or a
capital inside, as `chargeOf` or `ends-bind`; not if a file imports it from the kit's library. Types, modules, source names, and the names
that Rattle makes for goals and steps (they stand only in a function's own proof files) keep their spelling.
Turned are .antt files, clauses and comments of .rt files, must-fail edits, docs/wrong/answers, and code spans of .md files.
--check only lists the names that would fall together.
"""

import collections
import glob
import os
import re
import sys

WORD = re.compile(r'[^\s(){}.;,@"«»`]+')
TURNS = re.compile(r"^[^A-Z].*(-|[a-z0-9][A-Z])")
OF_FUNCTION = ("Proof.antt", "Answers.antt", "Invariants.antt")
# words whose capital is no word of its own in the library either
BY_HAND = {"getD": "get_or"}
# lemmas that port.py turned already, whose name a definition of this repository gets now: they get the ending of such a lemma
LEMMAS = ("after_two", "constant_number", "has_in", "paid_for", "seen_as", "turned_down")
# definitions that port.py turned already: a lemma that would get their name gets that ending
DEFINITIONS = ("known_in", "same_lists")
# fields of two records
FIELDS = ("is-left", "is-right")


def bare(text):
    return re.sub(r"(?m)(^|\s)--[^\n]*", "", text)


def antt():
    return sorted(glob.glob("crates/*/specs/**/*.antt", recursive=True) + glob.glob("crates/*/proofs/**/*.antt", recursive=True))


def read(path):
    with open(path, encoding="utf-8") as f:
        return f.read()


def turned(name):
    parts = []
    for part in name.split("-"):
        for old, new in BY_HAND.items():
            part = re.sub(rf"^{old}$", new, part)
        parts.append(re.sub(r"(?<=[a-z0-9])([A-Z]+)(?=[^A-Za-z]|$|[A-Z][a-z]|[a-z])", lambda m: "_" + m.group(1).lower(), part))
    return "_".join(parts)


def names():
    crates = {l.split(":")[0].strip() for l in read("crates.txt").splitlines() if ":" in l and not l.startswith("#")}
    found, taken, foreign = set(), set(), set()
    for path in antt():
        text = bare(read(path))
        words = set(WORD.findall(text))
        taken |= words
        for m in re.finditer(r"(?m)^\s*(?:pub )?use ([^\n{]*)\{([^}]*)\}", text):
            own = re.match(r"Rattle\.(\w+)\.", m.group(1))
            if not (own and own.group(1) in crates):
                foreign |= {it.strip().split(" as ")[0].strip("«» ") for it in m.group(2).split(",")}
        if os.path.basename(path) not in OF_FUNCTION:
            found |= {w for w in words if TURNS.match(w) and re.search(r"\w", w)}
    turning = {w: turned(w) for w in found - foreign if turned(w) != w}
    defined = {new for old, new in turning.items() if "-" not in old} | set(DEFINITIONS)
    return {old: f"{new}_lem" if "-" in old and new in defined and old not in FIELDS else new for old, new in turning.items()}, taken


def fall_together(table, taken):
    by = collections.defaultdict(set)
    for old, new in table.items():
        by[new].add(old)
    for new, olds in sorted(by.items()):
        if len(olds) > 1 or new in taken:
            print(f"together: {', '.join(sorted(olds))} -> {new}{' (is there)' if new in taken else ''}")


def words(table, text):
    return WORD.sub(lambda m: table.get(m.group(0), m.group(0)), text)


def in_rt(table, text):
    return "".join(p if p.startswith('"') else words(table, p) for p in re.split(r'("(?:[^"\\\n]|\\.)*")', text))


def in_md(table, text):
    return re.sub(r"(`+)[^`]+\1", lambda m: words(table, m.group(0)), text)


def main():
    table, taken = names()
    fall_together(table, taken)
    if "--check" not in sys.argv:
        for path in antt():
            old = read(path)
            new = re.sub(rf"(?<![\w.'-])({'|'.join(LEMMAS)})(?![\w'.-])", r"\1_lem", old)
            if new != old:
                with open(path, "w", encoding="utf-8") as f:
                    f.write(new)
    if "--check" in sys.argv:
        print(len(table), "names")
        return
    turns = [(antt(), words), (sorted(glob.glob("crates/*/src/*.rt")), in_rt), (sorted(glob.glob("crates/*/must-fail/*.edit")), words)]
    turns += [(["docs/wrong/answers"], words), (["README.md"] + sorted(glob.glob("docs/*.md") + glob.glob("*/README.md") + glob.glob("crates/*/README.md")), in_md)]
    for paths, turn in turns:
        for path in paths:
            old = read(path)
            new = turn(table, old)
            if new != old:
                with open(path, "w", encoding="utf-8") as f:
                    f.write(new)


if __name__ == "__main__":
    main()
