#!/usr/bin/env python3
"""Brings the repository's own definitions and lemmas to one spelling, in place.

A definition, a lemma and a field is written in snake case: `firstNotBelow` becomes `first_not_below`. A dash stays only
where it joins two names, as in `each-append`; where it stands between plain words it becomes `_`. Types, modules, names
that the prover makes, and names of src/ keep their spelling. Run it once, at the top, with everything committed; with
--list it only prints what it would rename.
"""

import glob
import re
import sys

NAME = r"[A-Za-z_ℕ][A-Za-z0-9_'ℕ-]*"
EDGE = r"[A-Za-z0-9_'ℕ-]"
HEAD = re.compile(r"^\s*((?:pub |abbrev |unfoldable )*)(record |data )?(" + NAME + r")\s+(?::\s|\(.*\) : Type)(.*)$")

# names of the library that lemmas are about, beside the repository's own
LIBRARY = {"append", "drop", "take", "length", "map", "filter", "set", "nth", "cons", "suc", "zero", "replicate", "min"}

# names for which the rule would give a name that is taken, or lose what a dash joins
CHOSEN = {
    "bitOf-suc": "bit_of-suc",
    "bitOf-zero": "bit_of-zero",
    "bit-of-zero": "bit_of_number_zero",
    "number-open": "number_open_bound",
    "one-at": "one_at_is",
}


def antt_files():
    for part in ("specs", "proofs"):
        yield from sorted(glob.glob(f"crates/*/{part}/**/*.antt", recursive=True))


def snake(name):
    return re.sub(r"(?<=[a-z0-9])([A-Z])", lambda m: "_" + m.group(1).lower(), name)


def is_odd(name):
    return name[0].islower() and ("-" in name or re.search(r"[a-z0-9][A-Z]", name) is not None)


def own_names():
    """The names that are written at the head of a definition or a lemma, and those of them that are definitions."""
    found, words = set(), set()
    for path in antt_files():
        answers = path.endswith(("/Answers.antt", "/Invariants.antt"))
        for line in open(path, encoding="utf-8"):
            m = HEAD.match(line)
            if not m or line.lstrip().startswith(("use ", "let ", "--")):
                continue
            name, rest = m.group(3), m.group(4)
            if answers and "goal." in rest:
                continue
            if not line[0].isspace() or m.group(1) or "/proofs/" in path or is_odd(name):
                found.add(name)
            if "/specs/" in path or "abbrev" in m.group(1) or "unfoldable" in m.group(1):
                words.add(name)
    return found, words


def respelled(name, words):
    if name in CHOSEN:
        return CHOSEN[name]
    parts = name.split("-")
    out = snake(parts[0])
    for before, after in zip(parts, parts[1:]):
        joins = all(p in words or p in LIBRARY for p in (before, after))
        out += ("-" if joins else "_") + snake(after)
    return out


def main():
    found, words = own_names()
    turned = {n: respelled(n, words) for n in found if is_odd(n)}
    turned = {old: new for old, new in turned.items() if old != new}
    taken = found - set(turned)
    clashes = [(old, new) for old, new in turned.items() if new in taken]
    fell = {}
    for old, new in turned.items():
        fell.setdefault(new, []).append(old)
    clashes += [tuple(olds) for olds in fell.values() if len(olds) > 1]
    if "--list" in sys.argv:
        for old in sorted(turned):
            print(old, turned[old])
    for clash in sorted(clashes):
        print("falls together:", *clash, file=sys.stderr)
    if "--list" in sys.argv:
        return
    if clashes:
        sys.exit(1)
    pattern = re.compile(
        f"(?<!{EDGE})(" + "|".join(re.escape(n) for n in sorted(turned, key=len, reverse=True)) + f")(?!{EDGE})"
    )
    files = list(antt_files())
    files += sorted(glob.glob("crates/*/src/**/*.rt", recursive=True)) + sorted(glob.glob("crates/*/must-fail/*.edit"))
    files += ["README.md"] + sorted(glob.glob("docs/*.md"))
    for path in files:
        text = open(path, encoding="utf-8").read()
        new = pattern.sub(lambda m: turned[m.group(1)], text)
        if new != text:
            open(path, "w", encoding="utf-8").write(new)
            print(path)


main()
