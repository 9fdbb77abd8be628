#!/usr/bin/env python3
"""Brings the repository's own definitions and lemmas to today's spelling: words in snake case, a dash only between two names.

usage: python3 tools/respell.py [--check]     at the top of the repository, once, right after the spelling of the language has been turned

Names are read where they are declared, in specs/ and proofs/; a function's own proof (Proof.antt) declares none. Functions of src/, strings and
whatever a library declares keep their names. --check writes nothing. Two names that would fall together are listed, and then nothing is written.
"""

import collections
import glob
import re
import sys

WORD = re.compile(r"(?<![\w'\u2080-\u2089-])[A-Za-z_\u03b1-\u03c9\u0391-\u03a9][\w'\u2080-\u2089]*(?:-[\w'\u2080-\u2089]+)*", re.U)
HEAD = re.compile(r"^(?:abbrev |unfoldable |pub |data |record )*([a-z][\w'\u2080-\u2089-]*)\s*(?:[({:]|$)", re.U)
INNER = re.compile(r"^\s+(?:abbrev |unfoldable |pub )*([a-z][\w'\u2080-\u2089-]*)\s*:(?!:)", re.U)
CONSTRUCTOR = re.compile(r"^\s*\|?\s*(?:pub )?([a-z][\w'\u2080-\u2089-]*)\s*:", re.U)
KEYWORDS = {"use", "pub", "where", "unfolding", "let", "in", "elim", "mod", "abbrev", "unfoldable", "data", "record"}
# words of the library by which a dash may stand
STD = set("length append take drop map set get_or gcd mul add sub div mod le lt suc zero cons snoc min max neg abs int sum placed".split())

# definitions, which have no dash
AT_HAND = {"Same-at": "SameAt", "take-from": "take_from", "first-node": "first_node", "from-to": "from_to"}


def files(kinds):
    return sorted(f for k in kinds for f in glob.glob("crates/**/" + k, recursive=True) if "/out/" not in f)


def declared():
    """What each file of specs/ and proofs/ declares; and which of it is a definition."""
    names, definitions = collections.Counter(), set()
    for f in files(["*.antt"]):
        if f.endswith("/Proof.antt"):
            continue
        for line in open(f, encoding="utf-8"):
            for pattern in (HEAD, INNER, CONSTRUCTOR):
                m = pattern.match(line)
                if m and m.group(1) not in KEYWORDS:
                    names[m.group(1)] += 1
                    if pattern is HEAD and re.match(r"(abbrev|unfoldable|pub record|record|pub data)", line):
                        definitions.add(m.group(1))
    return names, definitions


def snake(name):
    name = re.sub(r"(?<=[a-z0-9])([A-Z])", r"_\1", name)
    return name[0] + name[1:].lower() if name[0].isupper() else name.lower()


def spelled(name, definitions):
    parts = [p if p[:1].isupper() else snake(p) for p in name.split("-")]
    out = parts[0]
    for a, b in zip(parts, parts[1:]):
        both = (a in definitions or a in STD or a[:1].isupper()) and (b in definitions or b in STD or b[:1].isupper())
        out += ("-" if both else "_") + b
    return out


def main():
    names, definitions = declared()
    snaked = {snake(d) for d in definitions}
    table = {n: spelled(n, snaked) for n in names}
    # a lemma that would have its function's name
    met = collections.Counter(table.values())
    for n, b in list(table.items()):
        if met[b] > 1 and n not in definitions:
            table[n] = b + "_lem"
    table = {a: b for a, b in table.items() if a != b} | AT_HAND
    olds = collections.defaultdict(set)
    for a in names:
        olds[table.get(a, a)].add(a)
    together = {b: s for b, s in olds.items() if len(s) > 1}
    here = collections.defaultdict(set)
    for f in files(["*.antt"]):
        if f.endswith("/Proof.antt"):
            continue
        for w in set(WORD.findall(open(f, encoding="utf-8").read())):
            here[w].add(f)
    bad = 0
    for b, s in sorted(together.items()):
        print("together:", b, sorted(s))
        bad += 1
    for a, b in sorted(table.items()):
        both = here[a] & here[b]
        if both:
            print("met:", a, "as", b, "in", sorted(both)[:4])
            bad += 1
    if "--table" in sys.argv:
        for a, b in sorted(table.items()):
            print(a, b)
    if bad and "--force" not in sys.argv:
        return 1
    if "--check" in sys.argv:
        return 0
    for f in files(["*.antt", "*.rt"]):
        old = open(f, encoding="utf-8").read()
        new = WORD.sub(lambda m: table.get(m.group(0), m.group(0)), old)
        if new != old:
            open(f, "w", encoding="utf-8").write(new)
    return 0


if __name__ == "__main__":
    sys.exit(main())
