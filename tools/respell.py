#!/usr/bin/env python3
"""Respells this repository's own definitions and lemmas as today's Rattle spells them: words in snake case.

    python3 tools/respell.py        at the top of the repository, once, after the kit's port.py

A definition `tickRefusal` becomes `tick_refusal`, and a lemma `any-turn` becomes `any_turn`. A lemma that would then have a definition's
name gets `_lem`. Types, records and their fields, names of src/ and names of the kit stay. It reads crates/*/specs, crates/*/proofs,
crates/*/src (clauses, `ghost use` lines and comments), crates/*/must-fail and the pages of docs/ that name definitions.
"""
import collections
import glob
import os
import re

WORD = re.compile(r"[^\s(){}\[\];,.:\"`|←→λ∷×]+")
DECLARED = re.compile(r"\s*(?:pub |abbrev |unfoldable |opaque |mutual )*([^\s:(){}]+) :(?:\s|$)")


def files(*patterns):
    return sorted(f for p in patterns for f in glob.glob(p, recursive=True) if os.path.isfile(f) and "/out/" not in f)


def snake(name):
    name = name.replace("-", "_")
    return re.sub(r"(?<=[a-z0-9])([A-Z])", lambda m: "_" + m.group(1).lower(), name)


antt = files("crates/*/specs/**/*.antt", "crates/*/proofs/**/*.antt")
walks = [f for f in antt if f.endswith("/Proof.antt")]
crates = {os.path.basename(os.path.dirname(f)) for f in glob.glob("crates/*/")}

# Where each name is declared. A walk's own answers are named after goals, and go with the walk.
declared = collections.defaultdict(set)
for f in antt:
    text = open(f).read()
    for line in text.split("\n"):
        m = DECLARED.match(line)
        if m and ("tie.Need" not in line) and not (f in walks and "tie." in line):
            declared[m.group(1)].add(f)

names = {n for n in declared if n[0].islower() and ("-" in n or re.search(r"[a-z0-9][A-Z]", n))}
camel = {n for n in names if "-" not in n}
taken = {n for n in declared if n not in names} | {snake(n) for n in camel}
new = {}
for n in sorted(names):
    s = snake(n)
    if n not in camel and s in taken:
        s += "_lem"
    new[n] = s
clash = collections.Counter(new.values())
assert not [n for n in clash if clash[n] > 1], [n for n in clash if clash[n] > 1]


def foreign(text):
    """Names that a file takes from the kit."""
    found = set()
    for m in re.finditer(r"use ([A-Za-z_][\w.\-]*?)\.?\{([^}]*)\}", text):
        path = m.group(1).split(".")
        if path[0] == "Rattle" and len(path) > 1 and path[1] in crates:
            continue
        found |= {w.strip() for w in m.group(2).split(",")}
    return found


def respelled(text, skip, only=None):
    def one(m):
        w = m.group(0)
        if w in skip or (only is not None and w not in only):
            return w
        return new.get(w, w)

    return WORD.sub(one, text)


# Lemmas that port.py has respelled already, and whose name a definition of the same file now takes.
lemmas = {
    "each_lane": ["crates/lanes/proofs/LaneLaws.antt", "crates/release/proofs/ReleaseLaws.antt"],
    "of_entry": ["crates/listing/proofs/Longest.antt"],
    "run_on": ["crates/many_ticks/proofs/BlockLaws.antt"],
    "with_all": ["crates/joining/proofs/FillingLaws.antt", "crates/joining/proofs/JoinLaws.antt", "crates/joining/proofs/filling/keep/Proof.antt"],
    "one_more": ["crates/tick_line/proofs/RowLaws.antt", "crates/tick_line/proofs/WordLaws.antt"],
}
# And one that a name of the kit has, in the file that takes it from there.
new["is-nan"] = "is_nan_lem"

changed = 0
for f in antt:
    text = open(f).read()
    mine = {w: w + "_lem" for w in lemmas if f in lemmas[w]}
    out = WORD.sub(lambda m: mine.get(m.group(0), m.group(0)), text)
    out = respelled(out, foreign(text))
    if out != text:
        open(f, "w").write(out)
        changed += 1
for f in files("crates/*/src/**/*.rt", "crates/*/must-fail/*"):
    text = open(f).read()
    # In code a dash is a minus: there only definitions in the older camel case are respelled, and in an edit of an .antt file lemmas too.
    only = None if re.search(r"^file: (specs|proofs)/", text, re.M) else camel
    out = respelled(text, foreign(text), only)
    if out != text:
        open(f, "w").write(out)
        changed += 1
for f in files("README.md", "docs/*.md"):
    text = open(f).read()
    out = re.sub(r"`[^`\n]+`", lambda m: respelled(m.group(0), set()), text)
    if out != text:
        open(f, "w").write(out)
        changed += 1
print(f"respell: {len(new)} names, {changed} files")
