#!/usr/bin/env python3
"""Brings the names of this repository's own definitions and lemmas to the spelling of the language's style.

usage: python3 tools/respell.py list     prints a table, a line for each name that changes: the old name, a tab, the new one
       python3 tools/respell.py apply    reads tools/spelling.tsv and turns crates/*/specs, crates/*/proofs, and the clauses of crates/*/src

Words are in snake case; a dash joins the names of two definitions and nothing else. Types, facts and modules keep their capitals.
Names that the check makes (returns, loop-x-preserved and the like) and names of the library are left alone.
"""
import os
import re
import sys

TOP = os.path.dirname(os.path.dirname(os.path.realpath(__file__)))
STOPS = "\\s(){}\\[\\],;.⌜⌝∥∣\""
TOKEN = re.compile(f"[^{STOPS}]+")
MADE = re.compile(r"^(returns|loop|if|then|else|match|arm|ensures|requires|invariant|measure|overflow|call|drop|goes|cast|index|div|ghost|return|let|type|law|laws|converts|steps)\b")
STD = "append length take drop map zero suc cons nil and or not cond true false update lookup some none some_of ok err eq le lt add sub get set all All any filter find count sum".split()


def files(ends):
    for folder, dirs, names in os.walk(os.path.join(TOP, "crates")):
        dirs[:] = sorted(d for d in dirs if d != "out")
        for n in sorted(names):
            if n.endswith(ends):
                yield os.path.join(folder, n)


def snake(word):
    """fooBar to foo_bar, and aPath to a_path; a word that begins with a capital is a type or a fact and stays."""
    if not word or not word[0].islower():
        return word
    return re.sub(r"(?<=[a-z0-9])([A-Z])(?=[a-z]|$)", lambda m: "_" + m.group(1).lower(), word)


def definitions():
    """The names defined in specs/ and in the lemma files of proofs/: to each, whether it is a lemma."""
    found = {}
    for path in files(".antt"):
        goals = os.path.basename(path) in ("Answers.antt", "Invariants.antt", "Proof.antt")
        with open(path, encoding="utf-8") as f:
            for line in f:
                m = re.match(r"^\s*((?:(?:abbrev|unfoldable|pub|private)\s+)*)([^\s(){}\[\],;.:]+)(?:\s*\([^)]*\)|\s*\{[^}]*\})*\s*:\s(.*)", line)
                if m and not (goals and m.group(3).startswith("goal")):
                    found[m.group(2)] = found.get(m.group(2), True) and not ("abbrev" in m.group(1) or "unfoldable" in m.group(1))
                m = re.match(r"^\s*(?:pub\s+)?(?:record|data)\s+([^\s(){}]+)", line)
                if m:
                    found[m.group(1)] = False
    return found


def table():
    names = definitions()
    known = {snake(n) for n, lemma in names.items() if not lemma and "-" not in n} | set(STD)
    turned = {}
    for name, lemma in names.items():
        if MADE.match(name):
            continue
        parts = [snake(p) for p in name.split("-") if p]
        if name[0].isupper():
            new = parts[0] + "".join(p[0].upper() + p[1:] for p in parts[1:])
        elif lemma and len(parts) == 2 and parts[0] in known and parts[1] in known:
            new = "-".join(parts)
        else:
            new = "_".join(parts)
        if new != name:
            turned[name] = new
    taken = {}
    for name in names:
        taken.setdefault(turned.get(name, name), []).append(name)
    for new, olds in taken.items():
        if len(olds) > 1:
            for old in olds:
                if names[old] and not all(names[o] for o in olds if o != old) or old == new and names[old]:
                    turned[old] = new + "_lem"
    after = {}
    for name in names:
        after.setdefault(turned.get(name, name), []).append(name)
    for new, olds in sorted(after.items()):
        if len(olds) > 1:
            print("fall together:", new, olds, file=sys.stderr)
    return turned


def apply():
    with open(os.path.join(TOP, "tools", "spelling.tsv"), encoding="utf-8") as f:
        turned = dict(l.rstrip("\n").split("\t") for l in f if l.strip())

    def turn(text):
        return TOKEN.sub(lambda m: turned.get(m.group(0), m.group(0)), text)

    for path in files((".antt", ".rt")):
        with open(path, encoding="utf-8") as f:
            old = f.read()
        if path.endswith(".antt"):
            new = turn(old)
        else:
            new = "".join(part if part.startswith('"') else turn(part) for part in re.split(r'("(?:[^"\\\n]|\\.)*")', old))
        if new != old:
            with open(path, "w", encoding="utf-8") as f:
                f.write(new)


if __name__ == "__main__":
    if sys.argv[1:] == ["list"]:
        for old, new in sorted(table().items()):
            print(f"{old}\t{new}")
    elif sys.argv[1:] == ["apply"]:
        apply()
    else:
        raise SystemExit(__doc__)
