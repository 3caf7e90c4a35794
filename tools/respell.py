#!/usr/bin/env python3
"""Respells the definitions and lemmas of this repository's .antt files: words in snake case, `'` for a prime.

usage: python3 tools/respell.py    (once, at the top of the checkout, after the kit's port.py)

Only names that crates/*/specs and crates/*/proofs declare, and traits' ghost members, are turned, and only as whole names,
in .antt files and in the ghost text of .rt files (contracts, ghost items and `ghost use` lines). Functions of src/, strings,
inputs, outputs and must-fail edits are left. It stops before it writes where two names would fall together.
"""

import os
import re
import sys

DECLARED = re.compile(r"^(?:abbrev |unfoldable |ruleset )?(?:pub )?(?:abbrev |unfoldable |data |record |ruleset )?(?:pub )?([^\s:(){}\"]+)\s*(?::(?!\s*goal\.)|\{|\()", re.M)
FIELD = re.compile(r"^\s+(?:pub )?([^\s:(){}\",;=]+) :(?!\s*goal\.)", re.M)
MEMBER = re.compile(r"^\s+ghost (\w+)(?::| =)", re.M)
INLINE = re.compile(r"[{;]\s*([^\s:(){}\",;=]+) :(?!\s*goal\.)")
NAME = r"[\w'′·◌-]"


# Where the plain spelling would fall together with that of a test beside it, or with a function that says something else.
APART = {"is-out": "out_is", "isBlank": "is_blank_byte"}
# Fields of two records, in crates that know nothing of one another
ALIKE = {"inFlight", "in-flight"}


def snake(name):
    if name in APART:
        return APART[name]
    turned = name.replace("′", "'").replace("-", "_")
    if turned[0].islower():
        turned = re.sub(r"(?<=[a-z0-9])([A-Z])", lambda m: "_" + m[1].lower(), turned)
    return turned


def files(top):
    for folder, folders, names in os.walk(top):
        folders[:] = sorted(f for f in folders if f not in ("out", ".git"))
        for name in sorted(names):
            yield os.path.join(folder, name)


def read(path):
    with open(path, encoding="utf-8") as f:
        return f.read()


def turn(text, names):
    pattern = re.compile(r"(?<!" + NAME + r")(?:" + "|".join(re.escape(n) for n in sorted(names, key=len, reverse=True)) + r")(?!" + NAME + r")")
    return pattern.sub(lambda m: names[m[0]], text)


def turn_ghost(text, names):
    """An .rt file: lines of clauses and ghost items alone, and no string."""
    lines, depth = [], 0
    for line in text.split("\n"):
        if depth or re.match(r"\s*(requires|ensures|ghost|also_owns|also_shares)\b", line):
            code = turn(line, names)
            depth = max(0, depth + line.count("{") - line.count("}"))
            lines.append(code)
        else:
            lines.append(line)
    return "\n".join(lines)


def main():
    antt = [p for p in files("crates") if p.endswith(".antt")]
    declared = {}
    for path in antt:
        text = re.sub(r"--.*", "", read(path))
        for pattern in (DECLARED, FIELD, INLINE):
            for found in pattern.findall(text):
                declared.setdefault(found, set()).add(path)
    for path in files("crates"):
        if path.endswith(".rt"):
            for found in MEMBER.findall(read(path)):
                if found[0].islower():
                    declared.setdefault(found, set()).add(path)
    names = {n: snake(n) for n in declared if n[0].isalpha() and snake(n) != n}
    bad = [f"{n} -> {to}, which {sorted(declared[to])[0]} declares" for n, to in names.items() if to in declared]
    seen = {}
    for n, to in names.items():
        if to in seen and n not in ALIKE:
            bad.append(f"{n} and {seen[to]} -> {to}")
        seen[to] = n
    imported = re.compile(r"use (?:Rattle\.std|lib|borrow|mathlib|Prim)\b[^{\n]*\{([^}]*)\}")
    for path in list(files("crates")):
        if path.endswith((".antt", ".rt")):
            for group in imported.findall(read(path)):
                for n in re.split(r"[,\s]+", group):
                    if n in names or n in seen:
                        bad.append(f"{n} is the library's in {path}")
    if bad:
        print("\n".join(bad))
        return 1
    if "--list" in sys.argv:
        print("\n".join(f"{n} {to} {sorted(declared[n])[0]}" for n, to in sorted(names.items())))
        return 0
    for path in list(files("crates")):
        if path.endswith(".antt"):
            old = read(path)
            new = turn(old, names)
        elif path.endswith(".rt"):
            old = read(path)
            new = turn_ghost(old, names)
        else:
            continue
        if new != old:
            with open(path, "w", encoding="utf-8") as f:
                f.write(new)
    return 0


if __name__ == "__main__":
    raise SystemExit(main())
