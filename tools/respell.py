#!/usr/bin/env python3
"""Brings the repository's own definitions and lemmas to one spelling.

usage: python3 tools/respell.py [--table]      at the top of the repository

Facts and types go in upper camel case, every other name in snake case. A dash is kept only where a lemma is named by the
two functions on its left side. Names of src/, strings, and names that the check makes of src/ stay. Files of specs/,
proofs/, the clauses of src/ and the must-fail edits are rewritten in place; --table only prints what would become what.
It is run once, right after the script that turns an older kit's files to today's.
"""
import os
import re
import sys

# A name that the rule would bring together with another one, or that says less by the rule than by hand.
BY_HAND = {
    "is-end": "is_end_lem",
    "is-more": "is_end-more",
    "bit-or": "bit-bit_or",
    "bit-pow": "bit-pow",
    "length_digits": "length-digits",
    "length_part": "length-part",
    "length_without": "length-without",
    "length-digits": "length-digits",
    "length-part": "length-part",
    "length-without": "length-without",
    "digits-zero": "digits-zero",
    "digits-set": "digits-set",
    "take-zeros": "take-zeros",
    "numbered-map": "numbered-map",
    "sheet-lines": "sheet_lines_lem",
}
# What the check makes of the code: goals, invariants and measures.
MADE = re.compile(
    r"^(returns|loop|records|invariant|decreases|bounds|overflow|slice_bounds|ghosts)-|-(requires|preserved|init|smaller)(-|$)"
)
# Modules that hold no name of the repository's.
GENERATED = ("Answers.antt", "Invariants.antt", "Choices.antt", "Proof.antt")
TOKEN = re.compile(r"[^\s(){}\[\],;.:`\"“”]+")
DEFINED = re.compile(
    r"^( *)((?:pub |abbrev |unfoldable |record |data |private )*)([^\s:(){}∷.]+)((?: [({].*[)}])*) : "
)


def files(root):
    for folder, dirs, names in os.walk(os.path.join(root, "crates")):
        dirs[:] = sorted(d for d in dirs if d not in ("out", ".git"))
        for name in sorted(names):
            if name.endswith((".rt", ".antt", ".edit")):
                yield os.path.join(folder, name)


def read(path):
    with open(path, encoding="utf-8") as f:
        return f.read()


def snake(name):
    name = re.sub(r"(?<=[a-z0-9])(?=[A-Z])", "_", name)
    return name.replace("-", "_").lower()


def camel(name):
    return "".join(part[:1].upper() + part[1:] for part in name.split("-"))


def respelled(name):
    if name in BY_HAND:
        return BY_HAND[name]
    if name[0].isupper():
        return camel(name)
    return snake(name) if re.match(r"^[a-z][A-Za-z0-9-]*$", name) else name


def owned(root):
    """Every name that a file of specs/ or proofs/ defines, and which of them are fields of a record."""
    names, fields = set(), set()
    for path in files(root):
        if not path.endswith(".antt"):
            continue
        record = False
        for line in read(path).split("\n"):
            if line and not line.startswith(" "):
                record = re.match(r"^(pub )?(record|data) ", line) is not None
            found = DEFINED.match(line)
            if not found or MADE.search(found.group(3)):
                continue
            names.add(found.group(3))
            if record and line.startswith(" "):
                fields.add(found.group(3))
    return names, fields


def table(root):
    names, fields = owned(root)
    turned = {n: respelled(n) for n in names if respelled(n) != n}
    for n, new in sorted(turned.items()):
        if new in names and new not in turned:
            print(f"falls together: {n} and {new}", file=sys.stderr)
    back = {}
    for n, new in sorted(turned.items()):
        if new in back:
            print(f"falls together: {n} and {back[new]}, both {new}", file=sys.stderr)
        back[new] = n
    return turned, fields


def turn(text, turned, fields):
    """One piece of text that holds no string literal."""

    def word(found):
        name = found.group(0)
        new = turned.get(name)
        if new is None:
            return name
        before = text[: found.start()]
        if before.endswith(".") and name not in fields:
            path = re.search(r"[^\s(){}\[\],;`]*$", before).group(0)
            if not path.startswith("Rattle") and path.split(".")[0] in ("c", "w", "l", "goal", "given", "need"):
                return name
        return new

    return TOKEN.sub(word, text)


def rewrite(path, turned, fields):
    old = read(path)
    parts = re.split(r'("(?:\\.|[^"\\])*")', old)
    new = "".join(p if i % 2 else turn(p, turned, fields) for i, p in enumerate(parts))
    clash = []
    if path.endswith(".antt"):
        had = set(TOKEN.findall(old))
        clash = [f"{n} -> {m}" for n, m in turned.items() if n in had and m in had]
    if new != old:
        with open(path, "w", encoding="utf-8") as f:
            f.write(new)
    return new != old, clash


def main(argv):
    turned, fields = table(".")
    if argv == ["--table"]:
        print("\n".join(f"{n} -> {m}" for n, m in sorted(turned.items())))
        return 0
    done = 0
    for path in files("."):
        changed, clash = rewrite(path, turned, fields)
        done += changed
        for c in clash:
            print(f"both names stood in {path}: {c}")
    print(f"{len(turned)} names, {done} files")
    return 0


if __name__ == "__main__":
    raise SystemExit(main(sys.argv[1:]))
