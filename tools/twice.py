#!/usr/bin/env python3
"""Looks for statements of specs/, and public ones of the theorems in proofs/, that stand twice.

    tools/twice.py          prints each statement that stands in more than one place, with the places
    tools/twice.py --help   prints this

Bound names count for nothing: they are numbered in the order in which they are bound. Looked at are all signatures below crates/*/specs, local
ones too, and the public ones of crates/*/proofs/*.antt, that bind every name that they speak of; fields of records and cases of data types are
definitions, not laws.

Exit status: 0 no statement stands twice; 1 one does; 2 a wrong argument.
"""
import collections
import glob
import os
import re
import sys

ROOT = os.path.dirname(os.path.dirname(os.path.abspath(__file__)))
SIGNATURE = re.compile(r"^(\s*)((?:abbrev |unfoldable |pub )*)([^\s:(){}=,]+)\s*:\s+(.*)$")
BLOCK = re.compile(r"^(\s*)(?:pub )?(record|data)\s")
FACTS = ("≡", "<", "≤", "≢", "⊥", "→ T (")


def indent(line):
    return len(line) - len(line.lstrip())


def statements(path):
    """Name, line, type and marks of each signature that stands outside records and data types."""
    lines = [re.sub(r"(^|\s)--.*$", "", line) for line in open(path, encoding="utf-8").read().split("\n")]
    block = None
    i = 0
    while i < len(lines):
        line = lines[i]
        if block is not None and line.strip() and indent(line) <= block:
            block = None
        found = BLOCK.match(line)
        if found and block is None:
            block = len(found.group(1))
        found = SIGNATURE.match(line)
        if not found or block is not None or found.group(3) in ("let", "in", "use"):
            i += 1
            continue
        first, kind = i + 1, found.group(4)
        i += 1
        while i < len(lines) and lines[i].strip() and indent(lines[i]) > len(found.group(1)) and not lines[i].strip().startswith("unfolding"):
            kind += " " + lines[i].strip()
            i += 1
        yield found.group(3), first, kind, found.group(2).split()


def numbered(kind):
    """The statement with its bound names numbered, or nothing where it binds none."""
    tokens = re.sub(r"([(){},])", r" \1 ", kind).split()
    names = {}
    for k, token in enumerate(tokens):
        if token in "({":
            bound = list(takewhile_name(tokens, k + 1))
            if tokens[k + 1 + len(bound)] == ":":
                for name in bound:
                    names.setdefault(name, "v%d" % len(names))
    return " ".join(names.get(token, token) for token in tokens) if names else None


def takewhile_name(tokens, k):
    while tokens[k] not in ("(", ")", "{", "}", ":"):
        yield tokens[k]
        k += 1


def main(words):
    if words in (["--help"], ["-h"]):
        print(__doc__.strip())
        return 0
    if words:
        print(__doc__.strip(), file=sys.stderr)
        return 2
    places, seen = collections.defaultdict(list), 0
    of_specs, of_proofs = (sorted(glob.glob(ROOT + "/crates/*/" + files, recursive=True)) for files in ("specs/**/*.antt", "proofs/*.antt"))
    for path in of_specs + of_proofs:
        for name, line, kind, marks in statements(path):
            if path in of_proofs and "pub" not in marks:
                continue
            seen += 1
            said = numbered(kind)
            if said and any(fact in said for fact in FACTS):
                places[said].append("%s:%d: %s" % (os.path.relpath(path, ROOT), line, name))
    twice = {said: where for said, where in places.items() if len(where) > 1}
    for said, where in twice.items():
        print("\n    ".join([said] + where))
    print("%d signatures, %d statements stand twice" % (seen, len(twice)))
    return 1 if twice else 0


if __name__ == "__main__":
    sys.exit(main(sys.argv[1:]))
