#!/usr/bin/env python3
"""Respells the repository's own definitions and lemmas: words in snake case, a dash between two names.

usage: python3 tools/respell.py [--check]     at the top of the repository, once, after the toolchain's own script

Each line of respell.tsv beside it is an old name and the new one. In files of antt and in the contracts of Rattle every name is respelled, in
comments and documents what stands between backticks. Functions of src/, exported names and texts in quotes stay. With --check it writes nothing, and
lists the files in which a new name stood already.
"""

import os
import re
import sys

HERE = os.path.dirname(os.path.realpath(__file__))
NAME = re.compile(r"(?<![\w'→↔-])[a-zα-ω][\w'→↔-]*(?![\w'→↔-])")
TICKS = re.compile(r"`[^`\n]*`")
QUOTED = re.compile(r'"(?:[^"\\\n]|\\.)*"')


def table():
    with open(os.path.join(HERE, "respell.tsv"), encoding="utf-8") as f:
        return dict(line.rstrip("\n").split("\t") for line in f)


def files():
    for top in ("crates", "edits", "docs"):
        for folder, dirs, names in os.walk(top):
            dirs[:] = sorted(d for d in dirs if d not in ("out", "requests"))
            for name in sorted(names):
                if name.endswith((".antt", ".rt", ".edit", ".md")):
                    yield os.path.join(folder, name)
    yield "README.md"


def respell(text, names):
    """A name in words already moves only where it is a lemma's, so not behind a dot."""

    def new(m):
        old = m.group(0)
        moves = re.search(r"[A-Z-]", old) or text[m.start() - 1 : m.start()] != "."
        return names.get(old, old) if moves else old

    return NAME.sub(new, text)


def in_ticks(text, names):
    return TICKS.sub(lambda m: respell(m.group(0), names), text)


def around(pattern, text, turn):
    """Turns what stands outside the places that the pattern finds."""
    parts, at = [], 0
    for m in pattern.finditer(text):
        parts += [turn(text[at : m.start()]), m.group(0)]
        at = m.end()
    return "".join(parts + [turn(text[at:])])


def split_comment(line, mark):
    at = line.find(mark)
    while at >= 0 and line[:at].count('"') % 2:
        at = line.find(mark, at + 1)
    return (line, "") if at < 0 else (line[:at], line[at:])


def turned(path, text, names):
    if path.endswith(".md"):
        return in_ticks(text, names)
    # in src/ a name in words is Rattle's
    here = {old: new for old, new in names.items() if path.endswith(".antt") or re.search(r"[A-Z-]", old)}
    rows = []
    for line in text.split("\n"):
        if path.endswith(".edit"):
            head = re.match(r"(old|new): ", line)
            rows.append(respell(line, names) if head else in_ticks(line, names))
            continue
        code, comment = split_comment(line, "--" if path.endswith(".antt") else "//")
        rows.append(around(QUOTED, code, lambda t: respell(t, here)) + in_ticks(comment, here))
    return "\n".join(rows)


def main():
    if sys.argv[1:] not in ([], ["--check"]):
        sys.exit(__doc__)
    names, check = table(), "--check" in sys.argv[1:]
    for path in files():
        with open(path, encoding="utf-8") as f:
            text = f.read()
        new = turned(path, text, names)
        if check:
            body = re.sub(r"(--|//).*", "", text) if path.endswith((".antt", ".rt")) else ""
            stood = {m.group(0) for m in NAME.finditer(body) if body[m.start() - 1 : m.start()] != "."}
            for old in sorted(stood & names.keys()):
                if names[old] in stood:
                    print(f"{path}: {old} becomes {names[old]}, which stands there")
            continue
        if new != text:
            with open(path, "w", encoding="utf-8") as f:
                f.write(new)


if __name__ == "__main__":
    main()
