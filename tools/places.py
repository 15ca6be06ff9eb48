#!/usr/bin/env python3
"""Counts the places of src/ that are written as an older language would have them: the points of docs/DESIGN-PASS.md.

    tools/places.py               counts them in this tree
    tools/places.py --list        names each place too
    tools/places.py --at COMMIT   counts them at a commit (--list too)
    tools/places.py --help        prints this

What counts, point by point:

  1 option    an enum of two or three cases, one of which has values and another none
    flag      a field of type bool beside other fields
    number    a field `number: u32` beside other fields, or a constant that names a refusal's number
    answer    a function that answers an integer and whose body names a refusal's number
    none      a function, no export and not among those, that answers an integer and has `return 0;`, or answers 4096 for what is not there
  2 twins     functions of one shape: the same tokens but for names, numbers and types; each but the first of a group counts
    types     structs and enums of the same fields or cases, likewise
  3 while     a `while` or `loop` that adds to or takes from a variable by hand
    index     a `for` over a range of numbers whose body reads or writes a place at its variable
  4 copy      a loop whose body is one assignment of a place to a place
    compare   a loop that returns false at the first place that differs, or a `<`, `>` chain over two arrays
    leaf      a function whose body is one cast, or one `if` that answers one of two names
  5 clause    a clause that stands in three functions or more, word for word: each function that has it counts
    params    three parameters or more, of one name and type each, that stand in a row in three functions or more: each such function counts
  6 length    a struct with an array beside a length or a count
    arrays    a function with two arrays or slices of one length in a row, or an array with its count
    search    a search by halving written out
  7 switch    a parameter of type bool
    chain     a function with three `if`s or more on the same test of its argument, each of which returns
  8 answers   the lines of proofs/ (all files), and of Answers.antt and Invariants.antt alone

Exit status: 0; 2 a wrong argument.
"""
import collections
import glob
import os
import re
import subprocess
import sys
import tempfile

ROOT = os.path.dirname(os.path.dirname(os.path.abspath(__file__)))
TOKEN = re.compile(r'b?"[^"]*"|b?\'[^\']*\'|[A-Za-z_][A-Za-z_0-9]*|\d[\w.]*|\S')
KEYWORDS = set("fn let mut if else for in while loop return match break struct enum impl as true false pub self Self const".split())


def functions(text):
    """Name, head, clauses and body of each function of a formatted file."""
    lines = text.split("\n")
    found = []
    i = 0
    while i < len(lines):
        m = re.match(r"^(\s*)((?:pub(?:\(crate\))? )?(?:extern \"C\" )?fn (\w+).*)$", lines[i])
        if not m:
            i += 1
            continue
        pad, name = m.group(1), m.group(3)
        head = [m.group(2)]
        while not re.search(r"\)(?: -> .*?)?(?: \{)?$", lines[i]) or lines[i].count("(") > lines[i].count(")") and lines[i].strip()[-1] in "(,":
            i += 1
            head.append(lines[i].strip())
        clauses = []
        if not lines[i].endswith("{"):
            i += 1
            while i < len(lines) and lines[i] != pad + "{":
                clauses.append(lines[i].strip())
                i += 1
        body = []
        i += 1
        while i < len(lines) and lines[i] != pad + "}":
            body.append(lines[i])
            i += 1
        found.append((name, " ".join(head), clauses, body))
        i += 1
    return found


def shape(text):
    """The tokens of a text with names, numbers and texts made alike."""
    out = []
    for t in TOKEN.findall(re.sub(r"//.*", "", text)):
        if t in KEYWORDS or not re.match(r"[\w\"']", t):
            out.append(t)
        elif t[0] in "\"'" or t[:2] in ("b\"", "b'"):
            out.append("S")
        elif t[0].isdigit():
            out.append("N")
        else:
            out.append("I")
    return " ".join(out)


def types(text):
    """Kind, name and lines of each struct and enum."""
    for m in re.finditer(r"^(?:pub(?:\(crate\))? )?(struct|enum) (\w+)[^{;(]*\{\n(.*?)^\}", text, re.M | re.S):
        body = [re.sub(r"//.*", "", line).strip() for line in m.group(3).split("\n")]
        yield m.group(1), m.group(2), [line for line in body if line]


def split_clauses(lines):
    """The clauses of a function, each as one text without its label."""
    whole = " ".join(lines)
    parts = re.split(r"(?=\b(?:requires|ensures)\b)", whole)
    for part in parts:
        part = re.sub(r"^(requires|ensures)(?: \w+)? ", r"\1 ", part.strip())
        if part:
            yield part


def parameters(head):
    inside = re.search(r"\((.*)\)", head)
    return [p.strip() for p in re.split(r",(?![^\[<(]*[\]>)])", inside.group(1)) if p.strip()] if inside else []


def places(top):
    got = collections.defaultdict(list)
    shapes, kinds = collections.defaultdict(list), collections.defaultdict(list)
    clauses, rows = collections.defaultdict(set), collections.defaultdict(set)
    for path in sorted(glob.glob(os.path.join(top, "crates/*/src/*.rt"))):
        crate = path.split("/")[-3]
        text = open(path, encoding="utf8").read()
        for kind, name, body in types(text):
            where = f"{crate}::{name}"
            if kind == "enum":
                bare = [b for b in body if re.match(r"^\w+,$", b)]
                full = [b for b in body if not re.match(r"^\w+,$", b)]
                if 2 <= len(body) <= 3 and bare and full:
                    got["1 option"].append(where)
            else:
                fields = [b for b in body if ":" in b and not b.startswith("ghost")]
                if len(fields) > 1:
                    got["1 flag"] += [f"{where}.{f.split(':')[0].split()[-1]}" for f in fields if re.search(r": bool,", f)]
                    got["1 number"] += [where for f in fields if re.match(r"^(pub )?number: u32,", f)]
                    if any(re.search(r": \[", f) for f in fields) and any(re.search(r"(length|count|next|n): usize", f) for f in fields):
                        got["6 length"].append(where)
            if len(body) > 1:
                kinds[kind + " " + " ".join(re.sub(r"^pub(\(crate\))? ", "", re.split(r"[:({,]", b)[0]) for b in body)].append(where)
        if crate == "refusal":
            got["1 number"] += [f"refusal::{n}" for n in re.findall(r"^pub const (\w+): u32", text, re.M)]
        for name, head, cl, body in functions(text):
            where = f"{crate}::{name}"
            code = "\n".join(re.sub(r"//.*", "", line) for line in body)
            whole = re.search(r"-> (u8|u16|u32|u64|usize)$", re.sub(r" \{$", "", head))
            if whole and re.search(r"refusal::[A-Z]|\b(NO_ROOM|NO_PAGE|DISAGREES|NO_SCALE|TOO_FAR|TOO_LARGE)\b", code):
                got["1 answer"].append(where)
            if whole and "extern" not in head and where not in got["1 answer"] and (re.search(r"return 0;", code) or re.search(r"^\s*(4096|ROWS|0)$|return ROWS;", code, re.M)):
                got["1 none"].append(where)
            if len(TOKEN.findall(code)) >= 12:
                shapes[shape(head.split("(", 1)[-1]) + " | " + shape(code)].append(where)
            for m in re.finditer(r"^(\s*)(?:while|loop)\b.*\{$", code, re.M):
                rest = code[m.end():]
                end = re.search(r"^" + m.group(1) + r"\}", rest, re.M)
                inner = rest[: end.start()] if end else rest
                if re.search(r"\b\w+ [+-]= ", inner):
                    got["3 while"].append(where)
            for m in re.finditer(r"^(\s*)for (\w+) in [\w:]+\.\.=?[^{]*\{$", code, re.M):
                rest = code[m.end():]
                end = re.search(r"^" + m.group(1) + r"\}", rest, re.M)
                inner = rest[: end.start()] if end else rest
                if re.search(r"\[[^\]]*\b" + m.group(2) + r"\b[^\]]*\]", inner):
                    got["3 index"].append(where)
                body_lines = [line.strip() for line in inner.strip().split("\n")]
                if len(body_lines) == 1 and re.match(r"^\w+\[.*\] = \w+\[.*\];$", body_lines[0]):
                    got["4 copy"].append(where)
            for m in re.finditer(r"^(\s*)while (\w+) < .*\{$", code, re.M):
                rest = code[m.end():]
                end = re.search(r"^" + m.group(1) + r"\}", rest, re.M)
                lines = [line.strip() for line in (rest[: end.start()] if end else rest).strip().split("\n")]
                if len(lines) == 2 and re.match(r"^\w+\[.*\] = \w+\[.*\];$", lines[0]):
                    got["4 copy"].append(where)
            if re.search(r"(for|while)[^\n]*\{\n(?:[^\n]*\n){0,4}?\s*if [^\n]*\] != [^\n]*\[[^\n]*\{\n\s*return false;", code) or re.search(r"if x < y \{\n\s*return true;", code):
                got["4 compare"].append(where)
            one = code.strip()
            if re.match(r"^\w+ as \w+$", one) or re.match(r"^if \w+ < \w+ \{\s*return \w+;\s*\}\s*\w+$", one) or re.match(r"^if \w+ < \w+ \{ \w+ \} else \{ \w+ \}$", one):
                got["4 leaf"].append(where)
            for c in split_clauses(cl):
                clauses[re.sub(r"\s+", " ", c)].add(where)
            ps = parameters(head)
            for i in range(len(ps)):
                for j in range(i + 3, len(ps) + 1):
                    rows[tuple(ps[i:j])].add(where)
            kinds_of = [re.sub(r"^\w+: ", "", p) for p in ps]
            pairs = [1 for a, b in zip(kinds_of, kinds_of[1:]) if "[" in a and ";" in a and re.sub(r"[\w ]+;", ";", a) == re.sub(r"[\w ]+;", ";", b)]
            if len(pairs) >= 2 or any("[" in p for p in ps) and any(re.match(r"^(count|length|n|to): (usize|u32)$", p) for p in ps):
                got["6 arrays"].append(where)
            if re.search(r"while lo \+ 1 < hi|while lo < hi", code):
                got["6 search"].append(where)
            got["7 switch"] += [f"{where}({p})" for p in ps if re.search(r": bool$", p)]
            if len(re.findall(r"let at = |if 0 < at|Some\(at\) = ", code)) >= 3:
                got["7 chain"].append(where)
    for group in shapes.values():
        if len(group) > 1:
            got["2 twins"].append(" = ".join(group))
    for group in kinds.values():
        if len(group) > 1:
            got["2 types"].append(" = ".join(group))
    with_clause = collections.defaultdict(list)
    for c, where in clauses.items():
        if len(where) >= 3:
            for w in where:
                with_clause[w].append(c)
    got["5 clause"] = sorted(with_clause)
    with_row = set()
    for where in rows.values():
        if len(where) >= 3:
            with_row |= where
    got["5 params"] = sorted(with_row)
    return got


def count(key, found):
    if key in ("2 twins", "2 types"):
        return sum(len(group.split(" = ")) - 1 for group in found)
    return len(found)


def lines_of(pattern):
    n = 0
    for path in glob.glob(pattern, recursive=True):
        with open(path, encoding="utf8") as f:
            n += sum(1 for _ in f)
    return n


def main(args):
    if args in (["--help"], ["-h"]):
        print(__doc__.strip())
        return 0
    listed = "--list" in args
    args = [a for a in args if a != "--list"]
    top = ROOT
    if len(args) == 2 and args[0] == "--at":
        top = tempfile.mkdtemp()
        tar = subprocess.run(["git", "-C", ROOT, "archive", args[1], "crates"], check=True, capture_output=True).stdout
        subprocess.run(["tar", "-x", "-C", top], input=tar, check=True)
    elif args:
        print(__doc__.strip(), file=sys.stderr)
        return 2
    got = places(top)
    keys = "1 option,1 flag,1 number,1 answer,1 none,2 twins,2 types,3 while,3 index,4 copy,4 compare,4 leaf,5 clause,5 params,6 length,6 arrays,6 search,7 switch,7 chain".split(",")
    for key in keys:
        print(f"{key:10} {count(key, got[key])}")
        if listed:
            for where in got[key]:
                print(f"    {where}")
    print(f"8 answers  {lines_of(top + '/crates/*/proofs/**/*.antt')} lines of proofs/, of them {lines_of(top + '/crates/*/proofs/**/Answers.antt') + lines_of(top + '/crates/*/proofs/**/Invariants.antt')} in Answers and Invariants")
    return 0


if __name__ == "__main__":
    sys.exit(main(sys.argv[1:]))
