#!/usr/bin/env python3
"""Makes the constant tables of the repository from document 01's rules, or holds the files to them.

    tables.py           writes each table into its file; the rest of the file stays
    tables.py --check   changes nothing; says which table differs, and ends with 1 where one does

Trio order comes from the octads, the codewords from the columns, the states from the cuts, the rows from cost and ranks, the fallbacks from
norm and point. Nothing is read from the files but the place at which a table stands.
"""
import os
import re
import sys

ROOT = os.path.join(os.path.dirname(os.path.abspath(__file__)), "..", "crates")

# ---- the Golay code in trio order
OCTADS = [0x00149F, 0x0F6840, 0xF08320]
COLUMNS = [0x2D002E, 0x3A005A, 0x740033, 0x03061E, 0x050963, 0x090578, 0x0000FF, 0x2D1D00, 0x3A2B00, 0x744700, 0x638E00, 0xFF0000]

ORDER = [i for octad in OCTADS for i in range(24) if octad >> i & 1]
PLACES = [ORDER.index(i) for i in range(24)]


def word(label):
    w = 0
    for i, column in enumerate(COLUMNS):
        if label >> i & 1:
            w ^= column
    return w


WORDS = [word(x) for x in range(4096)]


def states(cut):
    """The state of each codeword at a cut: two share one when they differ by a sum of codewords that lie on one side of it each. States are
    numbered by the ascending order of their smallest codewords."""
    sides = [[w for w in WORDS if w < 1 << cut], [w for w in WORDS if w % (1 << cut) == 0]]
    sums = sorted({a ^ b for a in sides[0] for b in sides[1]})
    least = {w: min(w ^ s for s in sums) for w in WORDS}
    number = {w: n for n, w in enumerate(sorted(set(least.values())))}
    return {w: number[least[w]] for w in WORDS}


def trellis():
    """Prefixes, middle bytes, next states and suffixes, state by state."""
    at8, at16 = states(8), states(16)
    prefixes = [set() for _ in range(64)]
    branches = [set() for _ in range(64)]
    suffixes = [set() for _ in range(64)]
    for w in WORDS:
        prefixes[at8[w]].add(w & 255)
        branches[at8[w]].add((w >> 8 & 255, at16[w]))
        suffixes[at16[w]].add(w >> 16)
    prefixes = [sorted(s) for s in prefixes]
    suffixes = [sorted(s) for s in suffixes]
    branches = [sorted(s) for s in branches]
    return prefixes, [[b for b, _ in s] for s in branches], [[n for _, n in s] for s in branches], suffixes


# ---- the rows
BOUND = 128  # a branch of the listing ends once its cost reaches this


def vectors(ranks, cost):
    left = 8 - len(ranks)
    if left == 0:
        yield cost, ranks
        return
    rank = 0
    while cost + (2 * rank + 1) ** 2 + left - 1 < BOUND:
        yield from vectors(ranks + [rank], cost + (2 * rank + 1) ** 2)
        rank += 1


def pack(ranks):
    return sum(r << 4 * j for j, r in enumerate(ranks))


def rows():
    listed = sorted(vectors([], 0))
    assert len(listed) == 14674
    classes = [[], []]
    for _, ranks in listed:
        classes[sum((r + 1) // 2 for r in ranks) % 2].append(pack(ranks))
    return classes[0][:2048] + classes[1][:2048]


# ---- the fallbacks
def member(o, rank):
    """The member of o + 4Z at a rank: outward from zero, the positive one first."""
    return sorted((y for y in range(-40, 41) if y % 4 == o), key=lambda y: (abs(y), y < 0))[rank]


def fallbacks(prefixes, suffixes, table):
    """Byte and packed row of the point of least norm, then of the least point, for each end, parity, class and state."""
    values = [[member(o, r) for r in range(8)] for o in range(4)]
    ranks = [[key >> 4 * j & 15 for j in range(8)] for key in table]
    found = []
    for pairs in (prefixes, suffixes):
        for p in (0, 1):
            for r in (0, 1):
                for pair in pairs:
                    best = None
                    for c in pair:
                        own = [values[p + 2 * (c >> j & 1)] for j in range(8)]
                        # a row past the first whose norm is too large can still be the least: all 2,048 are tried
                        for i in range(2048 * r, 2048 * r + 2048):
                            v = [own[j][ranks[i][j]] for j in range(8)]
                            key = (sum(y * y for y in v), v, c, table[i])
                            if best is None or key < best:
                                best = key
                    found.append(best)
    return [b[2] for b in found], [b[3] for b in found]


# ---- how a table is laid out
def lines(items, named=None):
    """As many numbers to a line as the formatter puts there, up to column 99; named gives some a comment, which ends its line."""
    out, line = "\n", "   "
    for i, x in enumerate(items):
        if len(line) + len(" %s," % x) > 99:
            out, line = out + line + "\n", "   "
        line += " %s," % x
        if named and i in named:
            out, line = out + line + " // " + named[i] + "\n", "   "
    return out + line + "\n" if line.strip() else out


def row(items):
    """A short table on one line."""
    return ", ".join(str(x) for x in items)


def pairs(items, name):
    """A pair to a line; every eighth says whose it is."""
    return "\n" + "".join(
        "    [%d, %d],%s\n" % (a, b, " // %s of %d" % (name, s) if s % 8 == 0 else "") for s, (a, b) in enumerate(items)
    )


def listed(items, width, lead):
    """A list of the definition, some numbers to a line, the sign between them in front of a line or behind it."""
    rows_ = [" ∷ ".join(str(x) for x in items[i : i + width]) for i in range(0, len(items), width)]
    return "\n    " + ("\n    ∷ " if lead else " ∷\n    ").join(rows_) + " ∷ []\n"


def sets(middles):
    """The middle bytes: those of eight states in a row are the same."""
    own = [middles[8 * k] for k in range(8)]
    assert middles == [own[s // 8] for s in range(64)]
    rows_ = ["eight_times (%s ∷ [])" % " ∷ ".join(str(x) for x in o) for o in own]
    return "\n    " + "\n    (".join(rows_) + "\n    [])))))))\n"


def tables():
    prefixes, middles, nexts, suffixes = trellis()
    table = rows()
    fb_bytes, fb_keys = fallbacks(prefixes, suffixes, table)
    flat = lambda t: [x for r in t for x in r]
    regions = ["kind %d, p = %d, r = %d" % (k, p, r) for k in (0, 1) for p in (0, 1) for r in (0, 1)]
    packed = ["0x%08x" % r for r in table]
    assert all(middles[s][b] == middles[8 * (s // 8)][0] ^ middles[0][b] for s in range(64) for b in range(16))
    assert all(nexts[s][b] == s // 8 ^ nexts[0][s % 8] ^ nexts[0][b] for s in range(64) for b in range(16))
    return [
        ("trellis/src/tables.rt", "ORDER", lines(ORDER, {0: "octad 0", 8: "octad 1", 16: "octad 2"})),
        ("trellis/src/tables.rt", "PLACES", lines(PLACES, {0: "coordinates from 0"})),
        ("trellis/src/tables.rt", "PREFIXES", pairs(prefixes, "prefixes")),
        ("trellis/src/tables.rt", "MIDDLES", lines(middles[0])),
        ("trellis/src/tables.rt", "SETS", row([middles[8 * k][0] for k in range(8)])),
        ("trellis/src/tables.rt", "NEXTS", row(nexts[0])),
        ("trellis/src/tables.rt", "FIRST_NEXTS", row(nexts[0][:8])),
        ("trellis/src/tables.rt", "SUFFIXES", pairs(suffixes, "suffixes")),
        ("trellis/specs/Tables.antt", "prefixes", listed(flat(prefixes), 16, False)),
        ("trellis/specs/Tables.antt", "middles", sets(middles)),
        ("trellis/specs/Tables.antt", "nexts", listed(flat(nexts), 16, False)),
        ("trellis/specs/Tables.antt", "suffixes", listed(flat(suffixes), 16, False)),
        ("rows/src/tables.rt", "TABLE", lines(packed)),
        ("rows/specs/Rows.antt", "rows", listed(packed, 8, False)),
        ("fallback_entries/src/tables.rt", "FALLBACK_BYTES", lines(fb_bytes, {64 * i: "bytes of " + n for i, n in enumerate(regions)})),
        ("fallback_entries/src/tables.rt", "FALLBACK_KEYS", lines(fb_keys, {64 * i: "rows of " + n for i, n in enumerate(regions)})),
        ("search/specs/Tables.antt", "fallback_bytes", listed(fb_bytes, 16, True)),
        ("search/specs/Tables.antt", "fallback_keys", listed(fb_keys, 8, True)),
    ]


def place(text, file, name):
    """Where the table's numbers stand in its file: from the sign that opens them to the one that closes them."""
    if file.endswith(".rt"):
        m = re.search(r"const %s: [^=]*= \[(.*?)\];" % name, text, re.S)
    else:
        m = re.search(r"^%s =(\n.*?\n)(?=\n|\Z)" % name, text, re.S | re.M)
    if not m:
        sys.exit("tables.py: crates/%s has no table %s" % (file, name))
    return m.span(1)


def main(args):
    if args in (["-h"], ["--help"]):
        print(__doc__)
        return 0
    if args not in ([], ["--check"]):
        print(__doc__, file=sys.stderr)
        return 2
    texts, wrong = {}, []
    for file, name, body in tables():
        path = os.path.join(ROOT, file)
        if path not in texts:
            with open(path, encoding="utf-8") as f:
                texts[path] = f.read()
        start, end = place(texts[path], file, name)
        if texts[path][start:end] != body:
            wrong.append("crates/%s: %s" % (file, name))
            texts[path] = texts[path][:start] + body + texts[path][end:]
    if args:
        for w in wrong:
            print("differs: " + w)
        print("%d tables differ" % len(wrong) if wrong else "every table is as the rules make it")
        return 1 if wrong else 0
    for path, text in texts.items():
        with open(path, "w", encoding="utf-8") as f:
            f.write(text)
    print("\n".join("written: " + w for w in wrong) if wrong else "every table was as the rules make it")
    return 0


if __name__ == "__main__":
    sys.exit(main(sys.argv[1:]))
