#!/usr/bin/env python3
"""A decoder for words, points and pages, written from docs/FORMAT.md and nothing else. § names the part of it that a function carries out.

    format_decoder.py word W ..         the point of each word, which is given in hexadecimal
    format_decoder.py point Y0 .. Y23   the word of a point, or refused= with the number that says why it has none, and section= with 11
    format_decoder.py page              reads a page from standard input and prints its counts, or refused=9

It needs Python's standard library alone. tests/format.py holds it to the proved program.
"""
import math
import re
import sys
from functools import lru_cache

# ---- §1 the word

FIELDS = {"p": (0, 1), "r": (1, 1), "s8": (2, 6), "b1": (8, 1), "i1": (9, 11), "b2": (20, 4), "i2": (24, 11), "b3": (35, 1), "i3": (36, 11),
          "gain": (47, 1)}


def fields(word):
    return {name: word // 2**low % 2**width for name, (low, width) in FIELDS.items()}


def joined(f):
    """The word of the fields; each has to fit its width."""
    assert all(0 <= f[name] < 2**width for name, (_, width) in FIELDS.items())
    return sum(f[name] * 2**low for name, (low, _) in FIELDS.items())


# ---- §2 the codeword, and the order of the coordinates

OCTADS = [0x00149F, 0x0F6840, 0xF08320]
COLUMNS = [0x2D002E, 0x3A005A, 0x740033, 0x03061E, 0x050963, 0x090578, 0x0000FF, 0x2D1D00, 0x3A2B00, 0x744700, 0x638E00, 0xFF0000]

# the coordinate at each place of trio order
ORDER = [i for octad in OCTADS for i in range(24) if octad // 2**i % 2 == 1]


def codeword(label):
    word = 0
    for i, column in enumerate(COLUMNS):
        if label // 2**i % 2 == 1:
            word ^= column
    return word


@lru_cache(None)
def labels():
    """The label of each codeword."""
    return {codeword(label): label for label in range(4096)}


# ---- §3 ranks, rows and bounds

def member(o, rank):
    """The number at that rank, among those that leave the remainder o modulo 4, outward from zero, the positive one first."""
    outward = [0] + [y for m in range(1, 4 * rank + 5) for y in (m, -m)]
    return [y for y in outward if y % 4 == o][rank]


# the first eight numbers of each o: past them a rank costs more than any bound
MEMBERS = [[member(o, rank) for rank in range(8)] for o in range(4)]


def rank_of(y):
    """The rank of y among the numbers that leave its own remainder modulo 4; none past rank 7."""
    return MEMBERS[y % 4].index(y) if y in MEMBERS[y % 4] else None


def cost(ranks):
    return sum((2 * rank + 1) ** 2 for rank in ranks)


def class_of(ranks):
    """The parity of the sum of k, each rank read in the line o = 0."""
    return sum(MEMBERS[0][rank] // 4 for rank in ranks) % 2


def listing(open_places, spent):
    """The rank vectors of the open places that keep the cost, with what is spent, below 128."""
    if open_places == 0:
        return [()]
    found = []
    rank = 0
    while spent + (2 * rank + 1) ** 2 + (open_places - 1) < 128:
        found += [(rank,) + rest for rest in listing(open_places - 1, spent + (2 * rank + 1) ** 2)]
        rank += 1
    return found


@lru_cache(None)
def rows():
    """The rows of class 0 and those of class 1."""
    ordered = sorted(listing(8, 0), key=lambda ranks: (cost(ranks), ranks))
    return [[ranks for ranks in ordered if class_of(ranks) == c][:2048] for c in (0, 1)]


@lru_cache(None)
def numbers():
    """The number of each row in its class."""
    return [{ranks: i for i, ranks in enumerate(rows()[c])} for c in (0, 1)]


BOUNDS = [(88, (1, 1, 0, 3, 0, 0, 1, 1)), (96, (0, 0, 2, 2, 2, 0, 1, 1))]
MIDDLE = (72, (3, 0, 0, 0, 1, 0, 1, 0))


def within(ranks, bound):
    most, cut = bound
    return cost(ranks) < most or (cost(ranks) == most and ranks <= cut)


# ---- §4 from a word to its point

def point(word):
    f = fields(word)
    bits = codeword(f["s8"] + 64 * f["b1"] + 128 * f["b2"] + 2048 * f["b3"])
    middle, i = (0, f["i2"]) if f["i2"] < 1240 else (1, f["i2"] - 1240)
    ranks = rows()[f["r"]][f["i1"]] + rows()[middle][i] + rows()[f["p"] ^ f["r"] ^ middle][f["i3"]]
    natural = [0] * 24
    for place, i in enumerate(ORDER):
        natural[i] = MEMBERS[f["p"] + 2 * (bits // 2**place % 2)][ranks[place]]
    return natural


# ---- §5 from a point to its word

def own_bound(ranks):
    return BOUNDS[class_of(ranks)]


def outside(sections):
    """The lowest section that is outside its bound, 1 to 3; 0 where none is. A rank that is not found is past 7, and within no bound."""
    for i, ranks in enumerate(sections):
        if None in ranks or not within(ranks, MIDDLE if i == 1 else own_bound(ranks)):
            return i + 1
    return 0


def encoded(y):
    """Number, section and word: 0, 0 and the word, or why the point has none, and None."""
    p = y[0] % 2
    if any(v % 2 != p for v in y):
        return 5, 0, None
    trio = [y[i] for i in ORDER]
    label = labels().get(sum(v // 2 % 2 * 2**place for place, v in enumerate(trio)))
    if label is None:
        return 10, 0, None
    ranks = [rank_of(v) for v in trio]
    first, second, third = sections = tuple(ranks[:8]), tuple(ranks[8:16]), tuple(ranks[16:])
    section = outside(sections)
    if section:
        return 11, section, None
    r, middle, last = class_of(first), class_of(second), class_of(third)
    if last != p ^ r ^ middle:
        return 12, 0, None
    return 0, 0, joined({"p": p, "r": r, "s8": label % 64, "b1": label // 64 % 2, "i1": numbers()[r][first], "b2": label // 128 % 16,
                         "i2": numbers()[middle][second] + 1240 * middle, "b3": label // 2048, "i3": numbers()[last][third], "gain": 0})


def word_of(y):
    """The word, or None where the point has none."""
    return encoded(y)[2]


def answer(y):
    """As the program ask answers a point."""
    number, section, word = encoded(y)
    return f"word={word:012x}" if number == 0 else f"refused={number}" + (f" section={section}" if section else "")


# ---- §6 the page

def decimal(digits, least, most):
    """The number, or None where the text is no decimal number from least to most."""
    if not digits or any(d not in "0123456789" for d in digits) or (digits[0] == "0" and digits != "0") or len(digits) > len(str(most)):
        return None
    return int(digits) if least <= int(digits) <= most else None


def value(line, key):
    """What stands behind the key, or None."""
    return line[len(key):] if line.startswith(key) else None


def reading(text):
    """num and the words of a page, given as bytes; or None."""
    lines = text.decode("latin-1").split("\n")  # a character for each byte
    if len(lines) < 4 or lines.pop() != "" or lines[0] != "format=tetra-page":
        return None
    num = decimal(value(lines[1], "num="), 1, 65535)
    count = decimal(value(lines[2], "count="), 0, 64)
    words = [value(line, "word=") for line in lines[3:]]
    if num is None or count is None or count != len(words):
        return None
    if any(w is None or len(w) != 12 or any(d not in "0123456789abcdef" for d in w) for w in words):
        return None
    return num, [int(w, 16) for w in words]


def count_of(y, num):
    q, r = divmod(abs(y) * num, 256)
    if r > 128 or (r == 128 and q % 2 == 1):
        q += 1
    return -q if y < 0 else q


def counts(num, words):
    """24 per block, in the order of the page."""
    return [count_of(y, num) for word in words for y in point(word)]


def unpage(text):
    """What is printed for a text."""
    page = reading(text)
    if page is None:
        return "refused=9\n"
    all_counts = counts(*page)
    blocks = [all_counts[24 * k:24 * k + 24] for k in range(len(page[1]))]
    return "".join(f"block={k}\ncounts={','.join(map(str, block))}\n" for k, block in enumerate(blocks))


# ---- §7 samples. Python's floats are binary64, each operation rounded once; math.sqrt is correctly rounded

ALPHA, RATIO = 0.3218, 1.14


def dot(a, b):
    total = 0.0
    for x, y in zip(a, b, strict=True):
        total += x * y
    return total


def score(x, y):
    doubles = [float(v) for v in y]
    nn = dot(doubles, doubles)
    return dot(x, doubles) / math.sqrt(nn) if nn > 0.0 else -math.inf


def lower_scale(x):
    """m and s0."""
    m = max(abs(v) for v in x)
    if m == 0.0:
        return 0.0, 0.0
    units = [v / m for v in x]
    return m, ALPHA * m * math.sqrt(dot(units, units)) / math.sqrt(24.0)


def own_scales(x):
    """What is coded, at which two scales, and by what their scores are multiplied; None where all samples are zero."""
    m, s0 = lower_scale(x)
    if m == 0.0:
        return None
    if s0 >= 2.0**-1022:
        return x, s0, s0 * RATIO, 1.0
    x = [v / m for v in x]
    s0 = lower_scale(x)[1]
    return x, s0, s0 * RATIO, m


# ---- §9 the numbers of samples

def samples_number(x):
    if any(math.isnan(v) or math.isinf(v) for v in x):
        return 1
    return 2 if any(abs(v) > 1e290 for v in x) else 0


def own_number(x, setting):
    """At the scale that the samples give."""
    return 7 if setting == 0 else samples_number(x)


def scale_number(x, s, setting):
    """At a scale."""
    if setting == 0:
        return 7
    if math.isnan(s) or math.isinf(s) or s <= 0.0:
        return 3
    return samples_number(x) or (4 if any(abs(v / s) > 1e6 for v in x) else 0)


# ---- the command

def main(arguments):
    kind, rest = "".join(arguments[:1]), arguments[1:]
    if kind == "word" and rest and all(re.fullmatch("[0-9a-fA-F]+", w) for w in rest):
        for w in rest:
            print("point=" + ",".join(map(str, point(int(w, 16)))))
    elif kind == "point" and len(rest) == 24 and all(re.fullmatch("-?[0-9]+", y) for y in rest):
        print(answer([int(y) for y in rest]))
    elif kind == "page" and not rest:
        sys.stdout.write(unpage(sys.stdin.buffer.read()))
    else:
        print(__doc__.strip(), file=sys.stderr)
        return 2
    return 0


if __name__ == "__main__":
    sys.exit(main(sys.argv[1:]))
