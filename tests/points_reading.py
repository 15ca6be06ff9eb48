#!/usr/bin/env python3
"""Why a point has no word, written from docs/FORMAT.md, §2, §3 and §5, and nothing else. Whether a section is within its bound is told here by the
list of rows, and not by the bounds' costs and cuts. tests/points.py holds it to the proved program.

    points_reading.py Y0 .. Y23   prints why the point has no word, in the words of the program ask; or word, where it has one
"""
import re
import sys

OCTADS = (0x00149F, 0x0F6840, 0xF08320)
COLUMNS = (
    0x2D002E, 0x3A005A, 0x740033, 0x03061E, 0x050963, 0x090578,  # s8
    0x0000FF,  # b1
    0x2D1D00, 0x3A2B00, 0x744700, 0x638E00,  # b2
    0xFF0000,  # b3
)
PLACES = 8  # of a section
LIMIT = 128  # the listing has the rank vectors of a cost below this
NEAR = 64  # coordinates up to this magnitude have their rank in a table


def trio_order():
    """§2: the coordinate at each place, those of the first octad ascending, then the second's, then the third's."""
    return [i for octad in OCTADS for i in range(24) if octad >> i & 1]


def codeword(label):
    """§2: the xor of the columns at the set bits of the label."""
    word = 0
    for bit, column in enumerate(COLUMNS):
        if label >> bit & 1:
            word ^= column
    return word


def near_ranks():
    """§3, Ranks: coordinate -> rank for the near ones, by listing each o + 4k outward from zero, the positive one first."""
    ranks = {}
    for o in range(4):
        line = [y for y in range(-NEAR, NEAR + 1) if y % 4 == o]
        line.sort(key=lambda y: (abs(y), -y))
        ranks.update((y, rank) for rank, y in enumerate(line))
    return ranks


def far_rank(y):
    """§3, Ranks: the rank of any coordinate by a formula."""
    if y % 2:
        return (abs(y) - 1) // 2  # an odd line has one number of each odd magnitude
    # An even line has both signs of every fourth magnitude, the positive one first.
    return y // 2 - 1 if y > 0 else -y // 2


def cost(ranks):
    """§3: the sum of (2 rank + 1)^2."""
    return sum((2 * rank + 1) ** 2 for rank in ranks)


def class_of(ranks):
    """§3: the parity of the sum of k, each rank being read in the line o = 0; only ranks 1, 2, 5 and 6 have an odd k."""
    return sum(rank in (1, 2, 5, 6) for rank in ranks) % 2


def listing(begun=()):
    """§3, Rows: every rank vector of cost below 128 that begins so, place by place."""
    if len(begun) == PLACES:
        return [begun]
    found = []
    rank = 0
    while cost(begun + (rank,)) + (PLACES - len(begun) - 1) < LIMIT:  # 1 for each place that is still open
        found += listing(begun + (rank,))
        rank += 1
    return found


def ordered():
    """§3, Rows: all rank vectors of the listing in their order, split by class; the first 2,048 of each are rows."""
    split = [], []
    for ranks in sorted(listing(), key=lambda ranks: (cost(ranks), ranks)):
        split[class_of(ranks)].append(ranks)
    return split


TRIO_ORDER = trio_order()
CODEWORDS = {codeword(label) for label in range(4096)}
NEAR_RANKS = near_ranks()
ORDERED = ordered()
OUTER = set(ORDERED[0][:2048] + ORDERED[1][:2048])  # sections 1 and 3, each in its own class
MIDDLE = set(ORDERED[0][:1240] + ORDERED[1][:808])  # section 2
ALLOWED = (OUTER, MIDDLE, OUTER)


def rank_of(y):
    """§3, Ranks: the rank of a coordinate among the numbers of its own o = y mod 4."""
    rank = NEAR_RANKS.get(y)
    return far_rank(y) if rank is None else rank


def bits_of(trio):
    """§5, step 2: the 24 bits c = floor(y / 2) mod 2 of a point in trio order, as one number."""
    bits = 0
    for place, y in enumerate(trio):
        bits |= (y // 2 % 2) << place
    return bits


def outside(trio):
    """§5, step 3: the lowest section that is outside its bound, 1, 2 or 3; 0 where there is none."""
    for index, allowed in enumerate(ALLOWED):
        section = trio[PLACES * index:PLACES * (index + 1)]
        if tuple(map(rank_of, section)) not in allowed:
            return index + 1
    return 0


def reason(y):
    """§5: (number, section) for the point y, a list of 24 whole numbers in natural order; (0, 0) where it has a word."""
    p = y[0] % 2
    if any(value % 2 != p for value in y):
        return 5, 0
    trio = [y[i] for i in TRIO_ORDER]
    if bits_of(trio) not in CODEWORDS:
        return 10, 0
    section = outside(trio)
    if section:
        return 11, section
    if sum(value // 4 for value in y) % 2 != p:
        return 12, 0
    return 0, 0


def said(number, section):
    """As the program ask says it; `word` for any word."""
    return "word" if number == 0 else f"refused={number}" + (f" section={section}" if section else "")


def main(arguments):
    if len(arguments) != 24 or not all(re.fullmatch("-?[0-9]+", y) for y in arguments):
        print(__doc__.strip(), file=sys.stderr)
        return 2
    print(said(*reason([int(y) for y in arguments])))
    return 0


if __name__ == "__main__":
    sys.exit(main(sys.argv[1:]))
