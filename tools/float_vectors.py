#!/usr/bin/env python3
"""Writes the vectors of crates/float_runs: its stdin, a double's bits on each line, and its stdout, the expected answers.

    python3 tools/float_vectors.py --write  writes both files anew (the same ones each time: the random numbers have a fixed seed)
    python3 tools/float_vectors.py --check  says whether the files are the ones that --write writes
    python3 tools/float_vectors.py --help   prints this

Nothing here uses a float operation: a double is a whole number times a power of two, and every comparison is one of exact integers or
fractions. Each root is found twice, by bisection over the doubles in order, with squares of fractions, and by math.isqrt; the two must agree.
The files were made by --write; the program is held to them by `rt ci`.
"""
import math, os, random, sys
from fractions import Fraction

SIGN, INF = 1 << 63, 0x7FF << 52
FOLDER = os.path.join(os.path.dirname(os.path.dirname(os.path.abspath(__file__))), 'crates', 'float_runs')

def value(b):
    """The exact value of a finite double's bits."""
    field, digits = (b >> 52) & 0x7FF, b & ((1 << 52) - 1)
    m, e = (digits, -1074) if field == 0 else (digits + (1 << 52), field - 1075)
    v = Fraction(m) * (Fraction(2) ** e)
    return -v if b & SIGN else v

def bits_of(n, e=0):
    """The bits of n * 2^e, which has to be a double exactly."""
    n = int(n)
    if n == 0: return 0
    while n.bit_length() < 53: n, e = n * 2, e - 1
    while n.bit_length() > 53: assert n % 2 == 0; n, e = n // 2, e + 1
    while e < -1074: assert n % 2 == 0; n, e = n // 2, e + 1
    b = n if n < 1 << 52 else ((e + 1075) << 52) + n - (1 << 52)
    assert value(b) == Fraction(n) * Fraction(2) ** e
    return b

def root_by_bisection(v):
    low, high = 0, INF - 1                       # value(low)^2 <= v, and every double above `high` is too large
    while low < high:
        mid = (low + high + 1) // 2
        if value(mid) ** 2 <= v: low = mid
        else: high = mid - 1
    middle = (value(low) + value(low + 1)) / 2
    assert middle ** 2 != v
    return low if v < middle ** 2 else low + 1

def root_by_isqrt(v):
    n, k = v.numerator * v.denominator, 1 - v.denominator.bit_length()     # v = n / denominator^2, a power of two
    extra = max(0, 110 - n.bit_length()); extra += extra % 2
    r = math.isqrt(n << extra)                   # the root to at least 55 digits, and more below it unless exact
    exact = r * r == n << extra
    drop = r.bit_length() - 53
    q, rest, half = r >> drop, r & ((1 << drop) - 1), 1 << (drop - 1)
    if rest > half or (rest == half and not exact): q += 1
    assert not (rest == half and exact)
    return bits_of(q, drop + k - extra // 2)

def answer(b):
    field, digits, minus = (b >> 52) & 0x7FF, b & ((1 << 52) - 1), b >> 63
    if field == 0x7FF and digits:
        return 7, 0, 0
    if field == 0x7FF:
        return 7, 0, -1000000 if minus else 1000000
    v = value(b)
    w = min(max(v, Fraction(-1000000)), Fraction(1000000))
    k = math.floor(abs(w) + Fraction(1, 2)) * (-1 if w < 0 else 1)
    if v == 0:
        return 0, b, k
    if v < 0:
        return 7, 0, k
    root = root_by_bisection(v)
    assert root == root_by_isqrt(v)
    return 0, root, k

def inputs():
    rnd = random.Random(20260118)
    out = []
    def put(*bs):
        for b in bs: out.append(b)
    def around(b): put(b - 1, b, b + 1)
    # zeros, infinities, NaNs, negatives
    put(0, SIGN, INF, INF | SIGN, INF + 1, INF | 1 << 51, SIGN | INF | 1 << 51, SIGN | INF | 12345)
    put(SIGN | 1, SIGN | bits_of(1), SIGN | bits_of(4), SIGN | (INF - 1), SIGN | (1 << 52))
    # subnormals, the largest one and the least normal double
    put(*range(1, 17))
    for k in range(5, 52, 3): around(1 << k)
    around(1 << 52)
    for _ in range(40): put(rnd.randrange(1, 1 << rnd.randrange(2, 53)))
    # powers of two and their neighbours, and the largest double
    for e in list(range(-1022, 1024, 41)) + [-1, 0, 1, 2, 3, 4]: around((e + 1023) << 52)
    put(INF - 1, INF - 2, INF - 3)
    # exact squares, and one unit of the last place below and above; one whole number below and above
    for i in range(40):
        n = rnd.randrange(1, 1 << rnd.randrange(2, 27))
        for k in (0, 2 * rnd.randrange(-500, 480)):
            around(bits_of(n * n, k))
        put(bits_of(n * n - 1) if n > 1 else bits_of(3), bits_of(n * n + 1))
    # near the square of the middle of two whole numbers
    for i in range(20):
        n = rnd.randrange(1 << 25, 1 << 26)
        put(bits_of(n * n + n), bits_of(n * n + n + 1))
    # all digits ones, and random bits
    put(bits_of((1 << 53) - 1), bits_of((1 << 53) - 1, -53), bits_of((1 << 53) - 1, -52))
    for _ in range(60): put(rnd.randrange(1, INF))
    # halves and their neighbours, of either sign
    for k in list(range(0, 12)) + [rnd.randrange(12, 999999) for _ in range(12)] + [999998, 999999, 1000000]:
        b = bits_of(2 * k + 1, -1)
        for c in (b - 1, b, b + 1): put(c, SIGN | c)
    # whole numbers, quarters, the ends of the range and beyond
    for k in (1, 2, 3, 1000, 999999, 1000000, 1000001, 1 << 31, 1 << 52, (1 << 53) - 1): put(bits_of(k), SIGN | bits_of(k))
    for k in range(1, 14, 2): put(bits_of(k, -2), SIGN | bits_of(k, -2))
    for _ in range(40): put(rnd.getrandbits(1) << 63 | bits_of(rnd.randrange(1, 1 << 52), -rnd.randrange(28, 52)))
    return out

def main(arguments):
    if arguments == ['--help']:
        print(__doc__)
        return 0
    if arguments not in (['--write'], ['--check']):
        print(f"float_vectors.py: it wants --write or --check, not {' '.join(arguments) or 'nothing'}\n{__doc__}", file=sys.stderr)
        return 2
    given = inputs()
    answers = [answer(b) for b in given]
    texts = {'stdin': ''.join(f'{b:016x}\n' for b in given),
             'stdout': ''.join(f'{n} {r:016x} {k}\n' for n, r, k in answers)}
    same = True
    for name, text in texts.items():
        path = os.path.join(FOLDER, name)
        if arguments == ['--check']:
            same = same and open(path).read() == text
        else:
            open(path, 'w').write(text)
    print(f"{len(given)} lines, {sum(n == 0 for n, _, _ in answers)} roots, {sum(n == 7 for n, _, _ in answers)} refused, "
          f"{sum(k != 0 for _, _, k in answers)} roundings to a number other than 0{'' if same else ': THE FILES DIFFER'}")
    return 0 if same else 1

sys.exit(main(sys.argv[1:]))
