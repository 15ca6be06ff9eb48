#!/usr/bin/env python3
"""Holds the even profile's answers for words and points, edecode and epoint of the program ask, to a reading of docs/FORMAT.md and request 2026-06.

    tests/even.py [WORDS [POINTS [SEED]]]   200,000 words, 200,000 points and seed 1 where no number stands there
    tests/even.py --help                    prints this

From the environment:
    ASK   the program; crates/ask/out/ask, run by tools/run.sh, where it is not set (`bash tools/native.sh ask` builds it)
    RUN   the command that runs the program, as an emulator and a loader with its options, where it needs one

What a word's point is, tests/format_decoder.py says, and why a point has no word, tests/points_reading.py; both are written from docs/FORMAT.md
alone. The request adds: a word with p = 1 is refused with 13; a point whose coordinates are all odd is refused with 13, before 10, 11 and 12; a point
of mixed parity stays refused with 5. The word that is answered has to be below 2^47, and to decode to the point. Each line is put to the program
without its e, too: the full coder has to answer the same, except where the profile says 13.

It prints how often each answer came up, and for 13 how often with each answer that it takes the place of, and asks that each stands for one word or
one point of two hundred or more. Exit status: 0 all answers are right; 1 some are not, or an answer is too rare; 2 a wrong argument.
"""
import collections
import itertools
import os
import random
import re
import subprocess
import sys

sys.dont_write_bytecode = True  # a run leaves nothing beside the tests
import format_decoder as decoder  # noqa: E402
import points  # noqa: E402
import points_reading as reading  # noqa: E402

PART = 50000  # words or points that are put to the program at once, each as two lines
ODD = "refused=13"
LOW, HIGH = -2**31, 2**31 - 1  # what a coordinate can be
WORD_ANSWERS = ["point", ODD]
POINT_ANSWERS = points.REASONS + [f"{ODD} for {reason}" for reason in points.REASONS if reason != "refused=5"]


# ---- words

# The request's examples, each bit alone, with p and without it, and both sides of the bits that are ignored.
EXACT_WORDS = [0, 2, 0x3800, 2**47, 0xFFFF << 48, 1, 3, 2**47 + 1, 2**47 - 1, 2**47 - 2, 2**48 - 1, 2**48, 2**48 + 1, 2**64 - 1, 2**64 - 2]
EXACT_WORDS += [2**bit + p for bit in range(1, 64) for p in (0, 1)]

# The first and the last of each field, and in the rows the turn of the middle class.
FIELD_ENDS = {name: [0, 1, 1239, 1240, 1241, 2047] if width == 11 else [0, 2**width - 1] for name, (_, width) in decoder.FIELDS.items()}


def drawn_word(rng):
    """Any 64 bits; or short; or with each field at an end or anywhere, and a few high bits."""
    kind = rng.random()
    if kind < 0.4:
        return rng.getrandbits(64)
    if kind < 0.7:
        return rng.getrandbits(rng.randrange(1, 65))
    fields = {name: rng.choice(ends) for name, ends in FIELD_ENDS.items()}
    for name in rng.sample(sorted(fields), rng.choice([0, 0, 1, 3])):
        fields[name] = rng.randrange(2 ** decoder.FIELDS[name][1])
    return decoder.joined(fields) + (rng.choice([0, 1, rng.getrandbits(16), 2**16 - 1]) << 48)


def spelled(rng, word):
    """A word is 1 to 16 hex digits of either case."""
    digits = format(word, rng.choice(["x", "x", "012x", "016x"]))
    return digits.upper() if rng.random() < 0.2 else digits


def words(rng):
    yield from EXACT_WORDS
    while True:
        yield drawn_word(rng)


# ---- points

def first(*values):
    """The point with these coordinates, and zeros behind them."""
    return list(values) + [0] * (24 - len(values))


def but_one(others, i, value):
    """The point whose coordinate i is the value, and the others are all alike."""
    return [others] * i + [value] + [others] * (23 - i)


# The request's examples, the ends of i32, and at each place one coordinate of another parity than the others.
EXACT_POINTS = [[1] * 24, but_one(1, 23, -3), [-3] * 24, [HIGH] * 24, but_one(1, 0, 3), first(1), first(2), first(4), first(12, 4), first(4, 4)]
EXACT_POINTS += [first(), [-1] * 24, [LOW + 1] * 24, [LOW] * 24, [HIGH - 1] * 24, [LOW, HIGH] * 12, [LOW + 1, HIGH] * 12]
EXACT_POINTS += [but_one(others, i, one) for i in range(24) for others, one in [(1, 0), (0, 1), (-1, 2), (2, -1), (HIGH, LOW), (LOW, HIGH)]]


def one_parity(rng, p):
    """24 numbers of the parity p which are hardly ever a codeword: small ones, or any, or those at the ends of i32."""
    kind = rng.random()
    if kind < 0.4:
        return [2 * rng.randrange(-6, 6) + p for _ in range(24)]
    if kind < 0.6:
        return [2 * rng.randrange(-2**30, 2**30) + p for _ in range(24)]
    ends = [LOW + p, HIGH - 1 + p] if kind < 0.8 else [LOW + p, LOW + 2 + p, HIGH - 3 + p, HIGH - 1 + p, 2 + p, -2 + p]
    return [rng.choice(ends) for _ in range(24)]


def drawn_point(rng):
    """The point of a word; or one of tests/points.py, some of which are damaged; or one that is all odd, all even, or so but for one coordinate."""
    kind = rng.random()
    if kind < 0.15:
        return decoder.point(rng.getrandbits(47))
    if kind < 0.75:
        return next(points.points(rng, 1))
    p = rng.randrange(2)
    if kind < 0.85:
        return one_parity(rng, p)
    y = one_parity(rng, p) if rng.random() < 0.5 else decoder.point(2 * rng.getrandbits(46) + p)
    y[rng.randrange(24)] ^= 1  # stays an i32, and is of the other parity
    return y


def point_list(rng):
    yield from EXACT_POINTS
    while True:
        yield drawn_point(rng)


# ---- what has to be answered

def word_wanted(word):
    return ODD if decoder.fields(word)["p"] == 1 else "point=" + ",".join(map(str, decoder.point(word)))


def point_wanted(y):
    """`word` stands for any word."""
    return ODD if all(v % 2 == 1 for v in y) else reading.said(*reading.reason(y))


def is_word_of(line, y):
    """The line is the answer of a word with no gain, and the word is the point's."""
    found = re.fullmatch("word=([0-9a-f]{12})", line)
    return found is not None and int(found[1], 16) < 2**47 and decoder.point(int(found[1], 16)) == y


# ---- the run

def answers(program, requests):
    """What the profile says of each request, and what the full coder says of it."""
    lines = ["e" + request for request in requests] + requests
    text = "".join(line + "\n" for line in lines)
    got = subprocess.run(program, input=text, stdout=subprocess.PIPE, text=True, check=True).stdout.split("\n")[:-1]
    if len(got) != len(lines):
        sys.exit(f"even: {len(lines)} requests were put and {len(got)} answered")
    return zip(got[:len(requests)], got[len(requests):])


def wrong(request, wanted, line):
    sys.exit(f"even: {request}\n  wanted {wanted}\n  ask    {line}")


def held(request, wanted, right, profile, full):
    """The profile's answer is right, and the full coder's too where the profile does not say 13."""
    if not right:
        wrong("e" + request, wanted, profile)
    if wanted != ODD and full != profile:
        wrong(request, profile, full)


def hold_words(program, rng, count, counts):
    asked = words(rng)
    for start in range(0, count, PART):
        part = list(itertools.islice(asked, min(PART, count - start)))
        requests = ["decode " + spelled(rng, word) for word in part]
        for word, request, (profile, full) in zip(part, requests, answers(program, requests)):
            wanted = word_wanted(word)
            held(request, wanted, profile == wanted, profile, full)
            counts[ODD if wanted == ODD else "point"] += 1


def hold_points(program, rng, count, counts):
    asked = point_list(rng)
    for start in range(0, count, PART):
        part = list(itertools.islice(asked, min(PART, count - start)))
        requests = ["point " + " ".join(map(str, y)) for y in part]
        for y, request, (profile, full) in zip(part, requests, answers(program, requests)):
            wanted = point_wanted(y)
            held(request, wanted, is_word_of(profile, y) if wanted == "word" else profile == wanted, profile, full)
            counts[f"{ODD} for {reading.said(*reading.reason(y))}" if wanted == ODD else wanted] += 1


def shown(what, counts, names, count):
    """Prints the counts, each of which has to be one in two hundred, and all of which have to make the whole number."""
    for name in names:
        print(f"{counts[name]:8} {what} {name}")
    rare = [name for name in names if 200 * counts[name] < count]
    if rare:
        sys.exit(f"even: too few {what} with {', '.join(rare)}")
    if sum(counts[name] for name in names) != count:
        sys.exit(f"even: {count} {what} were to be held, and the answers make {sum(counts.values())}")


def run(word_count, point_count, seed):
    rng, program = random.Random(seed), points.command()
    of_words, of_points = collections.Counter(), collections.Counter()
    hold_words(program, rng, word_count, of_words)
    hold_points(program, rng, point_count, of_points)
    shown("words", of_words, WORD_ANSWERS, word_count)
    shown("points", of_points, POINT_ANSWERS, point_count)
    print(f"all {word_count} words and {point_count} points answered as they have to be, seed {seed}")


def main(arguments):
    if arguments in (["-h"], ["--help"]):
        print(__doc__.strip())
        return 0
    if len(arguments) > 3 or not all(a.isascii() and a.isdigit() for a in arguments) or any(int(a) == 0 for a in arguments[:2]):
        print(__doc__.strip(), file=sys.stderr)
        return 2
    program = os.environ.get("ASK", os.path.join(points.ROOT, "crates", "ask", "out", "ask"))
    if not os.path.exists(program):
        print(f"even: there is no program {program}", file=sys.stderr)
        return 2
    run(*([int(a) for a in arguments] + [200000, 200000, 1][len(arguments):]))
    return 0


if __name__ == "__main__":
    sys.exit(main(sys.argv[1:]))
