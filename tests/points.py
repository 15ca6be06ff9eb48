#!/usr/bin/env python3
"""Holds why the program ask refuses points to tests/points_reading.py, which is written from docs/FORMAT.md alone.

    tests/points.py [POINTS [SEED]]   1,000,000 points and seed 1 where no number stands there
    tests/points.py --help            prints this

From the environment:
    ASK   the program; crates/ask/out/ask, run by tools/run.sh, where it is not set (`bash tools/native.sh ask` builds it)
    RUN   the command that runs the program, as an emulator and a loader with its options, where it needs one

The points have one parity, a codeword of bits and three sections, each of which is taken from all over the list of rank vectors, or from the places
around the end of the rows, or from far outside; some are then damaged. It prints how often each reason came up, and asks that each stands for one
point of a hundred or more. Exit status: 0 all answers are alike; 1 some are not, or a reason is too rare; 2 a wrong argument.
"""
import collections
import os
import random
import subprocess
import sys

sys.dont_write_bytecode = True  # a run leaves nothing beside the tests
import points_reading as reading  # noqa: E402

ROOT = os.path.dirname(os.path.dirname(os.path.abspath(__file__)))
PART = 50000  # points that are put to the program at once
REASONS = ["refused=5", "refused=10", "refused=11 section=1", "refused=11 section=2", "refused=11 section=3", "refused=12", "word"]
ENDS = [(1240, 2048), (808, 2048)]  # of the middle's rows and of all rows, in each class
FAR = [12, -12, 16, -16, 20, 48, -64, 100, 2**30, 2**31 - 4, -2**31]  # all of them 0 modulo 4
CODEWORDS = sorted(reading.CODEWORDS)
MEMBERS = {(y % 4, rank): y for y, rank in reading.NEAR_RANKS.items()}


# ---- points

def section(rng):
    """A rank vector: from all over the rows, or from around the end of the middle's rows or of all rows, or from all over the listing."""
    k = rng.randrange(2)
    vectors, (middle, all_rows) = reading.ORDERED[k], ENDS[k]
    kind = rng.random()
    if kind < 0.55:
        return vectors[rng.randrange(middle)]
    if kind < 0.7:
        return vectors[middle + rng.randrange(-3, 3)]
    if kind < 0.8:
        return vectors[all_rows + rng.randrange(-3, 3)]
    return vectors[rng.randrange(all_rows)] if kind < 0.97 else vectors[rng.randrange(len(vectors))]


def built(rng):
    """A point of one parity, with a codeword of bits."""
    p, bits = rng.randrange(2), rng.choice(CODEWORDS)
    ranks = section(rng) + section(rng) + section(rng)
    y = [0] * 24
    for place, i in enumerate(reading.TRIO_ORDER):
        y[i] = MEMBERS[p + 2 * (bits >> place & 1), ranks[place]]
    return y


def inside(v):
    return max(-2**31, min(2**31 - 1, v))


def damaged(rng, y):
    """One to three coordinates moved by 4, by 2 or by 1, turned round, or moved far away."""
    for i in rng.sample(range(24), rng.choice([1, 1, 1, 2, 3])):
        kind = rng.random()
        if kind < 0.5:
            y[i] += rng.choice([4, -4, 8, -8])
        elif kind < 0.7:
            y[i] += rng.choice([2, -2])
        elif kind < 0.8:
            y[i] += rng.choice([1, -1])
        elif kind < 0.9:
            y[i] = -y[i]
        else:
            y[i] = inside(y[i] + rng.choice(FAR))
    return y


def points(rng, n):
    for _ in range(n):
        y = built(rng)
        yield damaged(rng, y) if rng.random() < 0.4 else y


# ---- the run

def command():
    if "ASK" in os.environ:
        return os.environ.get("RUN", "").split() + [os.environ["ASK"]]
    return ["bash", os.path.join(ROOT, "tools", "run.sh"), "ask"]


def answers(program, asked):
    """What the program says of each point; of a word that it says, only that it does."""
    lines = "".join("point " + " ".join(map(str, y)) + "\n" for y in asked)
    got = subprocess.run(program, input=lines, stdout=subprocess.PIPE, text=True, check=True).stdout.split("\n")[:-1]
    return ["word" if len(line) == 17 and line.startswith("word=") else line for line in got]


def run(count, seed):
    rng, counts, program = random.Random(seed), collections.Counter(), command()
    for start in range(0, count, PART):
        asked = list(points(rng, min(PART, count - start)))
        got = answers(program, asked)
        if len(got) != len(asked):
            sys.exit(f"points: {len(asked)} were asked and {len(got)} answered")
        for y, line in zip(asked, got):
            wanted = reading.said(*reading.reason(y))
            counts[wanted] += 1
            if line != wanted:
                sys.exit(f"points: {' '.join(map(str, y))}\n  docs/FORMAT.md {wanted}\n  ask            {line}")
    for reason in REASONS:
        print(f"{counts[reason]:8} {reason}")
    rare = [reason for reason in REASONS if 100 * counts[reason] < count]
    if rare:
        sys.exit(f"points: too few of {', '.join(rare)}")
    print(f"all {count} points alike, seed {seed}")


def main(arguments):
    if arguments in (["-h"], ["--help"]):
        print(__doc__.strip())
        return 0
    if len(arguments) > 2 or not all(a.isascii() and a.isdigit() for a in arguments) or (arguments and int(arguments[0]) == 0):
        print(__doc__.strip(), file=sys.stderr)
        return 2
    program = os.environ.get("ASK", os.path.join(ROOT, "crates", "ask", "out", "ask"))
    if not os.path.exists(program):
        print(f"points: there is no program {program}", file=sys.stderr)
        return 2
    count, seed = [int(a) for a in arguments] + [1000000, 1][len(arguments):]
    run(count, seed)
    return 0


if __name__ == "__main__":
    sys.exit(main(sys.argv[1:]))
