#!/usr/bin/env python3
"""Holds tests/format_decoder.py, which is written from docs/FORMAT.md alone, to the proved programs ask and unpage.

    format.py                    the numbers in docs/FORMAT.md, then the two programs
    format.py --vectors FOLDER   also answers of the Rust that are stored in FOLDER: decode.txt, point.txt, scale.txt, encode.txt, score.txt
    format.py --oracle ORACLE    also ORACLE, a program over the Rust that answers the same request lines as ask

From the environment:
    ASK      the program ask; crates/ask/out/ask, run by tools/run.sh, where it is not set (`bash tools/native.sh ask` builds it)
    UNPAGE   the program unpage; crates/unpage/out/unpage, likewise (`bash tools/native.sh unpage` builds it)
    RUN      the command that runs a program, as an emulator and a loader with its options, where it needs one

Asked are 10,000 words, their 10,000 points, 10,000 damaged points, 2,200 blocks of samples (their numbers, lower scales and scores, and that
encode keeps the better of its two scales), and 386 pages, good and damaged. It ends with status 1 where an answer differs.
"""
import hashlib
import math
import os
import random
import re
import struct
import subprocess
import sys

sys.dont_write_bytecode = True  # a run leaves nothing beside the tests
import format_decoder as own  # noqa: E402

ROOT = os.path.dirname(os.path.dirname(os.path.abspath(__file__)))
ASK = os.environ.get("ASK", os.path.join(ROOT, "crates", "ask", "out", "ask"))
UNPAGE = os.environ.get("UNPAGE", os.path.join(ROOT, "crates", "unpage", "out", "unpage"))
failed = []


def command(name):
    """The command that runs the program ask or unpage."""
    if name.upper() in os.environ:
        return os.environ.get("RUN", "").split() + [os.environ[name.upper()]]
    return ["bash", os.path.join(ROOT, "tools", "run.sh"), name]


def check(what, fine, say=""):
    """A line for each check; what went wrong first, where something did."""
    print(f"{'ok    ' if fine else 'WRONG '} {what}{'' if fine else ': ' + str(say)[:600]}")
    if not fine:
        failed.append(what)


def same(what, asked, wanted, got):
    wrong = [(q, w, g) for q, w, g in zip(asked, wanted, got) if w != g]
    check(f"{what}: {len(asked)}", not wrong and len(wanted) == len(got) == len(asked), wrong[:1] or (len(asked), len(wanted), len(got)))


# ---- request lines

def bits(x):
    """The 16 digits of a double; a zero has its sign cleared, as ask answers it."""
    return "0" * 16 if x == 0.0 else struct.pack(">d", x).hex()


def raw(x):
    return struct.pack(">d", x).hex()


def double(digits):
    return struct.unpack(">d", bytes.fromhex(digits))[0]


def listed(y):
    return ",".join(map(str, y))


def answers(program, lines):
    run = subprocess.run(program, input="".join(line + "\n" for line in lines), stdout=subprocess.PIPE, text=True, check=True)
    return run.stdout.split("\n")[:-1]


def point_line(y):
    return "point " + " ".join(map(str, y))


def scale_line(n, s, x):
    return f"scale {n} {raw(s)} " + " ".join(map(raw, x))


def auto_line(n, x):
    return f"auto {n} " + " ".join(map(raw, x))


def folded(answer):
    """The Rust has one refusal of a point, which stands as 5."""
    return re.sub(r"^refused=(10|11 section=[123]|12)$", "refused=5", answer)


# ---- the numbers in docs/FORMAT.md

def table_rows(text, first):
    """The cells of the lines of the table whose first line begins so."""
    lines = text[text.index("\n" + first) + 1:].split("\n")
    rows = lines[:next(i for i, line in enumerate(lines) if not line.startswith("|"))]
    return [[cell.strip() for cell in line.strip("|").split("|")] for line in rows if not line.startswith("|---")]


def format_text():
    with open(os.path.join(ROOT, "docs", "FORMAT.md"), encoding="utf-8") as f:
        return f.read()


def whole(cells):
    return [int(cell.replace(",", "")) for cell in cells]


def document():
    text = format_text()
    found = {row[0]: (int(row[1]), int(row[2])) for row in table_rows(text, "| field |")[1:]}
    check("document: the fields", found == own.FIELDS, found)
    octads = re.search(r"\n    (0x\w{6})   (0x\w{6})   (0x\w{6})\n", text)
    check("document: the octads", [int(o, 16) for o in octads.groups()] == own.OCTADS, octads[0])
    order = [int(i) for row in table_rows(text, "| places |")[1:] for i in row[2].split(",")]
    check("document: trio order", order == own.ORDER, order)
    columns = [int(c, 16) for row in table_rows(text, "| bits of the label |")[1:] for c in row[2].split(",")]
    check("document: the columns", columns == own.COLUMNS, columns)
    weights = [sum(c.bit_count() == w for c in own.labels()) for w in (0, 8, 12, 16, 24)]
    check("document: 4,096 codewords and their weights", len(own.labels()) == 4096 and weights == [1, 759, 2576, 759, 1], weights)
    check("document: the trellis", trellis_fine())
    ranks = [whole(row[1:]) for row in table_rows(text, "| rank | 0 |")]
    check("document: ranks", ranks == [list(range(8))] + own.MEMBERS, ranks)
    bounds = [(int(row[1]), tuple(whole(row[2].split(",")))) for row in table_rows(text, "| rows | bound's cost |")[1:]]
    check("document: the bounds", bounds == own.BOUNDS + [own.MIDDLE], bounds)
    document_rows(text)
    document_example(text)
    document_points(text)


def trellis_fine():
    """Of each state s8: two first bytes and, behind each middle byte, two last bytes, complements of each other, the smaller one at bit 0; the
    middle bytes ascend with b2; and the states ascend with their smallest codeword."""
    fine, smallest, ends = True, [], set()
    for s8 in range(64):
        c = [[[own.codeword(s8 + 64 * b1 + 128 * b2 + 2048 * b3) for b3 in (0, 1)] for b2 in range(16)] for b1 in (0, 1)]
        firsts = [{w % 256 for pair in c[b1] for w in pair} for b1 in (0, 1)]
        middles = [{w // 256 % 256 for b1 in (0, 1) for w in c[b1][b2]} for b2 in range(16)]
        lasts = [[{c[b1][b2][b3] // 65536 for b1 in (0, 1)} for b3 in (0, 1)] for b2 in range(16)]
        fine = fine and all(len(s) == 1 for s in firsts + middles + [s for pair in lasts for s in pair])
        pairs = [[min(s) for s in pair] for pair in [firsts] + lasts]
        fine = fine and all(a + b == 255 and a < b for a, b in pairs) and [min(s) for s in middles] == sorted(min(s) for s in middles)
        smallest.append(min(w for half in c for pair in half for w in pair))
        ends |= {a for a, _ in pairs[1:]}
    return fine and smallest == sorted(smallest) and len(ends) == 64


def document_rows(text):
    everything = own.listing(8, 0)
    check("document: 14,674 vectors", len(everything) == 14674, len(everything))
    half = [row[:4] for row in table_rows(text, "| cost | class |")[1:]] + [row[5:] for row in table_rows(text, "| cost | class |")[1:]]
    said = {(int(c), int(k)): int(n.replace(",", "")) for c, k, n, _ in half} | {(104, 0): 2198, (112, 1): 2752, (120, 0): 3528}
    tallies = {}
    for v in everything:
        tallies[own.cost(v), own.class_of(v)] = tallies.get((own.cost(v), own.class_of(v)), 0) + 1
    check("document: vectors of each cost", said == tallies, tallies)
    first = {}
    for c, k, _, where in half:
        places = whole(re.findall(r"\d+", where.split(":")[-1]))
        first[int(c), int(k)] = (places[0], places[-1])
    seen = {}
    for k in (0, 1):
        for i, v in enumerate(own.rows()[k]):
            seen.setdefault((own.cost(v), k), []).append(i)
    check("document: where each cost stands", first == {key: (at[0], at[-1]) for key, at in seen.items()}, first)
    both = own.rows()[0] + own.rows()[1]
    check("document: ranks up to 4, coordinates up to 10", max(map(max, both)) == 4 and max(abs(m[r]) for m in own.MEMBERS for r in range(5)) == 10)
    for k, (bound, n) in enumerate([(own.BOUNDS[0], 2048), (own.BOUNDS[1], 2048), (own.MIDDLE, 1240), (own.MIDDLE, 808)]):
        held = [v for v in everything if own.class_of(v) == k % 2 and own.within(v, bound)]
        check(f"document: bound {bound[0]} holds {n} rows of class {k % 2}", sorted(held) == sorted(own.rows()[k % 2][:n]), len(held))
    packed = "".join(f"{sum(r * 16**j for j, r in enumerate(v)):08x}\n" for v in both)
    begins, digest = re.search(r"The text begins with (.*), and its SHA-256 is\n\n    (\w{64})\n", text).groups()
    starts = packed.split("\n")[:4] == re.findall(r"`(\w+)`", begins)
    check("document: the rows' SHA-256", starts and hashlib.sha256(packed.encode()).hexdigest() == digest, packed[:36])


def document_example(text):
    part = text[text.index("**An example"):]
    word = int(re.match(r"\*\*An example: the word (\w{12})\.", part)[1], 16)
    f = own.fields(word)
    names, values = table_rows(part, "| gain |")
    check("document: the example's fields", dict(zip(names, whole(values))) == f, f)
    cut = "".join(re.search(r"\n    ([01]( [01]+)+)\n", part)[1].split())
    check("document: the example in binary", int(cut, 2) == word and len(cut) == 48, cut)
    label = f["s8"] + 64 * f["b1"] + 128 * f["b2"] + 2048 * f["b3"]
    bytes_said = re.search(r"c1 = (0x\w\w), c2 = (0x\w\w), c3 = (0x\w\w)", part).groups()
    check("document: the example's codeword", [int(b, 16) for b in bytes_said] == [own.codeword(label) // 256**k % 256 for k in range(3)], bytes_said)
    steps = re.findall(r"0x\w{6}", part[:part.index("so the sections have")])
    total = int(steps[0], 16)
    fine = True
    for column, result in zip(steps[1::2], steps[2::2]):
        total ^= int(column, 16)
        fine = fine and total == int(result, 16)
    check("document: the example's sums", fine and total == own.codeword(label), steps)
    left, right = table_rows(part, "| section 1: place |"), table_rows(part, "| section 3: place |")
    lines = [whole(a[1:9] + a[11:19] + b[1:9]) for a, b in zip(left, right)]
    places, c, o, ranks, values, coordinates = lines
    at = dict(zip(coordinates, values))
    natural = [at[i] for i in range(24)]
    told = whole(re.search(r"\n    (1, -1, .*)\n", part)[1].split(","))
    fine = places == list(range(24)) and coordinates == own.ORDER and natural == own.point(word) == told
    fine = fine and c == [own.codeword(label) // 2**j % 2 for j in range(24)] and o == [f["p"] + 2 * b for b in c]
    check("document: the example's coordinates", fine and values == [own.member(a, r) for a, r in zip(o, ranks)], lines)
    k = [(v - a) // 4 for v, a in zip(values, o)]
    minus = [j for j in range(24) if k[j] == -1]
    told = re.search(r"is -2 at place (\d+), -1 at places ([\d, ]+) and 0 elsewhere. The\s+sum\s+is\s+(-\d+)", part)
    check("document: the example's k", whole(told[2].split(",")) == minus and k[int(told[1])] == -2 and sum(k) == int(told[3]), k)
    check("document: the example's word", own.word_of(natural) == word, own.word_of(natural))


def told_point(words):
    """A point as the table of §5 tells it: V at I, I and I, V at I, else 0; or all V, but V at I."""
    every = re.match(r"all (-?\d+)", words)
    y = [int(every[1]) if every else 0] * 24
    for v, places in re.findall(r"(-?\d+) at (\d+(?:(?:, | and )\d+(?! at))*)", words):
        for i in re.findall(r"\d+", places):
            y[int(i)] = int(v)
    return y


def told_answer(words):
    """What the table says of it, as ask answers."""
    none = re.match(r"none, (\d+)(?:, section (\d))?", words)
    if none:
        return f"refused={none[1]}" + (f" section={none[2]}" if none[2] else "")
    return f"word={int(words.split(':')[0], 0):012x}"


def table_points(text):
    """The points of the table of §5, and what it says of each."""
    return [(told_point(row[0]), told_answer(row[1])) for row in table_rows(text, "| point, natural order |")[1:]]


def document_points(text):
    points = table_points(text)
    wrong = [(y, told, own.answer(y)) for y, told in points if own.answer(y) != told]
    kinds = {told if told.startswith("refused") else "word" for _, told in points}
    check(f"document: the table of {len(points)} points", not wrong and len(kinds) == 7, wrong or kinds)


# ---- words and points

def words(rng):
    """The single bits, the ends of every field alone and among others, all fields set, then random ones: 10,000."""
    made = [1 << k for k in range(64)] + [0, (1 << 47) - 1, (1 << 48) - 1, (1 << 64) - 1]
    for name, (low, width) in own.FIELDS.items():
        ends = {0, 1, 2**width - 1} | ({1239, 1240, 1241, 2046} if name == "i2" else set())
        for end in sorted(e for e in ends if e < 2**width):
            made.append(end << low)
            for _ in range(20):
                f = {n: rng.randrange(2**w) for n, (_, w) in own.FIELDS.items()}
                made.append(own.joined(f | {name: end}))
    for _ in range(1000):
        made.append(own.joined({n: rng.randrange(1, 2**w) if w > 1 else 1 for n, (_, w) in own.FIELDS.items()}))
    while len(made) < 10000:
        made.append(rng.getrandbits(64) >> rng.choice([0, 0, 16, 17, 17, 30, 45]))
    return made


def damaged(rng, y):
    """One to three coordinates changed."""
    y = list(y)
    for i in rng.sample(range(24), rng.choice([1, 1, 2, 2, 2, 3])):
        y[i] = rng.choice([y[i] + 4, y[i] - 4, y[i] + 8, y[i] - 8, y[i] + 2, y[i] - 2, y[i] + 1, y[i] - 1, -y[i], 2**31 - 1, -2**31, 16, -18, 12, 10])
    return y


def words_and_points(programs):
    rng = random.Random(20261115)
    asked = words(rng)
    points = [own.point(w) for w in asked]
    for name, program in programs:
        same(f"{name}: words to points", asked, [f"point={listed(y)}" for y in points], answers(program, [f"decode {w:x}" for w in asked]))
    check("points: each goes back to the low 47 bits of its word", all(own.word_of(y) == w % 2**47 for w, y in zip(asked, points)))
    broken = [damaged(rng, y) for y in points]
    table = [y for y, _ in table_points(format_text())]
    for name, program in programs:
        same(f"{name}: points of words", points, [f"word={w % 2**47:012x}" for w in asked], answers(program, map(point_line, points)))
        seen = folded if name == "oracle" else str
        wanted = [seen(own.answer(y)) for y in broken]
        same(f"{name}: damaged points", broken, wanted, answers(program, map(point_line, broken)))
        wanted = [seen(own.answer(y)) for y in table]
        same(f"{name}: the points of the document's table", table, wanted, answers(program, map(point_line, table)))
    refused = sum(own.word_of(y) is None for y in broken)
    check(f"points: {refused} of the damaged ones refused, {len(broken) - refused} have a word", 100 < refused < len(broken) - 100)


# ---- samples

def sample(rng, kind, size):
    if kind == 0:
        return rng.gauss(0, size)
    if kind == 1:
        return rng.randint(-12, 12) * size / 2
    return 0.0 if rng.random() < 0.8 else rng.choice([-1, 1]) * size * rng.random()


def blocks(rng, n):
    """A setting, a scale and samples: usual ones, tiny and huge ones, and bad ones among them."""
    odd = [math.nan, math.inf, -math.inf, 1e290, -1e290, math.nextafter(1e290, math.inf), 1e291, 5e-324, -0.0, 1e6, 1000001.0]
    bad = [0.0, -0.0, -1.0, math.nan, math.inf, -math.inf, 5e-324, 1e-300, 1e300]
    for k in range(n):
        size = rng.choice([1.0, 1.0, 3.0, 1e-3, 1e5, 1e-160, 1e-309, 1e200, 2.0**-1060])
        x = [sample(rng, k % 3, size) for _ in range(24)]
        if k % 5 == 0:
            for i in rng.sample(range(24), rng.choice([1, 2])):
                x[i] = rng.choice(odd)
        s = rng.choice(bad) if k % 7 == 0 else size * rng.choice([0.3, 0.5, 1.0, 2.0])
        yield rng.choice([0, 1, 2, 3, 4, 5, 6, 7, 8, 8, 9, 4294967295]) if k % 4 else 8, s, x


def at_a_million(rng, n):
    """A sample whose quotient is beside 1,000,000, where the exact quotient, the rounded one and a product fall on different sides."""
    for _ in range(n):
        s = rng.uniform(0.1, 10.0)
        x = 1e6 * s
        yield 1, s, [rng.choice([x, -x, math.nextafter(x, 0.0), math.nextafter(x, 2 * x)])] + [0.0] * 23


def taken_apart(answer):
    """Word, point and score of an answer; None where it is a refusal."""
    m = re.fullmatch(r"word=(\w{12}) score=(\w{16}) point=([-\d,]+)", answer)
    return m and (int(m[1], 16), [int(y) for y in m[3].split(",")], double(m[2]))


def number_in(answer):
    return int(answer.split("=")[1]) if answer.startswith("refused=") else 0


def code_fine(answer, x, factor):
    """The word is the point's, the point is the word's, and the score is that of the samples x, times the factor."""
    word, y, score = taken_apart(answer)
    return own.point(word) == y and own.word_of(y) == word and bits(own.score(x, y) * factor) == bits(score)


def better(first, second):
    return second if taken_apart(second)[2] > taken_apart(first)[2] else first


def scaled(answer, factor):
    word, y, score = taken_apart(answer)
    return f"word={word:012x} score={bits(score * factor)} point={listed(y)}"


def at_own_scale(name, program, cases):
    """encode is the better of two calls at a scale."""
    taken = [(n, x, own.own_scales(x)) for n, _, x in cases if own.own_number(x, n) == 0]
    zero = [t for t in taken if t[2] is None]
    rest = [t for t in taken if t[2] is not None]
    empty = f"word={0:012x} score=fff0000000000000 point={listed([0] * 24)}"
    same(f"{name}: zero samples", zero, [empty] * len(zero), answers(program, [auto_line(n, x) for n, x, _ in zero]))
    first = answers(program, [scale_line(n, c[1], c[0]) for n, _, c in rest])
    second = answers(program, [scale_line(n, c[2], c[0]) for n, _, c in rest])
    check(f"{name}: no 3 or 4 at the scales that samples give", not any(a.startswith("refused") for a in first + second))
    wanted = [scaled(better(a, b), c[3]) for (_, _, c), a, b in zip(rest, first, second)]
    got = answers(program, [auto_line(n, x) for n, x, _ in rest])
    same(f"{name}: encode is the better of two scales", rest, wanted, got)
    seconds = sum(better(a, b) == b and a != b for a, b in zip(first, second))
    divided = sum(c[0] is not x for _, x, c in rest)
    check(f"{name}: the second scale was kept {seconds} times, samples were divided {divided} times", seconds > 100 and divided > 100)


def samples(programs):
    rng = random.Random(7)
    zeros = [0.0] * 24
    cases = list(blocks(rng, 2000)) + list(at_a_million(rng, 200))
    cases += [(8, 1.0, zeros), (1, 1.0, [-0.0] * 24), (0, 0.0, [math.nan] * 24), (8, 0.0, [math.nan] * 24), (8, 0.3, [300000.0] + zeros[1:])]
    any_points = [[rng.choice([0, 1, -1, 2, 3, -5, 10, 2**31 - 1, -2**31, rng.randint(-2**31, 2**31 - 1)]) for _ in range(24)] for _ in cases]
    numbers = [own.scale_number(x, s, n) for n, s, x in cases]
    tally = {k: numbers.count(k) for k in sorted(set(numbers))}
    check(f"samples: numbers at a scale {tally}", set(tally) == {0, 1, 2, 3, 4, 7})
    for name, program in programs:
        got = answers(program, [scale_line(n, s, x) for n, s, x in cases])
        same(f"{name}: numbers at a scale", cases, numbers, [number_in(a) for a in got])
        codes = [(a, x) for a, (_, _, x) in zip(got, cases) if not a.startswith("refused")]
        wrong = [a for a, x in codes if not code_fine(a, x, 1.0)]
        check(f"{name}: codes at a scale, word, point and score fit: {len(codes)}", not wrong, wrong[:1])
        origins = [a for a, _ in codes if taken_apart(a)[0] == 0]
        check(f"{name}: of these the origin, with minus infinity: {len(origins)}", origins and all(taken_apart(a)[2] == -math.inf for a in origins))
        got = [number_in(a) for a in answers(program, [auto_line(n, x) for n, _, x in cases])]
        same(f"{name}: numbers at the samples' own scale", cases, [own.own_number(x, n) for n, _, x in cases], got)
        lower, scores = [], []
        for (_, _, x), y in zip(cases, any_points):
            n = own.samples_number(x)
            m, s = own.lower_scale(x) if n == 0 else (0.0, 0.0)
            lower.append(f"refused={n}" if n else f"max={bits(m)} scale={bits(s)}")
            scores.append(f"refused={n}" if n else f"score={bits(own.score(x, y))}")
        same(f"{name}: lower scales", cases, lower, answers(program, ["lower " + " ".join(map(raw, x)) for _, _, x in cases]))
        lines = ["score " + " ".join(map(raw, x)) + " " + " ".join(map(str, y)) for (_, _, x), y in zip(cases, any_points)]
        same(f"{name}: scores", cases, scores, answers(program, lines))
        at_own_scale(name, program, cases)
        examples(name, program)
    constants = [bits(c) for c in (own.ALPHA, own.RATIO, math.sqrt(24.0), 1e290)]
    check("document: four doubles", constants == ["3fd4985f06f69446", "3ff23d70a3d70a3d", "4013988e1409212e", "7c2485ce9e7a065f"], constants)


def examples(name, program):
    """The samples that the document names."""
    zeros = [0.0] * 24
    origin = f"word={0:012x} score=fff0000000000000 point={listed([0] * 24)}"
    told = [((8, 1.0, [4.1, 3.9] + zeros[2:]), "word=000000003800 score=4016a09e667f3bcc point=" + listed([4, 4] + [0] * 22)),
            ((8, 1.0, [0.25] * 24), origin), ((8, 1.0, [1e6] + zeros[1:]), origin),
            ((8, 1.0, [math.nextafter(1e6, 2e6)] + zeros[1:]), "refused=4")]
    same(f"{name}: samples that the document names", told, [w for _, w in told], answers(program, [scale_line(*q) for q, _ in told]))
    exact = 300000 * 2**54 > 1000000 * int(0.3 * 2**54)  # 0.3 times 2^54 is a whole number
    got = answers(program, [scale_line(8, 0.3, [300000.0] + zeros[1:])])[0]
    check(f"{name}: 300,000 at 0.3, an exact quotient above 1,000,000", exact and 300000.0 / 0.3 == 1e6 and number_in(got) == 0, got)


# ---- pages

def text_of(num, page_words):
    lines = ["format=tetra-page", f"num={num}", f"count={len(page_words)}"] + [f"word={w:012x}" for w in page_words]
    return "".join(line + "\n" for line in lines).encode()


def pages(rng):
    for k in range(100):
        yield text_of(rng.choice([1, 127, 128, 129, 255, 256, 300, 640, 65535, rng.randint(1, 65535)]), [rng.getrandbits(48) for _ in range(k % 65)])
    base = text_of(640, [1, 0x0ABCDEF01234, (1 << 48) - 1])
    for n in range(len(base)):
        yield base[:n] + bytes([base[n] ^ rng.choice([1, 2, 16, 32, 128])]) + base[n + 1:]
        yield base[:n] + base[n + 1:]
        yield base[:n] + bytes([rng.choice(b"0159af\n =-")]) + base[n:]
    for num in ["0", "01", "65536", "+1", "", " 1", "9" * 40]:
        yield base.replace(b"num=640", b"num=" + num.encode())
    for count in ["0", "2", "4", "03", "65", "", "-3"]:
        yield base.replace(b"count=3", b"count=" + count.encode())
    yield from [b"", b"\n", base[:-1], base + b"\n", base.replace(b"\n", b"\r\n"), base.upper(), text_of(1, [0] * 65), b"\xef\xbb\xbf" + base]


def page_answers():
    texts = list(pages(random.Random(3)))
    wanted = [own.unpage(t) for t in texts]
    got = [subprocess.run(command("unpage"), input=t, stdout=subprocess.PIPE, check=False).stdout.decode() for t in texts]
    same("unpage: pages", texts, wanted, got)
    good = sum(w != "refused=9\n" for w in wanted)
    check(f"pages: {good} good ones, {len(texts) - good} refused", good >= 100 and len(texts) - good > 100)
    check("document: counts", [own.count_of(y, 128) for y in (1, 3, 5, -1, -3, -5)] == [0, 2, 2, 0, -2, -2])
    check("document: other counts", [own.count_of(y, 300) for y in (1, 3, -5)] == [1, 4, -6])
    longest = text_of(65535, [(1 << 48) - 1] * 64)
    check("document: the longest page has 1,189 bytes", len(longest) == 1189 and own.reading(longest) is not None, len(longest))


# ---- stored answers of the Rust

def stored(folder, name):
    with open(os.path.join(folder, name), encoding="ascii") as f:
        return [line.split() for line in f]


def vectors(folder):
    rows = stored(folder, "decode.txt")
    same("stored: words to points", rows, [r[1] for r in rows], [listed(own.point(int(r[0], 16))) for r in rows])
    rows = stored(folder, "point.txt")
    wanted = [f"word={r[1]}" if r[1] != "none" else f"refused={r[2]}" + (f" section={r[3]}" if r[3] != "0" else "") for r in rows]
    same("stored: points to words, and why there is none", rows, wanted, [own.answer([int(y) for y in r[0].split(",")]) for r in rows])
    rows = stored(folder, "score.txt")
    scores = [bits(own.score([double(x) for x in r[0].split(",")], [int(y) for y in r[1].split(",")])) for r in rows]
    same("stored: scores", rows, [r[2] for r in rows], scores)
    rows = stored(folder, "encode.txt")
    lower = []
    for r in rows:
        x = [double(v) for v in r[0].split(",")]
        n = own.own_number(x, 8)
        lower.append([str(n)] + [bits(v) for v in (own.lower_scale(x) if n == 0 else (0.0, 0.0))])
    same("stored: numbers and lower scales", rows, [[r[1], r[4], r[5]] for r in rows], lower)
    rows = stored(folder, "scale.txt")
    numbers = [str(own.scale_number([double(v) for v in r[2].split(",")], double(r[1]), int(r[0]))) for r in rows]
    same("stored: numbers at a scale", rows, [r[3] for r in rows], numbers)
    codes = [r for r in rows if r[3] == "0"]
    fine = [code_fine(f"word={r[4]} score={r[5]} point={r[7]}", [double(v) for v in r[2].split(",")], 1.0) for r in codes]
    check(f"stored: codes at a scale, word, point and score fit: {len(codes)}", all(fine))


def main(arguments):
    given = {"--vectors": None, "--oracle": None}
    while len(arguments) > 1 and arguments[0] in given:
        given[arguments[0]], arguments = arguments[1], arguments[2:]
    missing = [p for p in (ASK, UNPAGE, given["--vectors"], given["--oracle"]) if p and not os.path.exists(p)]
    if arguments or missing:
        print(__doc__.strip(), file=sys.stderr)
        for path in missing:
            print(f"format.py: there is no {path}", file=sys.stderr)
        return 2
    document()
    programs = [("ask", command("ask"))] + ([("oracle", [given["--oracle"]])] if given["--oracle"] else [])
    words_and_points(programs)
    samples(programs)
    page_answers()
    if given["--vectors"]:
        vectors(given["--vectors"])
    print(f"{len(failed)} checks went wrong" if failed else "all as docs/FORMAT.md says")
    return 1 if failed else 0


if __name__ == "__main__":
    sys.exit(main(sys.argv[1:]))
