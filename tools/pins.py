#!/usr/bin/env python3
"""Writes crates/tetra/specs/Laws/Pinned.antt: 71 words and the points to which the Rust decodes them, and the theorem that they are so here.

    ORACLE=PROGRAM python3 tools/pins.py          writes the file anew (the same one each time: the random fields have a fixed seed)
    ORACLE=PROGRAM python3 tools/pins.py --check  says whether the file is what it would write, and writes nothing

PROGRAM answers request lines of standard input by the Rust: `decode W`, W in hex digits, by `point=c0,..,c23`.
"""
import os
import random
import subprocess
import sys

FILE = os.path.join(os.path.dirname(os.path.dirname(os.path.abspath(__file__))), "crates", "tetra", "specs", "Laws", "Pinned.antt")
SEED = 20261115

# low bit and width of the fields, as word.rs has them
FIELDS = {"p": (0, 1), "r": (1, 1), "s8": (2, 6), "b1": (8, 1), "i1": (9, 11), "b2": (20, 4), "i2": (24, 11), "b3": (35, 1), "i3": (36, 11),
          "gain": (47, 1)}

HEAD = """-- The points of 71 words, written out as the Rust decodes them: of the 47 words of one set bit, the gain's
-- left out, and of 24 words in which every field is set, but p in half of them and the gain in every other. They
-- hold fast where each field stands in a word, the columns of the code, trio order, and the rows that these words
-- name: were one of them changed in definition and code together, a point here would be another. tools/pins.py
-- writes this file. Assumes nothing.
use Rattle.std.specs.Prelude.{◌≡◌, refl, List, [], ◌∷◌, map, ℕ, ◌^◌, ℤ, pos, negsuc}
use Rattle.laws.specs.Words.{tab}
use Rattle.word.specs.Word as word
use Rattle.rank.specs.Coord.{val_of}
use Rattle.rank.specs.Section.{point_at}
use Rattle.rows.specs.Rows.{rows}
use Rattle.rows.specs.Table.{row_ranks, middle_class, middle_row}
use Rattle.trellis.specs.Code.{columns}
use Rattle.trellis.specs.Trio.{order, places}
use Rattle.tetra.specs.Tetra.{codeword_at, third_class, ranks_at, trio_point, natural, trio_point_of, point_of}

-- ---- the coordinates that occur: p4 is 4, m4 is -4, o is 0
"""

CASE = """-- ---- a word and its point
abbrev has : ℕ → List ℤ → ℕ × List ℤ
has w y = (w, y)
"""

THEOREM = """-- ---- each word decodes to its point
abbrev decoded : ℕ × List ℤ → List ℤ
decoded e = point_of e.0

abbrev written : ℕ × List ℤ → List ℤ
written e = e.1

pub pinned : (map decoded one_bit ≡ map written one_bit) × (map decoded all_fields ≡ map written all_fields)
unfolding tab word.field_at val_of point_at rows row_ranks middle_class middle_row columns order places codeword_at
    third_class ranks_at trio_point natural trio_point_of point_of
pinned = (refl, refl)
"""


def full_words():
    """24 words: r, b1, b3 are 1, p is 1 in the first half, the gain 1 in every other; each wider field is random, but not 0."""
    rand = random.Random(SEED)
    words = []
    for n in range(24):
        fixed = {"p": int(n < 12), "r": 1, "b1": 1, "b3": 1, "gain": n % 2}
        word = 0
        for name, (low, width) in FIELDS.items():
            value = fixed[name] if name in fixed else rand.randrange(1, 1 << width)
            word |= value << low
        words.append(word)
    return words


def points(oracle, words):
    asked = "".join(f"decode {w:x}\n" for w in words)
    try:
        said = subprocess.run([oracle], input=asked, stdout=subprocess.PIPE, text=True, check=True).stdout.split()
    except (OSError, subprocess.CalledProcessError) as e:
        sys.exit(f"pins: the program that ORACLE names does not run: {e}")
    if len(said) != len(words) or not all(line.startswith("point=") and line.count(",") == 23 for line in said):
        sys.exit(f"pins: {oracle} does not answer {len(words)} requests `decode` by `point=c0,..,c23` each")
    return [[int(c) for c in line.removeprefix("point=").split(",")] for line in said]


def name(c):
    return "o" if c == 0 else f"p{c}" if c > 0 else f"m{-c}"


def defined(c):
    value = f"pos {c}" if c >= 0 else f"negsuc {-c - 1}"
    return f"abbrev {name(c)} : ℤ\n{name(c)} = {value}\n"


def listed(title, spelled, at):
    """A list of cases, each on three lines: the word, twelve coordinates, twelve coordinates."""
    lines = []
    for word, point in zip(spelled, at, strict=True):
        said = [name(c) for c in point]
        lines += [f"    {'∷ ' if lines else ''}has {word}", "    (" + " ∷ ".join(said[:12]), "    ∷ " + " ∷ ".join(said[12:]) + " ∷ [])"]
    return f"abbrev pub {title} : List (ℕ × List ℤ)\n{title} =\n" + "\n".join(lines + ["    ∷ []", ""])


def made(oracle):
    full = full_words()
    at = points(oracle, [1 << k for k in range(47)] + full)
    coordinates = [defined(c) for c in sorted({c for point in at for c in point})]
    bits = listed("one_bit", [f"(2 ^ {k})" for k in range(47)], at[:47])
    fields = listed("all_fields", [f"0x{w:012x}" for w in full], at[47:])
    return "\n".join([HEAD.rstrip("\n")] + coordinates + [CASE, bits, fields, THEOREM])


def main():
    oracle = os.environ.get("ORACLE")
    if sys.argv[1:] in (["-h"], ["--help"]):
        print(__doc__)
        return
    if sys.argv[1:] not in ([], ["--check"]) or not oracle:
        print(__doc__, file=sys.stderr)
        sys.exit(2)
    text = made(oracle)
    if len(sys.argv) == 1:
        with open(FILE, "w", encoding="utf-8", newline="\n") as f:
            f.write(text)
        print(f"written: {os.path.relpath(FILE)}")
        return
    with open(FILE, encoding="utf-8") as f:
        if f.read() != text:
            sys.exit(f"pins: {os.path.relpath(FILE)} is not what this script writes")
    print(f"{os.path.relpath(FILE)} is what this script writes")


main()
