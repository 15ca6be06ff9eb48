#!/usr/bin/env python3
"""Writes what the program ask is run on: crates/ask/stdin, and what it must answer: crates/ask/stdout.

    ask_vectors.py VECTORS ORACLE EVEN

VECTORS is the folder of answers of the Rust, a case a line: decode.txt and point.txt, a word and its point, or a point and its word or none,
and why there is none, which the Rust does not say;
scale.txt and kill.txt, samples at a scale and their code; encode.txt, samples, their code and their lower scale; score.txt, samples, a point
and its score; shrinks.txt, requests with their answers, some of which change with each shrink that is changed. ORACLE is a program that
answers request lines by the Rust: each line here that is a request is put to it too and has to be answered as here. It also says the points
of the codes of encode.txt, which has their words alone. The oracle refuses every point that has no word with 5. EVEN is the same program with
the Rust's search cut to parity 0: the requests of the even profile, but for those refused with 13, are put to it without the e of their names.
"""
import os
import re
import struct
import subprocess
import sys

ZEROS = ["0"] * 24


def rows(folder, name):
    with open(os.path.join(folder, name), encoding="ascii") as f:
        return [line.split() for line in f if line.strip() and not line.startswith("#")]


def spelled(word, k):
    """The word's 16 hex digits; or in upper case; or with no zeros in front."""
    return [word, word.upper(), word.lstrip("0") or "0"][k % 3]


def decodes(folder):
    return [(f"decode {spelled(word, k)}", f"point={point}") for k, (word, point) in enumerate(rows(folder, "decode.txt"))]


def refused(number, section="0"):
    return f"refused={number}" + (f" section={section}" if section != "0" else "")


def points(folder):
    """point.txt: a point, its word or none, number, section."""
    return [("point " + row[0].replace(",", " "), refused(row[2], row[3]) if row[1] == "none" else f"word={row[1]}")
            for row in rows(folder, "point.txt")]


def coded(number, word, score, at):
    return f"refused={number}" if number != "0" else f"word={word} score={score} point={at}"


def scales(folder):
    """scale.txt and kill.txt: setting, scale, samples, number, word, score, cost, point, .."""
    return [(f"scale {r[0]} {r[1]} " + r[2].replace(",", " "), coded(r[3], r[4], r[5], r[7]))
            for name in ["scale.txt", "kill.txt"] for r in rows(folder, name)]


def lowers(folder):
    """encode.txt: samples, number, word, score, largest magnitude, lower scale, .."""
    return [("lower " + r[0].replace(",", " "), f"refused={r[1]}" if r[1] != "0" else f"max={r[4]} scale={r[5]}")
            for r in rows(folder, "encode.txt")]


def autos(folder, oracle):
    """The point of a code is that of its word: encode.txt leaves it out."""
    cases = rows(folder, "encode.txt")
    points = ask(oracle, [f"decode {r[2]}" for r in cases])
    return [("auto 8 " + r[0].replace(",", " "), coded(r[1], r[2], r[3], p.removeprefix("point="))) for r, p in zip(cases, points, strict=True)]


def scores(folder):
    return [("score " + r[0].replace(",", " ") + " " + r[1].replace(",", " "), f"score={r[2]}") for r in rows(folder, "score.txt")]


def shrinks(folder):
    """shrinks.txt: a request, =>, its answer."""
    return [tuple(" ".join(row).split(" => ")) for row in rows(folder, "shrinks.txt")]


def point(coordinates):
    return " ".join(["point"] + coordinates)


def long(size):
    """The origin in a line of that many bytes."""
    short = point(ZEROS)
    return short + "0" * (size - len(short))


def odd():
    """Requests that are spelled in an odd way: zeros in front, a minus before 0, the longest line, the ends of i32; a double with no zeros in
    front, the largest settings."""
    ends = ["2147483647", "-2147483648"] + ZEROS[2:]
    two = " ".join(["4010666666666666", "400f333333333333"] + ZEROS[2:])
    code = "word=000000003800 score=4016a09e667f3bcc point=4,4" + ",0" * 22
    return [(point(["-0", "00"] + ZEROS[2:]), "word=000000000000"), (long(1023), "word=000000000000"), (point(ends), "refused=5"),
            (f"scale 4294967295 3FF0000000000000 {two}", code), (f"scale 18446744073709551615 3ff0000000000000 {two}", code),
            (f"scale 08 3ff0000000000000 {two}", code)]


def point_of(*coordinates, rest=0):
    """The point with value v at coordinate i, for each pair (v, i)."""
    y = [str(rest)] * 24
    for v, i in coordinates:
        y[i] = str(v)
    return point(y)


def reasons():
    """Points with and without a word, at the bounds, and with more than one thing wrong."""
    first = [0, 0, -4, -4, -4, 0, 0, 0, 0, -4, 4, 0, 4, 0, 0, -4, 0, 0, 0, 0, -4, 0, 4, 4]
    return [(point_of(rest=1), "refused=12"), (point_of((4, 0)), "refused=12"), (point_of((2, 0)), "refused=10"), (point_of((1, 0)), "refused=5"),
            (point_of((12, 0), (4, 1)), "refused=11 section=1"), (point_of((-12, 0), (4, 1)), "refused=11 section=1"),
            (point_of((16, 0)), "refused=11 section=1"), (point_of((-16, 0)), "refused=11 section=1"),
            (point_of((-2147483648, 0)), "refused=11 section=1"),
            (point_of((4, 0), (4, 1), (8, 3), (4, 10), (4, 12)), "word=0000000ffe00"),
            (point_of((4, 0), (4, 1), (8, 3), (4, 7), (4, 12)), "refused=11 section=1"),
            (point_of((-4, 9), (-4, 15), (-4, 20), (4, 22), (4, 23)), "refused=12"),
            (point([str(v) for v in first]), "word=7ff0000ffe02"), (point_of((12, 0)), "refused=11 section=1"),
            (point_of((8, 6), (4, 16), (4, 17)), "refused=11 section=2"), (point_of((8, 0), (4, 4), (4, 7)), "word=00000009b000"),
            (point_of(*[(4, i) for i in (5, 8, 16, 17, 21, 23)], (8, 6), (8, 15)), "refused=11 section=2"),
            (point_of((13, 23), rest=1), "refused=11 section=3"), (point_of((2, 0), (100, 1)), "refused=10"),
            (point_of((2147483647, 0), (-2147483648, 1)), "refused=5"), (point_of((3, 0), rest=1), "refused=10")]


def bits(x):
    """The 16 hex digits of a double."""
    return struct.pack(">d", x).hex()


def even_words(known):
    """Words and points of the even profile: an even word has the full coder's point, and what is not all odd its answer."""
    words = ["0000000000000000", "2", "3800", "0000800000000000", "ffff000000000000"]
    lines = [(f"edecode {word}", known[f"decode {word}"]) for word in words]
    lines += [(f"edecode {word}", "refused=13") for word in ["1", "3", "0000800000000001", "00007fffffffffff"]]
    odd_points = [point_of(rest=1), point_of((-3, 23), rest=1), point_of(rest=-3), point_of(rest=2147483647), point_of((3, 0), rest=1)]
    lines += [("e" + line, "refused=13") for line in odd_points]
    others = [(point_of((1, 0)), "refused=5"), (point_of((2, 0)), "refused=10"), (point_of((4, 0)), "refused=12"),
              (point_of((12, 0), (4, 1)), "refused=11 section=1"), (point_of((4, 0), (4, 1)), "word=000000003800")]
    return lines + [("e" + line, answer) for line, answer in others]


def row(*first, rest=0.0):
    return " ".join(bits(x) for x in list(first) + [rest] * (24 - len(first)))


def even_codes(known):
    """Samples for the even profile: an even point's; an odd point's, at two settings; those of the word 7fffffffffff, whose point is odd; what
    is refused, and which number goes first; zeros; samples whose full code, of the point all 2, scores the same."""
    none = "word=000000000000 score=fff0000000000000 point=" + ",".join(ZEROS)
    odd_point = row(*[1.0] * 23, -3.0)
    last_word = known["decode 00007FFFFFFFFFFF"].removeprefix("point=").split(",")
    at_one = [(8, row(4.1, 3.9), "word=000000003800 score=4016a09e667f3bcc point=4,4" + ",0" * 22), (8, odd_point, none), (1, odd_point, none),
              (8, row(*[float(c) for c in last_word]),
               "word=633cd11b5c00 score=402df42cee65187d point=0,0,-4,-4,-4,0,6,0,-2,4,0,-4,4,-2,2,4,-2,0,0,0,-6,0,-2,2"),
              (0, row(4.1, 3.9), "refused=7"), (8, row(1e291), "refused=2"), (8, row(1000001.0), "refused=4")]
    lines = [(f"escale {setting} {bits(1.0)} {samples}", answer) for setting, samples, answer in at_one]
    lines += [(f"escale 8 {bits(0.0)} {row(float('nan'))}", "refused=3"), (f"eauto 8 {row()}", none)]
    return lines + [(f"eauto 8 {row(rest=0.5)}", "word=407407080e00 score=4003988e1409212f point=4" + ",4" * 23)]


def bad():
    lines = ["", " ", "encode 0", "dec 0", "decoder 0", "DECODE 0", "decode", "decode ", "decode  0", " decode 0", "decode 0 ",
             "decode 0 0", "decode\t0", "decode 0\r", "decode g", "decode 0x1", "decode -1", "decode +1", "decode 00000000000000001"]
    lines += ["point", "point ", point(ZEROS[1:]), point(ZEROS + ["0"]), point(ZEROS) + " ", point(ZEROS).replace(" ", "  ", 1)]
    lines += [point([c] + ZEROS[1:]) for c in ["2147483648", "-2147483649", "18446744073709551616", "-", "--1", "+1", "1-", "a", "1.0", ""]]
    zeros = " ".join(ZEROS)
    lines += ["scale", "scale 8", f"scale 8 {zeros}", f"scale 8 1 {zeros} 0", f"scale -1 1 {zeros}", f"scale 18446744073709551616 1 {zeros}"]
    lines += ["auto", f"auto {zeros}", f"auto 8 {zeros} 0", f"auto x {zeros}", f"lower 0 {zeros}", f"lower {zeros[2:]}", f"lower {zeros} "]
    lines += [f"score {zeros}", f"score {zeros} {zeros[2:]}", f"score {zeros} {zeros} 0", f"score {zeros} {zeros[2:]} g", f"lower {zeros[2:]} g"]
    lines += ["edecode", "edecode 0 0", "edecode g", "edecoder 0", "epoint", "e" + point(ZEROS + ["0"]), f"escale 8 {zeros}"]
    lines += [f"escale 8 1 {zeros} 0", f"eauto {zeros}", f"eauto 8 {zeros} 0", f"elower {zeros}", "e decode 0"]
    lines += [long(1024), long(2000), "a" * 2000, "decode " + "0" * 2000]
    return [(line, "refused=9") for line in lines]


def ask(oracle, lines):
    run = subprocess.run([oracle], input="".join(line + "\n" for line in lines), stdout=subprocess.PIPE, text=True, check=True)
    return run.stdout.splitlines()


def folded(answer):
    """The Rust has one refusal of a point."""
    return re.sub(r"^refused=(10|11 section=[123]|12)$", "refused=5", answer)


def answered(oracle, cases):
    """Each request is answered by the oracle as here."""
    for (line, wanted), got in zip(cases, ask(oracle, [line for line, _ in cases]), strict=True):
        if got != folded(wanted):
            sys.exit(f"ask_vectors: {line}\n  here   {wanted}\n  oracle {got}")
    print(f"{len(cases)} requests are answered alike by the oracle")


def main():
    if sys.argv[1:] in (["-h"], ["--help"]):
        print(__doc__)
        return
    if len(sys.argv) != 4:
        print(__doc__, file=sys.stderr)
        sys.exit(2)
    folder, oracle, even = sys.argv[1:]
    good = decodes(folder) + points(folder) + scales(folder) + autos(folder, oracle) + lowers(folder) + scores(folder)
    good += shrinks(folder) + odd() + reasons()
    last = ("decode 1", next(answer for line, answer in good if line == "decode 0000000000000001" or line == "decode 1"))
    answered(oracle, good + [last])
    evens = even_words(dict(good)) + even_codes(dict(good))
    answered(even, [(line[1:], answer) for line, answer in evens if answer != "refused=13"])
    cases = good + evens + bad() + [last]
    crate = os.path.join(os.path.dirname(os.path.abspath(__file__)), "..", "crates", "ask")
    with open(os.path.join(crate, "stdin"), "w", encoding="ascii", newline="\n") as f:
        f.write("\n".join(line for line, _ in cases))  # the last line has no LF
    with open(os.path.join(crate, "stdout"), "w", encoding="ascii", newline="\n") as f:
        f.write("".join(answer + "\n" for _, answer in cases))
    print(f"{len(cases)} lines in crates/ask/stdin")


main()
