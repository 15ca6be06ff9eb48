#!/usr/bin/env python3
"""Runs the program unpage on pages, good and damaged, and holds it to answers that are worked out here from documents 01 and 02.

    tests/pages.py                  runs the program on every page
    tests/pages.py --oracle ORACLE  also puts each word of the pages to a program over the Rust, which has to decode it as here
    tests/pages.py --sweep          puts five words at every num to the library's reader, 327,675 pages
    tests/pages.py --write          writes what the gate runs page_runs on, and its answers: crates/page_runs/stdin and stdout
    tests/pages.py --check          says whether those two files are the ones that --write writes
    tests/pages.py --help           prints this

From the environment:
    UNPAGE  the program; crates/unpage/out/unpage, run by tools/run.sh, where it is not set
    RUN     the command that runs the program, as an emulator and a loader with its options, where it needs one
    YULTARVAS_LIB  for --sweep: a folder with a libyultarvas.a for this machine; target/native where it is not set

Exit status: 0 all is as it should be; 1 something is not; 2 a wrong argument.

Nothing here is taken from the crates: pages are read by a pattern, words are decoded by the rule of the rows and by the columns, and counts are
exact fractions that Python rounds. The library is called through bindings/rust (its example `read`).
"""
import os
import random
import re
import subprocess
import sys
from fractions import Fraction
from functools import lru_cache

ROOT = os.path.dirname(os.path.dirname(os.path.abspath(__file__)))

# ---- words and points: document 01, 'The word', 'Trellis' and 'Rows'

FIELDS = {"p": (0, 1), "r": (1, 1), "s8": (2, 6), "b1": (8, 1), "i1": (9, 11), "b2": (20, 4), "i2": (24, 11), "b3": (35, 1), "i3": (36, 11)}
OCTADS = [0x00149F, 0x0F6840, 0xF08320]
COLUMNS = [0x2D002E, 0x3A005A, 0x740033, 0x03061E, 0x050963, 0x090578, 0x0000FF, 0x2D1D00, 0x3A2B00, 0x744700, 0x638E00, 0xFF0000]


def split(word):
    return {name: word >> low & ((1 << width) - 1) for name, (low, width) in FIELDS.items()}


def trio():
    """The natural coordinate at each place of trio order."""
    return [i for octad in OCTADS for i in range(24) if octad >> i & 1]


def codeword(f):
    label = f["s8"] | f["b1"] << 6 | f["b2"] << 7 | f["b3"] << 11
    word = 0
    for k, column in enumerate(COLUMNS):
        if label >> k & 1:
            word ^= column
    return word


def member(o, rank):
    """The member of o + 4Z at that rank: outward from zero, the positive one first on a tie."""
    return sorted((o + 4 * k for k in range(-8, 9)), key=lambda y: (abs(y), -y))[rank]


def vectors(depth, spent):
    """The rank vectors of that many coordinates whose cost, with what is spent, stays below 128."""
    if depth == 0:
        return [()]
    found = []
    rank = 0
    while spent + (2 * rank + 1) ** 2 + depth - 1 < 128:
        cost = (2 * rank + 1) ** 2
        found += [(rank,) + rest for rest in vectors(depth - 1, spent + cost)]
        rank += 1
    return found


@lru_cache(None)
def rows():
    """The 2,048 cheapest vectors of each class, by cost, then by vector."""
    classes = [[], []]
    for v in sorted(vectors(8, 0), key=lambda v: (sum((2 * rank + 1) ** 2 for rank in v), v)):
        classes[sum(member(0, rank) // 4 for rank in v) % 2].append(v)
    return [c[:2048] for c in classes]


def point(word):
    f = split(word)
    middle, i2 = (0, f["i2"]) if f["i2"] < 1240 else (1, f["i2"] - 1240)
    ranks = rows()[f["r"]][f["i1"]] + rows()[middle][i2] + rows()[f["p"] ^ f["r"] ^ middle][f["i3"]]
    bits = codeword(f)
    natural = [0] * 24
    for place, i in enumerate(trio()):
        natural[i] = member(f["p"] + 2 * (bits >> place & 1), ranks[place])
    return natural


# ---- pages: document 01, 'The trace page', with the rounding of document 02, 2026-03

PAGE = re.compile(rb"format=tetra-page\nnum=([1-9][0-9]*)\ncount=(0|[1-9][0-9]*)\n((?:word=[0-9a-f]{12}\n)*)")


def reading(text):
    """num and the words, or None."""
    m = PAGE.fullmatch(text)
    if not m:
        return None
    num, count, lines = int(m[1]), int(m[2]), m[3].split()
    if num > 65535 or count > 64 or count != len(lines):
        return None
    return num, [int(line[5:], 16) for line in lines]


def count_of(y, num):
    """y times num divided by 256, halves to even, which is how Python rounds an exact fraction."""
    return round(Fraction(y * num, 256))


def printed(text):
    page = reading(text)
    if page is None:
        return b"refused=9\n"
    num, words = page
    out = ""
    for index, word in enumerate(words):
        out += f"block={index}\ncounts={','.join(str(count_of(y, num)) for y in point(word))}\n"
    return out.encode()


def read(text, cells):
    """The number and the count of the library's call, with a buffer of so many cells."""
    page = reading(text)
    if page is None:
        return 9, 0
    return (8, 0) if cells < 24 * len(page[1]) else (0, len(page[1]))


def even_read(text, cells):
    """Those of the even profile's call: a page with an odd word is refused with 13, after 9 and before 8."""
    page = reading(text)
    return (13, 0) if page is not None and any(word % 2 for word in page[1]) else read(text, cells)


# ---- texts

def text_of(num, words, count=None):
    lines = ["format=tetra-page", f"num={num}", f"count={len(words) if count is None else count}"] + [f"word={w:012x}" for w in words]
    return "".join(line + "\n" for line in lines).encode()


EXAMPLE = text_of(128, [1])
LETTERS = text_of(300, [0x0ABCDEF01234, 0x7FFFFFFFFFFF, 0x4D8000000])


def words(rng, n):
    return [rng.getrandbits(48) >> rng.choice([0, 0, 0, 8, 24, 47]) for _ in range(n)]


def good():
    """Pages of random words, each num that is near a turn of the rounding, each count."""
    rng = random.Random(1)
    nums = [1, 2, 12, 13, 63, 64, 65, 127, 128, 129, 255, 256, 257, 384, 640, 32767, 32768, 65534, 65535]
    for count in range(65):
        yield f"{count} blocks", text_of(nums[count % len(nums)], words(rng, count))
    for num in nums:
        yield f"num {num}", text_of(num, words(rng, 5) + [0, 1, 256, 1 << 47, (1 << 48) - 1])
    for k in range(60):
        yield f"random {k}", text_of(rng.randint(1, 65535), words(rng, rng.randint(1, 6)))


def by_line(name, text):
    """One line of the page damaged."""
    lines = text.split(b"\n")[:-1]

    def page(new):
        return b"".join(line + b"\n" for line in new)

    for k, line in enumerate(lines):
        key, _, value = line.partition(b"=")
        others = {"cut": [], "doubled": [line, line], "empty": [b""], "an empty line behind it": [line, b""], "CR LF": [line + b"\r"],
                  "in upper case": [line.upper()], "a space in front": [b" " + line], "a space behind": [line + b" "], "its key alone": [key + b"="],
                  "no key": [value], "no =": [key + value], "a space at =": [key + b" = " + value], "a byte less": [line[:-1]],
                  "a byte less in front": [line[1:]], "a byte more": [line + b"0"], "a zero in front": [key + b"=0" + value],
                  "a plus sign": [key + b"=+" + value], "a NUL behind": [line + b"\0"], "another key": [b"key=" + value]}
        for what, new in others.items():
            yield f"{name}: line {k} {what}", page(lines[:k] + new + lines[k + 1:])
        yield f"{name}: line {k} without LF", page(lines[:k]) + line + page(lines[k + 1:])
        yield f"{name}: line {k} last", page(lines[:k] + lines[k + 1:] + [line])
        if k + 1 < len(lines):
            yield f"{name}: line {k} after the next", page(lines[:k] + [lines[k + 1], line] + lines[k + 2:])


def damaged():
    for name, text in [("example", EXAMPLE), ("letters", LETTERS)]:
        yield from by_line(name, text)
    for n in range(len(EXAMPLE)):
        yield f"the first {n} bytes", EXAMPLE[:n]
        yield f"byte {n} changed", EXAMPLE[:n] + bytes([EXAMPLE[n] ^ 1]) + EXAMPLE[n + 1:]
        yield f"byte {n} changed by a bit of its case", EXAMPLE[:n] + bytes([EXAMPLE[n] ^ 32]) + EXAMPLE[n + 1:]
    for num in ["0", "00001", "01", "65536", "65540", "99999", "100000", "655350", "4294967297", "18446744073709551617", "9" * 300, "-1", "+1", "",
                " 1", "1 ", "1.0", "1e3", "0x10", "1_0", "a", "\uff11"]:
        yield f"num {num[:20]}", EXAMPLE.replace(b"num=128", b"num=" + num.encode())
    for count in ["0", "2", "00", "01", "001", "65", "-0", "+0", "-1", "", "256", "257", "4294967297", "18446744073709551617", "1.", "one"]:
        yield f"count {count}", EXAMPLE.replace(b"count=1", b"count=" + count.encode())
    for word in ["00000000001", "0000000000001", "00000000000g", "00000000000A", "0x0000000001", "-00000000001", "000000 00001",
                 "000000000001 2", "000000000001\t", "00000000000", "", "0000000000001\nword=000000000001", "00000000000:", "00000000000/",
                 "00000000000`", "00000000000@"]:
        yield f"word {word}", EXAMPLE.replace(b"000000000001", word.encode())
    sixty_four = text_of(65535, list(range(64)))
    for name, text in [("the example", EXAMPLE), ("64 blocks", sixty_four), ("no blocks", text_of(1, []))]:
        for what, more in [("LF", b"\n"), ("a space", b" "), ("a NUL", b"\0"), ("a word line", b"word=000000000000\n"), ("itself", text),
                           ("a byte 26", b"\x1a"), ("1 MiB of zeros", bytes(1 << 20)), ("a key", b"end=\n")]:
            yield f"{name} and {what}", text + more
        yield f"{name} without the last LF", text[:-1]
        yield f"{name} with CR LF", text.replace(b"\n", b"\r\n")
        yield f"{name} with CR", text.replace(b"\n", b"\r")
        yield f"{name} with a mark of its encoding", b"\xef\xbb\xbf" + text
    yield "65 blocks", text_of(1, list(range(65)))
    yield "65 blocks that say 64", text_of(1, list(range(65)), 64)
    yield "63 blocks that say 64", text_of(1, list(range(63)), 64)
    yield "64 blocks that say 65", text_of(1, list(range(64)), 65)
    yield "two editions", EXAMPLE.replace(b"num=128\n", b"edition=2\n").replace(b"word=", b"num=128\nword=")
    for name, text in [("nothing", b""), ("LF", b"\n"), ("1 MiB of zeros", bytes(1 << 20)), ("1 MiB of LF", b"\n" * (1 << 20)),
                       ("1 MiB of word lines", b"word=000000000000\n" * 58255), ("all bytes", bytes(range(256)))]:
        yield name, text


# ---- what the gate runs

def halves():
    """Halves of either sign that go up and down: 1.5 and -4.5; 0.5 to 3.5; 0.5 of a 2, and of a 4."""
    return [text_of(384, [1]), text_of(128, [0x5CF4F4BEA973]), text_of(64, [256]), text_of(32, [0x3800])]


def evens():
    """Pages of even words, one of them too long for 24 cells; with a gain; and one whose last word is odd."""
    return [text_of(128, [0x3800]), text_of(128, [0x3800, 256]), text_of(128, [1 << 47]), text_of(128, [0x3800, 1])]


def for_the_gate():
    rng = random.Random(2)
    return [EXAMPLE, text_of(1, []), text_of(65535, words(rng, 64)), text_of(640, [1, 256]), *halves(), text_of(129, [(1 << 48) - 1]),
            *evens(), EXAMPLE[:-1], EXAMPLE + b"\n", EXAMPLE.replace(b"128", b"0128"), EXAMPLE.replace(b"128", b"0"), EXAMPLE.replace(b"128", b"65536"),
            LETTERS.replace(b"abc", b"ABC"), EXAMPLE.replace(b"\n", b"\r\n"), text_of(1, list(range(65))), text_of(1, [0], 2), b""]


def gate_files():
    texts = for_the_gate()
    out = b"".join(b"number=%d count=%d\neven number=%d count=%d\n" % (*read(text, 24), *even_read(text, 24)) + printed(text) for text in texts)
    return {"stdin": b"%".join(texts), "stdout": out}


def gate(write):
    same = True
    for name, new in gate_files().items():
        path = os.path.join(ROOT, "crates", "page_runs", name)
        if write:
            with open(path, "wb") as f:
                f.write(new)
        else:
            with open(path, "rb") as f:
                same = f.read() == new and same
    print("written" if write else "the same" if same else "NOT the same")
    return same


# ---- the run

def wrong(what):
    print(f"pages.py: {what}\n{__doc__}", file=sys.stderr)
    sys.exit(2)


def run(name, text, command):
    want = printed(text)
    try:
        ran = subprocess.run(command, input=text, stdout=subprocess.PIPE)
    except OSError as e:
        wrong(f"{' '.join(command)} cannot be run: {e}")
    if ran.returncode != 0 or ran.stdout != want:
        print(f"DIFFERS: {name}\n  input  {text[:300]}\n  wanted {want[:300]}\n  got    {ran.stdout[:300]}, status {ran.returncode}")
    return ran.returncode == 0 and ran.stdout == want


def ask(oracle, texts):
    """Each word of the texts that are pages, decoded by the oracle as here."""
    asked = sorted({word for text in texts for word in (reading(text) or (0, []))[1]})
    requests = "".join(f"decode {word:x}\n" for word in asked)
    got = subprocess.run([oracle], input=requests, stdout=subprocess.PIPE, check=True, text=True).stdout.split("\n")[:-1]
    same = got == ["point=" + ",".join(map(str, point(word))) for word in asked]
    print(f"{len(asked)} words, {'all decoded as here' if same else 'NOT decoded as here'}")
    return same


def program():
    """The command that runs unpage."""
    built = os.environ.get("UNPAGE", os.path.join(ROOT, "crates", "unpage", "out", "unpage"))
    if not os.access(built, os.X_OK):
        wrong(f"there is no program {built}: bash tools/native.sh unpage builds crates/unpage/out/unpage, or UNPAGE names another")
    if "UNPAGE" in os.environ:
        return os.environ.get("RUN", "").split() + [built]
    return ["bash", os.path.join(ROOT, "tools", "run.sh"), "unpage"]


def sweep():
    """Every num with five words that have halves of either sign, by the library: number, blocks and counts of each page."""
    os.environ.setdefault("YULTARVAS_LIB", os.path.join(ROOT, "target", "native"))
    manifest = os.path.join(ROOT, "bindings", "rust", "Cargo.toml")
    subprocess.run(["cargo", "build", "--offline", "--release", "--example", "read", "--manifest-path", manifest], check=True)
    target = os.environ.get("CARGO_TARGET_DIR", os.path.join(ROOT, "bindings", "rust", "target"))
    points = {word: point(word) for word in (1, 0x100, 0x3800, 0x5CF4F4BEA973, (1 << 48) - 1)}
    tried, bad, tie_up, tie_down = 0, 0, 0, 0
    for start in range(1, 65536, 8192):
        nums = range(start, min(start + 8192, 65536))
        texts = [text_of(num, [word]).decode().replace("\n", "|") for num in nums for word in points]
        got = subprocess.run([os.path.join(target, "release", "examples", "read")], input="".join(t + "\n" for t in texts), stdout=subprocess.PIPE,
                             check=True, text=True).stdout.split("\n")[:-1]
        wanted = []
        for num in nums:
            of = {y: count_of(y, num) for y in {y for ys in points.values() for y in ys}}
            ties = [y for y in of if abs(2 * y * num) % 512 == 256]
            tie_up += sum(256 * abs(of[y]) > abs(y) * num for y in ties)
            tie_down += sum(256 * abs(of[y]) < abs(y) * num for y in ties)
            wanted += ["0 1 " + ",".join(str(of[y]) for y in points[word]) for word in points]
        tried += len(got)
        for t, g, w in zip(texts, got, wanted):
            if g != w:
                bad += 1
                if bad <= 5:
                    print(f"DIFFERS: {t}\n  wanted {w}\n  got    {g}")
    print(f"{tried} pages by the library, {bad} differ; of the halves {tie_up} go away from zero and {tie_down} toward it")
    return bad == 0 and tried == 5 * 65535 and tie_up > 1000 and tie_down > 1000


def main(arguments):
    if arguments == ["--help"]:
        print(__doc__)
        return True
    if arguments in (["--write"], ["--check"]):
        return gate(arguments == ["--write"])
    if arguments == ["--sweep"]:
        return sweep()
    if arguments and (arguments[0] != "--oracle" or len(arguments) != 2):
        wrong(f"it does not know {' '.join(arguments)}")
    if arguments and not os.access(arguments[1], os.X_OK):
        wrong(f"there is no program {arguments[1]}")
    command = program()
    fine, broken = list(good()), list(damaged())
    alike = ask(arguments[1], [text for _, text in fine + broken] + for_the_gate()) if arguments else True
    answers = {}
    for name, text in fine + broken:
        alike = run(name, text, command) and alike
        kind = "refused" if reading(text) is None else "accepted"
        answers[kind] = answers.get(kind, 0) + 1
    print(f"{len(fine)} good pages and {len(broken)} damaged ones: {answers['accepted']} accepted, {answers['refused']} refused, "
          f"{'all answered as the documents say' if alike else 'NOT all answered as the documents say'}")
    return alike


if __name__ == "__main__":
    sys.exit(0 if main(sys.argv[1:]) else 1)
