#!/usr/bin/env python3
"""Has pages written, and holds them to answers that are worked out here from documents 01 and 02 over the Rust's words.

    ORACLE=.. tests/written.py [PAGES [SEED]]   by the library's call; 20,000 pages and seed 1 where no number stands there
    ORACLE=.. tests/written.py --program        by the program mkpage, and what unpage prints of its pages by mkpage again
    tests/written.py --help                     prints this

From the environment:
    ORACLE         the program over the Rust that answers request lines
    YULTARVAS_LIB  a folder with a libyultarvas.a for this machine; target/native where it is not set
    MKPAGE, UNPAGE the programs; crates/mkpage/out/mkpage and crates/unpage/out/unpage, run by tools/run.sh, where they are not set
    RUN            the command that runs the programs, as an emulator and a loader with its options, where they need one

Exit status: 0 all is as it should be; 1 something is not; 2 a wrong argument.

Nothing here is taken from the crates: a page's text, the order of the refusals and the counts are worked out from the documents. The library is
called through bindings/rust (its example `write`).
"""
import hashlib
import itertools
import os
import random
import shutil
import struct
import subprocess
import sys
from fractions import Fraction

ROOT = os.path.dirname(os.path.dirname(os.path.abspath(__file__)))
LARGEST = 32767
ORDER = ["3", "9", "8 samples", "2", "4", "8 text"]


def bits(x):
    return struct.pack(">d", x).hex()


# ---- the words of blocks, by the Rust

def ask(oracle, requests):
    """The answers of the Rust to request lines."""
    got = subprocess.run([oracle], input="".join(r + "\n" for r in requests), capture_output=True, text=True, check=True).stdout.splitlines()
    assert len(got) == len(requests), "the oracle answered %d of %d lines" % (len(got), len(requests))
    return got


def request(num, block):
    return "scale 8 %s %s" % (bits(num / 256), " ".join(bits(float(x)) for x in block))


# ---- what the documents say

class Call:
    """A call of the writer: num, how many blocks, the samples, and the room for the text."""

    def __init__(self, num, count, samples, room):
        self.num, self.count, self.samples, self.room = num, count, samples, room

    def blocks(self):
        return [self.samples[24 * i : 24 * i + 24] for i in range(self.count)]

    def length(self):
        """The bytes of the page's text, whatever its words are."""
        return len("format=tetra-page\nnum=%d\ncount=%d\n" % (self.num, self.count)) + 18 * self.count

    def reasons(self):
        """Every reason to refuse the call that holds by itself, in the order of the refusals."""
        seen = self.samples[: 24 * self.count]
        holds = [
            not 1 <= self.num <= 65535,
            self.count > 64,
            len(self.samples) < 24 * self.count,
            any(abs(x) > LARGEST for x in seen),
            any(256 * abs(x) > 10**6 * self.num for x in seen),
            self.room < self.length(),
        ]
        return [reason for reason, true in zip(ORDER, holds) if true]

    def coded(self):
        """Whether the order of refusals comes as far as the blocks' codes."""
        return (
            1 <= self.num <= 65535
            and self.count <= 64
            and len(self.samples) >= 24 * self.count
            and all(abs(x) <= LARGEST for b in self.blocks() for x in b)
        )

    def answer(self, words):
        """Number, block and text; `words` are the answers of the Rust to the blocks, where the order comes as far."""
        if not 1 <= self.num <= 65535:
            return 3, 0, ""
        if self.count > 64:
            return 9, 0, ""
        if len(self.samples) < 24 * self.count:
            return 8, 0, ""
        for i, block in enumerate(self.blocks()):
            if any(abs(x) > LARGEST for x in block):
                return 2, i, ""
        for i, (block, said) in enumerate(zip(self.blocks(), words)):
            far = any(Fraction(abs(x) * 256, self.num) > 10**6 for x in block)
            assert far == (said == "refused=4"), "the Rust and fractions differ on 4: num %d, %s" % (self.num, block)
            if far:
                return 4, i, ""
        lines = ["format=tetra-page", "num=%d" % self.num, "count=%d" % self.count]
        for said in words:
            assert said.startswith("word=") and len(said.split()[0]) == 17, said
            lines.append(said.split()[0])
        text = "".join(line + "\n" for line in lines)
        if self.room is None:
            return 0, 0, text
        return (8, 0, "") if self.room < len(text) else (0, 0, text)


# ---- calls

class Pages:
    def __init__(self, seed):
        self.rng = random.Random(seed)

    def num(self):
        return self.rng.randint(1, 9) if self.rng.random() < 0.4 else min(65535, int(2 ** self.rng.uniform(0, 16)))

    def sample(self, num, wide):
        r = self.rng.random()
        if r < 0.5:
            return max(-wide, min(wide, round(self.rng.gauss(0, 6) * num / 256)))
        if r < 0.6:
            return 0
        if r < 0.8:
            return max(-wide, min(wide, round(self.rng.randint(-12, 12) * num / 256)))
        return self.rng.randint(-wide, wide)

    def block(self, num):
        near = num * 10**6 // 256
        kind = self.rng.random()
        if kind < 0.1:
            return [0] * 24
        if kind < 0.15:
            return [self.rng.choice([-1, 1]) * LARGEST for _ in range(24)] if near >= LARGEST else [min(near, LARGEST)] * 24
        return [self.sample(num, min(LARGEST, near)) for _ in range(24)]

    def good(self, count=None):
        num = self.num()
        if count is None:
            count = self.rng.choice([0, 1, 1, 2, 3, 5, 8, 10, 13, 16, self.rng.randint(0, 64)])
        samples = [x for _ in range(count) for x in self.block(num)]
        if self.rng.random() < 0.3:
            samples += [self.rng.choice([0, 40000, -(2**31), 7]) for _ in range(self.rng.randint(1, 30))]
        return Call(num, count, samples, self.rng.choice(["exact", "exact", "exact", "less", 1189, 1300]))

    def spoil(self, call, reason):
        """The same call with a reason for one refusal."""
        rng = self.rng
        if reason == "3":
            call.num = rng.choice([0, 65536, 65537, 2**32 - 1])
        elif reason == "9":
            call.count = rng.choice([65, 66, 1000, 2**63])
            if call.count < 100 and rng.random() < 0.7:
                call.samples += [0] * (24 * call.count - len(call.samples))
        elif reason == "8 samples":
            have = min(len(call.samples), 24 * min(call.count, 65))
            call.samples = call.samples[: max(0, rng.choice([have - 1, have - 1, have - 24, 0]))]
        elif reason == "8 text":
            call.room = rng.choice(["less", 0, 33])
        elif call.samples:
            blocks = max(1, min(len(call.samples) // 24, call.count))
            at = 24 * rng.randrange(blocks) + rng.randrange(24)
            sign = rng.choice([-1, 1])
            if reason == "2":
                call.samples[min(at, len(call.samples) - 1)] = sign * rng.choice([32768, 32769, 40000, 2**31 - 1])
            else:
                if 8 < call.num <= 65535:
                    call.num = rng.randint(1, 8)
                far = 10**6 * call.num // 256 + 1  # the least magnitude that is refused
                call.samples[min(at, len(call.samples) - 1)] = sign * rng.choice([far, LARGEST]) if 1 <= call.num <= 8 else LARGEST
        return call

    def calls(self, many):
        pairs = list(itertools.combinations(ORDER, 2))
        for k in range(many):
            r = k % 10
            if r < 6:
                yield self.good()
            elif r < 8:
                yield self.spoil(self.good(self.rng.randint(1, 6)), ORDER[k // 10 % 6])
            else:
                first, second = pairs[k // 10 % 15]
                yield self.spoil(self.spoil(self.good(self.rng.randint(1, 6)), second), first)


def settle(call):
    """The room, which may be said by the length of the text."""
    if isinstance(call.room, str):
        call.room = min(call.length(), 30000) - (call.room == "less")


def longest():
    """The longest page: example Q of the request, and the hash of its text."""
    samples = [(37 * i * i + 11 * i) % 65535 - LARGEST for i in range(1536)]
    return Call(65535, 64, samples, 1189), "ad9cb5dd2fdce9442a20bc5167cfc6a7069bbb8c913fae433bb2c04cbf0446e8"


def tell(calls):
    """Prints how often each pair of reasons holds, with the first of them answered, and alone; and how often the room is tight."""
    alone, some = {}, {}
    for call in calls:
        reasons = call.reasons()
        for second in reasons[1:]:
            some[reasons[0], second] = some.get((reasons[0], second), 0) + 1
        if len(reasons) == 2:
            alone[tuple(reasons)] = alone.get(tuple(reasons), 0) + 1
    pairs = list(itertools.combinations(ORDER, 2))
    shown = ["%s, %s: %d (%d)" % (*p, some.get(p, 0), alone.get(p, 0)) for p in pairs]
    print("two reasons at once, the first answered (and no third): " + "; ".join(shown))
    exact = sum(c.room == c.length() and not c.reasons() for c in calls)
    less = sum(c.room == c.length() - 1 and c.reasons() == ["8 text"] for c in calls)
    print("%d of %d pairs; %d texts into the exact room, %d refused for one byte" % (len(some), len(pairs), exact, less))
    return len(some) == len(pairs) and exact > 0 and less > 0


def library(oracle, many, seed):
    os.environ.setdefault("YULTARVAS_LIB", os.path.join(ROOT, "target", "native"))
    cargo = ["cargo", "build", "--offline", "--release", "--example", "write", "--manifest-path", ROOT + "/bindings/rust/Cargo.toml"]
    subprocess.run(cargo, check=True)
    target = os.environ.get("CARGO_TARGET_DIR", ROOT + "/bindings/rust/target")
    top, digest = longest()
    calls = [top] + list(Pages(seed).calls(many - 1))
    asked = [c.coded() for c in calls]
    lines = [request(c.num, b) for c, a in zip(calls, asked) if a for b in c.blocks()]
    said = iter(ask(oracle, lines))
    wanted, numbers = [], {}
    for call, a in zip(calls, asked):
        words = list(itertools.islice(said, call.count)) if a else []
        settle(call)
        number, block, text = call.answer(words)
        assert len(text) in (0, call.length())
        assert call is not top or hashlib.sha256(text.encode()).hexdigest() == digest, "the longest page is another"
        numbers[number] = numbers.get(number, 0) + 1
        wanted.append("%d %d %d %s" % (number, block, len(text), text.replace("\n", "|")))
    sent = "".join("%d %d %d %s\n" % (c.num, c.count, c.room, ",".join(map(str, c.samples)) or "-") for c in calls)
    got = subprocess.run([target + "/release/examples/write"], input=sent, capture_output=True, text=True, check=True).stdout.splitlines()
    bad = [(s, g, w) for s, g, w in zip(sent.splitlines(), got, wanted) if g != w]
    for s, g, w in bad[:5]:
        print("asked    %s\nanswered %s\nwanted   %s" % (s[:300], g, w))
    if len(got) != len(calls):
        print("%d lines were answered" % len(got))
    print("%d pages, %d blocks put to the Rust; numbers %s; %d differ" % (len(calls), len(lines), sorted(numbers.items()), len(bad)))
    every = tell(calls)
    if many >= 1000 and not every:
        print("some of these did not occur")
    return not bad and len(got) == len(calls) and (every or many < 1000)


# ---- the program mkpage

def program(name):
    path = os.environ.get(name.upper())
    if path:
        return os.environ.get("RUN", "").split() + [path]
    return ["bash", os.path.join(ROOT, "tools", "run.sh"), name]


def run(name, text):
    return subprocess.run(program(name), input=text.encode("latin-1"), capture_output=True, check=True).stdout.decode("latin-1")


def traced(call):
    """The text that mkpage reads: a num line, and what unpage would print of the samples."""
    lines = ["num=%d" % call.num]
    for i, block in enumerate(call.blocks()):
        lines += ["block=%d" % i, "counts=" + ",".join(map(str, block))]
    return "".join(line + "\n" for line in lines)


def printed(number, block, text):
    if number == 0:
        return text
    return "refused=%d\n" % number + ("block=%d\n" % block if number in (2, 4) else "")


# each is no such text, whatever it was before
DAMAGE = {
    "no text": lambda t: "",
    "no line's end": lambda t: t[:-1],
    "more behind it": lambda t: t + "\n",
    "a page": lambda t: "format=tetra-page\nnum=256\ncount=0\n",
    "a num with a sign": lambda t: t.replace("num=", "num=+", 1),
    "a num with a zero in front": lambda t: t.replace("num=", "num=0", 1),
    "a num of 33 bits": lambda t: "num=4294967296\n" + t.split("\n", 1)[1],
    "no num line": lambda t: t.split("\n", 1)[1],
    "two num lines": lambda t: "num=1\n" + t,
    "blocks from 1 on": lambda t: t.replace("block=0\n", "block=1\n", 1),
    "a block twice": lambda t: t.replace("block=1\n", "block=0\n", 1),
    "23 counts": lambda t: t.replace("counts=", "counts=", 1).rsplit(",", 1)[0] + "\n",
    "25 counts": lambda t: t[:-1] + ",0\n",
    "a space": lambda t: t.replace(",", ", ", 1),
    "CR LF": lambda t: t.replace("\n", "\r\n"),
    "minus zero": lambda t: t.rsplit(",", 1)[0] + ",-0\n",
    "a zero in front": lambda t: t.rsplit(",", 1)[0] + ",07\n",
    "a plus": lambda t: t.rsplit(",", 1)[0] + ",+7\n",
    "a count of 33 bits": lambda t: t.rsplit(",", 1)[0] + ",2147483648\n",
    "the least count less one": lambda t: t.rsplit(",", 1)[0] + ",-2147483649\n",
    "no count": lambda t: t.rsplit(",", 1)[0] + ",\n",
    "capitals": lambda t: t.replace("counts", "Counts", 1),
    "a 0 byte": lambda t: t + "\0",
}


def by_program(oracle):
    pages = Pages(7)
    least, most = -(2**31), 2**31 - 1
    calls = [Call(256, 0, [], None), Call(1, 64, [0] * 1536, None), longest()[0]]
    calls += [Call(num, 0, [], None) for num in (0, 1, 65535, 65536, 2**32 - 1)]
    calls += [Call(2**32 - 1, 64, [least] * 1536, None), Call(65535, 64, [least] * 1536, None), Call(256, 2, [0] * 47 + [most], None)]
    top = traced(calls[-3])
    assert len(top) == 19461, "the longest trace is another"
    calls += [pages.good(n) for n in (1, 2, 3, 5, 8, 13, 64, 64) for _ in range(6)]
    calls += [pages.spoil(pages.good(pages.rng.randint(2, 5)), reason) for reason in ("3", "2", "4") for _ in range(10)]
    calls += [pages.spoil(pages.spoil(pages.good(3), b), a) for a, b in (("3", "2"), ("3", "4"), ("2", "4")) for _ in range(5)]
    wrong = shown = again = 0
    for call in calls:
        call.samples, call.room = call.samples[: 24 * call.count], None
        words = ask(oracle, [request(call.num, b) for b in call.blocks()]) if call.coded() and call.count else []
        answer = call.answer(words)
        text = traced(call)
        got = run("mkpage", text)
        shown += 1
        if got != printed(*answer):
            wrong += 1
            print("mkpage on\n%s\nprinted\n%s\nnot\n%s" % (text[:400], got[:400], printed(*answer)[:400]))
        if answer[0] == 0:
            # what unpage prints of the page, behind a line with its num, is a text that mkpage takes: its counts are the samples
            counts = run("unpage", got)
            back = run("mkpage", "num=%d\n%s" % (call.num, counts))
            blocks = [[int(z) for z in line[7:].split(",")] for line in counts.splitlines() if line.startswith("counts=")]
            second = Call(call.num, len(blocks), [z for b in blocks for z in b], None)
            words = ask(oracle, [request(call.num, b) for b in blocks]) if blocks else []
            again += 1
            if back != printed(*second.answer(words)):
                wrong += 1
                print("the counts of a page, made a page again, are otherwise: num %d\n%s" % (call.num, back[:400]))
    two = traced(Call(256, 2, [4, 4] + [0] * 46, None))
    for name, damage in DAMAGE.items():
        shown += 1
        if damage(two) == two or run("mkpage", damage(two)) != "refused=9\n":
            wrong += 1
            print("%s: not refused with 9" % name)
    many = traced(Call(256, 65, [0] * 1560, None))
    for text in (many, many + "x" * 30000, "num=0\n" + many.split("\n", 1)[1], top[:-1], top + "\n", top + "x" * 30000):
        shown += 1
        if run("mkpage", text) != "refused=9\n":
            wrong += 1
            print("65 blocks, or the longest trace with a byte more or less: not refused with 9")
    print("%d texts put to mkpage, %d pages shown and made again; %d differ" % (shown, again, wrong))
    return wrong == 0


def main(words):
    if words in (["--help"], ["-h"]):
        print(__doc__.strip())
        return 0
    program_only = words == ["--program"]
    if not program_only and not (len(words) <= 2 and all(w.isdigit() for w in words) and (not words or int(words[0]) > 0)):
        print(__doc__.strip(), file=sys.stderr)
        return 2
    oracle = os.environ.get("ORACLE", "")
    if not shutil.which(oracle):
        print("tests/written.py: ORACLE has to name a program", file=sys.stderr)
        return 2
    if program_only:
        for name in ("mkpage", "unpage"):
            path = os.environ.get(name.upper(), os.path.join(ROOT, "crates", name, "out", name))
            if not shutil.which(path):
                print("tests/written.py: there is no program %s: bash tools/native.sh %s builds crates/%s/out/%s" % (path, name, name, name), file=sys.stderr)
                return 2
        return 0 if by_program(oracle) else 1
    many, seed = (list(map(int, words)) + [20000, 1][len(words):])[:2]
    return 0 if library(oracle, many, seed) else 1


if __name__ == "__main__":
    sys.exit(main(sys.argv[1:]))
