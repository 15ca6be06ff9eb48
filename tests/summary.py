#!/usr/bin/env python3
"""Puts pages and their summaries to the library, and holds its answers to a model of document 02, request 2026-04.

    tests/summary.py [ADDS [SEED]]           20,000 adds and seed 1 where no number stands there
    tests/summary.py --wrong [ADDS [SEED]]   needs no library: wrong models answer the same requests, and each has
                                             to be noticed; 4,000 adds where no number stands there
    tests/summary.py --program [ADDS [SEED]] the texts of those requests are put to the program sizes; 4,000 adds
                                             where no number stands there
    tests/summary.py --help                  prints this

There are a tenth as many pages afresh as adds, and a quarter as many damaged summaries. An add is one that is put word
by word to a page that grows, accepted or refused. Requests for the other refusals come on top.

From the environment:
    YULTARVAS_LIB  a folder with a libyultarvas.a for this machine; target/native where it is not set
    SIZES          the program sizes; crates/sizes/out/sizes, run by tools/run.sh, where it is not set

Exit status: 0 all is as it should be; 1 something is not; 2 a wrong argument.

Nothing here is taken from the crates: the rows and the order of the refusals are worked out from the sentences of
document 02, and the texts are made here. The points of words, and what a page is, come from tests/format_decoder.py,
which is written from docs/FORMAT.md alone. The model has to give the examples of the request first. The library is
called through bindings/rust (its example `summary`).
"""
import collections
import os
import random
import subprocess
import sys
from functools import lru_cache

sys.dont_write_bytecode = True  # a run leaves nothing beside the tests
import format_decoder as decoder  # noqa: E402

ROOT = os.path.dirname(os.path.dirname(os.path.abspath(__file__)))
BEFORE = 77  # the count's cell before a call, as the example `summary` has it
MOST = 64  # blocks of a page
PART = 5000  # lines that are put to the library at once
HIGH, LOW = 0x000000008E03, 0x008800F00101  # 5 and 23 times 1; 23 times -1 and -5
NAMES = {0: "accepted", 8: "refused with 8", 9: "refused with 9", 14: "refused with 14"}


@lru_cache(None)
def reading(text):
    """The words of a page; None where the text is none."""
    page = decoder.reading(text)
    return None if page is None else tuple(page[1])


point = lru_cache(None)(decoder.point)


# ---- what document 02 says

class Model:
    """The calls: each answers the number, the count's cell and the lent cells, as they are afterwards."""

    most = MOST

    def __init__(self):
        self.known = {}
        self.summary = lru_cache(16)(self.summary)  # several requests in a row are of one page

    def block_row(self, word):
        """The sum of squares of coordinates, largest and smallest coordinate, parity p."""
        y = point(word)
        return sum(v * v for v in y), max(y), min(y), word % 2

    def page_row(self, rows):
        """The total of the sums, the largest and smallest over all blocks, and the number of blocks with p = 1; for an empty page all zeros."""
        if not rows:
            return 0, 0, 0, 0
        sums, largest, smallest, parities = zip(*rows)
        return sum(sums), max(largest), min(smallest), parities.count(1)

    def block_rows(self, words):
        for word in words:
            if word not in self.known:
                self.known[word] = self.block_row(word)
        return [self.known[word] for word in words]

    def summary(self, words):
        """First the page's row, then one row per block."""
        rows = self.block_rows(words)
        return tuple(cell for row in [self.page_row(rows), *rows] for cell in row)

    def agrees(self, words, cells):
        summary = self.summary(words)
        return cells[:len(summary)] == summary

    def summarise_reasons(self, words, cells):
        """Each number with whether there is a reason for it, in the order of the refusals."""
        yield 9, words is None
        yield 8, len(cells) < 4 * (len(words) + 1)

    def check_reasons(self, words, cells):
        yield 9, words is None
        yield 8, len(cells) < 4 * (len(words) + 1)
        yield 14, not self.agrees(words, cells)

    def add_reasons(self, words, cells):
        yield 9, words is None
        yield 9, len(words) >= self.most
        yield 8, len(cells) < 4 * (len(words) + 2)
        yield 14, not self.agrees(words, cells)

    def over(self, summary, cells):
        """The summary at the cells' start."""
        return summary + cells[len(summary):]

    def refused(self, number, cells):
        """A refusal leaves everything."""
        return number, BEFORE, cells

    def summarise(self, words, cells):
        for number, holds in self.summarise_reasons(words, cells):
            if holds:
                return self.refused(number, cells)
        return 0, len(words), self.over(self.summary(words), cells)

    def check(self, words, cells):
        return next((number for number, holds in self.check_reasons(words, cells) if holds), 0), BEFORE, cells

    def add(self, words, word, cells):
        for number, holds in self.add_reasons(words, cells):
            if holds:
                return self.refused(number, cells)
        return 0, len(words) + 1, self.grown(words, word, cells)

    def grown(self, words, word, cells):
        """The cells once the word, its low 48 bits, is added: as worked out afresh from the longer page."""
        return self.over(self.summary(words + (word % 2**48,)), cells)

    def answer(self, request):
        words = reading(request.text)
        if request.call == "add":
            return self.add(words, request.word, request.cells)
        return (self.check if request.call == "check" else self.summarise)(words, request.cells)


RIGHT = Model()


class Request(collections.namedtuple("Request", "call kind number text word cells")):
    """A call of a kind; `number` is what a request of its kind has to be answered, or None."""

    __slots__ = ()

    def line(self):
        word = ["%x" % self.word] if self.call == "add" else []
        return " ".join([self.call, self.text.hex() or "-", *word, shown(self.cells)])

    def said(self, answer):
        """The answer as the example `summary` shows it."""
        number, count, cells = answer
        return "%d" % number if self.call == "check" else "%d %d %s" % (number, count, shown(cells))


def shown(cells):
    return ",".join(map(str, cells)) or "-"


# ---- the examples of the request

def examples():
    """Requests and the whole answers to them."""
    zero, one, high, low = (0,) * 4, (32, 1, -3, 1), (48, 5, 1, 1), (48, -1, -5, 1)

    def case(call, name, words, word, cells, number, count=BEFORE, after=None):
        text = words if isinstance(words, bytes) else text_of(128, words)
        return Request(call, name, number, text, word, cells), (number, count, cells if after is None else after)

    rows = [(0, zero), (1, one), (HIGH, high), (LOW, low), (0x3800, (32, 4, 0, 0)), (2**48 - 1, (256, 7, -5, 1)), (2**47, zero)]
    for word, row in rows:
        yield case("summarise", "R", [word], 0, (7,) * 8, 0, 1, row + row)
    yield case("summarise", "S1", [], 0, (7,) * 4, 0, 0, zero)
    yield case("summarise", "S1", [], 0, (7,) * 3, 8)
    yield case("summarise", "S2", [1], 0, (7,) * 8, 0, 1, one + one)
    yield case("summarise", "S2", [1], 0, (7,) * 7, 8)
    yield case("summarise", "S3", [0, 1, 0x3800], 0, (7,) * 16, 0, 3, (64, 4, -3, 1) + zero + one + (32, 4, 0, 0))
    yield case("summarise", "S4", [2**47 + 1], 0, (7,) * 8, 0, 1, one + one)
    yield case("summarise", "S5", text_of(128, [1])[:-1], 0, (), 9)
    yield case("add", "A1", [], HIGH, zero + (7,) * 6, 0, 1, high + high + (7, 7))
    yield case("add", "A2", [], LOW, zero + (7,) * 4, 0, 1, low + low)
    yield case("add", "A3", [0], 0x8000800000000001, zero + zero + (9,) * 5, 0, 2, one + zero + one + (9,))
    yield case("add", "A4", [0], 0x8000800000000001, zero + zero + (9,) * 3, 8)
    yield case("add", "A5", [0], 0x8000800000000001, (0, 0, 0, 1) + zero + (9,) * 4, 14)
    yield case("add", "A6", [0], 0x8000800000000001, (0, 0, 0, 1) + zero, 8)
    yield case("add", "A7", [1] * 64, 0, (), 9)
    yield case("add", "A8", [1] * 63, LOW, (2016, 1, -3, 63) + one * 63 + (7,) * 4, 0, 64, (2064, 1, -5, 64) + one * 63 + low)
    yield case("check", "C", [0, 1], 0, one + zero + one + (7,), 0)
    yield case("check", "C", [0, 1], 0, one + zero + one[:3] + (0,), 14)
    yield case("check", "C", [0, 1], 0, one + zero + one[:3], 8)
    yield case("check", "C", b"", 0, (), 9)
    yield case("check", "C", [LOW], 0, (48, 0, -5, 1) + low, 14)


def misses(model):
    """The examples that a model answers otherwise."""
    return [request.kind for request, wanted in examples() if request.said(model.answer(request)) != request.said(wanted)]


# ---- texts

def text_of(num, words, count=None):
    lines = ["format=tetra-page", "num=%d" % num, "count=%d" % (len(words) if count is None else count)] + ["word=%012x" % w for w in words]
    return "".join(line + "\n" for line in lines).encode()


def line_changed(text, k, change):
    lines = text.split(b"\n")
    return b"\n".join(lines[:k] + [change(lines[k])] + lines[k + 1:])


# each makes a text that is no page, out of that of a page with one block or more, its num and its words
MALFORMED = {
    "no text": lambda rng, text, num, words: b"",
    "no last LF": lambda rng, text, num, words: text[:-1],
    "one LF more": lambda rng, text, num, words: text + b"\n",
    "a 0 byte behind": lambda rng, text, num, words: text + b"\0",
    "CR LF": lambda rng, text, num, words: text.replace(b"\n", b"\r\n"),
    "cut off": lambda rng, text, num, words: text[:rng.randrange(len(text))],
    "another first line": lambda rng, text, num, words: text.replace(b"tetra", b"Tetra", 1),
    "num 0": lambda rng, text, num, words: text_of(0, words),
    "num 65536": lambda rng, text, num, words: text_of(65536, words),
    "a zero before num": lambda rng, text, num, words: text.replace(b"num=", b"num=0", 1),
    "a zero before the count": lambda rng, text, num, words: text.replace(b"count=", b"count=0", 1),
    "no num line": lambda rng, text, num, words: text.replace(b"num=%d\n" % num, b"", 1),
    "a block less than it says": lambda rng, text, num, words: text_of(num, words[1:], len(words)),
    "a block more than it says": lambda rng, text, num, words: text_of(num, words, len(words) - 1),
    "65 blocks": lambda rng, text, num, words: text_of(num, (words * 65)[:65]),
    "65 blocks that say 64": lambda rng, text, num, words: text_of(num, (words * 65)[:65], 64),
    "11 digits": lambda rng, text, num, words: line_changed(text, 3 + rng.randrange(len(words)), lambda line: line[:-1]),
    "13 digits": lambda rng, text, num, words: line_changed(text, 3 + rng.randrange(len(words)), lambda line: line + b"0"),
    "capitals": lambda rng, text, num, words: line_changed(text, 3 + rng.randrange(len(words)), lambda line: line[:-1] + b"A"),
    "a space": lambda rng, text, num, words: line_changed(text, rng.randrange(3 + len(words)), lambda line: line + b" "),
}


# ---- requests

# What the words of a page are: any 48 bits; with few bits, low ones or any; the origin's; with bit 47; of one
# parity; with points above 0, below 0, of large squares; of all these; of up to three of these, again and
# again. There are 12, and pages have 65 sizes, so that in 780 pages each meets each.
FLAVOURS = ["any", "mixed", "small", "sparse", "zero", "gain", "even", "odd", "high", "low", "large", "twice"]


class Requests:
    """Requests of every kind; those that need a summary have it from the model."""

    def __init__(self, seed):
        self.rng, self.model = random.Random(seed), Model()
        self.listed, self.many = [], collections.Counter()
        self.octads = [c for c in decoder.labels() if bin(c).count("1") in (0, 8)]
        self.malformed = 0

    # -- words

    def one_sided(self, sign):
        """A word whose coordinates all have one sign: 1, 3 on a codeword, and one or three of them 4 more; or the negatives."""
        while True:
            bits, y = self.rng.choice(self.octads), [0] * 24
            for place, i in enumerate(decoder.ORDER):
                y[i] = 3 if bits >> place & 1 else 1
            for i in self.rng.sample(range(24), self.rng.choice([1, 1, 3])):
                y[i] += 4
            word = decoder.word_of([sign * v for v in y])
            if word is not None:
                return word

    def word(self, flavour):
        rng = self.rng
        word = rng.getrandbits(48)
        if flavour in ("mixed", "twice"):
            flavour = rng.choice(["any", "any", "small", "sparse", "zero", "gain", "high", "low", "large"])
        if flavour == "small":
            return word >> rng.choice([24, 32, 40, 44, 47])
        if flavour == "sparse":
            return sum(2**k for k in rng.sample(range(48), rng.choice([1, 1, 2, 3])))
        if flavour == "zero":
            return rng.choice([0, 0, 2**47])
        if flavour == "gain":
            return word >> rng.choice([0, 24, 40]) | 2**47
        if flavour in ("even", "odd"):
            return word & ~1 | (flavour == "odd")
        if flavour in ("high", "low"):
            return self.one_sided(1 if flavour == "high" else -1) | rng.choice([0, 2**47])
        if flavour == "large":
            return max((rng.getrandbits(48) for _ in range(20)), key=lambda w: self.model.block_row(w)[0])
        return word

    def words(self, count, flavour):
        words = tuple(self.word(flavour) for _ in range(count))
        return tuple(self.rng.choice(words[:3]) for _ in words) if flavour == "twice" else words

    def wide(self, word):
        """The word with bits of 48 and up, half of the times."""
        return word | (self.rng.getrandbits(16) << 48 if self.rng.random() < 0.5 else 0)

    def junk(self, count):
        wide = [0, 1, -1, 7, 2**31 - 1, -2**31]
        return tuple(self.rng.choice(wide) if self.rng.random() < 0.3 else self.rng.randint(-2**31, 2**31 - 1) for _ in range(count))

    def num(self):
        return self.rng.choice([1, 128, 256, 65535, self.rng.randint(1, 65535)])

    # -- requests by kind

    def put(self, call, kind, number, text, cells, word=0):
        """A request, of which the model's answer is given back."""
        request = Request(call, kind, number, text, word, cells)
        answer = self.model.answer(request)
        assert number in (None, answer[0]), "the model answers %d to %s: %s" % (answer[0], kind, request.line())
        self.listed.append(request)
        self.many[call, kind, answer[0]] += 1
        return answer

    def buffered(self, call, text, cells, word=0):
        """An accepted call with no cell to spare, or with some behind."""
        if self.rng.random() < 0.5:
            return self.put(call, "exact", 0, text, cells, word)
        behind = self.junk(self.rng.choice([1, 1, 2, 4, self.rng.randint(1, 80)]))
        return self.put(call, "longer", 0, text, cells + behind, word)

    def afresh(self, k):
        """A page: its summary and a check of it, with each refusal; every second time also a text that is no page."""
        flavour = FLAVOURS[k % len(FLAVOURS)]
        words, num = self.words(k % 65, flavour), self.num()
        text, room = text_of(num, words), 4 * (k % 65 + 1)
        assert reading(text) == words
        answer = self.buffered("summarise", text, self.junk(room))
        self.many["pages", flavour, 0] += 1
        self.put("summarise", "one cell short", 8, text, self.junk(room - 1))
        rows = answer[2][:room]
        self.buffered("check", text, rows)
        self.put("check", "one cell short", 8, text, rows[:-1])
        if k % 8 == 0:
            fewer = self.rng.randrange(room)
            self.put("summarise", "fewer cells", 8, text, self.junk(fewer))
            self.put("check", "fewer cells", 8, text, rows[:fewer])
        if k % 2 == 0:
            self.no_page(num, words or (self.word("any"),))

    def no_page(self, num, words):
        """A text that is no page, with the rows of the page that it was, with none, and with too few."""
        kind = list(MALFORMED)[self.malformed % len(MALFORMED)]
        self.malformed += 1
        text = MALFORMED[kind](self.rng, text_of(num, words), num, words)
        assert reading(text) is None, kind
        self.many["texts", kind, 9] += 1
        rows, word = self.model.summary(words), self.wide(self.word("mixed"))
        roomy = rows + self.junk(4 * MOST + 8 - len(rows))
        short = roomy[:self.rng.choice([0, 1, 3])]
        self.put("summarise", "no page", 9, text, roomy)
        self.put("summarise", "no page and no room", 9, text, short)
        self.put("check", "no page", 9, text, roomy)
        self.put("check", "no page and no room", 9, text, short)
        self.put("add", "no page", 9, text, roomy, word)
        self.put("add", "no page and no room", 9, text, short, word)

    def chain(self, adds):
        """Word by word from the empty page to 64 blocks and past them: the rows that an add leaves are those that the next one takes."""
        rng = self.rng
        flavour = rng.choice(["any", "any", "mixed", "mixed", "mixed", "small", "zero", "high", "low", "odd", "large"])
        num, words, rows, done = self.num(), (), self.model.summary(()), 0
        while len(words) < MOST and done < adds:
            text, word, room = text_of(num, words), self.wide(self.word(flavour)), 4 * (len(words) + 2)
            if rng.random() < 0.1:
                self.put("add", "one cell short", 8, text, rows + self.junk(3), word)
                done += 1
            if rng.random() < 0.1:
                self.put("add", "room of the old rows", 8, text, rows, word)
                done += 1
            after = self.buffered("add", text, rows + self.junk(4), word)[2]
            done += 1
            self.many["chains", "an add to %s" % ("no blocks" if not words else "63 blocks" if len(words) == 63 else "1 to 62 blocks"), 0] += 1
            assert after[4:len(rows)] == rows[4:]
            words += (word % 2**48,)
            longer = text_of(num, words)
            assert reading(longer) == words
            if rng.random() < 0.2:
                self.put("check", "of the longer page, what an add left", 0, longer, after)
            if rng.random() < 0.2:
                # 14, but for a word that leaves the page's row
                number = None if not any(point(word % 2**48)) else 14
                again = after + self.junk(4)
                self.put("check", "of the page of before, what an add left", number, text, after)
                self.put("add", "to the page of before, what an add left", number, text, again, word)
            rows = after[:room]
        if len(words) == MOST:
            full = text_of(num, words)
            for kind, cells in [("full page", rows + self.junk(4)), ("full page", rows + self.junk(rng.randint(5, 40))),
                                ("full page and no room", rows), ("full page and no room", rows[:rng.randrange(len(rows))]),
                                ("full page and no room", ())]:
                self.put("add", kind, 9, full, cells, self.wide(self.word("mixed")))
                done += 1
            self.many["chains", "to 64 blocks and past them", 9] += 1
        return done

    def damage(self, blocks, flavour):
        """Each cell of a page's summary one more and one less."""
        words = self.words(blocks, flavour)
        text, rows, done = text_of(self.num(), words), self.model.summary(words), 0
        for at in range(len(rows)):
            where = "the page's row" if at < 4 else "the last block's row" if at >= len(rows) - 4 else "a block's row"
            for change in (1, -1):
                cells = rows[:at] + (rows[at] + change,) + rows[at + 1:]
                behind, word = self.junk(4 + self.rng.choice([0, 0, 3])), self.wide(self.word("any"))
                self.put("check", "a cell of " + where, 14, text, cells + self.rng.choice([(), behind]))
                if blocks < MOST:
                    self.put("add", "a cell of " + where, 14, text, cells + behind, word)
                    self.put("add", "no room and damaged", 8, text, cells + behind[:3], word)
                else:
                    self.put("add", "full page and damaged", 9, text, cells + behind, word)
                    self.put("add", "full page, no room and damaged", 9, text, cells, word)
                if at < len(rows) - 1:
                    self.put("check", "no room and damaged", 8, text, cells[:-1])
                done += 1
        return done

    def replaced(self, blocks, flavour):
        """A summary that is another one, or is out of order."""
        words = self.words(blocks, flavour)
        text, rows = text_of(self.num(), words), self.model.summary(words)
        at, wild = self.rng.randrange(len(rows)), self.rng.choice([2**31 - 1, -2**31, 2**16, -2**16])
        others = {
            "of another page": self.model.summary(self.words(blocks, "any")),
            "of a page with a block less": self.model.summary(words[:-1]) + (0,) * 4,
            "the page's row last": rows[4:] + rows[:4],
            "the blocks in another order": rows[:4] + tuple(c for k in range(blocks, 0, -1) for c in rows[4 * k:4 * k + 4]),
            "a cell earlier": rows[1:] + (0,),
            "all zeros": (0,) * len(rows),
            "a wild cell": rows[:at] + (wild,) + rows[at + 1:],
            "minus the cells": tuple(-c for c in rows),
        }
        for kind, cells in others.items():
            if cells != rows:
                self.put("check", "another summary: " + kind, 14, text, cells)
                if blocks < MOST:
                    self.put("add", "another summary: " + kind, 14, text, cells + self.junk(4), self.word("mixed"))

    def all(self, adds):
        for k in range(max(1, adds // 10)):
            self.afresh(k)
        done = 0
        while done < adds:
            done += self.chain(adds - done)
        sizes, damaged, k = [0, 1, 2, 3, 64, 5, 8, 63, 13, 30], 0, 0
        while damaged < adds // 4:
            damaged += self.damage(sizes[k % 10], ["any", "mixed", "high", "low", "zero"][k % 5 if k < 40 else 0])
            k += 1
        for k in range(max(1, adds // 100)):
            self.replaced([1, 2, 3, 7, 64, 20][k % 6], "mixed" if k % 4 == 3 else "any")
        return max(1, adds // 10), done, damaged


ACCEPTED = [("summarise", "exact"), ("summarise", "longer"), ("check", "exact"), ("check", "longer"), ("add", "exact"), ("add", "longer"),
            ("check", "of the longer page, what an add left"), ("chains", "an add to no blocks"), ("chains", "an add to 1 to 62 blocks"),
            ("chains", "an add to 63 blocks")]
SHORT = [("summarise", "one cell short"), ("summarise", "fewer cells"), ("check", "one cell short"), ("check", "fewer cells"),
         ("add", "one cell short"), ("add", "room of the old rows"), ("check", "no room and damaged"), ("add", "no room and damaged")]
NO_PAGE = [("summarise", "no page"), ("check", "no page"), ("add", "no page"), ("summarise", "no page and no room"), ("check", "no page and no room"),
           ("add", "no page and no room"), ("add", "full page"), ("add", "full page and no room"), ("add", "full page and damaged"),
           ("add", "full page, no room and damaged"), ("chains", "to 64 blocks and past them")]
OTHERS = ["of another page", "of a page with a block less", "the page's row last", "the blocks in another order", "a cell earlier", "all zeros",
          "a wild cell", "minus the cells"]
DISAGREE = ([(call, "a cell of " + where) for call in ("check", "add") for where in ("the page's row", "a block's row", "the last block's row")]
            + [(call, "another summary: " + other) for call in ("check", "add") for other in OTHERS]
            + [("check", "of the page of before, what an add left"), ("add", "to the page of before, what an add left")])
# what has to occur in a run of 2,000 adds or more
KINDS = ([(*kind, 0) for kind in ACCEPTED] + [(*kind, 8) for kind in SHORT] + [(*kind, 9) for kind in NO_PAGE] + [(*kind, 14) for kind in DISAGREE]
         + [("check", "of the page of before, what an add left", 0), ("add", "to the page of before, what an add left", 0)]
         + [("texts", kind, 9) for kind in MALFORMED]
         + [("pages", flavour, 0) for flavour in FLAVOURS])


def made(adds, seed):
    """The requests; None where a kind did not occur."""
    requests = Requests(seed)
    pages, done, damaged = requests.all(adds)
    sizes = pages, done, damaged, len(requests.listed), seed
    print("%d pages afresh, %d adds word by word, %d damaged summaries; %d requests, seed %d" % sizes)
    calls = collections.Counter((request.call, NAMES[requests.model.answer(request)[0]]) for request in requests.listed)
    for call in ("summarise", "check", "add"):
        print("%-9s %s" % (call, ", ".join("%d %s" % (calls[call, name], name) for name in NAMES.values() if calls[call, name])))
    for (call, kind, number), many in sorted(requests.many.items()):
        print("%8d %s: %s, %s" % (many, call, kind, NAMES[number]))
    unknown = [key for key in requests.many if key not in KINDS]
    assert not unknown, "no such kind: %s" % unknown
    missing = [key for key in KINDS if not requests.many[key]]
    for call, kind, number in missing:
        print("none of %s: %s, %s" % (call, kind, NAMES[number]))
    return None if missing and adds >= 2000 else requests.listed


# ---- wrong models

class LargestFromZero(Model):
    """the largest of a block from 0"""

    def block_row(self, word):
        squares, largest, smallest, odd = super().block_row(word)
        return squares, max(0, largest), smallest, odd


class SmallestFromZero(Model):
    """the smallest of a block from 0"""

    def block_row(self, word):
        squares, largest, smallest, odd = super().block_row(word)
        return squares, largest, min(0, smallest), odd


class LargestOfPageFromZero(Model):
    """the largest of the page from 0"""

    def page_row(self, rows):
        squares, largest, smallest, odd = super().page_row(rows)
        return squares, max(0, largest), smallest, odd


class SmallestOfPageFromZero(Model):
    """the smallest of the page from 0"""

    def page_row(self, rows):
        squares, largest, smallest, odd = super().page_row(rows)
        return squares, largest, min(0, smallest), odd


class FirstJoinsZeros(Model):
    """the first word added is joined with the zeros of the empty page"""

    def grown(self, words, word, cells):
        after = super().grown(words, word, cells)
        return after if words else (after[0], max(0, after[1]), min(0, after[2])) + after[3:]


class LargestMagnitude(Model):
    """the largest magnitude for the largest coordinate"""

    def block_row(self, word):
        squares, largest, smallest, odd = super().block_row(word)
        return squares, max(largest, -smallest), smallest, odd


class Exchanged(Model):
    """the smallest before the largest"""

    def block_row(self, word):
        squares, largest, smallest, odd = super().block_row(word)
        return squares, smallest, largest, odd


class SquaresDoubled(Model):
    """the squares counted twice"""

    def block_row(self, word):
        return (2 * super().block_row(word)[0],) + super().block_row(word)[1:]


class OddIsLast(Model):
    """the page's parity is that of the last block"""

    def page_row(self, rows):
        return super().page_row(rows)[:3] + (rows[-1][3] if rows else 0,)


class OddIsAny(Model):
    """the page's parity says whether there is an odd block"""

    def page_row(self, rows):
        return super().page_row(rows)[:3] + (min(1, super().page_row(rows)[3]),)


class EvenCounted(Model):
    """the page's row counts the blocks with p = 0"""

    def page_row(self, rows):
        return super().page_row(rows)[:3] + (len(rows) - super().page_row(rows)[3],)


class PageRowLast(Model):
    """the page's row last"""

    def summary(self, words):
        rows = super().summary(words)
        return rows[4:] + rows[:4]


class RoomOfOldRows(Model):
    """an add asks for the room of the old rows"""

    def add_reasons(self, words, cells):
        return self.check_reasons(None if words is not None and len(words) >= self.most else words, cells)

    def grown(self, words, word, cells):
        return super().grown(words, word, cells)[:len(cells)]


class OneCellLess(Model):
    """an add asks for one cell less"""

    def add_reasons(self, words, cells):
        yield 9, words is None or len(words) >= self.most
        yield 8, len(cells) < 4 * (len(words) + 2) - 1
        yield 14, not self.agrees(words, cells)

    def grown(self, words, word, cells):
        return super().grown(words, word, cells)[:len(cells)]


class RoomOfAnyPage(Model):
    """a summary asks for the room of any page's"""

    def summarise_reasons(self, words, cells):
        yield 9, words is None
        yield 8, len(cells) < 4 * (MOST + 1)


class AddDisagreesFirst(Model):
    """14 before 8 in an add"""

    def add_reasons(self, words, cells):
        yield 9, words is None or len(words) >= self.most
        yield 14, not self.agrees(words, cells)
        yield 8, len(cells) < 4 * (len(words) + 2)


class CheckDisagreesFirst(Model):
    """14 before 8 in a check"""

    def check_reasons(self, words, cells):
        yield 9, words is None
        yield 14, not self.agrees(words, cells)


class ShortBeforePage(Model):
    """8 before 9 where there are too few cells for any page"""

    def early(self, reasons, words, cells):
        yield 8, len(cells) < 4
        yield from reasons(words, cells)

    def summarise_reasons(self, words, cells):
        return self.early(super().summarise_reasons, words, cells)

    def check_reasons(self, words, cells):
        return self.early(super().check_reasons, words, cells)

    def add_reasons(self, words, cells):
        return self.early(super().add_reasons, words, cells)


class ShortBeforeFull(Model):
    """8 before the 9 of a full page"""

    def add_reasons(self, words, cells):
        yield 9, words is None
        yield 8, len(cells) < 4 * (len(words) + 2)
        yield 9, len(words) >= self.most
        yield 14, not self.agrees(words, cells)


class DisagreesBeforeFull(Model):
    """14 before the 9 of a full page"""

    def add_reasons(self, words, cells):
        yield 9, words is None
        yield 14, len(words) >= self.most and len(cells) >= 4 * (MOST + 2) and not self.agrees(words, cells)
        yield from super().add_reasons(words, cells)


class FullTaken(Model):
    """a page of 64 blocks takes a word more"""

    most = MOST + 1


class FullAt63(Model):
    """a page of 63 blocks is full"""

    most = MOST - 1


class GainIsSign(Model):
    """bit 47 is a sign"""

    def block_row(self, word):
        squares, largest, smallest, odd = super().block_row(word)
        return (squares, -smallest, -largest, odd) if word >> 47 & 1 else (squares, largest, smallest, odd)


class HighBits(Model):
    """the high 48 bits of the word"""

    def grown(self, words, word, cells):
        return super().grown(words, word >> 16, cells)


class AllZero(Model):
    """all rows zero"""

    def summary(self, words):
        return (0,) * (4 * (len(words) + 1))


class PageRowOnly(Model):
    """a check of the page's row only"""

    def check_reasons(self, words, cells):
        yield 9, words is None
        yield 8, len(cells) < 4 * (len(words) + 1)
        yield 14, cells[:4] != self.summary(words)[:4]


class AddPageRowOnly(Model):
    """an add that looks at the page's row only"""

    def add_reasons(self, words, cells):
        yield 9, words is None or len(words) >= self.most
        yield 8, len(cells) < 4 * (len(words) + 2)
        yield 14, cells[:4] != self.summary(words)[:4]


class BlockRowsOnly(Model):
    """a check of the blocks' rows only"""

    def agrees(self, words, cells):
        summary = self.summary(words)
        return cells[4:len(summary)] == summary[4:]


class LastRowNot(Model):
    """the last row is not looked at"""

    def agrees(self, words, cells):
        summary = self.summary(words)
        return cells[:4 * max(1, len(words))] == summary[:4 * max(1, len(words))]


class NeverDisagrees(Model):
    """14 never"""

    def agrees(self, words, cells):
        return True


class WholeSlice(Model):
    """cells behind the summary are a disagreement"""

    def check_reasons(self, words, cells):
        yield from super().check_reasons(words, cells)
        yield 14, len(cells) > 4 * (len(words) + 1)


class BehindWritten(Model):
    """the cell behind the summary is written"""

    def over(self, summary, cells):
        return (summary + (0,) + cells[len(summary) + 1:])[:len(cells)]


class RowEarly(Model):
    """the new row stands one row early"""

    def grown(self, words, word, cells):
        after, at = super().grown(words, word, cells), 4 * len(words)
        return after[:at] + after[at + 4:at + 8] + cells[at + 4:] if words else after


class PageRowStays(Model):
    """an add leaves the page's row"""

    def grown(self, words, word, cells):
        return cells[:4] + super().grown(words, word, cells)[4:]


class OldCount(Model):
    """an add answers the count of before"""

    def add(self, words, word, cells):
        number, count, after = super().add(words, word, cells)
        return number, count - 1 if number == 0 else count, after


class CountOnRefusal(Model):
    """a refusal puts 0 into the count"""

    def refused(self, number, cells):
        return number, 0, cells


class WritesOnRefusal(Model):
    """a refusal writes the page's row"""

    def refused(self, number, cells):
        return number, BEFORE, ((0,) * 4 + cells[4:])[:len(cells)]


WRONG = [LargestFromZero, SmallestFromZero, LargestOfPageFromZero, SmallestOfPageFromZero, FirstJoinsZeros, LargestMagnitude, Exchanged,
         SquaresDoubled, OddIsLast, OddIsAny, EvenCounted, PageRowLast, RoomOfOldRows, OneCellLess, RoomOfAnyPage, AddDisagreesFirst,
         CheckDisagreesFirst, ShortBeforePage, ShortBeforeFull, DisagreesBeforeFull, FullTaken, FullAt63, GainIsSign, HighBits, AllZero, PageRowOnly,
         AddPageRowOnly, BlockRowsOnly, LastRowNot, NeverDisagrees, WholeSlice, BehindWritten, RowEarly, PageRowStays, OldCount, CountOnRefusal,
         WritesOnRefusal]


def wrong(requests):
    """Whether each wrong model is noticed: some request has another answer."""
    right, unnoticed = [RIGHT.answer(request) for request in requests], 0
    for kind in WRONG:
        model = kind()
        differ = sum(model.answer(request) != answer for request, answer in zip(requests, right))
        unnoticed += differ == 0
        by = sorted(set(misses(model)))
        print("%8d differ, %s: %s" % (differ, "examples " + " ".join(by) if by else "no example", kind.__doc__))
    print("%d wrong models, %d not noticed" % (len(WRONG), unnoticed))
    return unnoticed == 0


# ---- the library

def answers(requests):
    """What the library answers, line by line."""
    manifest = os.path.join(ROOT, "bindings", "rust", "Cargo.toml")
    subprocess.run(["cargo", "build", "--offline", "--release", "--example", "summary", "--manifest-path", manifest], check=True)
    target = os.environ.get("CARGO_TARGET_DIR", os.path.join(ROOT, "bindings", "rust", "target"))
    program = os.path.join(target, "release", "examples", "summary")
    for start in range(0, len(requests), PART):
        lines = "".join(request.line() + "\n" for request in requests[start:start + PART])
        yield from subprocess.run([program], input=lines, stdout=subprocess.PIPE, check=True, text=True).stdout.splitlines()


def library(requests):
    got, differ = list(answers(requests)), 0
    for request, line in zip(requests, got):
        wanted = request.said(RIGHT.answer(request))
        if line != wanted:
            differ += 1
            if differ <= 5:
                print("DIFFERS: %s\n  asked    %s\n  answered %s\n  wanted   %s" % (request.kind, request.line(), line, wanted))
    print("%d of %d requests answered, %d differ" % (len(got), len(requests), differ))
    return differ == 0 and len(got) == len(requests)


def printed(words):
    """What sizes prints of a page's words, or of a text that is no page."""
    if words is None:
        return "refused=9\n"
    cells = RIGHT.summary(words)
    lines = ["blocks=%d" % len(words)]
    for at in range(0, len(cells), 4):
        lines += ["block=%d" % (at // 4 - 1)] if at else []
        lines += ["%s=%d" % pair for pair in zip(("sum", "largest", "smallest", "odd"), cells[at:at + 4])]
    return "".join(line + "\n" for line in lines)


def program(requests):
    """Whether the program prints what the model does, for each text that stands in the requests."""
    run = [os.environ["SIZES"]] if "SIZES" in os.environ else ["bash", os.path.join(ROOT, "tools", "run.sh"), "sizes"]
    texts = list(dict.fromkeys(request.text for request in requests if request.call == "summarise"))
    bad = 0
    for text in texts:
        got = subprocess.run(run, input=text, stdout=subprocess.PIPE, check=False).stdout.decode()
        if got != printed(reading(text)):
            bad += 1
            print("sizes of %r: %r" % (text, got))
    pages = sum(reading(text) is not None for text in texts)
    print("%d texts put to sizes, %d of them pages, %d differ" % (len(texts), pages, bad))
    return bad == 0


def main(arguments):
    if arguments in (["-h"], ["--help"]):
        print(__doc__.strip())
        return 0
    how = arguments[0] if arguments[:1] in (["--wrong"], ["--program"]) else ""
    numbers = arguments[1:] if how else arguments
    if len(numbers) > 2 or not all(n.isascii() and n.isdigit() for n in numbers) or (numbers and int(numbers[0]) == 0):
        print(__doc__.strip(), file=sys.stderr)
        return 2
    folder = os.environ.setdefault("YULTARVAS_LIB", os.path.join(ROOT, "target", "native"))
    if not how and not os.path.exists(os.path.join(folder, "libyultarvas.a")):
        print("tests/summary.py: there is no library %s" % os.path.join(folder, "libyultarvas.a"), file=sys.stderr)
        return 2
    missed = misses(RIGHT)
    print("%d examples of the request put to the model, %d differ" % (len(list(examples())), len(missed)))
    if missed:
        print("the model does not give %s" % " ".join(missed))
        return 1
    if how == "--program" and not os.access(os.environ.get("SIZES", os.path.join(ROOT, "crates", "sizes", "out", "sizes")), os.X_OK):
        print("tests/summary.py: there is no program sizes: bash tools/native.sh sizes builds crates/sizes/out/sizes, or SIZES names another", file=sys.stderr)
        return 2
    adds, seed = [int(n) for n in numbers] + [4000 if how else 20000, 1][len(numbers):]
    requests = made(adds, seed)
    if requests is None:
        return 1
    return 0 if {"": library, "--wrong": wrong, "--program": program}[how](requests) else 1


if __name__ == "__main__":
    sys.exit(main(sys.argv[1:]))
