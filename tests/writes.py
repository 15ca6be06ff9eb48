#!/usr/bin/env python3
"""Runs the programs where a write or a read fails. What arrives has to be the beginning of the right answers, and no more.

    tests/writes.py           runs every program that is named below
    tests/writes.py NAME ..   runs these: ask, unpage, mkpage, sizes, rank_runs, float_runs, page_runs, summary_runs
    tests/writes.py --help    prints this

From the environment:
    PROGRAMS  the folder of the programs; where it is not set, each is crates/NAME/out/NAME, run by tools/run.sh
    RUN       the command that runs a program, as an emulator and a loader with its options, where it needs one

The programs get the input of their crate and are held to its stdout; ask also gets 40,000 words, whose points are worked out in pages.py, and
mkpage a trace of 64 blocks, of two kinds whose words are known.
Exit status: 0 all is as it should be; 1 something is not; 2 a wrong argument.
"""
import fcntl
import os
import random
import resource
import signal
import subprocess
import sys
import tempfile
import threading
import time

import pages

ROOT = pages.ROOT
PAGE = 4096  # the least that a pipe can hold
NAMES = ["ask", "unpage", "mkpage", "sizes", "rank_runs", "float_runs", "page_runs", "summary_runs"]
SAYS = ["ask", "unpage", "mkpage", "sizes"]  # those that say on standard error that a read or a write failed
LIMIT = 120  # seconds


def command(name):
    if "PROGRAMS" in os.environ:
        return os.environ.get("RUN", "").split() + [os.path.join(os.environ["PROGRAMS"], name)]
    return ["bash", os.path.join(ROOT, "tools", "run.sh"), name]


def file_of(name, part):
    path = os.path.join(ROOT, "crates", name, part)
    if not os.path.exists(path):
        return b""
    with open(path, "rb") as f:
        return f.read()


def many():
    """40,000 words and their points, of few words in a random order, so that no two stretches of the answers are alike."""
    rng = random.Random(3)
    some = [(f"decode {w:x}\n".encode(), ("point=" + ",".join(map(str, pages.point(w))) + "\n").encode()) for w in pages.words(rng, 300)]
    drawn = [rng.choice(some) for _ in range(40000)]
    return b"".join(r for r, _ in drawn), b"".join(a for _, a in drawn)


def long_trace():
    """A trace of 64 blocks and its page: zeros, and 23 ones with a -2, in a random order."""
    rng = random.Random(4)
    some = [(",".join(["0"] * 24), 0), (",".join(["1"] * 23 + ["-2"]), 0x09B800F00100)]
    drawn = [rng.choice(some) for _ in range(64)]
    trace = "num=128\n" + "".join(f"block={i}\ncounts={counts}\n" for i, (counts, _) in enumerate(drawn))
    return trace.encode(), pages.text_of(128, [word for _, word in drawn])


def ignoring(number, limit=None):
    """What a program does before it starts: ignore a signal, so that the write fails instead; and take a limit on a file's size."""
    def start():
        signal.signal(number, signal.SIG_IGN)
        if limit is not None:
            resource.setrlimit(resource.RLIMIT_FSIZE, (limit, limit))
    return start


def started(name, given, out, before=None):
    """The program with its input in a file."""
    with tempfile.TemporaryFile() as f:
        f.write(given)
        f.seek(0)
        return subprocess.Popen(command(name), stdin=f, stdout=out, stderr=subprocess.PIPE, preexec_fn=before, restore_signals=before is None)


def ended(process):
    """What the program said."""
    try:
        return process.communicate(timeout=LIMIT)[1]
    except subprocess.TimeoutExpired:
        process.kill()
        process.communicate()
        return None


def drained(end):
    """All that comes out of a pipe."""
    parts = []
    while True:
        part = os.read(end, 65536)
        if not part:
            os.close(end)
            return b"".join(parts)
        parts.append(part)


# ---- writes that fail. Each gives what arrived, what the program said, and how many bytes there were to be at least.

def into_room(name, given, room):
    """A pipe that does not block, in which so many bytes have room, and which nobody reads before the program has ended."""
    out, into = os.pipe()
    fcntl.fcntl(into, fcntl.F_SETPIPE_SZ, PAGE)
    os.write(into, b"." * (PAGE - room))
    os.set_blocking(into, False)
    process = started(name, given, into)
    os.close(into)
    said = ended(process)
    return drained(out)[PAGE - room:], said, 0


def into_slower(name, given):
    """A pipe that does not block, and is read more slowly than it is filled."""
    out, into = os.pipe()
    fcntl.fcntl(into, fcntl.F_SETPIPE_SZ, 1 << 16)
    os.set_blocking(into, False)
    process = started(name, given, into)
    os.close(into)
    got = b""
    while True:
        time.sleep(0.02)
        part = os.read(out, PAGE)
        if not part:
            break
        got += part
    os.close(out)
    return got, ended(process), 0


def into_full(name, given):
    """A device that is full."""
    with open("/dev/full", "wb") as f:
        said = ended(started(name, given, f))
    return b"", said, 0


def into_limited(name, given, limit):
    """A file that may not grow beyond so many bytes."""
    with tempfile.NamedTemporaryFile() as f:
        said = ended(started(name, given, f, ignoring(signal.SIGXFSZ, limit)))
        f.seek(0)
        return f.read(), said, limit


def into_closed(name, given, taken, before):
    """A pipe whose reader goes away after so many bytes."""
    out, into = os.pipe()
    process = started(name, given, into, before)
    os.close(into)
    got = b""
    while len(got) < taken:
        part = os.read(out, taken - len(got))
        if not part:
            break
        got += part
    os.close(out)
    return got, ended(process), taken


def into_slow(name, given):
    """A pipe that holds little and is read in small parts: no write fails, most are short."""
    out, into = os.pipe()
    fcntl.fcntl(into, fcntl.F_SETPIPE_SZ, PAGE)
    process = started(name, given, into)
    os.close(into)
    got = b""
    while True:
        part = os.read(out, 999)
        if not part:
            break
        got += part
    os.close(out)
    return got, ended(process), 1 << 40


# ---- reads that fail. Each gives what was written and what the program said.

def from_silent(name, given):
    """A pipe that does not block, has so much in it, and is still open."""
    out, into = os.pipe()
    os.set_blocking(out, False)
    os.write(into, given)
    process = subprocess.Popen(command(name), stdin=out, stdout=subprocess.PIPE, stderr=subprocess.PIPE)
    got, said = process.communicate(timeout=LIMIT)
    os.close(out)
    os.close(into)
    return got, said


def from_folder(name):
    folder = os.open(ROOT, os.O_RDONLY)
    run = subprocess.run(command(name), stdin=folder, stdout=subprocess.PIPE, stderr=subprocess.PIPE, timeout=LIMIT)
    os.close(folder)
    return run.stdout, run.stderr


def from_bytes(name, given):
    """A pipe into which the input comes byte by byte: no read fails."""
    process = subprocess.Popen(command(name), stdin=subprocess.PIPE, stdout=subprocess.PIPE, stderr=subprocess.PIPE, bufsize=0)
    parts = []
    reader = threading.Thread(target=lambda: parts.append(process.stdout.read()))
    reader.start()
    for b in given:
        process.stdin.write(bytes([b]))
    process.stdin.close()
    reader.join(LIMIT)
    said = process.stderr.read()
    process.wait(LIMIT)
    return parts[0], said


# ---- the run

class Tally:
    def __init__(self):
        self.good = self.bad = 0

    def note(self, name, how, right, what):
        if right:
            self.good += 1
        else:
            self.bad += 1
            print(f"{name}, {how}: {what}")


def write_case(tally, name, how, wanted, result, quiet=False):
    """What arrived is a beginning of what is wanted, of at least the length that is told. A program that says so says it where some is missing."""
    got, said, least = result
    if said is None:
        tally.note(name, how, False, f"it did not end in {LIMIT} seconds")
        return
    same = len(os.path.commonprefix([got, wanted]))
    right = same == len(got) and len(got) >= min(least, len(wanted))
    tally.note(name, how, right, f"{len(got)} bytes arrived of {len(wanted)}, and the first {same} are right")
    if name in SAYS and not quiet:
        tally.note(name, how, bool(said) == (len(got) < len(wanted)), f"{len(got)} bytes arrived of {len(wanted)}, and it said {said}")


def writes(tally, name, given, wanted):
    for room in [0, 1, 7, 40, 300, 2000, PAGE]:
        write_case(tally, name, f"room for {room} bytes", wanted, into_room(name, given, room))
    write_case(tally, name, "read more slowly than it is filled", wanted, into_slower(name, given))
    write_case(tally, name, "a full device", wanted, into_full(name, given))
    for limit in [0, 1, 100, 5000, 70000]:
        write_case(tally, name, f"a file of at most {limit} bytes", wanted, into_limited(name, given, limit))
    for taken in [0, 1, 50, 100000]:
        write_case(tally, name, f"closed after {taken} bytes", wanted, into_closed(name, given, taken, None), quiet=True)
        write_case(tally, name, f"closed after {taken} bytes, the signal ignored", wanted,
                   into_closed(name, given, taken, ignoring(signal.SIGPIPE)), quiet=True)
    write_case(tally, name, "read in small parts", wanted, into_slow(name, given))


def reads(tally, names):
    """ask answers whole lines alone where a read fails, unpage, mkpage and sizes nothing; where the input ends they answer what there is."""
    lines, half = b"decode 0\ndecode 1\n", b"decode 1"
    zero, one = (("point=" + ",".join(map(str, pages.point(w))) + "\n").encode() for w in [0, 1])
    page = pages.EXAMPLE
    trace, made = file_of("mkpage", "stdin"), file_of("mkpage", "stdout")
    listed, sized = file_of("sizes", "stdin"), file_of("sizes", "stdout")
    for name, how, run, wanted, fails in [
            ("ask", "whole lines, then a read that fails", lambda: from_silent("ask", lines), zero + one, True),
            ("ask", "half a line, then a read that fails", lambda: from_silent("ask", lines + half), zero + one, True),
            ("ask", "a folder", lambda: from_folder("ask"), b"", True),
            ("ask", "byte by byte, the last line with no LF", lambda: from_bytes("ask", lines + half), zero + one + one, False),
            ("unpage", "a page, then a read that fails", lambda: from_silent("unpage", page), b"", True),
            ("unpage", "half a page, then a read that fails", lambda: from_silent("unpage", page[:40]), b"", True),
            ("unpage", "a folder", lambda: from_folder("unpage"), b"", True),
            ("unpage", "byte by byte", lambda: from_bytes("unpage", page), pages.printed(page), False),
            ("mkpage", "a trace, then a read that fails", lambda: from_silent("mkpage", trace), b"", True),
            ("mkpage", "half a trace, then a read that fails", lambda: from_silent("mkpage", trace[:40]), b"", True),
            ("mkpage", "a trace of no blocks, then a read that fails", lambda: from_silent("mkpage", b"num=1\n"), b"", True),
            ("mkpage", "a folder", lambda: from_folder("mkpage"), b"", True),
            ("mkpage", "byte by byte", lambda: from_bytes("mkpage", trace), made, False),
            ("sizes", "a page, then a read that fails", lambda: from_silent("sizes", listed), b"", True),
            ("sizes", "half a page, then a read that fails", lambda: from_silent("sizes", listed[:40]), b"", True),
            ("sizes", "a folder", lambda: from_folder("sizes"), b"", True),
            ("sizes", "byte by byte", lambda: from_bytes("sizes", listed), sized, False)]:
        if name in names:
            got, said = run()
            tally.note(name, how, got == wanted and bool(said) == fails, f"it wrote {got[:200]} and said {said}")


def main(arguments):
    if arguments == ["--help"]:
        print(__doc__)
        return 0
    for name in arguments:
        if name not in NAMES:
            print(f"writes.py: there is no program {name}\n{__doc__}", file=sys.stderr)
            return 2
    names = arguments or NAMES
    for name in names:
        path = os.path.join(os.environ.get("PROGRAMS", os.path.join(ROOT, "crates", name, "out")), name)
        if not os.access(path, os.X_OK):
            print(f"writes.py: there is no program {path}: bash tools/native.sh {name} builds crates/{name}/out/{name}", file=sys.stderr)
            return 2
    tally = Tally()
    for name in names:
        writes(tally, name, file_of(name, "stdin"), file_of(name, "stdout"))
    if "ask" in names:
        writes(tally, "ask", *many())
    if "mkpage" in names:
        writes(tally, "mkpage", *long_trace())
    reads(tally, names)
    print(f"{tally.good} right, {tally.bad} not")
    return 1 if tally.bad else 0


if __name__ == "__main__":
    sys.exit(main(sys.argv[1:]))
