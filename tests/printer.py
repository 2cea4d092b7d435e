#!/usr/bin/env python3
"""printer.py PROGRAM WRITER: runs the printing program on sheets of every kind and compares each byte with what this script works out for itself: L
and H from data/table1.txt as exact fractions, procedure A as a fraction, procedure B in 40 decimal digits. Some sheets are made by the writer, which is
tests/c/write.c, and compared too. Prints what differs, and one line."""
import decimal
import functools
import os
import random
import struct
import subprocess
import sys
import time
from fractions import Fraction

HEADER, RESULT = 16, 16  # sizes in bytes
PROGRAM, WRITER = sys.argv[1:]
TABLE = os.path.join(os.path.dirname(os.path.abspath(__file__)), "..", "data", "table1.txt")
WAIT = 20  # seconds: a program that takes longer hangs
decimal.getcontext().prec = 40

checks, failures = 0, 0


def check(good, what):
    global checks, failures
    checks += 1
    if not good:
        failures += 1
        print("printer:", what)


# ---- what document 01 says of a pair


def read_table():
    rows = []
    for line in open(TABLE, encoding="utf-8"):
        if not line.startswith("#") and line.strip():
            y, l, h = line.split()
            rows.append((Fraction(y), Fraction(l), Fraction(h)))
    return rows


ROWS = read_table()


def reference(y):
    """L and H in mm²/s at y mm²/s: the straight line between rows, the quadratics above 70."""
    if y > 70:
        return Fraction("0.8353") * y * y + Fraction("14.67") * y - 216, Fraction("0.1684") * y * y + Fraction("11.85") * y - 97
    below = max(i for i, row in enumerate(ROWS) if row[0] <= y)
    y0, l0, h0 = ROWS[below]
    if y0 == y:
        return l0, h0
    y1, l1, h1 = ROWS[below + 1]
    part = (y - y0) / (y1 - y0)
    return l0 + part * (l1 - l0), h0 + part * (h1 - h0)


def refusal(u, y):
    for number, good in ((1, y >= 2000), (2, y <= 500000), (3, u <= 1000000000), (4, u > y)):
        if not good:
            return number
    return 0


def dec(x):
    return decimal.Decimal(x.numerator) / decimal.Decimal(x.denominator)


def outcomes(u, y):
    """The outcomes that are right for a pair, by document 01 and change request #106: one, but two or three where an index by B lies within 0.01 of a half."""
    number = refusal(u, y)
    if number:
        return {"refused %d" % number}
    U, Y = Fraction(u, 1000), Fraction(y, 1000)
    L, H = reference(Y)
    if U >= H:
        return {"A %d" % round(100 * (L - U) / (L - H))}  # of a Fraction, exactly a half to the even number
    N = dec(H / U).ln() / dec(Y).ln()
    index = (10**N - 1) / decimal.Decimal("0.00715") + 100
    half, hundredth = decimal.Decimal("0.5"), decimal.Decimal("0.01")
    allowed = set()
    for k in range(int(index) - 1, int(index) + 3):
        if k - half <= index <= k + half:
            allowed.add("B %d" % k)
        if k - half - hundredth <= index <= k - half + hundredth:
            allowed.add("B~ %d" % k)
    return allowed


def thousandths(x):
    return "%d.%03d" % divmod(x, 1000)


@functools.cache
def right_lines(u, y):
    return {"%s %s %s\n" % (thousandths(u), thousandths(y), outcome) for outcome in outcomes(u, y)}


def lines(oils):
    """The lines of a sheet, each as the set of the lines that are right."""
    yield {"pairs %d\n" % len(oils)}
    for u, y in oils:
        yield right_lines(u, y)


# ---- sheets


def row(oils):
    return b"".join(struct.pack("<II", u, y) for u, y in oils)


def sheet(oils, results_first=False, gap=0, total=None, old=b"\xa5"):
    """A sheet of pairs, `gap` bytes between its blocks and, where a total is wanted, bytes after them; its result block holds old bytes."""
    pairs = row(oils)
    results = old * (RESULT * len(oils))
    first, second = (results, pairs) if results_first else (pairs, results)
    at = HEADER + len(first) + gap
    offsets = (at, HEADER) if results_first else (HEADER, at)
    body = first + b"\x5a" * gap + second
    body += b"\x33" * ((total or 0) - HEADER - len(body))
    return header(len(oils), *offsets, HEADER + len(body)) + body


def header(n, pairs, results, total):
    return struct.pack("<IIII", n, pairs, results, total)


# ---- the program


def run(data, program=PROGRAM):
    done = subprocess.run([program], input=data, capture_output=True, timeout=WAIT)
    check(done.returncode == 0 and done.stderr == b"", "exit status %d, on standard error: %r" % (done.returncode, done.stderr[:80]))
    return done.stdout


def printed(what, data, oils):
    """The sheet is accepted, and its text is right byte for byte."""
    compare(what, run(data), oils)


def compare(what, out, oils):
    got = out.decode("ascii").splitlines(keepends=True)
    wanted = list(lines(oils))
    check(len(got) == len(wanted), "%s: %d lines, not %d" % (what, len(got), len(wanted)))
    wrong = [(g, w) for g, w in zip(got, wanted) if g not in w]
    check(not wrong, "%s: %d lines are wrong, first %r, not %r" % ((what, len(wrong)) + wrong[0] if wrong else (what, 0, "", "")))


def refused(what, data, number):
    out = run(data)
    check(out == b"sheet refused %d\n" % number, "%s: %r, not refused %d" % (what, out[:80], number))


# ---- the tests

THREE = [(73300, 8860), (22830, 5050), (20000, 1999)]
NEAR = [(198274, 48398, 298), (69133, 49390, 598)]


def test_document():
    text = b"pairs 3\n73.300 8.860 A 92\n22.830 5.050 B 156\n20.000 1.999 refused 1\n"
    check(run(sheet(THREE)) == text, "the three pairs of document 01")
    printed("the three pairs of document 01", sheet(THREE), THREE)


def test_refused_sheets():
    refused("no input", b"", 11)
    for n in (1, 15):
        refused("%d bytes" % n, bytes(n), 11)
    printed("16 bytes", header(0, 16, 16, 16), [])
    refused("total one less", header(0, 16, 16, 15), 12)
    refused("a byte too many", sheet(THREE) + b"\0", 12)
    refused("a byte too few", sheet(THREE)[:-1], 12)
    refused("2,001 pairs", sheet([(1, 1)] * 2001), 13)
    refused("n the greatest", header(0xFFFFFFFF, 16, 16, 16), 13)
    refused("pairs within the header", header(0, 15, 16, 16), 14)
    refused("pairs past the end", header(0, 17, 16, 16), 14)
    refused("a pair past the end", header(1, 33, 16, 40) + bytes(24), 14)
    refused("results past the end", header(0, 16, 17, 16), 15)
    refused("a result past the end", header(1, 16, 25, 40) + bytes(24), 15)
    refused("an offset that would wrap", header(1, 16, 0xFFFFFFF8, 40) + bytes(24), 15)
    refused("one block over the other", header(1, 16, 23, 40) + bytes(24), 16)
    refused("the blocks at one offset", header(1, 16, 16, 40) + bytes(24), 16)


def test_sizes():
    whole = sheet(THREE, total=65536)
    printed("65,536 bytes", whole, THREE)
    refused("65,537 bytes", sheet(THREE, total=65537), 12)
    refused("65,536 bytes that are no sheet", bytes(65536), 12)
    refused("a million bytes", sheet(THREE, total=1000000), 12)
    widest = [(4294967295, 4294967295)] * 2000
    out = run(sheet(widest))
    check(out == b"pairs 2000\n" + b"4294967.295 4294967.295 refused 2\n" * 2000, "2,000 pairs of greatest width")
    printed("2,000 pairs of the least index", sheet([(1000000000, 2000)] * 2000), [(1000000000, 2000)] * 2000)


def test_pairs():
    for results_first in (False, True):
        for gap in (0, 1, 1000):
            oils = THREE + [(7986, 2000), (7970, 2000), (8018, 2000), (8034, 2000), (8019, 2000), (500000, 14000), (0, 0), (2001, 2000), (2000, 2000), (1000000001, 2000)]
            printed("blocks apart by %d" % gap, sheet(oils, results_first, gap), oils)
    for u, y, k in NEAR:
        out = run(sheet([(u, y)]))
        check(out == b"pairs 1\n%s %s B~ %d\n" % (thousandths(u).encode(), thousandths(y).encode(), k), "a near mark: %r" % out)
        printed("a near mark", sheet([(u, y)]), [(u, y)])
    random.seed(20)
    for turn in range(6):
        oils = [draw() for _ in range(2000)]
        printed("random sheet %d" % turn, sheet(oils, turn % 2 == 1), oils)


def draw():
    """A pair: an oil of any index, one near the limits, or any numbers."""
    kind = random.random()
    if kind < 0.8:
        y = int(2000 * 250 ** random.random())
        return random.randint(y + 1, 60 * y), y
    if kind < 0.9:
        return random.choice([0, 1999, 2000, 2001, 999999999, 1000000000, 1000000001]), random.choice([1999, 2000, 2001, 70000, 70001, 499999, 500000, 500001])
    return random.getrandbits(32), random.getrandbits(random.choice([12, 19, 32]))


def test_written_sheets():
    """Change request #108: rows of every even length up to 4,000, written by vi_write_sheet, are the sheets that this script makes, and are printed."""
    random.seed(108)
    known = [draw() for _ in range(2000)] + [(u, y) for u, y, _ in NEAR]
    for n in range(2001):
        oils = random.choices(known, k=n)
        written = run(row(oils), WRITER)
        check(written == sheet(oils, old=b"\0"), "a written sheet of %d pairs has other bytes" % n)
        printed("a written sheet of %d pairs" % n, written, oils)


def test_pieces():
    oils = [draw() for _ in range(300)]
    data = sheet(oils, total=20000)
    for size, pause in ((1, 0), (7, 0), (4096, 0.005), (6000, 0.005)):
        program = subprocess.Popen([PROGRAM], stdin=subprocess.PIPE, stdout=subprocess.PIPE)
        for at in range(0, len(data), size):
            program.stdin.write(data[at : at + size])
            program.stdin.flush()
            time.sleep(pause)
        out, _ = program.communicate(timeout=WAIT)
        compare("pieces of %d bytes" % size, out, oils)


def test_closed_output():
    read_end, write_end = os.pipe()
    os.close(read_end)
    program = subprocess.Popen([PROGRAM], stdin=subprocess.PIPE, stdout=write_end, stderr=subprocess.DEVNULL)
    os.close(write_end)
    program.communicate(sheet([(4294967295, 4294967295)] * 2000), timeout=WAIT)
    check(True, "output to a closed pipe ends")
    program = subprocess.Popen([PROGRAM], stdin=subprocess.PIPE, stdout=subprocess.PIPE, stderr=subprocess.DEVNULL)
    program.stdin.write(sheet([(4294967295, 4294967295)] * 2000))
    program.stdin.close()
    first = program.stdout.read(8)
    program.stdout.close()
    program.wait(timeout=WAIT)
    check(first == b"pairs 20", "output that is closed after eight bytes: %r" % first)


for test in (test_document, test_refused_sheets, test_sizes, test_pairs, test_written_sheets, test_pieces, test_closed_output):
    try:
        test()
    except subprocess.TimeoutExpired:
        check(False, "%s: the program did not end" % test.__name__)
print("printer: %s, %d checks" % ("FAILED, %d of them" % failures if failures else "ok", checks))
sys.exit(1 if failures else 0)
