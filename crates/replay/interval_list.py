#!/usr/bin/env python3
"""Makes data/interval, the list of answers of document 01's "The interval stand-in", with document 02's L2, that the program
`replay` runs.

Every answer is worked out over exact fractions, from the documents' words alone; no operation on doubles takes part but the
conversion of one fraction to its nearest double and the step to a neighbouring double. Run from this folder:

    python3 interval_list.py > data/interval

A case is seven words of eight bytes, little endian: the operation, four words that it takes, the two ends of the answer.
src/intervals.rt says how they are read.
"""
import math
import random
import struct
import sys
from fractions import Fraction

OFFSET = 2**53
SEED = 20261115


def bits(x):
    return struct.unpack("<Q", struct.pack("<d", x))[0]


def double(n):
    return struct.unpack("<d", struct.pack("<Q", n))[0]


def rounded(q):
    """The nearest double of a fraction, ties to even; an overflow is an infinity."""
    try:
        return q.numerator / q.denominator
    except OverflowError:
        return math.inf if q > 0 else -math.inf


def up(x):
    return math.nextafter(x, math.inf)


def down(x):
    return math.nextafter(x, -math.inf)


def outward(candidates):
    return down(min(candidates)), up(max(candidates))


F = Fraction
HALF = F(1, 2)


def end(q, step):
    """Document 02: a sum's or a difference's end, stepped unless the rounded end equals the exact one."""
    x = rounded(q)
    return x if math.isfinite(x) and F(x) == q else step(x)


def add(a, b):
    return end(F(a[0]) + F(b[0]), down), end(F(a[1]) + F(b[1]), up)


def sub(a, b):
    return end(F(a[0]) - F(b[1]), down), end(F(a[1]) - F(b[0]), up)


def mul(a, b):
    return outward([rounded(F(x) * F(y)) for x in a for y in b])


def div(a, b):
    return outward([rounded(F(x) / F(y)) for x in a for y in b])


def mid(a, _):
    m = rounded(F(rounded(F(a[0]) * HALF)) + F(rounded(F(a[1]) * HALF)))
    return m, m


def magnitude(a, _):
    m = max(abs(F(a[0])), abs(F(a[1])))
    return rounded(m), rounded(m)


PAIRS = [
    add,
    sub,
    mul,
    div,
    lambda a, _: (-a[1], -a[0]),
    lambda a, _: mul(a, a),
    mid,
    magnitude,
    lambda a, b: (min(a[0], b[0]), min(a[1], b[1])),
    lambda a, b: (max(a[0], b[0]), max(a[1], b[1])),
    lambda a, _: (min(max(a[0], 0.0), 1.0), min(max(a[1], 0.0), 1.0)),
]

ENDS = [
    0.0, 5e-324, 2.2250738585072014e-308, 1.5e-154, 0.1, 0.49999999999999994, 0.5, 0.8, 1.0, 1.0000000000000002,
    1.5, 3.0, 6.283185307179586, 1024.0, 2.0**40, 2.0**52 + 1, 1.3407807929942597e154, 1.7976931348623157e308,
]
ENDS = sorted(set(ENDS + [-x for x in ENDS]))


def case(op, words, answer):
    words = list(words) + [0] * (4 - len(words))
    sys.stdout.buffer.write(struct.pack("<7Q", op, *words, bits(answer[0]), bits(answer[1])))


def pair(op, a, b):
    if op == 3 and (0.0 in b or b[0] < 0 < b[1]):
        return
    case(op, [bits(v) for v in (*a, *b)], PAIRS[op](a, b))


def some_double(r):
    return math.ldexp(r.choice([-1, 1]) * r.randrange(2**52, 2**53), r.randint(-1126, 900) if r.random() < 0.2 else r.randint(-72, -2))


def interval(r):
    a, b = (r.choice(ENDS) if r.random() < 0.2 else some_double(r) for _ in range(2))
    return (a, b) if a <= b else (b, a)


def short_interval(r, least):
    """Ends of forty digits, within a range so small that about half of the sums of two such ends are exact."""
    a, b = sorted(r.randrange(-(2**40), 2**40) << r.randint(0, 40) for _ in range(2))
    return math.ldexp(a, least), math.ldexp(b, least)


def main():
    r = random.Random(SEED)
    # every operation on random intervals, and on each interval of special ends against another
    for op in range(11):
        for _ in range(40):
            pair(op, interval(r), interval(r))
        for i in range(len(ENDS) - 1):
            j = r.randrange(i, len(ENDS))
            k = r.randrange(len(ENDS))
            pair(op, (ENDS[i], ENDS[j]), (ENDS[k], ENDS[r.randrange(k, len(ENDS))]))
    # the steps: both neighbours of each special double and of random patterns
    for x in ENDS + [-0.0, math.inf, -math.inf, math.nan] + [double(r.getrandbits(64)) for _ in range(60)]:
        case(11, [bits(x), bits(x)], (down(x), up(x)))
    # fractions and their nearest doubles; whole numbers and halves are doubles and are stepped all the same
    for _ in range(60):
        n = r.choice([0, 1, -1, OFFSET, -OFFSET, r.randint(-OFFSET, OFFSET), r.randint(-5000, 5000)])
        d = r.choice([1, 2, 3, 1024, 10240, OFFSET, OFFSET - 1, r.randint(1, OFFSET), r.randint(1, 100000)])
        x = rounded(F(n, d))
        case(12, [n + OFFSET, d], (down(x), up(x)))
        case(13, [n + OFFSET, d], (x, x))
    # floors, quarter numbers and remainders, also below zero and at the limits
    edges = [0.0, 0.25, 0.5, 0.75, 1.0, 0.49999999999999994, 2.0**49 + 0.5, 2.0**50, 2.0**52, 2.0**53]
    for y in [s * e for s in (1, -1) for e in edges] + [r.uniform(-1e6, 1e6) for _ in range(30)]:
        k = float(math.floor(F(y)))
        case(14, [bits(y)], (k, k))
        if abs(y) <= 2.0**50:
            q = float(math.floor(F(rounded(F(rounded(F(y) * 4)) + HALF))))
            case(15, [bits(y)], (q, q))
    for q in list(range(-9, 10)) + [OFFSET, -OFFSET, 1 - OFFSET]:
        case(16, [q + OFFSET], (float(q % 4),) * 2)
    # the coefficients, the tails, two_pi
    for i in range(9):
        for op, n in ((17, 2 * i + 1), (18, 2 * i)):
            x = rounded(F((-1) ** i, math.factorial(n)))
            case(op, [i], (down(x), up(x)))
    case(19, [], tuple(up(rounded(F(4, 5) ** n / math.factorial(n))) for n in (19, 18)))
    case(20, [], (double(0x401921FB54442D18), double(0x401921FB54442D19)))
    # sums and differences that are exact at some ends and rounded at others, and such as overflow
    for op in (0, 1):
        for least in [-1074, -60, 900] * 12:
            pair(op, short_interval(r, least), short_interval(r, least))
        for small in (2.0**969, 2.0**970, 2.0**971, ENDS[-1]):
            pair(op, (ENDS[0], ENDS[-1]), (-small, small))
            pair(op, (ENDS[-1], ENDS[-1]), (small, small))
            pair(op, (ENDS[0], ENDS[0]), (small, small))


main()
