#!/usr/bin/env python3
"""Writes the rows of the program phase_sum_vectors and, from the independent implementation beside this file, what it must print.

    python3 tests/phase_sum_rows.py [--check]

The files go to crates/phase_sum_vectors/stdin and stdout; the gate runs the program on the one and compares with the other. With --check
nothing is written: the files must be those that would be.
"""
import os
import random
import struct
import sys

import reference as ref

PROGRAM = os.path.join(os.path.dirname(os.path.abspath(__file__)), "..", "crates", "phase_sum_vectors")
LOAD, CANONICAL, REPLACE, TAKE_OUT, ODD_MASK, HALVES, PHASE_AT, PARITY, CLEAR, BUILD, APPEND, ODD_BOTH, ONE_SET, TWO_SETS = range(14)
# the variables of a set, and the set of them all; one word has 64, and the set of these is the low word's
VARIABLES = 128
ALL, LOW = 2**128 - 1, 2**64 - 1
# the ends of both words and their neighbours
EDGES = (0, 1, 62, 63, 64, 65, 126, 127)


def words(mask):
    """A set as its words, the low one first."""
    return [mask % 2**64, mask >> 64]


def lowest(mask):
    """The lowest variable of a set; 128 where it has none."""
    return next((v for v in range(VARIABLES) if mask >> v & 1), VARIABLES)


class Rows:
    """Rows, and the lines that they must give. The terms stand here as a list, in the order of the workspaces."""

    def __init__(self):
        self.rows = []
        self.lines = []
        self.constant = 0
        self.terms = []
        self.wires = [[0, 0] for _ in range(16)]

    def row(self, function, variable=0, flipped=0, constant=0, count=0, mask=0, body=b""):
        self.rows.append(struct.pack("<BBBBHQQ", function, variable, flipped, constant, count, *words(mask)) + body)

    def shown(self, *numbers):
        """The row's line, and the wires' line."""
        terms, wires = ([x for mask, y in pairs for x in (*words(mask), y)] for pairs in (self.terms, self.wires))
        for line in ([*numbers, self.constant, *terms], wires):
            self.lines.append("".join(f"{x} " for x in line))

    def as_sum(self):
        """The phase as a sum of the independent implementation, which merges."""
        s = ref.Sum(16)
        s.wires = [list(w) for w in self.wires]
        s.constant = self.constant % 8
        for mask, c in self.terms:
            s.put(c, mask, 0)
        return s

    def taken_from(self, s):
        self.constant = s.constant
        self.terms = sorted(s.terms.items())
        self.wires = [list(w) for w in s.wires] + [[0, 0]] * (16 - len(s.wires))

    def load(self, constant, terms):
        self.constant, self.terms = constant, list(terms)
        body = b"".join(struct.pack("<QQB", *words(mask), c) for mask, c in terms)
        self.row(LOAD, constant=constant, count=len(terms), body=body)
        self.shown()

    def canonical(self):
        constant = self.constant
        self.taken_from(self.as_sum())
        self.constant = constant
        self.row(CANONICAL)
        self.shown()

    def replace(self, z, mask, flipped):
        s = self.as_sum()
        s.live = [z]
        s.replace(z, mask, flipped)
        self.taken_from(s)
        self.row(REPLACE, variable=z, flipped=flipped, mask=mask)
        self.shown()

    def take_out(self, y):
        s = self.as_sum()
        s.take_out(y)
        self.taken_from(s)
        self.row(TAKE_OUT, variable=y)
        self.shown()

    def ask(self, v, x):
        """The mask of odd terms, C and L of v, the phase at the low word of x, and the parity of x and the variable at v's place in the low word."""
        held = [(m, c) for m, c in self.terms if m >> v & 1]
        odd_mask = 0
        for m, c in self.terms:
            if c % 2:
                odd_mask |= m
        linear = 0
        for m, c in held:
            if c // 2 % 2:
                linear ^= m ^ 1 << v
        self.row(ODD_MASK)
        self.shown(*words(odd_mask))
        self.row(HALVES, variable=v)
        self.shown(sum(c for _, c in held) // 2 % 4, *words(linear))
        self.phase_at(x & LOW)
        self.parity(v % 64, x)

    def phase_at(self, x):
        self.row(PHASE_AT, mask=x)
        self.shown((self.constant + sum(c for m, c in self.terms if ref.odd(m & x))) % 8)

    def parity(self, v, x):
        self.row(PARITY, variable=v, mask=x)
        self.shown(x >> v & 1)

    def odd_both(self, v, w):
        """The exclusive or of the odd terms that hold v and w."""
        both = 0
        for m, c in self.terms:
            if c % 2 and m >> v & 1 and m >> w & 1:
                both ^= m
        self.row(ODD_BOTH, variable=v, constant=w)
        self.shown(*words(both))

    def one_set(self, a, v, w):
        """A set alone: is it empty, its variables, the lowest; with v, and with v and w: does it hold them? Without v, v alone, and what is below v's place
        in its word."""
        held, both = a >> v & 1, a >> v & a >> w & 1
        self.row(ONE_SET, variable=v, constant=w, mask=a)
        self.shown(int(a == 0), bin(a).count("1"), lowest(a), held, both, *words(a & ~(1 << v)), *words(1 << v), *words(a % 2 ** (v % 64)))

    def two_sets(self, a):
        """A set with that of the first term: are they the same, is it at most the other, what is in one alone, in either, and the lowest of its variables
        that is in the other, and that is not."""
        b = self.terms[0][0] if self.terms else 0
        self.row(TWO_SETS, mask=a)
        self.shown(int(a == b), int(a <= b), *words(a ^ b), *words(a | b), lowest(a & b), lowest(a & ~b))

    def append(self, mask, c):
        self.terms.append((mask, c))
        self.row(APPEND, constant=c, mask=mask)
        self.shown()

    def clear(self):
        self.constant, self.terms = 0, []
        self.row(CLEAR)
        self.shown()

    def build(self, n, first, second):
        records = ref.record(n, first) + ref.record(n, second)
        s = ref.built(n, first, second)
        self.taken_from(s)
        self.row(BUILD, count=len(records), body=records)
        self.shown(n + len(s.live))


def random_terms(rng, count, variables, most=7):
    return [(rng.getrandbits(variables), rng.randint(0, most)) for _ in range(count)]


def random_gates(rng, n, count, hadamards):
    gates = []
    for _ in range(count):
        kind = rng.choice([k for k in range(11) if n > 1 or k <= ref.H])
        if kind == ref.H:
            if not hadamards:
                continue
            hadamards -= 1
        a = rng.randrange(n)
        b = 255 if kind <= ref.H else rng.choice([q for q in range(n) if q != a])
        gates.append((kind, a, b))
    return gates


def whole_words(rows):
    """Each variable of the low word against the set of all and that of the others; then phases at words of one to 64 ones, each of three parities."""
    for v in range(64):
        rows.parity(v, ALL)
        rows.parity(v, ALL ^ 1 << v)
        rows.parity(v, ALL ^ LOW)
    rows.load(0, [(ALL, 1), (LOW // 255 * 15, 2), (ALL // 3, 4), (ALL ^ LOW, 1)])
    for size in (1, 2, 7, 8, 9, 15, 16, 17, 31, 32, 33, 63, 64):
        ones = (1 << size) - 1
        rows.phase_at(ones)
        rows.phase_at(ones << 64 - size)
    for v in range(64):
        rows.phase_at(LOW ^ 1 << v)
    for place in range(0, 64, 8):
        for byte in (1, 128, 127, 254, 255):
            rows.phase_at(byte << place)


def odd_pairs(rows, rng):
    """Pairs of variables: both in odd terms, one, none, one variable twice, at the ends and in the middle of each word, and one in each word."""
    rows.load(0, [(ALL, 1), (1 | 1 << 63, 7), (3 << 62, 3), (3 << 63, 5), (3 << 31, 5), (1 << 127 | 1 << 63, 1), (ALL ^ 1, 2), (7, 4), (3 << 126, 6)])
    for v, w in ((0, 63), (63, 0), (62, 63), (31, 32), (0, 1), (5, 5), (40, 41), (63, 64), (64, 63), (63, 127), (127, 64), (126, 127), (127, 127)):
        rows.odd_both(v, w)
    rows.load(0, [(1 << 63 | 1 << 20 | 1, 1), (3, 2), (1 << 63 | 1 << 20 | 4, 7), (1 << 20 | 2, 6), (1 << 127 | 1 << 64 | 1 << 20, 3)])
    for v, w in ((0, 63), (20, 63), (63, 20), (1, 20), (20, 1), (0, 2), (1, 3), (62, 61), (20, 127), (127, 20), (64, 127), (0, 64), (63, 127)):
        rows.odd_both(v, w)
    rows.load(0, random_terms(rng, 60, 5, 255))
    for v in range(6):
        for w in range(v):
            rows.odd_both(v, w)


def set_operations(rows, rng):
    """Every operation on sets: none, all, each word alone, single variables at the ends of the words, and any."""
    some = [0, ALL, LOW, ALL ^ LOW, *(1 << v for v in EDGES), *(ALL ^ 1 << v for v in (63, 64, 127)), *(rng.getrandbits(VARIABLES) for _ in range(3))]
    for a in some:
        for v in (0, 63, 64, 127, rng.randrange(VARIABLES)):
            rows.one_set(a, v, rng.choice((0, 63, 64, 127)))
    low, high = rng.getrandbits(64), rng.getrandbits(64) << 64
    for b in (0, ALL, low, high, low + high, 1 << 63, 1 << 64, 1 << 127):
        rows.load(0, [(b, 1)])
        for a in (0, ALL, b, low, high, low + high, low + 1 + high, low + high + (1 << 64), b ^ 1 << 63, b ^ 1 << 64, b ^ 1 << 127):
            rows.two_sets(a)
    rows.load(0, [])
    rows.two_sets(low)


def orders(rng, count):
    """Sets that differ in one word alone, or in both, in rising, falling and any order; some of them twice."""
    lows, highs = (sorted(rng.getrandbits(64) for _ in range(count)) for _ in range(2))
    yield [lows[0] + (high << 64) for high in reversed(highs)]
    yield [low + (highs[0] << 64) for low in reversed(lows)]
    yield [low + (high << 64) for low, high in zip(lows, reversed(highs))]
    yield [low + (high << 64) for low, high in zip(reversed(lows), highs)]
    yield [rng.choice(lows[:3]) + (rng.choice(highs) << 64) for _ in lows]
    yield [rng.choice(lows) + (rng.choice(highs[:3]) << 64) for _ in lows]
    yield [rng.choice(lows[:3]) + (rng.choice(highs[:4]) << 64) for _ in lows]
    yield [rng.choice((high << 64, low, 0)) for low, high in zip(lows, highs)]


def canonical_forms(rows, rng):
    """Terms with the same sets and coefficients of any size, few and many, over one word and both, in every order."""
    for count, variables in ((0, 4), (1, 1), (2, 1), (13, 3), (40, 4), (40, 64), (40, 128), (200, 6), (300, 64), (300, 128)):
        rows.load(rng.randint(0, 7), random_terms(rng, count, variables))
        rows.canonical()
        rows.canonical()
    rows.load(3, random_terms(rng, 30, 5, 255))
    rows.canonical()
    for count in (3, 25, 60):
        for sets in orders(rng, count):
            rows.load(0, [(mask, rng.randint(0, 7)) for mask in sets])
            rows.canonical()


def steps(rows, rng):
    """Terms asked for, a variable replaced and taken out, and a term more: on any variables, and at the ends of both words."""

    def step(v, variables):
        rows.ask(v, rng.getrandbits(variables))
        rows.replace(v, rng.getrandbits(variables) & ~(1 << v), rng.randint(0, 1))

    for variables in (3, 6, 20, 64, 128):
        rows.load(rng.randint(0, 7), random_terms(rng, 25, variables))
        for _ in range(4):
            step(rng.randrange(variables), variables)
            v = rng.randrange(variables)
            rows.ask(v, rng.getrandbits(64))
            rows.take_out(v)
            rows.append(rng.getrandbits(variables), rng.randint(1, 7))
    for v in EDGES:
        near = [w for w in EDGES if w != v]
        rows.load(rng.randint(0, 7), [(rng.getrandbits(128) | (1 << v) * (i % 2), rng.randint(1, 7)) for i in range(12)])
        step(v, VARIABLES)
        rows.append(1 << v, rng.randint(1, 7))
        rows.append(1 << v | 1 << rng.choice(near), rng.randint(1, 7))
        rows.replace(v, 1 << rng.choice(near), rng.randint(0, 1))
        rows.append(ALL, rng.randint(1, 7))
        rows.take_out(v)


def chains(rows, rng):
    """Pairs with the most variables that there may be, or with one or two words of them, and a wire's variable replaced."""
    for n, h in ((1, 62), (1, 63), (1, 64), (1, 127), (2, 126), (3, 125)):
        first, last = [(ref.H, 0, 255)] * h, n + h - 1
        rows.build(n, first[: h // 2] + [(ref.T, 0, 255)], ref.inverted(first[h // 2 :]))
        rows.replace(last, 1, rng.randint(0, 1))
    gates = [(ref.H, q % 16, 255) for q in range(112)] + [(ref.CX, 15, q) for q in range(15)] + [(ref.CZ, q, q + 1) for q in range(15)]
    rows.build(16, gates, [])
    for v in (63, 64, 127):
        rows.replace(v, 1 << rng.randrange(16) | 1 << rng.choice([w for w in (20, 63, 64, 100, 127) if w != v]), rng.randint(0, 1))


def put(name, content, check):
    """A file of the program, written or checked."""
    path = os.path.join(PROGRAM, name)
    if not check:
        with open(path, "wb") as out:
            out.write(content)
        return
    with open(path, "rb") as file:
        if file.read() != content:
            sys.exit(f"crates/phase_sum_vectors/{name} is not what tests/phase_sum_rows.py makes: run it")


def main():
    if sys.argv[1:] not in ([], ["--check"]):
        sys.exit("usage: phase_sum_rows.py [--check]")
    rng = random.Random(5)
    rows = Rows()
    whole_words(rows)
    odd_pairs(rows, random.Random(6))
    set_operations(rows, random.Random(7))
    canonical_forms(rows, rng)
    steps(rows, rng)
    chains(rows, rng)
    for n in (1, 2, 3, 5, 16):
        for _ in range(4):
            count = rng.randint(0, 30)
            rows.build(n, random_gates(rng, n, count, 20), random_gates(rng, n, count, 20))
            rows.replace(n - 1, rng.getrandbits(n) & ~(1 << n - 1), rng.randint(0, 1))
    for kind in range(11):
        for a, b in ((0, 1), (1, 0), (2, 1)):
            gate = (kind, a, 255 if kind <= ref.H else b)
            rows.build(3, [(ref.H, 1, 255), (ref.X, 0, 255), gate], [])
            rows.build(3, [(ref.X, 1, 255)], [gate, (ref.H, 0, 255)])
    rows.clear()
    data = b"".join(rows.rows)
    if len(data) >= 65536:
        sys.exit(f"{len(data)} bytes of rows are too many")
    put("stdin", data, "--check" in sys.argv)
    put("stdout", "".join(line + "\n" for line in rows.lines).encode(), "--check" in sys.argv)
    print(len(rows.rows), "rows,", len(data), "bytes")


if __name__ == "__main__":
    main()
