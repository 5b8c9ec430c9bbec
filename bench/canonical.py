#!/usr/bin/env python3
"""Instructions for the canonical form of terms: the engine's and, in Rust, the standard library's sort and dedup.

    tools/build phase_sum_vectors && python3 bench/canonical.py [PROGRAM]

Counted by valgrind's callgrind: a run that makes the canonical form, less a run on the same input that does not. PROGRAM is another
build of the program, to compare with.
"""
import os
import random
import re
import struct
import subprocess
import sys
import tempfile

ROOT = os.path.join(os.path.dirname(os.path.abspath(__file__)), "..")
ENGINE = os.path.join(ROOT, "target", "bin", "phase_sum_vectors")
LOAD, CANONICAL, NOTHING = 0, 1, 255
QUIET = 2
SIZES = (3000, 3200)
# the sets of one word are below this number, and those of two below its square
TOP = 1 << 64
# as in the engine: how many levels of splits, and how far apart the samples stand
LEVELS, TENTHS = 16, 10


def bytes_of(terms):
    """Terms as the rows and the Rust program have them: the low word, the high word, the coefficient."""
    return b"".join(struct.pack("<QQB", s % TOP, s // TOP, c) for s, c in terms)


def row(function, terms=()):
    return struct.pack("<BBBBHQQ", function, 0, QUIET, 0, len(terms), 0, 0) + bytes_of(terms)


def instructions(command, data):
    run = subprocess.run(
        ["valgrind", "--tool=callgrind", "--callgrind-out-file=/dev/null", *command],
        input=data,
        capture_output=True,
        check=True,
    )
    return int(re.search(rb"Collected : (\d+)", run.stderr).group(1))


def engine(program, terms):
    load = row(LOAD, terms)
    return instructions([program], load + row(CANONICAL)) - instructions([program], load + row(NOTHING))


def standard(binary, terms):
    body = bytes_of(terms)
    return instructions([binary], b"\1" + body) - instructions([binary], b"\0" + body)


def killer(m):
    """An order that is bad for a median of first, middle and last: each of them among the smallest that are left."""
    values = [0] * m
    places = list(range(m))
    value = 1
    while len(places) > 3:
        for place in (places[0], places[len(places) // 2], places[-1]):
            values[place] = value
            value += 1
        places = [p for p in places if not values[p]]
    for place in places:
        values[place] = value
        value += 1
    return values


def against(rng, m):
    """Sets that waste every split of the engine's sort, so that all but a few terms are left to the heap: the samples that decide the
    pivot are the smallest sets that are left, and all others lie in the upper half of the range that is left."""
    sets = [0] * m
    places = list(range(m))
    for level in range(LEVELS, 0, -1):
        small = []
        if level % 2 == 0:
            step = len(places) // TENTHS
            small = [places[k * step] for k in (1, 2, 4, 5)]
            for n, place in enumerate(small):
                sets[place] = TOP - (TOP >> LEVELS - level + 1) + n
        low = 0
        for i in range(len(places)):
            places[i], places[low] = places[low], places[i]
            low += places[low] in small
        places = places[low:]
    for place, rank in zip(places, rng.sample(range(len(places)), len(places))):
        sets[place] = TOP - len(places) + rank
    return sets


def replaced(rng, m, y):
    """Sets over 40 variables in order, of which those with variable y have a parity in its place."""
    sets = set()
    while len(sets) < m:
        sets.add(rng.getrandbits(40) | 1)
    parity = rng.getrandbits(40) | 1 << y
    return [s ^ parity if s >> y & 1 else s for s in sorted(sets)]


def families(rng, m):
    """Named lists of m sets: of one word, and of two."""
    for name, sets in one_word_families(rng, m):
        yield name, [s % TOP for s in sets]
    yield "random, 128 variables", [rng.getrandbits(128) for _ in range(m)]
    yield "equal low words", [rng.getrandbits(64) * TOP + 12345678901 for _ in range(m)]
    yield "against this sort, high words", [s * TOP for s in against(rng, m)]


def one_word_families(rng, m):
    """Named lists of m sets within 64 variables, as numbers whose low word counts."""
    step = TOP // (m + 1)
    yield "random", [rng.getrandbits(64) for _ in range(m)]
    yield "random, 40 variables", [rng.getrandbits(40) for _ in range(m)]
    yield "rising", [(i + 1) * step for i in range(m)]
    yield "falling", [(m - i) * step for i in range(m)]
    yield "dense", [i + 1 for i in range(m)]
    yield "organ pipe", [min(i, m - i) + 1 for i in range(m)]
    yield "all the same", [12345678901] * m
    yield "seven values", [(rng.randrange(7) + 1) * 0x123456789ABCD for _ in range(m)]
    yield "single variables", [1 << rng.randrange(64) for _ in range(m)]
    yield "pairs of variables", [1 << rng.randrange(64) | 1 << rng.randrange(64) for _ in range(m)]
    yield "halving ranges", [rng.getrandbits(64) >> i % 64 | 1 for i in range(m)]
    yield "halving, in order", sorted(rng.getrandbits(64) >> i % 64 | 1 for i in range(m))
    yield "against the median", killer(m)
    yield "against the median, halving", [TOP - (TOP >> (v * 64 // m)) + v for v in killer(m)]
    yield "two values by turns", [5 << 60 if i % 2 else 3 for i in range(m)]
    yield "two values", [5 << 60 if rng.randrange(2) else 3 for _ in range(m)]
    for y in (5, 20, 38):
        yield f"variable {y} replaced", replaced(rng, m, y)
    yield "against this sort", against(rng, m)


def ranks(keys):
    """How many keys are smaller, or equal and further to the front."""
    found = [0] * len(keys)
    for rank, place in enumerate(sorted(range(len(keys)), key=lambda i: (keys[i], i))):
        found[place] = rank
    return found


def orders(rng, m):
    """Named orders of the ranks from 0 to m - 1."""
    yield "random", rng.sample(range(m), m)
    yield "falling", list(range(m - 1, -1, -1))
    yield "valley", ranks([abs(2 * i - m) for i in range(m)])
    yield "organ pipe", ranks([-abs(2 * i - m) for i in range(m)])
    for teeth in (2, 3, 5, 8, 10, 50, 56):
        tooth = -(-m // teeth)
        yield f"sawtooth, {teeth}", ranks([i % tooth for i in range(m)])
        yield f"falling sawtooth, {teeth}", ranks([-(i % tooth) for i in range(m)])
    for some in (16, m // 4):
        late = set(rng.sample(range(m), some))
        yield f"{some} appended", [r for r in range(m) if r not in late] + rng.sample(sorted(late), some)


def spreads(rng, m):
    """Named ways from ranks to sets."""
    wide = sorted(rng.getrandbits(64) for _ in range(m))
    yield "distinct", lambda r: wide[r]
    yield "40 sets", lambda r: wide[r * 40 // m]
    yield "each twice", lambda r: wide[r // 2]
    yield "at the top", lambda r: TOP - m + r
    yield "doubling", lambda r: (1 << r * 64 // m) + r
    yield "halving", lambda r: TOP - (TOP >> r * 64 // m) + r


def with_coefficients(rng, sets):
    return [(s, rng.randint(1, 7)) for s in sets]


def named(program, binary):
    """Both programs on the named families."""
    print("terms  sets                             engine   standard  ratio  to its random case")
    for m in SIZES:
        rng = random.Random(m)
        base = None
        for name, sets in families(rng, m):
            terms = with_coefficients(rng, sets)
            ours, theirs = engine(program, terms), standard(binary, terms)
            base = base or ours
            print(f"{m:5}  {name:30} {ours:8}   {theirs:8}  {ours / theirs:5.2f}  {ours / base:5.2f}", flush=True)


def ordered(program):
    """The engine on each order with each spread of the sets, as multiples of the random order of distinct sets."""
    for m in SIZES:
        rng = random.Random(m)
        ways = list(spreads(rng, m))
        print(f"\n{m} terms, to the random case" + "".join(f"{name:>12}" for name, _ in ways))
        base = None
        worst = 0
        for name, order in orders(rng, m):
            costs = [engine(program, with_coefficients(rng, [way(r) % TOP for r in order])) for _, way in ways]
            base = base or costs[0]
            worst = max(worst, *costs)
            print(f"{name:31}" + "".join(f"{cost / base:12.2f}" for cost in costs), flush=True)
        print(f"{'random':31}{base:12}\n{'worst':31}{worst:12}{worst / base:12.2f}")


def main():
    program = sys.argv[1] if len(sys.argv) > 1 else ENGINE
    with tempfile.TemporaryDirectory() as folder:
        binary = os.path.join(folder, "canonical")
        subprocess.run(["rustc", "--edition", "2021", "-O", "-o", binary, os.path.join(ROOT, "bench", "canonical.rs")], check=True)
        named(program, binary)
    ordered(program)


if __name__ == "__main__":
    main()
