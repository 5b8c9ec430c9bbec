#!/usr/bin/env python3
"""Looks for the dearest pair on 16 qubits that is equal or turned, with 512 gates a list and at most 64 variables, or 128, so at most 48 H gates in
both lists, or 112: a shared list into which blocks that do nothing, but for a power of ω, are inserted, other ones in each of the two lists. Such
pairs are drawn in many mixes; then the dearest few are changed step by step in ways that keep them so, and the dearest kept.

    tools/build compare && python3 bench/dearest.py [EVALUATIONS] [--variables 128] [--engine PROGRAM]

The dearest pair goes to bench/dearest.pair or bench/dearest-128.pair, two records one after the other, which bench/compare.py measures in a line of
its own. What counts is the engine's instructions less those of an empty pair; a pair that comes out neither equal nor turned counts nothing. The same engine
gives the same walk.
"""
import copy
import os
import random

import compare as bench
from compare import CX, CZ, H, SI, SWAP, S, T, TI, X, Z, parities, record

QUBITS, LENGTH = 16, 512
FEW = 4
# the file of each number of variables
FILES = {64: "dearest.pair", 128: "dearest-128.pair"}
ORDERS = {X: 2, Z: 2, S: 4, SI: 4, T: 8, TI: 8, CX: 2, CZ: 2, SWAP: 2}


def gate(rng, kind):
    a, b = rng.sample(range(QUBITS), 2)
    return (kind, a, b if kind > H else 255)


def inverse(gates):
    return [(bench.INVERSE.get(kind, kind), a, b) for kind, a, b in reversed(gates)]


def number(gates, *kinds):
    """How many gates are of these kinds."""
    return sum(kind in kinds for kind, _, _ in gates)


def phases(rng):
    """Z on every parity of two qubits or more, S of three or more, or T of four or more."""
    kind, least = rng.choice(((Z, 2), (S, 3), (T, 4)))
    return parities(rng.sample(range(QUBITS), rng.randint(least, 6)), lambda q, _: [(kind, q, 255)])


def stars(rng):
    """CZ between every parity of two qubits or more and each of some others."""
    few, others = rng.randint(2, 6), rng.randint(1, 10)
    qubits = rng.sample(range(QUBITS), few + others)
    return parities(qubits[:few], lambda q, _: [(CZ, q, other) for other in qubits[few:]])


def power(rng):
    """A gate as often as makes it nothing."""
    kind = rng.choice(list(ORDERS))
    return ORDERS[kind] * [gate(rng, kind)]


def there_and_back(rng):
    """Some gates, then their inverses backwards."""
    gates = [gate(rng, rng.choice(list(ORDERS))) for _ in range(rng.randint(1, 40))]
    return gates + inverse(gates)


def twice(rng):
    """H two times."""
    return 2 * [gate(rng, H)]


def thrice(rng):
    """H and S by turns, three times: a power of ω."""
    q = rng.randrange(QUBITS)
    return 3 * [(H, q, 255), (rng.choice((S, SI)), q, 255)]


WITHOUT_H, WITH_H = [phases, stars, power, there_and_back], [twice, thrice]


class Pair:
    """How many H gates a list has at most; a shared list, of which the first gates, the front, hold no H; the blocks of both lists, each with its place in
    the shared list; how often each kind of block is drawn; and between how many CX gates at most."""

    def __init__(self, rng, hadamards):
        """A random mix."""
        self.hadamards = hadamards
        length = rng.choice((0, 10, 30, 60, 120, 240, 400))
        kinds = rng.choices((CX, CX, CZ, S, T, TI, X, SWAP), k=rng.randint(1, 5))
        self.shared = [gate(rng, rng.choice(kinds)) for _ in range(length)]
        self.front = rng.randint(0, length)
        for place in rng.sample(range(self.front, length), min(length - self.front, rng.choice((0, 0, 1, 2, 3, 4)) * hadamards // 4)):
            self.shared[place] = gate(rng, H)
        self.weights = {kind: rng.random() ** 3 for kind in WITHOUT_H + WITH_H}
        self.around = rng.choice((0, 1, 2, 4, 8))
        self.blocks = ([], [])
        self.fill(rng)

    def gates(self, side):
        """One of the two lists."""
        gates, last = [], 0
        for place, block in sorted(self.blocks[side], key=lambda item: item[0]):
            gates += self.shared[last:place] + block
            last = place
        return gates + self.shared[last:]

    def record(self):
        return record(self.gates(0)) + record(self.gates(1))

    def insert(self, rng, side, block):
        """A block at a random place; one with T gates in the front."""
        self.blocks[side].append((rng.randint(0, self.front if number(block, T, TI) else len(self.shared)), block))

    def drop(self, rng, side):
        """A block of a list taken out."""
        if self.blocks[side]:
            return self.blocks[side].pop(rng.randrange(len(self.blocks[side])))[1]
        return []

    def fitting(self, rng, room, hadamards):
        """A block of so many gates and H gates at most, with H gates if there may be two, that does not leave one gate over. It may stand
        between CX gates and the same ones backwards: so it does nothing on other parities."""
        kinds = WITH_H if hadamards > 1 else WITHOUT_H
        for _ in range(10):
            around = [gate(rng, CX) for _ in range(rng.randint(0, self.around))]
            block = around + rng.choices(kinds, [self.weights[kind] for kind in kinds])[0](rng) + around[::-1]
            if room - len(block) >= 0 and room - len(block) != 1 and number(block, H) <= hadamards:
                return block
        if room == 3:
            return [(Z, 0, 255), (S, 0, 255), (S, 0, 255)]
        return 2 * [gate(rng, H if hadamards > 1 else Z)]

    def fill(self, rng):
        """Blocks dropped that are too many, and others put in until both lists have their length."""
        for side in (0, 1):
            while (room := LENGTH - len(self.gates(side))) != 0:
                if room < 0 or room == 1:
                    self.drop(rng, side)
                else:
                    self.insert(rng, side, self.fitting(rng, room, self.hadamards - number(self.gates(side), H)))

    def changed(self, rng):
        """A pair like this one, with some small changes."""
        new = copy.deepcopy(self)
        while new.record() == self.record():
            for _ in range(rng.choice((1, 1, 2, 4))):
                rng.choice((new.redraw, new.move, new.rename, new.touch, new.stretch))(rng)
            new.fill(rng)
        return new

    def redraw(self, rng):
        """Some blocks of a list dropped, and one kind drawn more or less often from now on; others fill the place."""
        side = rng.randrange(2)
        self.weights[rng.choice(WITHOUT_H + WITH_H)] = rng.random() ** 3
        for _ in range(rng.choice((1, 2, 4, 8))):
            self.drop(rng, side)

    def move(self, rng):
        """A block at another place."""
        side = rng.randrange(2)
        self.insert(rng, side, self.drop(rng, side))

    def rename(self, rng):
        """Two qubits exchanged in a block."""
        side = rng.randrange(2)
        a, b = rng.sample(range(QUBITS), 2)
        other = {a: b, b: a}
        self.insert(rng, side, [(kind, other.get(p, p), other.get(q, q)) for kind, p, q in self.drop(rng, side)])

    def touch(self, rng):
        """Two gates of the shared list exchanged, or one drawn anew, in both lists at once; the H gates stay behind the front."""
        places = range(self.front) if rng.random() < 0.5 else range(self.front, len(self.shared))
        if len(places) > 1:
            i, j = rng.sample(places, 2)
            self.shared[i], self.shared[j] = self.shared[j], self.shared[i]
            if self.shared[i][0] != H and rng.random() < 0.5:
                self.shared[i] = gate(rng, rng.choice(list(ORDERS)))

    def stretch(self, rng):
        """A gate more in the shared list, or one that is no H less."""
        i = rng.randint(0, len(self.shared))
        if rng.random() < 0.5 and len(self.shared) < 400:
            self.shared.insert(i, gate(rng, rng.choice((CX, CZ))))
            self.front += i <= self.front
        elif i < len(self.shared) and self.shared[i][0] != H:
            self.shared.pop(i)
            self.front -= i < self.front


def cost(engine, base, pair):
    """The engine's instructions for a pair that is equal or turned, and 0 for another."""
    data = pair.record()
    if not bench.run([engine], data).stdout.startswith((b"equal", b"turned")):
        return 0
    return bench.instructions(engine, data) - base


def search(engine, evaluations, hadamards):
    """The dearest pair with so many H gates a list at most: one evaluation in four is of a random mix, the others of changes of the few dearest pairs so
    far."""
    rng = random.Random(20261116)
    base = bench.instructions(engine, 2 * record([], 1))
    best = []
    for i in range(evaluations):
        pair = Pair(rng, hadamards) if i < max(FEW, evaluations // 4) else rng.choice(best)[1].changed(rng)
        best.append((cost(engine, base, pair), pair))
        best.sort(key=lambda item: -item[0])
        if best[0][1] is pair:
            print(f"{i}: {best[0][0]:,}", flush=True)
        del best[FEW:]
    return best[0][1]


def main():
    parser = bench.arguments()
    parser.add_argument("evaluations", type=int, nargs="?", default=600)
    parser.add_argument("--variables", type=int, choices=FILES, default=64)
    given = parser.parse_args()
    pair = search(given.engine, given.evaluations, (given.variables - QUBITS) // 2)
    with open(os.path.join(bench.ROOT, "bench", FILES[given.variables]), "wb") as out:
        out.write(pair.record())


if __name__ == "__main__":
    main()
