#!/usr/bin/env python3
"""Instructions for small blocks: the program of the dense comparison and the plain Rust program of the same method, family by family.

    tools/build compare_small && python3 bench/dense.py [--write]

Counted by valgrind's callgrind, less those of a pair of empty lists on 1 qubit. In each family two pairs are equal, so that every
column of both lists is run, and one has a gate changed besides. With --write the table goes to docs/BENCHMARKS.md.
"""
import os
import random
import subprocess
import sys
import tempfile

import compare as bench
from compare import CX, CZ, H, SI, SWAP, S, T, TI, X, Y, Z, record

ENGINE = os.path.join(bench.ROOT, "target", "bin", "compare_small")
PAIRS = 3
BAR = 2
MIXED = [X, Y, Z, S, SI, T, TI, CX, CX, CZ, SWAP]


class Family:
    """Pairs drawn alike: the kinds beside H, the qubits, and the gates and H gates of each list."""

    def __init__(self, kinds, qubits=6, length=512, hadamards=29):
        self.kinds, self.qubits, self.length, self.hadamards = kinds, qubits, length, hadamards


FAMILIES = {
    "mixed": Family(MIXED),
    "T-heavy": Family([T, T, TI, S, CX]),
    "CX only": Family([CX], hadamards=0),
    "CZ only": Family([CZ], hadamards=0),
    "SWAP only": Family([SWAP], hadamards=0),
    "X only": Family([X], hadamards=0),
    "Y only": Family([Y], hadamards=0),
    "T only": Family([T], hadamards=0),
    "H only": Family([H], length=29),
    "mixed, short": Family(MIXED, length=40, hadamards=8),
    "mixed on 5": Family(MIXED, qubits=5),
    "mixed on 4": Family(MIXED, qubits=4, hadamards=30),
    "mixed on 3": Family(MIXED, qubits=3, hadamards=30),
    "mixed on 2": Family(MIXED, qubits=2, hadamards=30),
    "on 1": Family([X, Y, Z, S, SI, T, TI], qubits=1, hadamards=30),
    "small": Family(MIXED, qubits=4, length=20, hadamards=4),
}


def draw(rng, family):
    """A list, its H gates at random places."""
    places = set(rng.sample(range(family.length), family.hadamards))
    gates = []
    for i in range(family.length):
        kind = H if i in places else rng.choice(family.kinds)
        a = rng.randrange(family.qubits)
        gates.append((kind, a, rng.choice([q for q in range(family.qubits) if q != a]) if kind > H else 255))
    return gates


def changed(rng, gates):
    """The list with one gate replaced by another kind on its first qubit; the H gates do not become more."""
    i = rng.randrange(len(gates))
    kind, a, _ = gates[i]
    return gates[:i] + [(rng.choice([k for k in range(7) if k != kind]), a, 255)] + gates[i + 1 :]


def pairs(name):
    """Two equal pairs, by rewriting, and one with a gate changed besides."""
    rng = random.Random(f"small block {name}")
    family = FAMILIES[name]
    for i in range(PAIRS):
        first = draw(rng, family)
        second = bench.rewritten(rng, first)
        yield record(first, family.qubits) + record(changed(rng, second) if i == PAIRS - 1 else second, family.qubits)


def table(plain):
    lines = ["| family | qubits | gates a list | engine | plain Rust | ratio | equal | turned | different |", "|---|---|---|---|---|---|---|---|---|"]
    base = {program: bench.instructions(program, 2 * record([], 1)) for program in (ENGINE, plain)}
    ratios = {}
    for name, family in FAMILIES.items():
        ours, theirs, tally = bench.measured(plain, base, pairs(name), ENGINE)
        ratios[name] = ours / theirs
        lines.append(
            f"| {name} | {family.qubits} | {family.length} | {ours:,} | {theirs:,} | {ratios[name]:.2f}"
            f" | {tally['equal']} | {tally['turned']} | {tally['different']} |"
        )
        print(lines[-1], flush=True)
    most = max(ratios, key=ratios.get)
    return lines + ["", f"The greatest ratio is {ratios[most]:.2f}, of \"{most}\"; the bar is {BAR}."], ratios[most]


def main():
    with tempfile.TemporaryDirectory() as folder:
        plain = os.path.join(folder, "plain")
        subprocess.run(["rustc", "--edition", "2021", "-O", "-o", plain, os.path.join(bench.ROOT, "bench", "dense.rs")], check=True)
        lines, most = table(plain)
    print("\n".join(lines[-2:]))
    if "--write" in sys.argv:
        path = os.path.join(bench.ROOT, "docs", "BENCHMARKS.md")
        with open(path) as old:
            text = old.read()
        head, _, rest = text.partition("<!-- dense -->\n")
        _, _, tail = rest.partition("<!-- end dense -->\n")
        with open(path, "w") as out:
            out.write(head + "<!-- dense -->\n" + "\n".join(lines) + "\n<!-- end dense -->\n" + tail)
    return 0 if most <= BAR else 1


if __name__ == "__main__":
    sys.exit(main())
