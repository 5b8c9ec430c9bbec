#!/usr/bin/env python3
"""Instructions for whole comparisons: the engine's program and the plain Rust program of the same steps, family by family.

    tools/build compare && python3 bench/compare.py [--write] [--engine PROGRAM] [--before PROGRAM]

Counted by valgrind's callgrind, less those of a pair of empty lists on 1 qubit: on 16 qubits that pair itself goes through the search, over
up to 696 inputs, so that a change of the search would move the zero of the scale. The large families are on 16 qubits, with 48 H gates in
both lists together, or with as many as make 96 or 128 variables; two more have no H gate and no term, and one is of small pairs. With --before the
engine's program of another delivery runs in place of the plain one, on the pairs that have at most 64 variables, which every delivery takes. With
--write the tables go to docs/BENCHMARKS.md.
"""
import argparse
import os
import random
import re
import subprocess
import sys
import tempfile
import time

ROOT = os.path.join(os.path.dirname(os.path.abspath(__file__)), "..")
ENGINE = os.path.join(ROOT, "target", "bin", "compare")
PAIRS = 5
VERDICTS = ("equal", "turned", "different", "undecided")
X, Y, Z, S, SI, T, TI, H, CX, CZ, SWAP = range(11)
INVERSE = {S: SI, SI: S, T: TI, TI: T}


class Family:
    """Pairs drawn alike: the kinds beside H, the qubits, the H gates of each list, the lengths, and a bar at 512 gates, if any."""

    def __init__(self, kinds, qubits=16, hadamards=24, lengths=(64, 128, 256, 512), bar=None):
        self.kinds, self.qubits, self.hadamards, self.lengths, self.bar = kinds, qubits, hadamards, lengths, bar


KINDS = {
    "Clifford": [X, Y, Z, S, SI, CX, CX, CZ, CZ, SWAP],
    "T-heavy": [T, T, TI, S, CX, CX, CX],
    "CZ-heavy": [CZ, CZ, CZ, CZ, S, CX],
    "mixed": [X, Z, S, T, TI, CX, CX, CZ, SWAP],
}
BARS = {"Clifford": 5_000_000, "T-heavy": 3_000_000, "CZ-heavy": 16_000_000, "mixed": 4_000_000}
FAMILIES = {
    **{name: Family(kinds, bar=BARS[name]) for name, kinds in KINDS.items()},
    "X only": Family([X], hadamards=0, lengths=(512,)),
    "CX only": Family([CX], hadamards=0, lengths=(512,)),
    "small": Family([X, Z, S, SI, T, TI, CX, CX, CZ], qubits=4, hadamards=4, lengths=(20,)),
    "mixed, 96 variables": Family(KINDS["mixed"], hadamards=40, lengths=(512,)),
    **{f"{name}, 128 variables": Family(kinds, hadamards=56, lengths=(512,)) for name, kinds in KINDS.items()},
}


def draw(rng, family, length):
    """A list of so many gates, its H gates at random places."""
    places = set(rng.sample(range(length), family.hadamards))
    gates = []
    for i in range(length):
        kind = H if i in places else rng.choice(family.kinds)
        a, b = rng.sample(range(family.qubits), 2)
        gates.append((kind, a, b if kind > H else 255))
    return gates


def rewritten(rng, gates):
    """An equal list of the same length: neighbours that commute exchanged, and gates on other qubits moved past each other."""
    gates = list(gates)
    for _ in range(4 * len(gates)):
        i = rng.randrange(len(gates) - 1)
        (k, a, b), (m, c, d) = gates[i : i + 2]
        apart = not {a, b} & {c, d} - {255}
        diagonal = all(kind in (Z, S, SI, T, TI, CZ) for kind in (k, m))
        if apart or diagonal:
            gates[i], gates[i + 1] = gates[i + 1], gates[i]
    return gates


def changed(rng, gates):
    """The list with one gate that is no H replaced by another kind on the same qubits."""
    gates = list(gates)
    while True:
        i = rng.randrange(len(gates))
        kind, a, b = gates[i]
        if kind != H:
            gates[i] = (rng.choice([k for k in range(7) if k != kind]), a, 255)
            return gates


def record(gates, qubits=16):
    return bytes([0x51, 0x43, qubits, len(gates) & 255, len(gates) >> 8]) + b"".join(map(bytes, gates))


def pairs(name, length, seed):
    """Five pairs: three equal ones, by rewriting, and two with one gate changed besides."""
    rng = random.Random(f"{name} {length} {seed}")
    family = FAMILIES[name]
    for i in range(PAIRS):
        first = draw(rng, family, length)
        second = rewritten(rng, first)
        yield record(first, family.qubits) + record(second if i < 3 else changed(rng, second), family.qubits)


def parities(qubits, put):
    """At each parity of some qubits, while it stands on one of them, the gates that `put` has for that qubit and the parity's size."""
    gates = []
    for t, target in enumerate(qubits):
        last = 0
        for step in range(1 << t):
            code = step ^ step >> 1
            if code != last:
                gates.append((CX, qubits[(code ^ last).bit_length() - 1], target))
            gates += put(target, 1 + code.bit_count())
            last = code
        gates += [(CX, qubits[i], target) for i in range(t) if last >> i & 1]
    return gates


def fifteen(qubits):
    """T on each of the fifteen parities of four qubits: together nothing."""
    return parities(qubits, lambda q, _: [(T, q, 255)])


def sign_of_three(qubits):
    """T on the parities of one and of three of three qubits, its inverse on those of two: −1 where all three are 1, else 1."""
    return parities(qubits, lambda q, size: [(T if size % 2 else TI, q, 255)])


def busy_lists():
    """Two lists of 17 such blocks of 29 gates; their odd terms do not cancel."""
    rng = random.Random(3)
    return [[fifteen(rng.sample(range(16), 4)) for _ in range(17)] for _ in range(2)]


def busy_pair():
    """An equal pair that keeps the search busy."""
    first, second = busy_lists()
    return record(sum(first, [])) + record(sum(second, []))


def last_pair():
    """The same with a sign on qubits 13, 14 and 15 for the last block: of the inputs that are tried only the last one differs."""
    first, second = busy_lists()
    return record(sum(first, [])) + record(sum(second[:-1], sign_of_three([13, 14, 15])))


def run(command, data):
    return subprocess.run(command, input=data, capture_output=True, check=True)


def instructions(command, data):
    got = run(["valgrind", "--tool=callgrind", "--callgrind-out-file=/dev/null", command], data)
    return int(re.search(rb"Collected : (\d+)", got.stderr).group(1))


def mean(numbers):
    return sum(numbers) // len(numbers)


def slowest(command, datas):
    """The longest time of a run, in milliseconds, the shortest of three runs each."""
    longest = 0.0
    for data in datas:
        best = min(timed(command, data) for _ in range(3))
        longest = max(longest, best)
    return longest * 1000


def timed(command, data):
    start = time.perf_counter()
    run([command], data)
    return time.perf_counter() - start


def same_line(other, data, engine=ENGINE):
    """What both programs print."""
    line, another = run([engine], data).stdout, run([other], data).stdout
    if line != another:
        sys.exit(f"the engine prints {line!r}, {other} prints {another!r}, for {data.hex()}")
    return line


def bases(*programs):
    """The instructions of each program for a pair of empty lists."""
    return {program: instructions(program, 2 * record([], 1)) for program in programs}


def both(other, base, data, engine):
    """Both programs' instructions for a pair, the engine's first."""
    return [instructions(program, data) - base[program] for program in (engine, other)]


def measured(plain, base, datas, engine=ENGINE):
    """The means of both programs' instructions over some pairs, and how the pairs came out."""
    counts, tally = [], dict.fromkeys(VERDICTS, 0)
    for data in datas:
        tally[same_line(plain, data, engine).split()[0].decode()] += 1
        counts.append(both(plain, base, data, engine))
    return *map(mean, zip(*counts)), tally


def found(name):
    """A pair that bench/dearest.py found."""
    with open(os.path.join(ROOT, "bench", name), "rb") as file:
        return file.read()


def singles():
    """The pairs that have a line of their own."""
    return {
        "A pair that keeps the search busy": busy_pair(),
        "The same, different at the last input of the search alone": last_pair(),
        "The dearest equal or turned pair on 16 qubits and 64 variables that `bench/dearest.py` found": found("dearest.pair"),
        "The dearest on 128 variables": found("dearest-128.pair"),
    }


def gates_of(data):
    """The gates of the record at the start of some bytes."""
    return [tuple(data[at : at + 3]) for at in range(5, 5 + 3 * (data[3] + 256 * data[4]), 3)]


def variables(data):
    """The variables of a pair: its qubits, and the H gates of both lists."""
    first = gates_of(data)
    return data[2] + sum(kind == H for kind, _, _ in first + gates_of(data[5 + 3 * len(first) :]))


def older_pairs():
    """(name, pairs): the families, by their lengths, and the single pairs that have at most 64 variables."""
    for name, family in FAMILIES.items():
        for length in family.lengths:
            yield f"{name}, {length} gates", [data for data in pairs(name, length, 1) if variables(data) <= 64]
    for name, data in singles().items():
        yield name, [data] if variables(data) <= 64 else []


def before_table(before, engine):
    """The means of the instructions of an older engine and of this one on the same pairs, and the sums over all these pairs."""
    base = bases(before, engine)
    lines = ["| pairs | before | now | now to before |", "|---|---|---|---|"]
    everything = []
    for name, datas in older_pairs():
        counts = []
        for data in datas:
            same_line(before, data, engine)
            counts.append(both(before, base, data, engine))
        if not counts:
            continue
        everything += counts
        now, then = map(mean, zip(*counts))
        lines.append(f"| {name} | {then:,} | {now:,} | {now / then:.2f} |")
        print(lines[-1], flush=True)
    now, then = map(sum, zip(*everything))
    return [*lines, f"| all {len(everything)} pairs together | {then:,} | {now:,} | {now / then:.2f} |"]


def tables(plain, engine):
    base = bases(engine, plain)
    lines = [f"| family | gates a list | engine | plain Rust | ratio | {' | '.join(VERDICTS)} |", "|---" * (5 + len(VERDICTS)) + "|"]
    growth, everything = {}, []
    for name, family in FAMILIES.items():
        for length in family.lengths:
            datas = list(pairs(name, length, 1))
            everything += datas
            ours, theirs, tally = measured(plain, base, datas, engine)
            growth[name, length] = ours
            verdicts = " | ".join(str(tally[v]) for v in VERDICTS)
            lines.append(f"| {name} | {length} | {ours:,} | {theirs:,} | {ours / theirs:.2f} | {verdicts} |")
            print(lines[-1], flush=True)
    lines += ["", "| family | 128 to 512 gates | bar at 512 |", "|---|---|---|"]
    for name, family in FAMILIES.items():
        if family.bar:
            times = growth[name, 512] / growth[name, 128]
            lines.append(f"| {name} | {times:.2f} times | {growth[name, 512] / family.bar:.2f} of {family.bar:,} |")
    for name, data in singles().items():
        everything.append(data)
        ours, theirs, _ = measured(plain, base, [data], engine)
        lines += ["", f"{name}: {ours:,} against {theirs:,}, {ours / theirs:.2f} times."]
    return lines + ["", f"Slowest run of all these pairs, the process's start among it: {slowest(engine, everything):.1f} ms."]


def arguments():
    """A parser that knows --engine, for a program other than the checked one."""
    parser = argparse.ArgumentParser()
    parser.add_argument("--engine", default=ENGINE, metavar="PROGRAM")
    return parser


def against_plain(engine):
    """The tables against the plain program, which is built first."""
    with tempfile.TemporaryDirectory() as folder:
        plain = os.path.join(folder, "plain")
        subprocess.run(["rustc", "--edition", "2021", "-O", "-o", plain, os.path.join(ROOT, "bench", "plain.rs")], check=True)
        return tables(plain, engine)


def write(lines, start, end):
    """The lines in place of what stands between two marks of docs/BENCHMARKS.md."""
    path = os.path.join(ROOT, "docs", "BENCHMARKS.md")
    with open(path) as old:
        text = old.read()
    head, mark, rest = text.partition(f"<!-- {start} -->\n")
    _, last, tail = rest.partition(f"<!-- {end} -->\n")
    if not mark or not last:
        sys.exit(f"docs/BENCHMARKS.md has no place between <!-- {start} --> and <!-- {end} -->")
    with open(path, "w") as out:
        out.write(head + mark + "\n".join(lines) + "\n" + last + tail)


def main():
    parser = arguments()
    parser.add_argument("--write", action="store_true")
    parser.add_argument("--before", metavar="PROGRAM")
    given = parser.parse_args()
    lines = before_table(given.before, given.engine) if given.before else against_plain(given.engine)
    print("\n".join(lines))
    if given.write:
        write(lines, *(("before", "end before") if given.before else ("tables", "end")))


if __name__ == "__main__":
    main()
