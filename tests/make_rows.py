#!/usr/bin/env python3
"""Writes the rows of the programs record_calls and pair_calls and what they must print for them, from tests/rows.txt.

    python3 tests/make_rows.py [--check]

The files go to stdin and stdout in the crates of the programs; the gate runs each on the one and compares with the other. Every answer
of rows.txt is held to the independent implementation beside this file, and the engine has no part in it. A comparison's verdict is held to exact
columns besides: up to 6 qubits equal and turned to all of them, which exactly the power told must carry. So is a joined record up to 6 qubits:
its columns must be the matrix product of the two lists', in space the tensor product. With --check nothing is written: the files must be those
that would be.
"""
import os
import re
import sys

import call_rows
import reference as ref

HERE = os.path.dirname(os.path.abspath(__file__))
CRATES = os.path.join(HERE, "..", "crates")
# all columns are tried up to so many qubits; some on more, where the H gates are on so many qubits at most
ALL_COLUMNS, WITH_H = 6, 8


def repeated(text):
    """{TEXT*N} as TEXT, N times."""
    return re.sub(r"\{([^{}*]*)\*(\d+)\}", lambda m: m[1] * int(m[2]), text)


def read_rows(path):
    """The rows of a file and the answers written for them."""
    with open(path) as lines:
        for number, line in enumerate(lines, 1):
            line = line.rstrip("\n")
            if not line or line.startswith("#"):
                continue
            row, arrow, answer = line.rpartition(" => ")
            if not arrow:
                sys.exit(f"{path}:{number}: no answer")
            yield number, repeated(row), repeated(answer)


def expected(number, row, answer):
    """The line of a row, where the written answer is the independent implementation's, but perhaps for what is lent."""
    line = call_rows.line(row)
    want = line.removeprefix(row.split(";")[0] + ": ")
    if answer not in (want, re.split(", (?:sets|numbers) ", want)[0]):
        sys.exit(f"rows.txt:{number}: written {answer!r}, but the independent implementation says {want!r}")
    return line


def held_to_columns(number, row, answer):
    """Whether an answer is a verdict that was held to columns, which must bear it out. On more than 6 qubits equal and turned are held to those
    of no qubit, the lowest, the highest and all of them, and lists with H gates on many qubits to none."""
    verdict = re.match(r"(equal|turned|different) (\d+) (\d+)", answer)
    if not verdict:
        return False
    n, gates, others = ref.read_lists(*call_rows.both_of(*row.split(";")[3:]))
    some = (0, 1, 1 << n - 1, (1 << n) - 1) if n > ALL_COLUMNS else None
    if some and len({a for kind, a, _ in gates + others if kind == ref.H}) > WITH_H:
        return False
    if not ref.Columns(n, gates, others).bear_out(verdict[1], int(verdict[2]), int(verdict[3]), some):
        sys.exit(f"rows.txt:{number}: written {answer!r}, but the columns do not bear it out")
    return True


def held_as_joined(number, row, answer):
    """Whether an answer is a joined record that was held to columns, which must bear it out. One on more than 6 qubits is not."""
    if not re.fullmatch(r"length \d+ [0-9a-f]+ kept \d+", answer):
        return False
    _, call, _, *lists = row.split(";")
    first, second = (ref.read_record(data)[:2] for data in call_rows.both_of(*lists))
    joined = ref.read_record(bytes.fromhex(answer.split()[2]))[:2]
    if joined[0] > ALL_COLUMNS:
        return False
    if not ref.is_join(call == "join_in_space", first, second, joined):
        sys.exit(f"rows.txt:{number}: written {answer!r}, but the columns do not bear it out")
    return True


def write(program, name, content, check):
    """A file of a program, line by line, written, or checked: then it must be that already."""
    text = "".join(line + "\n" for line in content)
    path = os.path.join(CRATES, program, name)
    if not check:
        with open(path, "w") as out:
            out.write(text)
    elif open(path).read() != text:
        sys.exit(f"crates/{program}/{name} is not what rows.txt says: run tests/make_rows.py")


def write_all(rows, check):
    """The files of all programs."""
    for program, done in rows.items():
        write(program, "stdin", [row for row, _ in done], check)
        write(program, "stdout", [line for _, line in done] + [f"rows {len(done)}"], check)


def main():
    if sys.argv[1:] not in ([], ["--check"]):
        sys.exit("usage: make_rows.py [--check]")
    check = "--check" in sys.argv
    written = list(read_rows(os.path.join(HERE, "rows.txt")))
    rows = {program: [] for program in call_rows.PROGRAMS}
    for number, row, answer in written:
        rows[call_rows.program_of(row)].append((row, expected(number, row, answer)))
    # columns take the longest: the files are checked before, but written only behind them
    if check:
        write_all(rows, check)
    joins = sum(held_as_joined(*each) for each in written)
    held = sum(held_to_columns(*each) for each in written)
    if not check:
        write_all(rows, check)
    counts = ", ".join(f"{len(done)} rows of {program}" for program, done in rows.items())
    print(f"{counts}; {held} verdicts and {joins} joins held to columns")


if __name__ == "__main__":
    main()
