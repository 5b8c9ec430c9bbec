#!/usr/bin/env python3
"""Holds the engine to the independent implementation beside this file: the programs record_calls and pair_calls, which drive
every public call with rows of text, and the programs compare and compare_small, which read two records.

    tools/build record_calls pair_calls compare compare_small && python3 tests/against_reference.py [TIMES]

Fixed cases at the limits come first, then random families (random_pairs.py) that reach every rule; TIMES multiplies the random cases. Up to
6 qubits, equal, turned by its power and different are also held to exact dense columns, and so are joins, to the product of the two lists'. Small
blocks go through both comparisons, by rows and by programs, and where the path sum decides, the two must print the same verdict and, turned, the same
power. A pair goes through each comparison also as one list, the first joined with the inverse of the second, against nothing, which must print the
same. Every class of cases is counted. The run fails where a line differs, two verdicts do, a class never came up, or one came up that classes.py
does not list.
"""
import os
import random
import re
import resource
import subprocess
import sys
import tempfile
from collections import Counter

import call_rows
import random_pairs as pairs
import reference as ref
from call_rows import list_text, row
from classes import BOTH, CLASSES, kind_class

ROOT = os.path.join(os.path.dirname(os.path.abspath(__file__)), "..")
SEED = 20261115
# the words and the bytes that a comparison needs
NEEDED = (6400, 3200)
# a row's size far above the memory that a program gets, both in bytes
LONG_ROW, LITTLE_MEMORY = 300_000_000, 64 << 20
# the line that each program prints for its input
PROGRAM_LINES = {"compare": ref.run_program, "compare_small": ref.run_small_program}


def fail(words):
    sys.exit(f"against_reference: {words}")


def hold(got, want):
    """The independent implementation to what is written here."""
    if got != want:
        fail(f"the independent implementation says {got!r} where {want!r} is written")


def named(fields):
    """A verdict as the classes name it: turned with its power."""
    return " ".join(fields[:2]) if fields[0] == "turned" else fields[0]


class Check:
    """Rows and inputs of programs, with what they must print, and the classes that came up."""

    def __init__(self):
        self.seen = Counter()
        self.rows = []
        self.lines = []
        self.rows_run = 0
        # rows of a small block and of the same pair for the path sum; of a pair, with the row of the first list joined with the inverse of the
        # second behind it; what was printed, by the row's name
        self.both = []
        self.inverses = []
        self.printed = {}

    def see(self, *names):
        self.seen.update(names)

    def row(self, text):
        """One row more. Gives its answer and the events on the way."""
        events = []
        text = f"{len(self.rows)};{text}"
        self.rows.append(text)
        self.lines.append(call_rows.line(text, events))
        answer = self.lines[-1].split(": ", 1)[1]
        if answer == "bad row":
            self.see("bad row")
        return answer, events

    def simple(self, call, **parts):
        """A row of the record layer, by the first word of its answer; a refusal by its number and, where it has one, its gate."""
        answer, _ = self.row(row("", call, **parts)[1:])
        words = answer.split()
        if call == "gates":
            self.see("gates: none" if words[1] == "-" else "gates: some")
        elif words[0] == "refused":
            self.see(f"{call}: refused {words[1]}")
            if words[2:3] == ["gate"]:
                self.see(*(f"{call}: refused at {place}" for place in bad_gate_places(call, int(words[3]), **parts)))
        else:
            self.see(f"{call}: {words[0]}")
        return words

    def run_rows(self):
        """All rows, each program's through one process."""
        for name in call_rows.PROGRAMS:
            pairs = [pair for pair in zip(self.rows, self.lines) if call_rows.program_of(pair[0]) == name]
            if pairs:
                self.run_through(name, pairs)

    def run_through(self, name, pairs):
        """These rows, with the lines that they must give, through a program."""
        with tempfile.TemporaryFile() as given, tempfile.TemporaryFile() as printed:
            given.write("".join(text + "\n" for text, _ in pairs).encode())
            given.seek(0)
            done = subprocess.run([program(name)], stdin=given, stdout=printed)
            printed.seek(0)
            lines = printed.read().decode().splitlines()
        if done.returncode:
            fail(f"{name} ended with {done.returncode}")
        for (text, want), got in zip(pairs, lines):
            if want != got:
                fail(f"row\n{text}\nprinted\n{got}\nwanted\n{want}")
            self.printed[text.split(";")[0]] = got
        if lines[len(pairs) :] != [f"rows {len(pairs)}"]:
            fail(f"{name} printed {len(lines)} lines for {len(pairs)} rows")
        self.rows_run += len(pairs)
        self.see(f"rows of {name}")

    def run_program(self, data, want=None, name="compare"):
        """A program on these bytes, held to the independent implementation and to the given line. Gives the line's words."""
        line = PROGRAM_LINES[name](data)
        done = subprocess.run([program(name)], input=data, capture_output=True)
        if done.returncode < 0 or done.stdout.decode() != line + "\n":
            fail(f"{name} on\n{data[:4000].hex()}\nprinted {done.stdout!r}, wanted {line!r}")
        if want is not None:
            hold(line, want)
        self.see(f"program {name}: {line if line.startswith('refused') else named(line.split())}")
        return line.split()


def program(name):
    path = os.path.join(ROOT, "target", "bin", name)
    if not os.path.exists(path):
        fail(f"target/bin/{name} is not built: tools/build {name}")
    return path


# Refusals.


def refusal_of(call, *words):
    """What a call of the independent implementation is refused by, or None."""
    try:
        call(*words)
    except ref.Refused as refusal:
        return refusal
    return None


def bad_gate_places(call, index, numbers=(), first=b"", second=b""):
    """The classes of the gate with this index, which a call on these parts is refused at."""
    yield "a later gate" if index else "gate 0"
    if call == "check_gate":
        return
    record = second if call == "add" else first
    n, g = record[2], int.from_bytes(record[3:5], "little")

    def is_bad(gate):
        return refusal_of(ref.check_gate, n, 0, *gate) is not None

    if call != "add":
        if index == g - 1 > 0:
            yield "the last of several gates"
        if sum(is_bad(record[5 + 3 * i : 8 + 3 * i]) for i in range(g)) > 1:
            yield "the first of several bad gates"
    elif index < g:
        yield "a gate that stands there"
        if is_bad(numbers[1:]):
            yield "a gate that stands there, the new one bad too"
    elif g:
        yield "the new gate behind others"


def see_bad_lists(check, call, first, second, refusal):
    """The list that a pair is refused by, and whether both are bad."""
    if refusal.which:
        check.see(f"{call}: {refusal.which} list refused at {'no' if refusal.index is None else 'a'} gate")
    if refusal.which == "first" and refusal_of(ref.read_record, second):
        check.see(f"{call}: both lists bad")


# Pairs.


def lent_bytes(first, second):
    """The bytes of both parts of a row."""
    return call_rows.both_of(*(part.hex() if isinstance(part, bytes) else part for part in (first, second)))


def compare_row(check, numbers, first, second, call="compare"):
    """A row of the comparison or the pick. Gives the eight fields, or the number of the refusal."""
    answer, events = check.row(row("", call, numbers, first, second)[1:])
    a, b = lent_bytes(first, second)
    refusal = refusal_of(ref.read_pair, a, b, *numbers[:2])
    if second == "=":
        check.see("compare: one slice given twice")
    if refusal:
        check.see(f"{call}: refused {refusal.number}")
        see_bad_lists(check, call, a, b, refusal)
        return refusal.number
    n, gates, others = ref.read_pair(a, b, *numbers[:2])
    if call == "pick":
        which = answer.split()[0]
        check.see(f"pick: {choice(gates, others, which, events)}")
        if n + pairs.h_gates(gates + others) > 64:
            check.see(f"pick: {which}, more than 64 variables")
        if ending(events) == "equal":
            see_kinds(check, gates, others)
        return None
    fields = answer.split(",")[0].split()
    see_events(check, n, gates, others, fields, events)
    check.see(f"compare: workspaces of {'6400 words and 3200 bytes' if numbers[:2] == NEEDED else 'more places'}")
    if numbers[0] % 2:
        check.see("compare: an odd number of words")
    if numbers[2] == 0:
        check.see("compare: workspaces of 0 at the start")
    if len(a) > len(ref.record(n, gates)):
        check.see("compare: bytes behind a record")
    return fields


def ending(events):
    """The verdict that a comparison came to, by its last event."""
    last = events[-1] if events else ""
    if last == "none ready":
        return "undecided"
    if "blocked" in last or "differ" in last:
        return "different"
    return last if last.startswith("turned") else "equal"


def choice(gates, others, which, events):
    """Why the pick chose what it did."""
    verdict, more_t, more = ending(events), ref.t_gates(gates) - ref.t_gates(others), len(gates) - len(others)
    if verdict.startswith("turned"):
        if more_t > 0:
            return f"{which}, {verdict}, though the second has fewer T gates"
        return f"{which}, turned" + (", though the second has fewer gates" if more_t == 0 < more else "")
    if verdict != "equal":
        return f"{which}, {verdict}"
    return f"{which}, {'fewer T gates' if more_t else 'fewer gates' if more else 'a tie'}"


def see_kinds(check, gates, others):
    """The kinds on which the choice between equal lists hangs."""

    def takes_second(kinds):
        worth = [(sum(k in kinds for k, _, _ in list_), len(list_)) for list_ in (others, gates)]
        return worth[0] < worth[1]

    t = {ref.T, ref.TI}
    for kind in range(11):
        if takes_second(t ^ {kind}) != takes_second(t):
            check.see(kind_class(kind))


def placed(event):
    """An event as the classes name it, a step at a variable by where that stands; None where it stands below 63."""
    step, _, variable = event.partition(" variable ")
    if not variable:
        return event
    v, last = int(variable), 127 if step == "pin at" else 126
    if v < 63:
        return None
    return f"{step} variable {v if v < 65 or v >= last else f'65 to {last - 1}'}"


def high_words_alone(terms):
    """Do some sets differ above variable 64 alone?"""
    return len({s % 2**64 for s in terms}) < len(terms)


def see_events(check, n, gates, others, fields, events):
    """The classes of an accepted comparison."""
    verdict = named(fields)
    names = {verdict, *filter(None, map(placed, events))}
    h = pairs.h_gates(gates + others)
    many = n + h > 64
    no_t = ref.t_gates(gates) + ref.t_gates(others) == 0
    shapes = {
        "more than 13 pins": int(fields[3]) > 13,
        "16 qubits, 112 H gates": (n, h) == (16, 112),
        "1 qubit, 127 H gates": (n, h) == (1, 127),
        f"{n + h} variables": n + h in (64, 65, 127, 128),
        f"more than 64 variables: {fields[0]}": many,
        "more than 64 variables, 512 gates in both lists": many and len(gates) == len(others) == 512,
        "sets that differ in the high word alone": many and high_words_alone(ref.built(n, gates, others).terms),
        "512 gates on 1 qubit": n == 1 and len(gates) == 512,
        "512 gates on 16 qubits": n == 16 and len(gates) == 512,
        "512 gates in both lists": len(gates) == len(others) == 512,
        f"no T gate: {verdict}": no_t,
        "turned on 16 qubits": n == 16 and fields[0] == "turned",
        "turned, 512 gates in both lists": len(gates) == len(others) == 512 and fields[0] == "turned",
        "difference of weight 3 on 16 qubits": n == 16 and "difference of weight 3" in events,
        "difference of weight 3 after a pin": fields[3] != "0" and "difference of weight 3" in events,
    }
    if no_t and fields[0] == "undecided":
        fail("undecided without a T gate")
    if sum(map(int, fields[3:7])) + int(fields[6]) + int(fields[7]) != h:
        fail(f"the counts {fields} do not add up to {h} H gates")
    check.see(*(f"compare: {name}" for name in names), *(f"compare: {name}" for name, yes in shapes.items() if yes))


def check_columns(check, n, first, second, fields):
    """A verdict against the amplitudes."""
    if not ref.Columns(n, first, second).bear_out(fields[0], int(fields[1]), int(fields[2])):
        fail(f"{' '.join(fields)} is not what the columns say: {list_text(n, first)} and {list_text(n, second)}")
    if fields[0] != "undecided":
        check.see(f"compare: dense columns: {named(fields)}")
        if n + pairs.h_gates(first + second) > 64:
            check.see("compare: more than 64 variables: dense columns")


def is_small(n, first, second):
    """Few enough qubits, and gates unless the qubits are two or one, for all columns."""
    return n <= 2 or n <= 6 and len(first) + len(second) <= 60 and pairs.h_gates(first + second) <= 24


def workspace_numbers(rng):
    """Lengths of both workspaces, mostly enough, and what they hold before."""
    enough = [NEEDED, (6464, 3264), (6400, 3264), (6401, 3200), (6403, 3201)]
    short = [(6399, 3200), (6400, 3199), (0, 0), (6399, 3199), (3136, 3136), (rng.randrange(6400), 3200), (6400, rng.randrange(3200))]
    return (*rng.choice(enough if rng.random() < 0.95 else short), rng.choice((0, rng.randrange(1, 10**17))))


def lent(rng, n, gates):
    """A list as a row lends it: as text, or as bytes with or without some behind."""
    if rng.random() < 0.4:
        return list_text(n, gates)
    return ref.record(n, gates) + bytes(rng.randrange(256) for _ in range(rng.choice((0, 0, 1, 7))))


def damaged_lists(rng, a, b, *records):
    """Two lists as a row lends them, one or both of them damaged records instead."""
    bad_a, bad_b = (pairs.damaged(rng, data) for data in records)
    return rng.choice(((bad_a, b), (bad_a, b), (a, bad_b), (a, bad_b), (bad_a, bad_b)))


def random_pair_row(check, rng, call, families=pairs.FAMILIES):
    """A pair of a random family; now and then one or both are damaged, or on other qubits, or the first is given twice."""
    family = rng.choice(families)
    check.see(f"{call}: family {family.__name__}")
    n, first, second = family(rng)
    a, b = lent(rng, n, first), lent(rng, n, second)
    luck = rng.random()
    if luck < 0.12:
        a, b = damaged_lists(rng, a, b, ref.record(n, first), ref.record(n, second))
    elif luck < 0.14:
        b = ref.record(rng.choice([m for m in range(1, 17) if m != n]), [])
    elif luck < 0.18:
        b = "="
    fields = compare_row(check, workspace_numbers(rng), a, b, call)
    if call == "compare" and luck >= 0.18 and isinstance(fields, list) and is_small(n, first, second):
        check_columns(check, n, first, second, fields)
    h = pairs.h_gates(first + second)
    if luck >= 0.18 and fields == 9 and n + h == 129:
        check.see("compare: 129 variables")
        if n in (1, 16):
            check.see(f"compare: {'1 qubit' if n == 1 else '16 qubits'}, {h} H gates")


# Small blocks.


def dense_row(check, numbers, first, second):
    """A row of the dense comparison. Gives the verdict and its two numbers, or the number of the refusal."""
    answer, _ = check.row(row("", "dense", numbers, first, second)[1:])
    a, b = lent_bytes(first, second)
    refusal = refusal_of(ref.read_small, a, b, numbers[0])
    before = {0: "zeros", 1: "the lowest number", 2: "the highest number"}.get(numbers[1], "rubbish")
    check.see(f"dense: {before}, {'refused' if refusal else 'accepted'}")
    if refusal:
        check.see(f"dense: refused {refusal.number}")
        see_bad_lists(check, "dense", a, b, refusal)
        return refusal.number
    n, gates, others = ref.read_small(a, b, numbers[0])
    fields = answer.split(",")[0].split()
    see_small(check, n, gates, others, fields)
    check.see(f"dense: {'512' if numbers[0] == 512 else 'more'} numbers")
    if second == "=":
        check.see("dense: one slice given twice")
    if len(a) > len(ref.record(n, gates)):
        check.see("dense: bytes behind a record")
    return fields


def see_small(check, n, gates, others, fields):
    """The classes of an accepted small block."""
    verdict, v, h = named(fields), int(fields[2]), ref.h_gates(gates + others)
    shapes = {
        f"no T gate: {verdict}": ref.t_gates(gates) + ref.t_gates(others) == 0,
        "60 H gates": h == 60,
        "66 variables": n + h == 66,
        "512 gates in both lists": len(gates) == len(others) == 512,
        "turned, 512 gates in both lists": len(gates) == len(others) == 512 and fields[0] == "turned",
    }
    names = [verdict, f"{n} qubits", *(name for name, yes in shapes.items() if yes)]
    if fields[0] == "different":
        place = "the last" if v == (1 << n) - 1 else str(v) if v < 2 else "in the middle"
        names.append(f"first differing input {place}")
    check.see(*(f"dense: {name}" for name in names))
    if n <= 3 and len(gates) + len(others) <= 40:
        check_small_columns(check, n, gates, others, fields)


def check_small_columns(check, n, gates, others, fields):
    """The verdict of a small block, the power where turned and the input where different, against its columns, one by one."""
    columns, v = ref.Columns(n, gates, others), int(fields[2])
    good = fields[0] != "undecided" and columns.bear_out(fields[0], int(fields[1]), v)
    if fields[0] == "different":
        good = good and columns.carry(range(v)) and not columns.carry(range(v + 1))
    if not good:
        fail(f"{' '.join(fields)} is not what the columns say: {list_text(n, gates)} and {list_text(n, others)}")
    check.see(f"dense: column by column: {named(fields)}")


def number_numbers(rng):
    """How many numbers are lent, mostly enough, and what they hold before."""
    lent = rng.choice((512, 512, 513, 520)) if rng.random() < 0.96 else rng.choice((0, 1, 511, rng.randrange(512)))
    return lent, rng.choice((0, 1, 2, rng.randrange(3, 10**17)))


def random_small_row(check, rng, family):
    """A small block through the dense comparison and, if it is accepted, through the path sum; now and then damaged, or none."""
    n, first, second = family(rng)
    check.see(f"dense: family {family.__name__}")
    a, b = lent(rng, n, first), lent(rng, n, second)
    luck = rng.random()
    if luck < 0.06:
        a, b = damaged_lists(rng, a, b, ref.record(n, first), ref.record(n, second))
    elif luck < 0.08:
        b = ref.record(rng.choice([m for m in range(1, 17) if m != n]), [])
    elif luck < 0.10:
        a, b = ref.record(rng.randint(7, 16), first), "="
    elif luck < 0.13:
        b = "="
    numbers = number_numbers(rng)
    rows = len(check.rows)
    if isinstance(dense_row(check, numbers, a, b), list):
        compare_row(check, (*NEEDED, numbers[1]), a, b)
        check.both.append((rows, rows + 1))


def fixed_small_rows(check):
    """Small blocks at their limits: qubits, H gates, numbers, and what these hold."""
    equal = ["equal", "0", "0"]
    nine = ((1, 128, 9), (6, 123, 9), (7, 122, 9), (16, 113, 9))
    for n, h, want in ((1, 60, equal), (6, 60, equal), (1, 61, 14), (6, 61, 14), (6, 122, 14), (7, 60, 14), (7, 121, 14), *nine):
        for cut in (0, 1, h // 2, h):
            lists = (ref.record(n, pairs.one(ref.H, *[n - 1] * count)) for count in (cut, h - cut))
            hold(dense_row(check, (512, 3), *lists), want)
    for seed in (0, 1, 2, 3, 10**17):
        for lent_now in (0, 1, 511, 512, 513, 520):
            for n in (1, 6):
                fields = dense_row(check, (lent_now, seed), list_text(n, pairs.one(ref.T, n - 1)), list_text(n, []))
                hold(fields, 10 if lent_now < 512 else ["different", "0", str(1 << n - 1)])
        hold(dense_row(check, (520, seed), list_text(7, []), "="), 14)


def agree(check, call, here, there, what):
    """What the dense comparison and the path sum found of one small block; fails where the latter decides and verdict or power differ."""
    if there[0] == "undecided":
        check.see(f"{call}: undecided there, {here[0]} here")
    elif here[0] != there[0] or here[0] != "different" and here[:3] != there[:3]:
        fail(f"{' '.join(here)} by the dense comparison, {' '.join(there)} by the path sum: {what}")
    else:
        check.see(f"{call}: both {named(here)}")
        if here[:3] != there[:3]:
            check.see(f"{call}: both different, other inputs")


def agree_in_rows(check):
    """What both comparisons printed for each small block."""
    for rows in check.both:
        here, there = (check.printed[str(i)].split(": ")[1].split(",")[0].split() for i in rows)
        agree(check, "dense", here, there, f"row\n{check.rows[rows[0]]}")


def run_both(check, data):
    """The program compare_small on these bytes and, if they are accepted, the program compare."""
    here = check.run_program(data, name="compare_small")
    if here[0] != "refused":
        agree(check, "program compare_small", here, check.run_program(data), data.hex())


def both_line(check):
    """How the two comparisons stand to each other, in one line."""
    seen = {name: check.seen[f"dense: {name}"] for name in BOTH}
    decided = sum(count for name, count in seen.items() if re.fullmatch(r"both (equal|different|turned \d)", name))
    return (
        f"{len(check.both)} small blocks by both comparisons: {decided} decided by both, the verdicts and the powers agree"
        f" ({seen['both different, other inputs']} with other inputs); undecided by the path sum, {seen['undecided there, equal here']} equal,"
        f" {seen['undecided there, turned here']} turned and {seen['undecided there, different here']} different"
    )


# Joins.


def join_faults(call, n, m, gates, size):
    """The numbers that fit two good lists, with so many gates together, and a buffer of so many bytes, in the order of the checks."""
    own = (8, n != m) if call == "join_in_time" else (3, n + m > 16)
    return [number for number, holds in (own, (4, gates > 512), (11, size < 5 + 3 * gates)) if holds]


def join_row(check, call, numbers, first, second):
    """A row of a join. Gives the joined record, or the number of the refusal."""
    answer, _ = check.row(row("", call, numbers, first, second)[1:])
    a, b = lent_bytes(first, second)
    refusal = refusal_of(getattr(ref, call), a, b, bytes(numbers[0]))
    check.see(f"{call}: {'rubbish' if numbers[1] else 'zeros'}, {'refused' if refusal else 'accepted'}")
    if refusal and refusal.which:
        check.see(f"{call}: refused {refusal.number}")
        see_bad_lists(check, call, a, b, refusal)
        return refusal.number
    (n, gates, end), (m, others, other_end) = ref.read_record(a), ref.read_record(b)
    faults = join_faults(call, n, m, len(gates + others), numbers[0])
    hold(refusal.number if refusal else None, faults[0] if faults else None)
    see_limits(check, call, (n, gates), (m, others), numbers[0], faults[0] if faults else None)
    if faults:
        check.see(f"{call}: good lists refused {' before '.join(map(str, faults))}")
        return faults[0]
    shapes = {"one slice given twice": second == "=", "bytes behind the first list": len(a) > end, "bytes behind the second list": len(b) > other_end}
    check.see(*(f"{call}: {name}" for name, yes in shapes.items() if yes))
    record = bytes.fromhex(answer.split()[2])
    see_joined(check, call, (n, gates), (m, others), record)
    return record


def see_limits(check, call, first, second, size, number):
    """The limits that a join of two good lists is at, accepted or refused by this number."""
    gates, qubits = len(first[1] + second[1]), second[0] + (first[0] if call == "join_in_space" else 0)
    more = size - (5 + 3 * gates)
    shapes = {
        None: {
            f"{gates} gates": gates in (511, 512),
            "16 qubits": qubits == 16,
            "a buffer as long as the record": more == 0,
            "a buffer one byte longer": more == 1,
        },
        3: {"17 qubits": qubits == 17},
        4: {"513 gates": gates == 513},
        8: {},
        11: {"a buffer one byte short": more == -1, "no buffer": size == 0},
    }
    check.see(*(f"{call}: {name}" for name, yes in shapes[number].items() if yes))


def see_joined(check, call, first, second, record):
    """The classes of an accepted join; on few qubits it is held to exact columns."""
    (n, gates), (m, others) = first, second
    k, joined, _ = ref.read_record(record)
    h = ref.h_gates(joined)
    shapes = {
        "no gates": not joined,
        "no gates in the first list": not gates and others,
        "no gates in the second list": gates and not others,
        "more H gates than a comparison takes": k + h > 128,
    }
    names = ["accepted", *(name for name, yes in shapes.items() if yes), *{f"kind {kind} second" for kind, _, _ in others}]
    if k <= 6 and len(joined) <= 40 and h <= 12:
        if not ref.is_join(call == "join_in_space", first, second, (k, joined)):
            fail(f"{record.hex()} is not what the columns say: {call} of {list_text(n, gates)} and {list_text(m, others)}")
        names.append("columns of the product")
        if ref.h_gates(gates) and ref.h_gates(others) and ref.t_gates(gates) and ref.t_gates(others):
            names.append("columns of the product, H and T gates in both lists")
    check.see(*(f"{call}: {name}" for name in names))


def join_numbers(rng, size):
    """How many bytes are lent, mostly enough for a record of that size, and what they hold before."""
    lent_now = rng.choice((size, size, size + 1, 2048)) if rng.random() < 0.85 else rng.choice((0, size - 1, size - 1, rng.randrange(size)))
    return min(lent_now, 2048), rng.choice((0, *range(1, 20), 10**17))


def random_join_row(check, rng, call):
    """Two lists of a random family joined; now and then one or both are damaged, or the first is given twice."""
    family = rng.choice(pairs.JOINS)
    check.see(f"{call}: family {family.__name__}")
    n, first, m, second = family(rng, call == "join_in_space")
    a, b = lent(rng, n, first), lent(rng, m, second)
    luck = rng.random()
    if luck < 0.12:
        a, b = damaged_lists(rng, a, b, ref.record(n, first), ref.record(m, second))
    elif luck < 0.18:
        b, second = "=", first
    join_row(check, call, join_numbers(rng, 5 + 3 * len(first + second)), a, b)


def inverse_rows(check, rng):
    """A pair, and the first list joined in time with the inverse of the second, against nothing, as rows of both comparisons."""
    n, first, second = rng.choice((*pairs.FAMILIES, pairs.turned, pairs.small_open))(rng)
    if len(first + second) > 512 or n + ref.h_gates(first + second) > 128:
        return
    a, b, size, seed = lent(rng, n, first), lent(rng, n, second), 5 + 3 * len(second), rng.choice((0, 7))
    inverse = check.simple("inverse", numbers=(size,), first=b, second=bytes(size))
    joined = join_row(check, "join_in_time", (2048, seed), a, buffer_of(inverse))
    calls = [(compare_row, (*NEEDED, seed)), (dense_row, (512, seed))]
    for one_row, numbers in calls[: 2 if n <= 6 and ref.h_gates(first + second) <= 60 else 1]:
        check.inverses.append(len(check.rows))
        one_row(check, numbers, a, b)
        one_row(check, numbers, joined, list_text(n, []))


def agree_by_inverses(check):
    """What a comparison printed for a pair, and for the first list joined with the inverse of the second; fails where that differs."""
    for at in check.inverses:
        here, there = (check.printed[str(i)].split(": ")[1] for i in (at, at + 1))
        if here != there:
            fail(f"{there} of the first list joined with the inverse of the second, {here} of the pair: row\n{check.rows[at]}")
        check.see(f"{check.rows[at].split(';')[1]}: joined with the inverse, {named(here.split(',')[0].split())}")


def run_by_inverses(check):
    """The same by programs, on the records of these rows."""
    for at in check.inverses:
        name = {"compare": "compare", "dense": "compare_small"}[check.rows[at].split(";")[1]]
        pair, joined = (call_rows.both_of(*text.split(";")[3:]) for text in check.rows[at : at + 2])
        here, there = (check.run_program(b"".join(data[: ref.read_record(data)[2]] for data in lists), name=name) for lists in (pair, joined))
        if here != there:
            fail(f"{name} prints {' '.join(there)} of the first list joined with the inverse of the second: row\n{check.rows[at]}")
        check.see(f"program {name}: joined with the inverse, {named(here)}")


def joins_line(check):
    """The joins in one line."""
    accepted, held = (sum(check.seen[f"{call}: {name}"] for call in call_rows.JOINS) for name in ("accepted", "columns of the product"))
    pairs_compared = f"{len(check.inverses)} pairs compared also as one list, joined with an inverse, with the same result"
    return f"{accepted} joins, {held} of them held to columns; {pairs_compared}"


def fixed_joins(check):
    """Joins at their limits: every two numbers of qubits, gates, and bytes of the buffer."""
    for n in range(1, 17):
        for m in range(1, 17):
            for call, number, bad in (("join_in_time", 8, n != m), ("join_in_space", 3, n + m > 16)):
                record = join_row(check, call, (5, n), list_text(n, []), list_text(m, []))
                hold(record, number if bad else ref.record(n if call == "join_in_time" else n + m, []))
    for call in call_rows.JOINS:
        for gates in (511, 512, 513):
            for g in (1, 255, 256, 257, 511, *([0, 512] if gates == 512 else [])):
                lists = (ref.record(1, pairs.one(kind, *[0] * count)) for kind, count in ((ref.T, g), (ref.X, gates - g)))
                joined = join_row(check, call, (2048, g), *lists)
                hold(joined if gates > 512 else joined[3] + 256 * joined[4], 4 if gates > 512 else gates)
        for size in (*range(14), 2048):
            joined = join_row(check, call, (size, size), list_text(1, pairs.one(ref.H, 0)), "=")
            hold(joined if size < 11 else len(joined), 11)


# Records and reports.


def buffer_of(words):
    """What a writer's buffer holds afterwards, the last word of its answer."""
    return bytes.fromhex(words[-1].replace("-", ""))


def record_rows(check, rng):
    """check, gates and inverse of a random record, often damaged."""
    n, gates, _ = rng.choice(pairs.FAMILIES)(rng)
    data = lent(rng, n, gates)
    if rng.random() < 0.6:
        data = pairs.damaged(rng, ref.record(n, gates))
    check.simple("check", first=data)
    check.simple("gates", first=data)
    size = 5 + 3 * len(gates)
    room = max(0, size + rng.choice((-size, -1, 0, 0, 1, 5)))
    buffer = rng.randbytes(room + rng.choice((0, 3)))
    words = check.simple("inverse", numbers=(room,), first=data, second=buffer)
    if words[0] == "length" and len(gates) == 512:
        check.see("inverse: 512 gates")
    if words[0] == "length":
        length = int(words[1])
        twice = check.simple("inverse", numbers=(room,), first=buffer_of(words)[:length], second=buffer)
        read = call_rows.bytes_of(data if isinstance(data, str) else data.hex())
        if buffer_of(twice)[:length] != read[:length]:
            fail(f"inverse twice of {data} is {twice[-1]}")
        check.see("inverse: twice")


def builder_rows(check, rng):
    """start and a chain of adds in one buffer, some refused; the buffer of each row is what the row before left."""
    n, gates, _ = rng.choice((pairs.mixed, pairs.few_gates, pairs.diagonal))(rng)
    gates = gates[:12]
    size = 5 + 3 * rng.randint(0, len(gates) + 1) + rng.choice((0, 0, 1, 2))
    buffer = rng.randbytes(size + rng.choice((0, 0, 4)))
    m = n if rng.random() < 0.8 else rng.choice((0, 17, 255, 10**9))
    words = check.simple("start", numbers=(rng.choice((size, size, 0, 4)), m), second=buffer)
    buffer = buffer_of(words)
    for gate in gates if words[0] == "length" else gates[:1]:
        gate = gate if rng.random() < 0.85 else pairs.bad_gate(rng, n)
        buffer = buffer_of(check.simple("add", numbers=(min(size, len(buffer)), *gate), second=buffer))
        if rng.random() < 0.05:
            buffer = pairs.damaged(rng, buffer or b"\0")
    gate = pairs.random_gate(rng, n, pairs.ALL) if rng.random() < 0.5 else pairs.bad_gate(rng, n)
    check.simple("check_gate", numbers=(n, rng.choice((0, 1, 255, 256, 511, rng.randrange(10**18))), *gate))


def see_last_verdict(check, call, verdict, words):
    """The last verdict that there is, taken, and the next one, refused."""
    if verdict in (3, 4) and (words[0] != "refused" or words[1] == "5"):
        check.see(f"{call}: verdict {verdict}, {words[0]}")


def report_rows(check, rng):
    """A report written, read back, and read with a fault."""
    fields = [rng.choice((0, 1, 2, 3, 3, 4, 255)), *(rng.choice((0, 1, rng.randrange(65536))) for _ in range(2))]
    fields += [rng.randrange(256) for _ in range(5)]
    room = rng.choice((0, 11, 12, 12, 13))
    words = check.simple("write_report", numbers=(room, *fields), second=rng.randbytes(room + rng.choice((0, 2))))
    see_last_verdict(check, "write_report", fields[0], words)
    data = buffer_of(words)
    read = check.simple("read_report", first=data)
    if words[0] == "length" and read[1:] != [str(x) for x in fields]:
        fail(f"report of {fields} reads back as {read}")
    data = bytearray(data)
    if data:
        data[rng.randrange(min(3, len(data)))] = rng.choice((0, 2, 3, 4, 0x51, 0x56, 0x43))
        words = check.simple("read_report", first=bytes(data[: rng.choice((11, 12, 14))]))
        see_last_verdict(check, "read_report", (data + bytes(3))[2], words)


def bad_rows(check, rng):
    """A row with one character replaced, taken out or put in: often bad, and the same for both."""
    text = rng.choice(check.rows).split(";", 1)[1]
    if len(text) > 300:
        return
    at = rng.randrange(len(text))
    text = text[:at] + rng.choice(("", *";: =-0xhg", text[at] * 2)) + text[at + 1 :]
    check.row(text)


# Fixed cases.


def long_row(check, name, short):
    """A row that the program's memory cannot hold, and a short one behind it: the program answers both, by its name only as far as a row reaches."""

    def limit():
        resource.setrlimit(resource.RLIMIT_AS, (LITTLE_MEMORY, LITTLE_MEMORY))

    piece = b"a" * 1_000_000
    with subprocess.Popen([program(name)], stdin=subprocess.PIPE, stdout=subprocess.PIPE, bufsize=0, preexec_fn=limit) as child:
        try:
            for _ in range(LONG_ROW // len(piece)):
                child.stdin.write(piece)
            child.stdin.write(f"\n{short}\n".encode())
        except BrokenPipeError:
            pass  # it ended before its input did, and is found out below
        child.stdin.close()
        printed = child.stdout.read().decode()
    want = f"{'a' * call_rows.MOST_LINE}: bad row\n{call_rows.line(short)}\nrows 2\n"
    if child.returncode or printed != want:
        fail(f"{name} ended with {child.returncode} on a row of {LONG_ROW} bytes and\n{short}\nprinted\n{printed}wanted\n{want}")
    check.see(f"rows of {name}: longer than its memory")


def fixed_long_rows(check):
    """Each program of rows: a row takes no more memory, however long it is."""
    for name, short in (("record_calls", "1;check;;5143010000;"), ("pair_calls", "1;dense;512 0;5143010000;=")):
        long_row(check, name, short)


def full_records():
    """Two records of 512 gates: on 1 qubit, on 16 qubits with 112 H gates, and on 16 qubits with 512 gates on two."""
    h = pairs.one(ref.H, *(q % 16 for q in range(56)))
    rest = [(ref.CX, q % 16, (q + 5) % 16) for q in range(512 - 56)]
    return (
        (1, pairs.one(ref.T, *[0] * 512), pairs.one(ref.TI, *[0] * 512), "equal 0 0 0 0 0 0 0"),
        (16, h + rest, h + rest, "equal 0 0 16 16 0 40 0"),
        (16, [(ref.SWAP, 0, 15)] * 512, [(ref.CZ, 15, 0)] * 512, "equal 0 0 0 0 0 0 0"),
    )


def long_inputs(check, data, line, name="compare"):
    """Two records of 512 gates as a program's input: whole, cut, and with bytes in front and behind."""
    if len(data) != 3082:
        fail(f"{len(data)} bytes where 3082 are meant")
    check.run_program(data, line, name)
    for size, number in ((4, 1), (5, 13), (1540, 13), (1541, 1), (1545, 1), (1546, 13), (3081, 13)):
        check.run_program(data[:size], f"refused {number}", name)
    check.run_program(data + b"\0", "refused 12", name)
    check.run_program(data + b"\0" * 1000000, "refused 12", name)
    check.run_program(b"\0" + data * 400, "refused 2", name)
    check.see(*(f"program {name}: {size} bytes" for size in (3082, 3083, 1000000)))


def fixed_inputs(check):
    """The program compare at its limits."""
    example = bytes.fromhex("514301060003 00FF0700FF0300FF0700FF0300FF0700FF5143010000")
    check.run_program(example, "turned 7 0 1 1 1 0 0")
    check.run_program(b"", "refused 1")
    for n, first, second, line in full_records():
        long_inputs(check, ref.record(n, first) + ref.record(n, second), line)
    taken = ((16, 112, "different 0 0 16 0 0 48 0"), (1, 127, "different 0 0 1 0 0 63 0"))
    for n, h, line in (*taken, (16, 113, "refused 9"), (1, 128, "refused 9")):
        data = ref.record(n, pairs.one(ref.H, *(q % n for q in range(h))))
        check.run_program(data + ref.record(n, []), line)
    check.run_program(ref.record(17, []) + ref.record(17, []), "refused 3")
    check.run_program(ref.record(1, pairs.one(ref.X, *[0] * 513)) + ref.record(1, []), "refused 4")


def fixed_turns(check):
    """X T X T up to eight times against nothing, and Y against what it is but for a power of ω, both ways round through both programs."""
    y, zx, xz = ([ref.Y], [ref.Z, ref.X], [ref.X, ref.Z])
    cases = [(pairs.BY_X_AND_T * times, [], 8 - times) for times in range(1, 9)]
    cases += [(zx, y, 2), (xz, y, 6), (zx, xz, 4), (y * 2, [], 0), (y, y, 0)]
    for first, second, power in cases:
        for one, other, j in ((first, second, power), (second, first, -power % 8)):
            data = ref.record(1, pairs.on(0, one)) + ref.record(1, pairs.on(0, other))
            line = f"turned {j} 0" if j else "equal 0 0"
            check.run_program(data, f"{line} 0 0 0 0 0")
            check.run_program(data, line, "compare_small")


def fixed_small_inputs(check):
    """The program compare_small at its limits: the longest lists, qubits, H gates; 12 comes before 8, 9 and 14."""
    name = "compare_small"
    for (n, first, second, _), line in zip(full_records(), ("equal 0 0", "refused 14", "refused 14")):
        long_inputs(check, ref.record(n, first) + ref.record(n, second), line, name)
    taken = ((4, 60, "equal 0 0"), (6, 60, "equal 0 0"))
    for n, h, line in (*taken, (3, 61, "refused 14"), (6, 61, "refused 14"), (6, 122, "refused 14"), (6, 123, "refused 9"), (7, 0, "refused 14")):
        for cut in (0, h // 3, h):
            data = b"".join(ref.record(n, pairs.one(ref.H, *[n - 1] * count)) for count in (cut, h - cut))
            check.run_program(data, line, name)
            check.run_program(data + b"\0", "refused 12", name)
    for first, second, line in ((6, 6, "different 0 48"), (6, 7, "refused 8")):
        data = ref.record(first, [(ref.CZ, 4, 5)]) + ref.record(second, [])
        check.run_program(data, line, name)
        check.run_program(data + b"\0", "refused 12", name)
        check.run_program(data[:-1], "refused 1", name)


def fixed_rows(check):
    """The calls at their limits."""
    for n, first, second, line in full_records():
        for numbers in ((*NEEDED, 1), (6464, 3264, 0)):
            fields = compare_row(check, numbers, ref.record(n, first), ref.record(n, second))
            hold(" ".join(fields), line)
            compare_row(check, numbers, list_text(n, first), "=", "pick")
        compare_row(check, (*NEEDED, 1), ref.record(n, first), ref.record(n, second), "pick")
        check.simple("inverse", numbers=(1541,), first=ref.record(n, first), second=bytes(1541))
        check.simple("inverse", numbers=(1540,), first=ref.record(n, first), second=bytes(1541))
        for kind in (ref.X, 11):
            for size, g in ((1544, 512), (1541, 511)):
                words = check.simple("add", numbers=(size, kind, 0, 255), second=ref.record(n, first[:g]) + bytes(3))
                check.see(f"add: at {g} gates, " + " ".join(words[:-1]))
    for words in (0, 1, 3136, 3200, 6399, 6400, 6401):
        for places in (0, 1, 3136, 3199, 3200, 3201):
            for call in ("compare", "pick"):
                refusal = compare_row(check, (words, places, 12345), "1:t0 t0", "1:s0", call)
                hold(refusal == 10, words < 6400 or places < 3200)
    for n in range(1, 17):
        for h in (128 - n, 129 - n):
            for cut in (0, h // 2, h):
                lists = (ref.record(n, pairs.one(ref.H, *(q % n for q in range(count)))) for count in (cut, h - cut))
                hold(compare_row(check, (*NEEDED, n), *lists) == 9, n + h > 128)


def refused_rows(check, data, number, gate=""):
    """A record through every call that reads one, refused by this number and at this gate; as a first list and as a second."""
    size, good = len(data), ref.record(1, [])
    for words in (
        check.simple("check", first=data),
        check.simple("inverse", numbers=(size,), first=data, second=bytes(size))[:-1],
        check.simple("add", numbers=(size, ref.X, 0, 255), second=data)[:-1],
    ):
        hold(" ".join(words), f"refused {number}{gate}")
    hold(check.simple("gates", first=data), ["gates", "-"])
    for first, second, which in ((data, good, "first"), (good, data, "second")):
        compare_row(check, (*NEEDED, 1), first, second)
        hold(check.lines[-1].split(": ")[1].split(",")[0], f"refused {number} {which}{gate}")
        compare_row(check, (*NEEDED, 1), first, second, "pick")
        dense_row(check, (512, 3), first, second)
        hold(check.lines[-1].split(": ")[1].split(",")[0], f"refused {number} {which}{gate}")
        for call in call_rows.JOINS:
            join_row(check, call, (2048, 3), first, second)
            hold(check.lines[-1].split(": ")[1], f"refused {number} {which}{gate} kept 2048")


def fixed_refusals(check):
    """A record cut at every byte, and a bad gate of each number at 0, 255, 256 and 511 of 512."""
    whole = ref.record(1, pairs.one(ref.T, 0, 0, 0))
    for size in range(len(whole)):
        refused_rows(check, whole[:size], 1 if size < 5 else 13)
    for number, gate in ((5, (11, 0, 255)), (6, (ref.T, 1, 255)), (7, (ref.T, 0, 0))):
        for index in (0, 255, 256, 511):
            gates = pairs.one(ref.T, *[0] * 512)
            gates[index] = gate
            refused_rows(check, ref.record(1, gates), number, f" gate {index}")


def damaged_input(rng, data):
    """The program's input with a fault, or a pair that does not belong together."""
    fault = rng.randrange(5)
    if fault == 0:
        return data[: rng.randrange(len(data) + 1)]
    if fault == 1:
        return data + rng.randbytes(rng.randint(1, 4))
    first = ref.read_record(data)[2]
    if fault == 2:
        return data[:first] + ref.record(rng.choice((1, 2, 16)), [])
    if fault == 3:
        return data[:first] + pairs.damaged(rng, data[first:])
    return pairs.damaged(rng, data[:first]) + data[first:]


def show_classes(check):
    """The counts. Every class came up, every one that came up is listed, and every row was run."""
    for name in CLASSES:
        print(f"{check.seen[name]:7} {name}")
    missing = [name for name in CLASSES if not check.seen[name]]
    if missing:
        fail(f"never came up: {', '.join(missing)}")
    unlisted = sorted(name for name in check.seen if name not in CLASSES)
    if unlisted:
        fail(f"came up, but classes.py does not list it: {', '.join(unlisted)}")
    if check.rows_run != len(check.rows):
        fail(f"{check.rows_run} of {len(check.rows)} rows were run")


def main():
    times = int(sys.argv[1]) if len(sys.argv) > 1 else 1
    rng = random.Random(SEED)
    check = Check()
    fixed_inputs(check)
    fixed_turns(check)
    fixed_small_inputs(check)
    fixed_rows(check)
    fixed_long_rows(check)
    fixed_refusals(check)
    fixed_small_rows(check)
    fixed_joins(check)
    for _ in range(4000 * times):
        random_pair_row(check, rng, "compare")
    for i in range(2000 * times):
        random_pair_row(check, rng, "pick", (pairs.worth, pairs.turned) if i % 2 else pairs.FAMILIES)
    for i in range(2000 * times):
        random_join_row(check, rng, ("join_in_time", "join_in_space")[i % 2])
    for _ in range(600 * times):
        inverse_rows(check, rng)
    for _ in range(600 * times):
        record_rows(check, rng)
        builder_rows(check, rng)
        report_rows(check, rng)
        bad_rows(check, rng)
    for i in range(3500 * times):
        random_small_row(check, rng, rng.choice(pairs.SMALL[:-1]) if i % 100 else pairs.small_long)
    check.run_rows()
    agree_in_rows(check)
    agree_by_inverses(check)
    run_by_inverses(check)
    inputs = 2000 * times
    for i in range(inputs):
        n, first, second = rng.choice(pairs.FAMILIES)(rng)
        data = ref.record(n, first) + ref.record(n, second)
        check.run_program(damaged_input(rng, data) if i % 3 == 0 else data)
        if i % 3 and 64 < n + pairs.h_gates(first + second) <= 128:
            check.see("program compare: more than 64 variables")
    blocks = 600 * times
    for i in range(blocks):
        n, first, second = rng.choice((pairs.FAMILIES, [pairs.small_turned], *[pairs.SMALL[:-1]] * 6)[i % 8])(rng)
        data = ref.record(n, first) + ref.record(n, second)
        run_both(check, damaged_input(rng, data) if i % 3 == 0 else data)
    show_classes(check)
    print(both_line(check))
    print(joins_line(check))
    print(f"{len(check.rows)} rows and {inputs + blocks} random inputs: all agree with the independent implementation")


if __name__ == "__main__":
    main()
