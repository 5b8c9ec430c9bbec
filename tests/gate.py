#!/usr/bin/env python3
"""Tries the gate itself: .ci/run over stand-ins for rt and the tests, and the tests over copies and scripts with a fault put in. Each fault must
be noticed, and what has none must pass.

    python3 tests/gate.py

It prints what was not noticed and fails where anything was not; its last line counts the trials.
"""
import contextlib
import io
import os
import shutil
import subprocess
import sys
import tempfile

sys.dont_write_bytecode = True
import against_reference as cross
import front_door
import make_rows
from call_rows import MOST_LINE, PROGRAMS
from classes import CLASSES

HERE = os.path.dirname(os.path.abspath(__file__))
ROOT = os.path.dirname(HERE)
SECONDS = 120
HELD = {"trials": 0, "failed": 0}


def trial(label, good, shown=""):
    """One trial; what was printed is shown where it went wrong."""
    HELD["trials"] += 1
    if not good:
        HELD["failed"] += 1
        print(f"FAILED {label}\n    {shown}")


def put(folder, name, content, mode=0o644):
    """A file in a folder."""
    path = os.path.join(folder, name)
    os.makedirs(os.path.dirname(path), exist_ok=True)
    with open(path, "w", encoding="utf-8") as file:
        file.write(content)
    os.chmod(path, mode)


# ---- .ci/run
TESTS = ("make_rows.py --check", "phase_sum_rows.py --check", "gate.py", "documents.py", "against_reference.py", "front_door.py")
COUNT = "5 passed, 0 failed"
PIPES = {"stdin": subprocess.DEVNULL, "stdout": subprocess.PIPE, "stderr": subprocess.DEVNULL}


BUILT = ("compare", "compare_small", "record_calls", "pair_calls", "phase_sum_vectors")
WELL = f"echo 'rt: ok; handles allowed: none; must-fail edits: 3 refused; all done'; echo '{COUNT}'"


def run_gate(folder, ci, failing=None, built=BUILT, jobs="2", slow=None, end="sys.exit(1)"):
    """(status, lines) of the gate where rt ci is this piece of shell and builds these programs, one test may fail and one be slow; each prints a
    line."""
    shutil.rmtree(os.path.join(folder, "target"), ignore_errors=True)
    shutil.rmtree(os.path.join(folder, "crates"), ignore_errors=True)
    for name in built:
        put(folder, f"crates/{name}/out/{name}", name)
    for test in TESTS:
        name = test.split()[0]
        pause = "time.sleep(0.3)\n" if test == slow else ""
        last = end if test == failing else ""
        put(folder, f"tests/{name}", f"import os, sys, time\n{pause}print('ran', {name!r}, *sys.argv[1:], flush=True)\n{last}\n")
    put(folder, "bin/rt", f'#!/bin/sh\n[ "$*" = version ] && exec echo kit\n[ "$*" = ci ] || exit 9\n{ci}\n', 0o755)
    env = dict(os.environ, PATH=os.path.join(folder, "bin") + ":" + os.environ["PATH"], RT_JOBS=jobs)
    done = subprocess.run([os.path.join(folder, ".ci/run")], env=env, timeout=SECONDS, **PIPES)
    return done.returncode, done.stdout.decode().splitlines()


def try_gate(folder):
    """The count of no failures is the last line where everything passed, and nowhere else."""
    os.mkdir(os.path.join(folder, ".ci"))
    shutil.copy(os.path.join(ROOT, ".ci", "run"), os.path.join(folder, ".ci"))
    os.mkdir(os.path.join(folder, "tools"))
    shutil.copy(os.path.join(ROOT, "tools", "built.sh"), os.path.join(folder, "tools"))
    put(folder, "crates.txt", "compare:\n")
    ok = "rt: ok; handles allowed: none; must-fail edits: 3 refused; all done"
    got = run_gate(folder, f"echo one; echo two; {WELL}")
    trial("gate, all pass", got == (0, ["one", "two", ok, *(f"ran {test}" for test in TESTS), COUNT]), got)
    for jobs in ("3", ""):
        _, lines = run_gate(folder, f"echo \"jobs $RT_JOBS\"; {WELL}", jobs=jobs)
        trial(f"gate, RT_JOBS '{jobs}' is handed on", lines[:1] == [f"jobs {jobs}"], lines)
    for name in BUILT:
        with open(os.path.join(folder, "target", "bin", name), encoding="utf-8") as file:
            trial(f"gate, the program {name} is taken over", file.read() == name)
        with open(os.path.join(folder, "target", f"{name}.stamp"), encoding="utf-8") as file:
            trial(f"gate, the stamp of {name}", [len(line) for line in file.read().splitlines()] == [64, 64, 3])
    for name in BUILT:
        status, lines = run_gate(folder, WELL, built=[other for other in BUILT if other != name])
        trial(f"gate, {name} is not built", status == 1 and lines[-1] == f"gate: rt ci has left no program {name}", lines)
    for test in TESTS:
        status, lines = run_gate(folder, WELL, test)
        trial(f"gate, {test} fails", status == 1 and COUNT not in lines and f"gate: tests/{test.split()[0]} failed" == lines[-1], lines)
    for test in (TESTS[0], TESTS[-1]):
        got = run_gate(folder, WELL, slow=test)
        trial(f"gate, {test} is slow", got == (0, [ok, *(f"ran {test}" for test in TESTS), COUNT]), got)
        for end in ("sys.exit(1)", "os.kill(os.getpid(), 9)"):
            status, lines = run_gate(folder, WELL, test, slow=test, end=end)
            trial(f"gate, {test} is slow and ends by {end}", status == 1 and f"gate: tests/{test.split()[0]} failed" == lines[-1], lines)
    for label, ci, want in (
        ("rt ci fails", "echo '4 passed, 1 failed'; exit 3", 3),
        ("rt ci fails, but counts none", f"{WELL}; exit 3", 3),
        ("rt ci has a bad edit", f"echo 'rt: ok; must-fail edits: 3 refused, 1 bad; all done'; echo '{COUNT}'", 1),
        ("rt ci has ten bad edits", f"echo 'rt: ok; must-fail edits: 3 refused, 1 of them only by a limit, 10 bad; all'; echo '{COUNT}'", 1),
        ("rt ci does not say that it is well", f"echo '{COUNT}'", 1),
        ("rt ci ends well with a failure", "echo '4 passed, 1 failed'", 1),
        ("rt ci ends well with ten", "echo '4 passed, 10 failed'", 1),
        ("rt ci ends well with nothing", ":", 1),
        ("rt ci ends well without a count", f"{WELL}; echo more", 1),
        ("rt ci is ended", f"{WELL}; kill -9 $$", 137),
        ("sources that change meanwhile", f"echo '# changed' >>crates.txt; {WELL}", 1),
        ("a source that comes meanwhile", f"mkdir -p crates/a/src; echo >crates/a/src/lib.rt; {WELL}", 1),
    ):
        status, lines = run_gate(folder, ci)
        ran = [line for line in lines if line.startswith("ran ")]
        trial(f"gate, {label}", status == want and not ran and (not lines or not lines[-1].endswith(" 0 failed")), (status, lines))


# ---- rows and documents, in a copy
def run_test(folder, *words):
    """(status, lines) of a test in a copy."""
    words = [sys.executable, "-B", os.path.join(folder, "tests", words[0]), *words[1:]]
    done = subprocess.run(words, stdin=subprocess.DEVNULL, stdout=subprocess.PIPE, stderr=subprocess.STDOUT, timeout=SECONDS)
    return done.returncode, done.stdout.decode().splitlines()


class Fault:
    """A file of a copy with something replaced, put back at the end."""

    def __init__(self, folder, name, old, new):
        self.path, self.old, self.new = os.path.join(folder, name), old.encode(), new.encode()

    def __enter__(self):
        with open(self.path, "rb") as file:
            self.kept = file.read()
        trial(f"{self.path} has {self.old!r}", self.old in self.kept)
        with open(self.path, "wb") as file:
            file.write(self.kept.replace(self.old, self.new, 1))

    def __exit__(self, *_):
        with open(self.path, "wb") as file:
            file.write(self.kept)


def try_rows(folder):
    """Files that are not those of the rows."""
    for test in ("make_rows.py", "phase_sum_rows.py"):
        got = run_test(folder, test, "--check")
        trial(f"{test}, no fault", got[0] == 0, got)
        trial(f"{test}, an option that is none", run_test(folder, test, "--chek")[0] != 0)
    for name, test, row in (
        ("record_calls", "make_rows.py", "5143"),
        ("pair_calls", "make_rows.py", "h0"),
        ("phase_sum_vectors", "phase_sum_rows.py", "QC"),
    ):
        for file, old in (("stdin", row), ("stdout", "1")):
            with Fault(folder, f"crates/{name}/{file}", old, "7"):
                trial(f"{test}, another {file} of {name}", run_test(folder, test, "--check")[0] != 0)


def try_row_faults(folder):
    """A row that is mistyped, wrong or lost."""
    row = "01: H;compare;6400 3200 0;1:h0;1: => different 0 0 1 0 0 0 0\n"
    gate = "check: second gate bad, 6;check;;51430102000000ff0001ff; => refused 6 gate 1\n"
    body = "check: body one byte short, 13;check;;51430101000000; => refused 13\n"
    pair = "unknown kind;compare;6400 3200 0;5143010000;51430101000b00ff => refused 5 second gate 0\n"
    small = "dense: different at 6 on 3;dense;512 22;3:k12;3: => different 0 6\n"
    short = "dense: 511 numbers;dense;511 9;1:t0;1:t0 => refused 10, numbers zero 0 kept 520\n"
    turned = "x t x t, 3 times;compare;6400 3200 0;1:{x0 t0 x0 t0 *3};1: => turned 5 0 0 0 0 0 0\n"
    again = "dense: turned 3 times;dense;512 21;1:{x0 t0 x0 t0 *3};1: => turned 5 0\n"
    picked = "turned 2: the first, z x and y;pick;6464 3264 177;1:z0 x0;1:y0 => first 51430102000200ff0000ff\n"
    report = "report: verdict 3;read_report;;515603070000000101010000; => fields 3 7 0 1 1 1 0 0\n"
    for label, old, new in (
        ("a mistyped gate", row, row.replace(":h0", ":hh")),
        ("a gate without its qubit", row, row.replace(":h0", ":h")),
        ("a mistyped call", row, row.replace("compare", "compere")),
        ("a part too few", row, row.replace(";1: ", " ")),
        ("another answer", row, row.replace("1 0 0 0 0", "1 0 0 0 1")),
        ("no answer", row, row.split(" =>")[0] + "\n"),
        ("a row less", row, ""),
        ("a row more", row, row + row),
        ("another index", gate, gate.replace("gate 1\n", "gate 2\n")),
        ("no index", gate, gate.replace(" gate 1\n", "\n")),
        ("an index too many", body, body.replace("refused 13", "refused 13 gate 0")),
        ("another number", body, body.replace("refused 13", "refused 1")),
        ("another list", pair, pair.replace("second", "first")),
        ("no list", pair, pair.replace(" second", "")),
        ("another verdict of a small block", small, small.replace("different 0 6", "equal 0 0")),
        ("another first input of a small block", small, small.replace("different 0 6", "different 6 6")),
        ("another second input of a small block", small, small.replace("different 0 6", "different 0 7")),
        ("a count behind a small block's inputs", small, small.replace("different 0 6", "different 0 6 0")),
        ("a number lent too many", short, short.replace(";511 9;", ";512 9;")),
        ("a number not kept", short, short.replace("kept 520", "kept 519")),
        ("a number that is zero", short, short.replace("zero 0", "zero 1")),
        ("equal for turned", turned, turned.replace("turned 5", "equal 0")),
        ("turned by nothing", turned, turned.replace("turned 5", "turned 0")),
        ("turned the other way", turned, turned.replace("turned 5", "turned 3")),
        ("the power as the second number", turned, turned.replace("turned 5 0", "turned 0 5")),
        ("equal for a turned small block", again, again.replace("turned 5", "equal 0")),
        ("a small block turned the other way", again, again.replace("turned 5", "turned 3")),
        ("the second picked where turned", picked, picked.replace("first 51430102000200ff0000ff", "second 51430101000100ff")),
        ("verdict 3 refused", report, report.replace("fields 3 7 0 1 1 1 0 0", "refused 5")),
    ):
        with Fault(folder, "tests/rows.txt", old, new):
            trial(f"make_rows.py, {label}", run_test(folder, "make_rows.py", "--check")[0] != 0)


def try_fault(folder, name, label, old, new):
    """A fault in the independent implementation, which the rows do not bear."""
    with Fault(folder, f"tests/{name}", old, new):
        status, lines = run_test(folder, "make_rows.py", "--check")
        held = status != 0 and "but the independent implementation says" in lines[-1]
        trial(f"make_rows.py, a reference with {label}", held, lines[-1:])


def try_reference_faults(folder):
    """An independent implementation that refuses otherwise than the rows say."""
    four, thirteen = "    if g > 512:\n        raise Refused(4)\n", "    if len(data) < 5 + 3 * g:\n        raise Refused(13)\n"
    for label, old, new in (
        ("a short body by 1", "raise Refused(13)", "raise Refused(1)"),
        ("a short body before 4", four + thirteen, thirteen + four),
        ("the next gate's index", "check_gate(n, i, *gate)", "check_gate(n, i + 1, *gate)"),
        ("an index of one byte", "check_gate(n, i, *gate)", "check_gate(n, i % 256, *gate)"),
        ("the last gate's index for a new one", "check_gate(n, len(gates), kind", "check_gate(n, len(gates) - 1, kind"),
        ("no index", "Refused(refusal.number, refusal.index, which)", "Refused(refusal.number, None, which)"),
        ("the other list", 'read_list(second, "second")', 'read_list(second, "first")'),
        ("an index for a report", "raise Refused(5)\n    inputs", "raise Refused(5, 0)\n    inputs"),
    ):
        try_fault(folder, "reference.py", label, old, new)


def try_turn_faults(folder):
    """The same of verdicts: what is equal and what turned, by which power, what the pick makes of it and which ones a report has."""
    named = 'return ("turned", power, 0) if power else ("equal", 0, 0)'
    for label, old, new in (
        ("turned as equal", named, 'return ("equal", 0, 0)'),
        ("equal as turned", named, 'return ("turned", power, 0)'),
        ("the power as the second number", named, named.replace("power, 0)", "0, power)")),
        ("the constant not negated", "agreed(-s.constant % 8)", "agreed(s.constant)"),
        ("half of the powers", "agreed(-s.constant % 8)", "agreed(-s.constant % 4)"),
        ("a Y without its factor", "self.constant = (self.constant + 2) % 8", "self.constant += 0"),
        ("a complemented phase without its constant", "self.constant = (self.constant + coefficient) % 8", "self.constant += 0"),
        ("a turn without its constant", "s.constant = (s.constant + turn) % 8", "s.constant += 0"),
        ("a small block's power the other way", "agreed(misfits.index(None))", "agreed(-misfits.index(None) % 8)"),
        ("a small block that is never turned", "agreed(misfits.index(None))", "agreed(0)"),
        ("the pick of what is turned", 'if verdict == "equal" and', 'if verdict in ("equal", "turned") and'),
        ("no verdict 3 written", "if verdict >= len(VERDICTS):", "if verdict > 2:"),
        ("a verdict 4 written", "if verdict >= len(VERDICTS):", "if verdict > 4:"),
        ("no verdict 3 read", "if data[2] >= len(VERDICTS):", "if data[2] > 2:"),
        ("a verdict 4 read", "if data[2] >= len(VERDICTS):", "if data[2] > 4:"),
    ):
        try_fault(folder, "reference.py", label, old, new)


def try_column_faults(folder):
    """Columns that do not bear out what rows and the independent implementation both say, and verdicts that the columns do not."""
    for label, old, new in (
        ("a Y that is an X", "return w ^ bit, 6 if one else 2", "return w ^ bit, 0"),
        ("T for its inverse", "{Z: 4, S: 2, SI: 6, T: 1, TI: 7}[kind] if one else 0", "{Z: 4, S: 2, SI: 6, T: 7, TI: 1}[kind] if one else 0"),
        ("an H without its sign", "times_omega(z, 4) if w >> a & 1 else z)", "z)"),
        ("powers the other way", "{w: times_omega(z, j) for w, z in left.items()} == right", "{w: times_omega(z, 8 - j) for w, z in left.items()} == right"),
        ("no root of two", "times_root_two(z, self.h2)", "z"),
    ):
        with Fault(folder, "tests/reference.py", old, new):
            status, lines = run_test(folder, "make_rows.py", "--check")
            trial(f"make_rows.py, columns with {label}", status != 0 and "the columns do not bear it out" in lines[-1], lines[-1:])
    one, wide = ";compare;6400 3200 0;1:x0 t0 x0 t0;1:", ";compare;6400 3200 0;16:xf tf xf tf;16:"
    for row in (one, wide):
        passes(f"make_rows.py, turned 7 by columns{row}", make_rows.held_to_columns, 1, row, "turned 7 0 0 0 0 0 0")
        trial(f"make_rows.py, held by columns{row}", make_rows.held_to_columns(1, row, "turned 7 0 0 0 0 0 0"))
        for answer in ("equal 0 0 0 0 0 0 0", "turned 1 0 0 0 0 0 0", "turned 0 7 0 0 0 0 0", "turned 7 1 0 0 0 0 0", "different 0 1 0 0 0 0 0"):
            ends(f"make_rows.py, {answer} by columns{row}", make_rows.held_to_columns, 1, row, answer)


def rows_alone(folder, label, mark):
    """A copy with the rows that have a mark and no others."""
    for name in ("tests", *(f"crates/{program}" for program in PROGRAMS)):
        shutil.copytree(os.path.join(ROOT, name), os.path.join(folder, name))
    path = os.path.join(folder, "tests", "rows.txt")
    with open(path, encoding="utf-8") as file:
        rows = [line for line in file if mark in line and not line.startswith("#")]
    put(folder, "tests/rows.txt", "".join(rows))
    got = run_test(folder, "make_rows.py"), run_test(folder, "make_rows.py", "--check")
    trial(f"make_rows.py, {label} alone", rows and all(status == 0 for status, _ in got), got)


def try_join_rows(folder):
    """A row of a join that is wrong."""
    time = "join in time: H, then T;join_in_time;2048 6;1:h0;1:t0 => length 11 51430102000700ff0500ff kept 2037\n"
    space = "join in space: CX second;join_in_space;2048 21;3:;2:c01 => length 8 5143050100080304 kept 2040\n"
    many = "join in time: 512 gates and 1;join_in_time;2048 33;1:{x0 *512};1:t0 => refused 4 kept 2048\n"
    bad = "join in space: refusal 6 in the second list;join_in_space;2048 60;5143020000;51430102000000ff0001ff => refused 6 second gate 1 kept 2048\n"
    for label, old, new in (
        ("the second list's gates first", time, time.replace("0700ff0500ff", "0500ff0700ff")),
        ("another length", time, time.replace("length 11", "length 12")),
        ("another number of gates", time, time.replace("5143010200", "5143010300")),
        ("a byte not kept", time, time.replace("kept 2037", "kept 2036")),
        ("no bytes kept", time, time.replace(" kept 2037", "")),
        ("a join of the other kind", time, time.replace("join_in_time", "join_in_space")),
        ("a buffer too short", time, time.replace(";2048 6;", ";10 6;")),
        ("the first list's qubits alone", space, space.replace("514305", "514303")),
        ("a qubit that stays", space, space.replace("080304", "080004")),
        ("a second qubit that stays", space, space.replace("080304", "080301")),
        ("a gate less", many, many.replace("*512", "*511")),
        ("another number", many, many.replace("refused 4", "refused 11")),
        ("a list's own number", many, many.replace("refused 4", "refused 4 first")),
        ("another list", bad, bad.replace("second gate", "first gate")),
        ("another index", bad, bad.replace("gate 1 ", "gate 0 ")),
    ):
        with Fault(folder, "tests/rows.txt", old, new):
            trial(f"make_rows.py, a join, {label}", run_test(folder, "make_rows.py", "--check")[0] != 0)


def try_join_faults(folder):
    """An independent implementation that joins otherwise than the rows say."""
    in_time = "    if n != m:\n        raise Refused(8)\n    return joined("
    in_space = "    if n + m > 16:\n        raise Refused(3)\n    return joined("
    four = "    if len(gates + others) > 512:\n        raise Refused(4)\n"
    eleven = "    if len(buffer) < 5 + 3 * len(gates + others) <= 1541:\n        raise Refused(11)\n"
    gates, second = "    if len(gates) > 512:\n", "[(kind, n + a, n + b if kind > H else b) for kind, a, b in others]"
    both = 'return *read_list(first, "first"), *read'
    for label, old, new in (
        ("the second list first in time", "n, gates + others)", "n, others + gates)"),
        ("the second list first in space", f"gates + {second}", f"{second} + gates"),
        ("the first list alone", "n, gates + others)", "n, gates)"),
        ("qubits moved by one", second, second.replace("n + ", "1 + ")),
        ("qubits moved by the second list's", second, second.replace("n + ", "m + ")),
        ("qubits that stay", second, "others"),
        ("a that stays", second, second.replace("n + a", "a")),
        ("b that stays", second, second.replace("n + b if kind > H else b", "b")),
        ("b of CX alone moved", second, second.replace("kind > H", "kind == CX")),
        ("a spare byte moved", second, second.replace("n + b if kind > H else b", "(n + b) % 256")),
        ("the first list moved", f"gates + {second}", f"{second.replace('n + ', 'm + ').replace('others', 'gates')} + others"),
        ("the first list's qubits alone", "joined(buffer, n + m, ", "joined(buffer, n, "),
        ("513 gates together", gates, gates.replace("512", "513")),
        ("511 gates together", gates, gates.replace("512", "511")),
        ("17 qubits together", in_space, in_space.replace("16", "17")),
        ("15 qubits together", in_space, in_space.replace("16", "15")),
        ("no 3", in_space, "    return joined("),
        ("no 8", in_time, "    return joined("),
        ("8 where the second has more qubits alone", in_time, in_time.replace("!=", "<")),
        ("8 where the first has more qubits alone", in_time, in_time.replace("!=", ">")),
        ("8 in space", in_space, in_time.replace("    return joined(", in_space)),
        ("4 before 8", in_time, four + in_time),
        ("4 before 3", in_space, four + in_space),
        ("11 before 8", in_time, eleven + in_time),
        ("11 before 3", in_space, eleven + in_space),
        ("11 before 4", gates, "    if len(buffer) < 5 + 3 * len(gates):\n        raise Refused(11)\n" + gates),
        ("the second list read first", both, f'read_list(second, "second")\n    {both}'),
        ("a list not named", "Refused(refusal.number, refusal.index, which)", "Refused(refusal.number, refusal.index)"),
    ):
        try_fault(folder, "reference.py", f"{label}, joined", old, new)
    for label, old, new in (
        ("a byte more lent", "before[:size])", "before[: size + 1])"),
        ("the bytes of the record taken for kept", "zip(before[length:]", "zip(before"),
        ("the bytes that are not lent left out", "(after + before[size:])", "after"),
        ("a refusal that changes a byte", "kept {len(before)}", "kept {len(before) - 1}"),
    ):
        try_fault(folder, "call_rows.py", f"{label}, joined", old, new)


def try_product_faults(folder):
    """Products of columns that do not bear out what rows and the independent implementation both say, and joins that the columns do not."""
    for label, old, new in (
        ("ω⁴ that is 1", "times_omega(v, k))", "v[-k:] + v[:-k])"),
        ("one coefficient", "enumerate(u)", "enumerate(u[:1])"),
        ("the second list first", "[composed(x, high) for x in low]", "[composed(y, low) for y in high]"),
        ("the first list's columns alone", "[composed(x, high) for x in low]", "low"),
        ("entries that are not added up", "plus(after.get(w, (0, 0, 0, 0)), times(z, y))", "times(z, y)"),
        ("inputs of the second list low", "for y in high for x in low]", "for x in low for y in high]"),
        ("outputs of the second list low", "w + (x << n)", "x + (w << n)"),
        ("T gates of the first list", " + t_gates(second[1])", ""),
    ):
        with Fault(folder, "tests/reference.py", old, new):
            status, lines = run_test(folder, "make_rows.py", "--check")
            trial(f"make_rows.py, products with {label}", status != 0 and "the columns do not bear it out" in lines[-1], lines[-1:])
    time, space = ";join_in_time;2048 1;1:h0;1:t0", ";join_in_space;2048 1;1:h0;1:t0"
    h, t, moved, answer = "0700ff", "0500ff", "0501ff", "length 11 {} kept 2037".format
    for row, good, others in (
        (time, f"5143010200{h}{t}", (f"5143010200{t}{h}", f"5143010100{h}", f"5143010300{h}{t}{t}", f"5143010400{h}0600ff{t}{t}", f"5143020200{h}{moved}")),
        (space, f"5143020200{h}{moved}", (f"5143020200{h}{t}", f"51430202000701ff{t}", f"5143020100{h}", f"5143010200{h}{t}", f"5143030200{h}{moved}")),
    ):
        trial(f"make_rows.py, {good} by columns{row}", make_rows.held_as_joined(1, row, answer(good)))
        for other in others:
            ends(f"make_rows.py, {other} by columns{row}", make_rows.held_as_joined, 1, row, answer(other))


def try_wide_rows(folder):
    """A row of the limits of sets of two words that is wrong."""
    left, kept = "sets zero 6400 kept 64, coeffs zero 3200 kept 64", "sets zero 0 kept 6464, coeffs zero 0 kept 3264"
    most = f"wide: n = 1, 127 h in the first list;compare;6400 3200 201;1:{{h0 *127}};1: => different 0 0 1 0 0 63 0, {left}\n"
    odd = f"wide: 6401 words, 3200 bytes;compare;6401 3200 6401;2:{{h0 *126}};2: => equal 0 0 1 1 0 62 0, {left}\n"
    short = f"wide: 6399 words, 3200 bytes;compare;6399 3200 205;2:{{h0 *126}};2: => refused 10, {kept}\n"
    old = f"wide: 3136 words, 3136 bytes, picked;pick;3136 3136 205;2:{{h0 *126}};2: => empty -, {kept}\n"
    step = "wide: turn at 126, C = 1;compare;6464 3264 207;2:{h0 *125}s0 h0;2: => different 0 0 1 0 1 62 0\n"
    for label, old, new in (
        ("an H gate more", most, most.replace("*127", "*128")),
        ("127 H gates refused", most, most.replace("different 0 0 1 0 0 63 0", "refused 9")),
        ("a word not zero", odd, odd.replace("zero 6400", "zero 6399")),
        ("half of the words zero", odd, odd.replace("zero 6400", "zero 3200")),
        ("as many words zero as bytes", odd, odd.replace("sets zero 6400 kept 64", "sets zero 3200 kept 3264")),
        ("the odd word not kept", odd, odd.replace("6400 kept 64", "6400 kept 63")),
        ("the odd word zero", odd, odd.replace("zero 6400 kept 64", "zero 6401 kept 63")),
        ("a byte not zero", odd, odd.replace("zero 3200", "zero 3199")),
        ("a byte not kept", odd, odd.replace("3200 kept 64", "3200 kept 63")),
        ("a word less lent", odd, odd.replace(";6401 3200 6401;", ";6399 3200 6401;")),
        ("a byte less lent", odd, odd.replace(";6401 3200 6401;", ";6401 3199 6401;")),
        ("6399 words taken", short, short.replace("refused 10", "equal 0 0 1 1 0 62 0")),
        ("a word changed by a refused call", short, short.replace("kept 6464", "kept 6463")),
        ("the second list picked with 3136 places", old, old.replace("empty -", "second 5143020000")),
        ("a turn less", step, step.replace("0 1 62 0", "0 0 62 1")),
        ("a sum for a turn", step, step.replace("1 0 1 62 0", "1 1 0 62 0")),
    ):
        with Fault(folder, "tests/rows.txt", old, new):
            trial(f"make_rows.py, sets of two words, {label}", run_test(folder, "make_rows.py", "--check")[0] != 0)


def try_wide_faults(folder):
    """An independent implementation whose limits are others, or that loses the high word of a set somewhere."""
    limits = "MOST_VARIABLES, PLACES, WORDS = 128, 3200, 6400"
    nine, ten = "n + h_gates(first + second) > MOST_VARIABLES", "    if words < WORDS or places < PLACES:\n        raise Refused(10)\n"
    pair, merged = "    pair = read_lists(first, second)\n", "            c = (self.terms.get(mask, 0) + coefficient) % 8\n"
    for label, old, new in (
        ("64 variables at most", limits, limits.replace("128", "64")),
        ("127 variables at most", limits, limits.replace("128", "127")),
        ("129 variables at most", limits, limits.replace("128", "129")),
        ("6399 words enough", limits, limits.replace("6400", "6399")),
        ("6401 words wanted", limits, limits.replace("6400", "6401")),
        ("6402 words wanted", limits, limits.replace("6400", "6402")),
        ("one word a set", limits, limits.replace("6400", "3200")),
        ("3136 places enough", limits, limits.replace("3200, 6400", "3136, 3136")),
        ("3199 bytes enough", limits, limits.replace("3200", "3199")),
        ("3201 bytes wanted", limits, limits.replace("3200", "3201")),
        ("as many bytes wanted as words", limits, limits.replace("3200", "6400")),
        ("the first list's H gates alone", nine, nine.replace("first + second", "first")),
        ("the second list's H gates alone", nine, nine.replace("first + second", "second")),
        ("no qubits counted", nine, nine.replace("n + ", "")),
        ("10 for the words alone", ten, ten.replace(" or places < PLACES", "")),
        ("10 for the bytes alone", ten, ten.replace("words < WORDS or ", "")),
        ("10 before 9", pair + ten, ten + pair),
        ("sets merged by their low words", merged, f"            mask %= 2**64\n{merged}"),
        ("sets merged by their high words", merged, f"            mask = mask >> 64 << 64 or mask\n{merged}"),
        ("no variable of the high word pinned or joined", "for v in s.live if mask >> v", "for v in s.live if mask % 2**64 >> v"),
        ("the high word's variables before the low word's", "min(held)", "min(held, key=lambda v: (v < 64, v))"),
        ("the last variable ready first", "for y in s.live if s.ready(y)", "for y in reversed(s.live) if s.ready(y)"),
        ("variables of the high word always ready", "self.terms.items() if s >> y & 1)", "self.terms.items() if s % 2**64 >> y & 1)"),
        ("no term of the high word in C and L", "            if s >> y & 1:\n", "            if s % 2**64 >> y & 1:\n"),
        ("an L of the low word", "linear ^= s ^ 1 << y", "linear ^= (s ^ 1 << y) % 2**64"),
        ("an L of the high word", "linear ^= s ^ 1 << y", "linear ^= (s ^ 1 << y) >> 64 << 64"),
        ("no variable of the high word taken out", "list(self.terms) if s >> v & 1]", "list(self.terms) if s % 2**64 >> v & 1]"),
        ("no variable of the high word replaced in a wire", "if w[0] >> z & 1:", "if w[0] % 2**64 >> z & 1:"),
        ("a wire replaced by a low word", "w[0] ^= 1 << z ^ mask", "w[0] ^= (1 << z ^ mask) % 2**64"),
        ("a term replaced by a low word", "self.put(c, s ^ 1 << z ^ mask, bit)", "self.put(c, s ^ 1 << z ^ mask % 2**64, bit)"),
    ):
        try_fault(folder, "reference.py", f"{label}, sets of two words", old, new)
    words, places = "left(accepted, seed, ref.WORDS, MOST_WORDS)", "left(accepted, seed, ref.PLACES, MOST_PLACES)"
    for label, old, new in (
        ("half of the words zero", words, words.replace("ref.WORDS", "ref.WORDS // 2")),
        ("a word more zero", words, words.replace("ref.WORDS", "ref.WORDS + 1")),
        ("a byte less zero", places, places.replace("ref.PLACES", "ref.PLACES - 1")),
        ("as many words as bytes", words, places),
        ("as many bytes as words", places, words),
        ("sets and coefficients exchanged", f"{words}, {places}", f"{places}, {words}"),
        ("workspaces zero after a refusal", "refused(refusal) + workspaces(False, seed)", "refused(refusal) + workspaces(True, seed)"),
        ("workspaces zero after an empty pick", '"empty -" + workspaces(False, seed)', '"empty -" + workspaces(True, seed)'),
        ("workspaces left after a verdict", "result)) + workspaces(True, seed)", "result)) + workspaces(False, seed)"),
        ("a word less to lend", "[MOST_WORDS + 1, ", "[MOST_WORDS, "),
        ("a byte less to lend", ", MOST_PLACES + 1, ANY]", ", MOST_PLACES, ANY]"),
    ):
        try_fault(folder, "call_rows.py", f"{label}, sets of two words", old, new)


def try_search_faults(folder):
    """The same of the search over inputs: its weights, their order, and the parities; those of whole words the rows of the phase-sum layer tell."""
    weights, listed = "for weight in (1, 2, 3):", "sorted(sum(1 << q for q in chosen) for chosen in combinations(range(n), weight))"
    for label, old, new in (
        ("no input of weight 2", weights, "for weight in (1, 3):"),
        ("no input of weight 3", weights, "for weight in (1, 2):"),
        ("weight 2 before weight 1", weights, "for weight in (2, 1, 3):"),
        ("the highest qubit never looked at", listed, listed.replace("range(n)", "range(n - 1)")),
        ("the lowest qubit never looked at", listed, listed.replace("range(n)", "range(1, n)")),
        ("inputs by their lowest qubits", listed, listed.replace("sorted(", "list(")),
        ("the parity of the union", "odd(s & x))) % 8", "odd(s | x))) % 8"),
        ("any shared variable for an odd number", "odd(s & x))) % 8", "s & x)) % 8"),
    ):
        try_fault(folder, "reference.py", label, old, new)


def try_vector_faults(folder):
    """Rows of the phase-sum layer by a reference, or a maker of rows, with a fault: parities of words, and sets that lose a word."""
    merged = "            c = (self.terms.get(mask, 0) + coefficient) % 8\n"
    for name, label, old, new in (
        ("reference.py", "parities of 32 bits", "bin(mask)", "bin(mask % 2**32)"),
        ("reference.py", "parities of 63 bits", "bin(mask)", "bin(mask % 2**63)"),
        ("reference.py", "sets merged by their low words", merged, f"            mask %= 2**64\n{merged}"),
        ("reference.py", "no variable of the high word taken out", "list(self.terms) if s >> v & 1]", "list(self.terms) if s % 2**64 >> v & 1]"),
        ("reference.py", "no variable of the high word replaced in a wire", "if w[0] >> z & 1:", "if w[0] % 2**64 >> z & 1:"),
        ("reference.py", "a term replaced by a low word", "self.put(c, s ^ 1 << z ^ mask, bit)", "self.put(c, s ^ 1 << z ^ mask % 2**64, bit)"),
        ("phase_sum_rows.py", "terms in the order of their low words", "sorted(s.terms.items())", "sorted(s.terms.items(), key=lambda t: t[0] % 2**64)"),
        ("phase_sum_rows.py", "the low words' order before the high words'", "sorted(s.terms.items())", "sorted(s.terms.items(), key=lambda t: words(t[0]))"),
        ("phase_sum_rows.py", "the high word first", "return [mask % 2**64, mask >> 64]", "return [mask >> 64, mask % 2**64]"),
        ("phase_sum_rows.py", "no high word", "return [mask % 2**64, mask >> 64]", "return [mask % 2**64, 0]"),
        ("phase_sum_rows.py", "the lowest variable of the low word", "if mask >> v & 1), VARIABLES)", "if mask % 2**64 >> v & 1), VARIABLES)"),
        ("phase_sum_rows.py", "sets compared by their low words", "int(a <= b)", "int(a % 2**64 <= b % 2**64)"),
        ("phase_sum_rows.py", "sets the same by their low words", "int(a == b)", "int(a % 2**64 == b % 2**64)"),
        ("phase_sum_rows.py", "an L of the low word", "linear ^= m ^ 1 << v", "linear ^= (m ^ 1 << v) % 2**64"),
        ("phase_sum_rows.py", "odd terms of the low word", "both ^= m", "both ^= m % 2**64"),
        ("phase_sum_rows.py", "a mask of the low word", "odd_mask |= m", "odd_mask |= m % 2**64"),
    ):
        with Fault(folder, f"tests/{name}", old, new):
            status, lines = run_test(folder, "phase_sum_rows.py", "--check")
            trial(f"phase_sum_rows.py, {name} with {label}", status != 0 and "is not what" in lines[-1], lines[-1:])


def try_small_faults(folder):
    """The same of small blocks: limits, order, gates, scaling, powers, and what the numbers hold."""
    limits = "MOST_HADAMARDS = 512, 6, 60"
    fourteen = "    if n > MOST_QUBITS or h_gates(gates + others) > MOST_HADAMARDS:\n        raise Refused(14)\n"
    ten = "    if numbers < NUMBERS:\n        raise Refused(10)\n"
    both = "left, right = matrix(n, first, h_gates(second)), matrix(n, second, h_gates(first))"
    for label, old, new in (
        ("5 qubits at most", limits, "MOST_HADAMARDS = 512, 5, 60"),
        ("7 qubits at most", limits, "MOST_HADAMARDS = 512, 7, 60"),
        ("59 H gates at most", limits, "MOST_HADAMARDS = 512, 6, 59"),
        ("61 H gates at most", limits, "MOST_HADAMARDS = 512, 6, 61"),
        ("511 numbers enough", limits, "MOST_HADAMARDS = 511, 6, 60"),
        ("513 numbers wanted", limits, "MOST_HADAMARDS = 513, 6, 60"),
        ("10 before 14", fourteen + ten, ten + fourteen),
        ("the first list's H gates alone", "h_gates(gates + others) > MOST_H", "h_gates(gates) > MOST_H"),
        ("the second list's H gates alone", "h_gates(gates + others) > MOST_H", "h_gates(others) > MOST_H"),
        ("a Y that is an X", "times_omega(rows[w ^ bit], 2 if one else 6)", "rows[w ^ bit]"),
        ("an H without its sign", "times_omega(rows[w], 4) if one else rows[w | bit]", "rows[w | bit]"),
        ("a CX turned round", "rows[w ^ one << b]", "rows[w ^ (w >> b & 1) << a]"),
        ("a CZ on one qubit", "times_omega(rows[w], 4) if one and w >> b & 1", "times_omega(rows[w], 4) if one"),
        ("a SWAP that is none", "rows[w ^ bit ^ 1 << b] if one", "rows[w] if one"),
        ("T for its inverse", "times_omega(rows[w], {Z: 4, S: 2, SI: 6, T: 1, TI: 7}", "times_omega(rows[w], {Z: 4, S: 2, SI: 6, T: 7, TI: 1}"),
        ("S for its inverse", "times_omega(rows[w], {Z: 4, S: 2, SI: 6,", "times_omega(rows[w], {Z: 4, S: 6, SI: 2,"),
        ("no root of two", both, "left, right = matrix(n, first, 0), matrix(n, second, 0)"),
        ("each list's own roots of two", both, both.replace("second))", "first))", 1).replace("h_gates(first))", "h_gates(second))")),
        ("a power too few", "left, right) for j in range(8)]", "left, right) for j in range(7)]"),
        ("the powers of the other way", "zip(times_omega(x, j), y)", "zip(x, times_omega(y, 2 * j))"),
        ("the first column that one power misses", "max(misfits)", "min(misfits)"),
        ("two inputs alike", '"different", 0, max(misfits)', '"different", max(misfits), max(misfits)'),
    ):
        try_fault(folder, "reference.py", label, old, new)
    for label, old, new in (
        ("a number not zero", "left(accepted, seed, ref.NUMBERS,", "left(accepted, seed, ref.NUMBERS - 1,"),
        ("numbers zero after a refusal", "refused(refusal) + lent_numbers(False, seed)", "refused(refusal) + lent_numbers(True, seed)"),
        ("numbers left after a verdict", "lent_numbers(True, seed)", "lent_numbers(False, seed)"),
    ):
        try_fault(folder, "call_rows.py", label, old, new)


def try_documents(folder):
    """Each fault is a line more, whatever is there already."""
    before = set(run_test(folder, "documents.py")[1])

    def noticed(label, word):
        status, lines = run_test(folder, "documents.py")
        more = set(lines) - before
        trial(f"documents.py, {label}", status != 0 and any(word in line for line in more), sorted(more))

    for label, name, old, new, word in (
        ("an edit that is not there", "docs/DEMANDS.md", "amplitude/h_sign", "amplitude/h_sing", "h_sing"),
        ("an edit not cited", "docs/DEMANDS.md", "amplitude/h_sign, ", "", "amplitude/h_sign"),
        ("a theorem that is not there", "docs/DEMANDS.md", "`equal_is_right`", "`equal_is_rigth`", "equal_is_rigth"),
        ("a clause that is not there", "README.md", "(`clifford`)", "(`cliford`)", "cliford"),
        ("a law of an operator that is not there", "docs/DEMANDS.md", "`*ω_assoc`", "`*ω_asoc`", "*ω_asoc"),
        ("a crate not named", "README.md", "`record_report`", "`record_reports`", "record_report"),
        ("a file that is not there", "README.md", "`docs/DECISIONS.md`", "`docs/DECISION.md`", "docs/DECISION.md"),
        ("a script that is not there", "README.md", "`./compare_small`", "`./compare_smal`", "compare_smal"),
        ("a path of one machine", "README.md", "## Calls", "See /some/where/else.\n\n## Calls", "/some/where"),
        ("an exit status", "README.md", "| 74 |", "| 73 |", "exit statuses"),
        ("a verdict's exit status", "README.md", "| equal, different", "| different, equal", "exit statuses"),
        ("an exit status that the script has not", "compare", "\n   4  turned", "\n      turned", "exit statuses"),
        ("the last verdict of a report", "README.md", "a report's verdict is above ", "a report's verdict is above 1", "last verdict"),
        ("another number of a refusal", "README.md", "| `BodyShort` | 13 |", "| `BodyShort` | 1 |", "refusals"),
        ("a refusal not told", "README.md", "| `UnknownVerdict` | 5 |", "| no verdict | 5 |", "UnknownVerdict"),
        ("another number of a join's refusal", "README.md", "`TooManyGates` | 3, 4 |", "`TooManyGates` | 3, 5 |", "refusals"),
        ("a join's refusal not told", "README.md", "`TooManyQubits`, `TooManyGates` | 3, 4 |", "`TooManyGates` | 4 |", "TooManyQubits"),
        ("undecided against itself", "README.md", "even against itself", "sometimes", "against itself"),
        ("a test not named", "tests/README.md", "`classes.py`", "`clases.py`", "classes.py"),
        ("a crate not listed", "crates.txt", "\nrecords:", "\nrecord:", "records"),
    ):
        with Fault(folder, name, old, new):
            noticed(label, word)
    put(folder, "crates/amplitude/must-fail/new_fault.edit", "")
    noticed("a new edit", "amplitude/new_fault")


# ---- the cross-check
def ends(label, call, *words):
    """The call ends the run with a failure."""
    try:
        with contextlib.redirect_stdout(io.StringIO()):
            call(*words)
        trial(label, False, "not noticed")
    except SystemExit as end:
        trial(label, end.code not in (None, 0), end.code)


def passes(label, call, *words):
    """The call does not."""
    try:
        with contextlib.redirect_stdout(io.StringIO()):
            call(*words)
        trial(label, True)
    except SystemExit as end:
        trial(label, False, end.code)


def try_cross_check(folder):
    """Programs that print something else, and classes that do not come up."""
    cross.program = lambda name: os.path.join(folder, name)

    def one_row(text, row="check_gate;1 0 0 0 255;;"):
        for name in PROGRAMS:
            put(folder, name, f"#!/bin/sh\n{text}\n", 0o755)
        check = cross.Check()
        check.row(row)
        check.run_rows()

    passes("cross-check, the row's line", one_row, "echo '0: good'; echo 'rows 1'")
    for label, text in (
        ("another line", "echo '0: refused 5'; echo 'rows 1'"),
        ("no line", "echo 'rows 1'"),
        ("no count", "echo '0: good'"),
        ("another count", "echo '0: good'; echo 'rows 2'"),
        ("a line too many", "echo '0: good'; echo 'rows 1'; echo more"),
        ("a failure at the end", "echo '0: good'; echo 'rows 1'; exit 1"),
    ):
        ends(f"cross-check, record_calls: {label}", one_row, text)
    left = "sets zero 6400 kept 6464, coeffs zero 3200 kept 3264"
    lent = "numbers zero 512 kept 520"
    turn, t, none = "51430104000000ff0500ff0000ff0500ff", "51430101000500ff", " 0" * 5
    wide, equal, cleared = "5143027e00" + "0700ff" * 126, "equal 0 0 1 1 0 62 0", "sets zero 6400 kept 64, coeffs zero 3200 kept 64"
    others = (("zero 6400", "zero 6399"), ("zero 6400", "zero 3200"), ("6400 kept 64", "6400 kept 63"), ("zero 3200", "zero 3199"), ("3200 kept 64", "3200 kept 63"))
    not_cleared = [cleared.replace(*other) for other in others]
    for row, line, others in (
        ("check_gate;1 3 11 0 255;;", "refused 5 gate 3", ("refused 5 gate 4", "refused 5")),
        ("check;;5143010100;", "refused 13", ("refused 1", "refused 13 gate 0")),
        ("compare;0 0 0;5143010000;5143", f"refused 1 second, {left}", (f"refused 1 first, {left}", f"refused 1, {left}")),
        ("dense;512 0;5143010000;=", f"equal 0 0, {lent}", (f"undecided 0 0, {lent}", f"different 0 0, {lent}", f"equal 0 1, {lent}")),
        ("dense;512 0;5143010000;=", f"equal 0 0, {lent}", ("equal 0 0, numbers zero 511 kept 520", "equal 0 0, numbers zero 512 kept 519")),
        ("dense;0 0;5143070000;=", f"refused 14, {lent}", (f"refused 9, {lent}", f"refused 10, {lent}", f"equal 0 0, {lent}")),
        ("dense;0 0;5143010000;5143", f"refused 1 second, {lent}", (f"refused 1 first, {lent}", f"refused 1, {lent}")),
        (f"dense;512 0;{turn};5143010000", f"turned 7 0, {lent}", (f"equal 0 0, {lent}", f"turned 1 0, {lent}", f"turned 0 7, {lent}")),
        (f"compare;6400 3200 0;{turn};5143010000", f"turned 7 0{none}, {left}", (f"equal 0 0{none}, {left}", f"turned 1 0{none}, {left}")),
        (f"pick;6400 3200 0;{turn};5143010000", f"first {turn}, {left}", (f"second 5143010000, {left}", f"first 5143010000, {left}")),
        (f"compare;6401 3201 1;{wide};5143020000", f"{equal}, {cleared}", tuple(f"{equal}, {other}" for other in not_cleared)),
        (f"compare;6400 3200 0;{wide};5143020000", f"{equal}, {left}", ("refused 9, " + left, "different 0 0 1 0 0 62 1, " + left)),
        (f"compare;3136 3136 0;{wide};5143020000", f"refused 10, {left}", (f"{equal}, {left}", f"refused 9, {left}")),
        (f"compare;0 0 0;{wide};51430201000700ff", f"refused 9, {left}", (f"refused 10, {left}", f"{equal}, {left}")),
        ("read_report;;515603070000000101010000;", "fields 3 7 0 1 1 1 0 0", ("refused 5", "fields 0 7 0 1 1 1 0 0")),
        ("read_report;;515604070000000101010000;", "refused 5", ("fields 4 7 0 1 1 1 0 0",)),
        (f"join_in_time;2048 1;{t};=", "length 11 51430102000500ff0500ff kept 2037", (f"length 8 {t} kept 2040", "refused 11 kept 2048")),
        (f"join_in_time;8 1;{t};5143010000", f"length 8 {t} kept 2040", (f"length 8 {t} kept 2039", "length 5 5143010000 kept 2043")),
        (f"join_in_time;0 1;{t};5143020000", "refused 8 kept 2048", ("refused 11 kept 2048", "refused 8 second kept 2048", "refused 8 kept 2047")),
        (f"join_in_space;8 0;5143010000;{t}", "length 8 51430201000501ff kept 2040", (f"length 8 {t} kept 2040", "length 8 5143020100050100 kept 2040")),
        ("join_in_space;5 0;5143090000;5143080000", "refused 3 kept 2048", ("refused 3 first kept 2048", "length 5 5143110000 kept 2043")),
        ("join_in_space;5 0;5143090000;5143000000", "refused 3 second kept 2048", ("refused 3 kept 2048", "refused 3 first kept 2048")),
    ):
        passes(f"cross-check, {line}", one_row, f"echo '0: {line}'; echo 'rows 1'", row)
        for other in others:
            ends(f"cross-check, {other} for {line}", one_row, f"echo '0: {other}'; echo 'rows 1'", row)

    def one_long_row(text):
        put(folder, "record_calls", f"#!/bin/sh\n{text}\n", 0o755)
        cross.long_row(cross.Check(), "record_calls", "1;check;;5143010000;")

    named = f"head -c {MOST_LINE} /dev/zero | tr '\\0' a"
    both = f"{named}; echo ': bad row'; echo '1: accepted 1 0'; echo 'rows 2'"
    passes("cross-check, a long row", one_long_row, f"cat >/dev/null; {both}")
    for label, text in (
        ("held in memory", f"tail -n 1 >/dev/null 2>&1 && {both}"),
        ("the end before it", "echo 'rows 0'"),
        ("no row behind it", f"cat >/dev/null; {named}; echo ': bad row'; echo 'rows 1'"),
        ("a longer name", f"cat >/dev/null; printf a; {both}"),
        ("a failure at the end", f"cat >/dev/null; {both}; exit 1"),
    ):
        ends(f"cross-check, a long row: {label}", one_long_row, text)

    def one_input(name, text, want, data):
        put(folder, name, f"#!/bin/sh\n{text}\n", 0o755)
        cross.Check().run_program(bytes.fromhex(data), want, name)

    nothing = "5143010000"
    for name, data, line, others in (
        ("compare", nothing, "equal 0 0 0 0 0 0 0", ("equal 0 0 0 0 0 0 1", "equal 0 0", "different 0 0 0 0 0 0 0", "turned 0 0 0 0 0 0 0")),
        ("compare_small", nothing, "equal 0 0", ("equal 0 1", "equal 0 0 0 0 0 0 0", "different 0 0", "undecided 0 0", "turned 0 0")),
        ("compare", turn, "turned 7 0 0 0 0 0 0", ("equal 0 0 0 0 0 0 0", "turned 1 0 0 0 0 0 0", "turned 7 0", "turned 0 7 0 0 0 0 0")),
        ("compare_small", turn, "turned 7 0", ("equal 0 0", "turned 1 0", "turned 7 0 0 0 0 0 0", "turned 7", "undecided 0 0")),
    ):
        passes(f"cross-check, {name}: its line", one_input, name, f"echo {line}", line, data + nothing)
        ends(f"cross-check, {name}: no end", one_input, name, f"printf '{line}'", None, data + nothing)
        ends(f"cross-check, {name}: ended", one_input, name, f"echo {line}; kill -9 $$", None, data + nothing)
        for other in others:
            ends(f"cross-check, {name}: {other}", one_input, name, f"echo {other}", None, data + nothing)
            ends(f"cross-check, {name}: {other} is written", one_input, name, f"echo {line}", other, data + nothing)
    for data, number, others in (
        ("51430700005143070000", 14, (9, 10, 12)),
        ("5143070000514307000000", 12, (14, 9)),
        ("51430700005143060000", 8, (14, 12)),
        ("5143070000514307010005", 13, (12, 14)),
    ):
        passes(f"cross-check, compare_small: {number}", one_input, "compare_small", f"echo refused {number}", f"refused {number}", data)
        for other in others:
            ends(f"cross-check, compare_small: {other} for {number}", one_input, "compare_small", f"echo refused {other}", None, data)
    check = cross.Check()
    check.see(*CLASSES)
    passes("cross-check, every class", cross.show_classes, check)
    check.see("a class of its own")
    ends("cross-check, a class that is not listed", cross.show_classes, check)
    wide_classes = ("compare: sum at variable 126", "compare: pin at variable 127", "compare: an odd number of words", "compare: more than 64 variables: turned")
    for name in (CLASSES[0], "join_in_space: 16 qubits", "program compare: joined with the inverse, turned 5", *wide_classes):
        check = cross.Check()
        check.see(*(other for other in CLASSES if other != name))
        ends(f"cross-check, a class that never came up: {name}", cross.show_classes, check)
    check = cross.Check()
    check.see(*CLASSES)
    check.row("check_gate;1 0 0 0 255;;")
    ends("cross-check, rows that were not run", cross.show_classes, check)


def try_places():
    """Where a step's variable stands, and whether sets differ in the high word alone."""
    for event, name in (
        ("pin, constant 1", "pin, constant 1"),
        ("sum at variable 62", None),
        ("sum at variable 63", "sum at variable 63"),
        ("join for variable 64", "join for variable 64"),
        ("turn at variable 65", "turn at variable 65 to 125"),
        ("turn at variable 125", "turn at variable 65 to 125"),
        ("join blocked at variable 126", "join blocked at variable 126"),
        ("pin at variable 126", "pin at variable 65 to 126"),
        ("pin at variable 127", "pin at variable 127"),
        ("sum at variable 127", "sum at variable 127"),
    ):
        trial(f"cross-check, the class of {event}", cross.placed(event) == name, cross.placed(event))
        listed = name is None or f"compare: {name}" in CLASSES
        trial(f"cross-check, {event} is listed or not", listed == (event != "sum at variable 127"))
    for terms, alone in (({1, 2**64 + 1}, True), ({2**64, 2**65}, True), ({1, 2**64}, False), ({1, 2}, False), ({2**64 + 1, 2**64 + 2}, False)):
        trial(f"cross-check, sets {terms} that differ in the high word alone", cross.high_words_alone(terms) == alone)


def try_agreement(folder):
    """Two comparisons that differ, and a verdict that the columns do not bear out."""

    def both(here, there):
        check = cross.Check()
        check.rows, check.both = ["0;a row", "1;another"], [(0, 1)]
        check.printed = {"0": f"0: {here}, numbers zero 512 kept 8", "1": f"1: {there}, sets zero 6400 kept 64"}
        cross.agree_in_rows(check)
        return check.seen

    undecided = "undecided 0 0 1 0 0 0 1"
    for here, there, name in (
        ("equal 0 0", "equal 0 0 1 1 0 0 0", "both equal"),
        ("different 0 0", "different 0 0 1 1 0 0 0", "both different"),
        ("different 0 3", "different 0 4 0 0 0 0 0", "both different, other inputs"),
        ("turned 7 0", "turned 7 0 1 1 1 0 0", "both turned 7"),
        ("equal 0 0", undecided, "undecided there, equal here"),
        ("turned 3 0", undecided, "undecided there, turned here"),
        ("different 0 0", undecided, "undecided there, different here"),
    ):
        trial(f"agreement, {name}", both(here, there)[f"dense: {name}"] == 1, both(here, there))
    trial("agreement, the same inputs", "dense: both different, other inputs" not in both("different 0 4", "different 0 4 0 0 0 0 0"))
    for here, there in (
        ("equal 0 0", "different 0 1 0 0 0 0 0"),
        ("different 0 1", "equal 0 0 0 0 0 0 0"),
        ("undecided 0 0", "equal 0 0 0 0 0 0 0"),
        ("equal 0 0", "turned 7 0 1 1 1 0 0"),
        ("turned 7 0", "equal 0 0 1 1 1 0 0"),
        ("turned 7 0", "turned 1 0 1 1 1 0 0"),
        ("turned 7 0", "turned 7 1 1 1 1 0 0"),
        ("turned 7 0", "different 0 0 1 1 1 0 0"),
        ("different 0 1", "turned 1 0 0 0 0 0 0"),
        ("equal 0 1", "equal 0 0 0 0 0 0 0"),
    ):
        ends(f"agreement, {here} and {there}", both, here, there)
    trial("agreement, undecided by both is no class", not set(both("undecided 0 0", undecided)) & set(CLASSES))

    cz, nothing, turn = [(cross.ref.CZ, 0, 1)], [], cross.pairs.on(1, cross.pairs.BY_X_AND_T)
    for held in (cross.check_small_columns, cross.check_columns):

        def columns(fields, gates):
            held(cross.Check(), 2, gates, [], fields.split())

        for fields, gates in (("different 0 3", cz), ("equal 0 0", nothing), ("turned 7 0", turn)):
            passes(f"{held.__name__}, {fields}", columns, fields, gates)
        for fields, gates in (
            *(("different 0 2", cz), ("different 0 4", cz), ("equal 0 0", cz), ("turned 4 0", cz)),
            *(("different 0 0", nothing), ("different 0 3", nothing), ("turned 0 0", nothing), ("turned 8 0", nothing), ("equal 0 1", nothing)),
            *(("equal 0 0", turn), ("turned 1 0", turn), ("turned 0 7", turn), ("turned 7 1", turn), ("different 0 0", turn)),
        ):
            ends(f"{held.__name__}, {fields} of {len(gates)} gates", columns, fields, gates)
    ends("columns, a small block undecided", cross.check_small_columns, cross.Check(), 2, cz, [], ["undecided", "0", "0"])
    ends("columns, another than the first input", cross.check_small_columns, cross.Check(), 2, cross.pairs.one(cross.ref.T, 0, 1), [], ["different", "0", "2"])


def try_joins(folder):
    """Joins that the columns do not bear out or refused otherwise, and comparisons that print something else for a join with an inverse."""
    h, t, moved = (cross.pairs.one(kind, q) for kind, q in ((cross.ref.H, 0), (cross.ref.T, 0), (cross.ref.T, 1)))

    def columns(call, n, gates):
        cross.see_joined(cross.Check(), call, (1, h), (1, t), cross.ref.record(n, gates))

    passes("joins, columns in time", columns, "join_in_time", 1, h + t)
    passes("joins, columns in space", columns, "join_in_space", 2, h + moved)
    for call, n, gates in (
        *(("join_in_time", 1, t + h), ("join_in_time", 1, h), ("join_in_time", 1, h + t + t), ("join_in_time", 2, h + moved)),
        *(("join_in_space", 2, h + t), ("join_in_space", 2, h), ("join_in_space", 1, h + t), ("join_in_space", 3, h + moved)),
    ):
        ends(f"joins, columns of {len(gates)} gates on {n} by {call}", columns, call, n, gates)

    def refused(number):
        def join(first, second, buffer):
            raise cross.ref.Refused(number)

        kept, cross.ref.join_in_time = cross.ref.join_in_time, join
        try:
            cross.join_row(cross.Check(), "join_in_time", (0, 1), "1:", "2:")
        finally:
            cross.ref.join_in_time = kept

    passes("joins, 8 before 11", refused, 8)
    for number in (3, 4, 11):
        ends(f"joins, {number} for 8", refused, number)

    def by_rows(here, there):
        check = cross.Check()
        check.rows, check.inverses, check.printed = ["0;compare;a row", "1;compare;another"], [0], {"0": f"0: {here}", "1": f"1: {there}"}
        cross.agree_by_inverses(check)
        return check.seen

    left, undecided = ", sets zero 6400 kept 64, coeffs zero 3200 kept 64", "undecided 0 0 1 0 0 0 1"
    for line, name in (("equal 0 0 1 1 0 0 0", "equal"), ("turned 7 0 1 1 1 0 0", "turned 7"), (undecided, "undecided")):
        seen = by_rows(line + left, line + left)
        trial(f"joins, {name} by rows", seen == {f"compare: joined with the inverse, {name}": 1}, seen)
    for here, there in (
        (f"turned 7 0 1 1 1 0 0{left}", f"turned 1 0 1 1 1 0 0{left}"),
        (f"equal 0 0 1 1 0 0 0{left}", f"equal 0 0 2 2 0 0 0{left}"),
        (f"{undecided}{left}", f"different 0 0 1 0 0 0 1{left}"),
        (f"{undecided}{left}", undecided + left.replace("64", "65")),
    ):
        ends(f"joins, {there} for {here} by rows", by_rows, here, there)

    def by_programs(here, there):
        lines = {8: here, 11: there}
        cross.PROGRAM_LINES = {"compare": lambda data: lines[data[3]]}
        put(folder, "compare", f"#!/bin/sh\ncase $(head -c 4 | od -An -tu1 -j3) in *8) echo {here} ;; *) echo {there} ;; esac\n", 0o755)
        check = cross.Check()
        check.rows, check.inverses = ["0;compare;0 0 0;1:{};1:".format("t0 " * count) for count in (8, 11)], [0]
        cross.run_by_inverses(check)

    cross.program, lines = (lambda name: os.path.join(folder, name)), cross.PROGRAM_LINES
    passes("joins, the same by programs", by_programs, undecided, undecided)
    ends("joins, another verdict by programs", by_programs, undecided, "different 0 0 1 0 0 0 1")
    ends("joins, another count by programs", by_programs, undecided, "undecided 0 0 1 0 0 1 0")
    cross.PROGRAM_LINES = lines


# ---- the script
class Noticed(Exception):
    """A check of the front door that does not hold."""


def holds_or_ends(label, got, want):
    """A check of the front door that ends the run where it does not hold."""
    if got != want:
        raise Noticed(f"{label}: {got!r}")


def lines_taken(room, script):
    """What the checks of the lines that a script takes notice, over programs that print them; None where that is nothing."""
    put(room, "compare", script, 0o755)
    shutil.copy(os.path.join(ROOT, "compare_small"), room)
    for door in front_door.DOORS:
        put(room, f"bin/{door.name}", "", 0o755)
        door.script, door.program = os.path.join(room, door.name), os.path.join(room, "bin", door.name)
    try:
        front_door.lines_of_a_program(front_door.Copy(os.path.join(room, "copy")))
    except Noticed as noticed:
        return noticed
    return None


def try_script(folder):
    """What the scripts make of a program's line."""
    front_door.check = holds_or_ends
    with open(os.path.join(ROOT, "compare"), encoding="utf-8") as file:
        script = file.read()
    noticed = lines_taken(os.path.join(folder, "no fault"), script)
    trial("script, no fault", noticed is None, noticed)
    for label, old, new in (
        ("equal's status for turned", "turned*) finish 4", "turned*) finish 0"),
        ("a refusal's status for turned", "turned*) finish 4 ;;\n", ""),
        ("turned taken for no result", "|undecided|turned'", "|undecided'"),
        ("turned taken for no result of a small block", "'equal|different|turned'", "'equal|different'"),
        ("undecided taken for a result of a small block", "'equal|different|turned'", "'equal|different|undecided|turned'"),
        ("any word taken for a verdict", "^($verdicts)", "^([a-z]+)"),
        ("any length taken for a line", "{$numbers}$ ||", "*$ ||"),
        ("a number that begins with 0", "number='(0|[1-9][0-9]*)'", "number='([0-9]+)'"),
    ):
        trial(f"compare has {old!r}", old in script)
        trial(f"script, {label}", lines_taken(os.path.join(folder, label), script.replace(old, new, 1)) is not None, "not noticed")


def main():
    """Runs everything."""
    try_places()
    for part in (try_gate, try_cross_check, try_agreement, try_joins, try_script):
        with tempfile.TemporaryDirectory() as folder:
            part(folder)
    with tempfile.TemporaryDirectory() as folder:
        rows_alone(folder, "joins", ";join_in_")
        try_join_rows(folder)
        try_join_faults(folder)
        try_product_faults(folder)
    with tempfile.TemporaryDirectory() as folder:
        rows_alone(folder, "sets of two words", "wide: ")
        try_wide_rows(folder)
        try_wide_faults(folder)
    with tempfile.TemporaryDirectory() as folder:
        for name in ("tests", "docs", "examples", "bench", "crates", ".ci"):
            shutil.copytree(os.path.join(ROOT, name), os.path.join(folder, name))
        for name in ("README.md", "crates.txt", "compare", "compare_small"):
            shutil.copy(os.path.join(ROOT, name), folder)
        try_rows(folder)
        try_row_faults(folder)
        try_reference_faults(folder)
        try_turn_faults(folder)
        try_column_faults(folder)
        try_search_faults(folder)
        try_vector_faults(folder)
        try_small_faults(folder)
        try_documents(folder)
    print(f"gate: {HELD['trials']} trials, {HELD['failed']} failed")
    return 1 if HELD["failed"] else 0


if __name__ == "__main__":
    sys.exit(main())
