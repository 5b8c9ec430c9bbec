#!/usr/bin/env python3
"""Drives the built programs and the scripts `compare` and `compare_small`, and `examples/gates`, through their limits: every refusal with the
border between two files, long and cut files, failed reads and writes, one write a line, every exit status, and what the scripts build and when.

    tools/build compare compare_small && python3 tests/front_door.py

It prints what differs and fails where anything does; its last line counts the checks.
"""
import importlib.machinery
import importlib.util
import os
import pty
import random
import re
import resource
import shutil
import signal
import subprocess
import sys
import tempfile
import time
import tty

sys.dont_write_bytecode = True
import reference

ROOT = os.path.realpath(os.path.join(os.path.dirname(os.path.abspath(__file__)), ".."))
GATES = os.path.join(ROOT, "examples", "gates")
NOBODY = 65534
SECONDS = 120
UMASK = os.umask(0o022)
os.umask(UMASK)
HELD = {"checks": 0, "failed": 0, "of": ""}


# ---- checks
def check(label, got, want):
    """One comparison; a difference is printed and counted."""
    HELD["checks"] += 1
    if got != want:
        HELD["failed"] += 1
        print(f"FAILED {HELD['of']}{label}\n    got  {got!r}\n    want {want!r}")


def holds(label, what, value):
    """One condition; value is shown where it does not hold."""
    HELD["checks"] += 1
    if not what:
        HELD["failed"] += 1
        print(f"FAILED {HELD['of']}{label}\n    got  {value!r}")


def run(words, **more):
    """(exit status, standard output, standard error) of a command; its input is empty unless given. One that hangs is ended: status None."""
    data = more.pop("input", None)
    more.setdefault("stdin", subprocess.DEVNULL if data is None else subprocess.PIPE)
    more.setdefault("stdout", subprocess.PIPE)
    child = subprocess.Popen(words, stderr=subprocess.PIPE, start_new_session=True, **more)
    try:
        out, err = child.communicate(data, timeout=SECONDS)
    except subprocess.TimeoutExpired:
        os.killpg(child.pid, signal.SIGKILL)
        out, err = child.communicate()
        return None, out, err.decode()
    return child.returncode, out, err.decode()


# ---- records
KINDS = dict(zip(("X", "Y", "Z", "S", "S'", "T", "T'", "H", "CX", "CZ", "SWAP"), range(11)))


def record(n, gates):
    """The record of gates such as "H 0" or "CX 0 1"."""
    body = bytearray()
    for gate in gates:
        name, *qubits = gate.split()
        qubits = [int(q) for q in qubits]
        body += bytes([KINDS[name], *qubits] + [255] * (2 - len(qubits)))
    return b"\x51\x43" + bytes([n]) + len(gates).to_bytes(2, "little") + bytes(body)


def one(names):
    """A record on one qubit, by its gates' names."""
    return record(1, [f"{name} 0" for name in names.split()])


EXAMPLE = bytes.fromhex("514301060003 00FF 0700FF 0300FF 0700FF 0300FF 0700FF".replace(" ", ""))
NOTHING = bytes.fromhex("5143010000")
FULL = record(1, ["T 0"] * 512)
# document 01, "Pairs to try", as 02 item 4 changes them: the rows marked P, and CX; then what is turned or, with Y's own matrix, equal; the line of
# compare and that of compare_small
ROWS = (
    (one(""), NOTHING, "equal 0 0 0 0 0 0 0", "equal 0 0"),
    (one("H"), NOTHING, "different 0 0 1 0 0 0 0", "different 0 0"),
    (one("H H"), NOTHING, "equal 0 0 1 1 0 0 0", "equal 0 0"),
    (one("H H H H"), NOTHING, "equal 0 0 1 1 0 1 0", "equal 0 0"),
    (EXAMPLE, NOTHING, "turned 7 0 1 1 1 0 0", "turned 7 0"),
    (one("T T"), one("S"), "equal 0 0 0 0 0 0 0", "equal 0 0"),
    (one("T"), NOTHING, "different 0 1 0 0 0 0 0", "different 0 1"),
    (one("X"), NOTHING, "different 0 0 0 0 0 0 0", "different 0 0"),
    (one("H Z H"), NOTHING, "different 0 0 1 0 0 0 1", "different 0 0"),
    (one("H T H"), NOTHING, "undecided 0 0 1 0 0 0 1", "different 0 0"),
    (record(2, ["CX 0 1"]), record(2, []), "different 1 1 0 0 0 0 0", "different 0 1"),
    *((one("X T X T " * k), NOTHING, f"turned {8 - k} 0 0 0 0 0 0", f"turned {8 - k} 0") for k in range(1, 8)),
    (one("X T X T " * 8), NOTHING, "equal 0 0 0 0 0 0 0", "equal 0 0"),
    (one("Z X"), one("Y"), "turned 2 0 0 0 0 0 0", "turned 2 0"),
    (one("Y"), one("Z X"), "turned 6 0 0 0 0 0 0", "turned 6 0"),
    (one("Y Y"), NOTHING, "equal 0 0 0 0 0 0 0", "equal 0 0"),
)
# a file for each number that a list alone is refused by, in the order of the checks
BAD = {
    1: EXAMPLE[:4],
    2: b"\x51\x56" + EXAMPLE[2:],
    3: b"\x51\x43\x11\x00\x00",
    4: b"\x51\x43\x01\x01\x02" + b"\x05\x00\xff" * 513,
    13: EXAMPLE[:-1],
    5: b"\x51\x43\x01\x01\x00\x0b\x00\xff",
    6: b"\x51\x43\x01\x01\x00\x07\x01\xff",
    7: b"\x51\x43\x01\x01\x00\x07\x00\x00",
}
# files with several faults: the first row of document 01's table that holds decides
ORDER = (
    ("4 bytes, another mark", b"QVQV", 1),
    ("another mark, no qubits, 513 gates", b"QV\x00\x01\x02", 2),
    ("another mark, 1 gate, no body", b"QV\x01\x01\x00", 2),
    ("no qubits, 513 gates", b"QC\x00\x01\x02", 3),
    ("no qubits, 1 gate, no body", b"QC\x00\x01\x00", 3),
    ("513 gates, no body", b"QC\x01\x01\x02", 4),
    ("512 gates, no body", b"QC\x01\x00\x02", 13),
    ("1 gate, no body", b"QC\x01\x01\x00", 13),
    ("cut behind a gate that is none", b"QC\x01\x02\x00\x0b\x00\xff", 13),
    ("cut in a gate that is none", b"QC\x01\x01\x00\x0b\x09", 13),
    ("kind 11 on no qubit", b"QC\x01\x01\x00\x0b\x09\x09", 5),
    ("H on qubits 9 and 0", b"QC\x01\x01\x00\x07\x09\x00", 7),
    ("CX with 255", b"QC\x02\x01\x00\x08\x00\xff", 6),
    ("CX from 0 to 0", b"QC\x02\x01\x00\x08\x00\x00", 6),
    ("a second gate that is none", b"QC\x01\x02\x00\x07\x01\xff\x0b\x00\xff", 6),
)
# the limit of compare, 9: 128 variables, the qubits and the H gates of both lists
VARIABLES = (
    ("112 H gates on 16 qubits first", record(16, ["H 0"] * 112), record(16, []), "equal 0 0 1 1 0 55 0"),
    ("112 H gates on 16 qubits second", record(16, []), record(16, ["H 15"] * 112), "equal 0 0 1 1 0 55 0"),
    ("56 H gates on 16 qubits in both", record(16, ["H 7"] * 56), record(16, ["H 7"] * 56), "equal 0 0 1 1 0 55 0"),
    ("113 H gates on 16 qubits second", record(16, []), record(16, ["H 0"] * 113), "refused 9"),
    ("57 H gates on 16 qubits and 56", record(16, ["H 7"] * 57), record(16, ["H 7"] * 56), "refused 9"),
    ("127 H gates on 1 qubit", record(1, ["H 0"] * 127), record(1, []), "different 0 0 1 0 0 63 0"),
    ("128 H gates on 1 qubit", record(1, ["H 0"] * 64), record(1, ["H 0"] * 64), "refused 9"),
)
# the limits of compare_small, 14: 6 qubits and 60 H gates in both lists; 9 before it, and 12 before both
BLOCKS = (
    ("6 qubits", record(6, ["CZ 4 5"]), record(6, []), "different 0 48"),
    ("7 qubits", record(7, []), record(7, []), "refused 14"),
    ("60 H gates first", record(6, ["H 5"] * 60), record(6, []), "equal 0 0"),
    ("60 H gates in both", record(3, ["H 2"] * 29), record(3, ["H 2"] * 31), "equal 0 0"),
    ("61 H gates first", record(3, ["H 0"] * 61), record(3, []), "refused 14"),
    ("61 H gates in both", record(3, ["H 2"] * 30), record(3, ["H 2"] * 31), "refused 14"),
    ("61 H gates second", record(3, []), record(3, ["H 0"] * 61), "refused 14"),
    ("122 H gates on 6 qubits", record(6, ["H 0"] * 122), record(6, []), "refused 14"),
    ("9 before 14", record(6, ["H 0"] * 123), record(6, []), "refused 9"),
    ("8 before 14", record(7, []), record(6, []), "refused 8"),
    ("12 before 14", record(7, []), record(7, []) + b"\0", "refused 12"),
    ("13 before 14", record(7, []), record(7, ["T 0"])[:-1], "refused 13"),
)
WORDS = {"equal": 0, "different": 1, "undecided": 2, "refused": 3, "turned": 4}


class Door:
    """A program and its script: the name, and how many numbers stand behind a verdict."""

    def __init__(self, name, numbers):
        self.name, self.numbers = name, numbers
        self.program = os.path.join(ROOT, "target", "bin", name)
        self.script = os.path.join(ROOT, name)

    def line(self, line):
        """The line, newline and all, where both find what compare tells by this one: as many of its numbers as this door shows."""
        return " ".join(line.split()[: 1 + self.numbers]).encode() + b"\n"

    def rows(self):
        """(first, second, line) of document 01's rows."""
        for first, second, line, small in ROWS:
            yield first, second, line if self is COMPARE else small

    def limits(self):
        """(label, first, second, line) at the limits that the other door does not have."""
        return VARIABLES if self is COMPARE else BLOCKS


COMPARE, SMALL = Door("compare", 7), Door("compare_small", 2)
DOORS = (COMPARE, SMALL)
TURNED = "turned 7 0 1 1 1 0 0"  # the example against nothing, by compare


def status_of(line):
    """The script's exit status for a line."""
    return WORDS[line.split()[0]]


def cut_cases():
    """(size, the example cut to it, line): 1 in its head, 13 in its body."""
    for size in range(len(EXAMPLE)):
        yield size, EXAMPLE[:size], f"refused {1 if size < 5 else 13}"


def border_cases(door):
    """(label, first file, second file, line): what the border between two files and the end of each decide."""
    for first, second, line in door.rows():
        yield f"row {line}", first, second, line
    yield from door.limits()
    yield "empty first, two records in the second", b"", EXAMPLE + NOTHING, "refused 1"
    yield "two records in the first, empty second", EXAMPLE + NOTHING, b"", "refused 1"
    yield "both empty", b"", b"", "refused 1"
    for size, cut, line in cut_cases():
        yield f"first cut to {size} bytes", cut, NOTHING, line
        yield f"second cut to {size} bytes", NOTHING, cut, line
    yield "the whole example second", NOTHING, EXAMPLE, "turned 1 0 1 1 1 0 0"
    yield "cut first that the second would complete", EXAMPLE[:-1], b"\xff" + NOTHING, "refused 13"
    yield "cut head that the second would complete", EXAMPLE[:4], EXAMPLE[4:] + NOTHING, "refused 1"
    for (number, bad), other in zip(BAD.items(), [*BAD.values()][1:] + [BAD[1]]):
        yield f"first refused by {number}", bad, NOTHING, f"refused {number}"
        yield f"second refused by {number}", EXAMPLE, bad, f"refused {number}"
        yield f"first refused by {number}, second by another", bad, other, f"refused {number}"
        yield f"bytes behind the first, second refused by {number}", EXAMPLE + b"\0", bad, f"refused {number}"
    for label, bad, number in ORDER:
        yield f"order: {label}", bad, NOTHING, f"refused {number}"
    yield "bytes behind the first", EXAMPLE + b"\0", NOTHING, "refused 12"
    yield "bytes behind the second", EXAMPLE, NOTHING + b"\0", "refused 12"
    yield "bytes behind both", EXAMPLE + b"Q", NOTHING + b"C", "refused 12"
    yield "a record behind the first", EXAMPLE + NOTHING, NOTHING, "refused 12"
    yield "12 before 8", record(2, []) + b"\0", NOTHING, "refused 12"
    yield "12 before 9", record(16, ["H 0"] * 113) + b"\0", record(16, []), "refused 12"
    yield "8", record(2, []), NOTHING, "refused 8"
    yield "9", record(16, ["H 0"] * 113), record(16, []), "refused 9"


def long_cases():
    """The same at the longest records and beyond."""
    yield "512 gates both", FULL, FULL, "equal 0 0 0 0 0 0 0"
    yield "512 gates first", FULL, NOTHING, "equal 0 0 0 0 0 0 0"
    yield "512 gates second", NOTHING, FULL, "equal 0 0 0 0 0 0 0"
    yield "1,542 bytes first", FULL + b"\0", FULL, "refused 12"
    yield "1,542 bytes second", FULL, FULL + b"\0", "refused 12"
    yield "1,540 bytes first", FULL[:-1], FULL, "refused 13"
    yield "1,540 bytes second", FULL, FULL[:-1], "refused 13"
    yield "a megabyte behind the first", FULL + b"Q" * 1000000, FULL, "refused 12"
    yield "a megabyte behind the second", NOTHING, NOTHING + b"Q" * 1000000, "refused 12"
    yield "a megabyte of zeros", bytes(1000000), NOTHING, "refused 2"


def stream_cases(door):
    """(label, standard input, line)."""
    for first, second, line in door.rows():
        yield f"row {line}", first + second, line
    for label, first, second, line in door.limits():
        yield label, first + second, line
    yield "nothing", b"", "refused 1"
    yield "one record", EXAMPLE, "refused 1"
    yield "cut head of the second", EXAMPLE + NOTHING[:4], "refused 1"
    for size, cut, line in cut_cases():
        yield f"first cut to {size} bytes", cut, line
        yield f"second cut to {size} bytes", EXAMPLE + cut, line
    yield "the example twice", EXAMPLE + EXAMPLE, "equal 0 0 1 1 2 1 0"
    yield "a first without its last byte takes the second's first", EXAMPLE[:-1] + NOTHING, "refused 7"
    yield "a byte behind", EXAMPLE + NOTHING + b"\0", "refused 12"
    yield "12 before 8", record(2, []) + NOTHING + b"\0", "refused 12"
    yield "8", record(2, []) + NOTHING, "refused 8"
    yield "1,540 bytes", FULL[:-1], "refused 13"
    yield "3,081 bytes", FULL + FULL[:-1], "refused 13"
    yield "3,082 bytes", FULL + FULL, "equal 0 0 0 0 0 0 0"
    yield "3,083 bytes", FULL + FULL + b"\0", "refused 12"
    yield "a megabyte behind", FULL + FULL + bytes(1000000), "refused 12"
    for number, bad in BAD.items():
        yield f"first refused by {number}", bad + (b"" if number in (1, 13) else NOTHING), f"refused {number}"
        yield f"second refused by {number}", EXAMPLE + bad, f"refused {number}"


class Room:
    """A folder of its own with files by number."""

    def __init__(self, path):
        self.path = path
        self.made = 0

    def file(self, data, name=None):
        """A new file with these bytes."""
        self.made += 1
        path = os.path.join(self.path, name or f"file-{self.made}")
        with open(path, "wb") as file:
            file.write(data)
        return path


# ---- the program
def program_answers(room, door):
    """The program on every pair, as files and as one stream: the line, and nothing else."""
    for label, first, second, line in [*border_cases(door), *long_cases()]:
        got = run([door.program, room.file(first), room.file(second)])
        check(f"program, files: {label}", got, (0, door.line(line), ""))
    for label, data, line in stream_cases(door):
        check(f"program, stream: {label}", run([door.program], input=data), (0, door.line(line), ""))


def slow_stream(_, door):
    """One byte a write: the program waits for the end of its input."""
    for data, line in ((EXAMPLE + NOTHING, TURNED), (EXAMPLE + NOTHING + b"\0", "refused 12")):
        with subprocess.Popen([door.program], stdin=subprocess.PIPE, stdout=subprocess.PIPE, bufsize=0) as child:
            for byte in data:
                child.stdin.write(bytes([byte]))
                time.sleep(0.002)
            check("program, stream: byte by byte", child.communicate(timeout=SECONDS)[0], door.line(line))


def failed_in_the_middle(door):
    """A read that fails after two whole records were read: the far end of a terminal that was closed."""
    master, slave = pty.openpty()
    tty.setraw(slave)
    os.write(slave, EXAMPLE + NOTHING)
    os.close(slave)
    _, out, err = run([door.program], stdin=master)
    os.close(master)
    check("program, stream: a read fails in the middle", out, b"")
    holds("program, stream: a read fails in the middle, message", err == f"{door.name}: standard input: Input/output error\n", err)


def refuses_to_read(door, label, words, message, **more):
    """The program prints nothing on standard output, and a message that says what failed."""
    _, out, err = run([door.program, *words], **more)
    check(f"program, {label}: standard output", out, b"")
    holds(f"program, {label}: message", err.startswith(f"{door.name}: ") and message in err and err.endswith("\n"), err)


def program_failures(room, door):
    """Inputs and arguments that cannot be had."""
    good, folder, gone = room.file(NOTHING), room.path, os.path.join(room.path, "gone")
    for label, words, message in (
        ("missing first", [gone, good], f"{gone}: No such file"),
        ("missing second", [good, gone], f"{gone}: No such file"),
        ("directory first", [folder, good], f"{folder}: Is a directory"),
        ("directory second", [good, folder], f"{folder}: Is a directory"),
        ("empty name", ["", good], "No such file"),
        ("name of 4,095 bytes", ["a" * 4095, good], "name too long"),
        ("name of 4,096 bytes", ["a" * 4096, good], "name too long"),
        ("name of 5,000 bytes", [good, "a" * 5000], "name too long"),
        ("a name that is not UTF-8", [room.file(NOTHING, "\udcff"), good], "a file's name: it is not UTF-8"),
        ("a read that fails, first", ["/proc/self/mem", good], "/proc/self/mem: Input/output error"),
        ("a read that fails, second", [good, "/proc/self/mem"], "/proc/self/mem: Input/output error"),
    ):
        refuses_to_read(door, label, words, message)
    for words in ([good], [good, good, good]):
        _, out, err = run([door.program, *words])
        check(f"program, {len(words)} arguments", (out, err), (b"", f"usage: {door.name} [FIRST SECOND]\n"))
    fd = os.open(folder, os.O_RDONLY)
    refuses_to_read(door, "standard input a directory", [], "standard input: Is a directory", stdin=fd)
    os.close(fd)
    failed_in_the_middle(door)


def unwritable():
    """(label, descriptor, what the system says): standard outputs that take no line. Whoever reads the last one's pipe does not come to it."""
    reader, unread = os.pipe()
    os.close(reader)
    reader, stuffed = os.pipe()
    os.set_blocking(stuffed, False)
    for size in (65536, 1):
        try:
            while os.write(stuffed, bytes(size)):
                pass
        except BlockingIOError:
            pass
    ways = (
        ("/dev/full", os.open("/dev/full", os.O_WRONLY), "No space left on device"),
        ("open for reading alone", os.open("/dev/null", os.O_RDONLY), "Bad file descriptor"),
        ("nobody reads", unread, "Broken pipe"),
        ("a full pipe", stuffed, "Resource temporarily unavailable"),
    )
    yield from ways
    for fd in (reader, *(fd for _, fd, _ in ways)):
        os.close(fd)


def failed_writes(room, door):
    """A line that cannot be written, of every verdict and of a refusal: a message, from the program and from the script, whose status is 74. The
    signal of a pipe that nobody reads is left ignored, as this process has it, but for two checks."""
    told, closed = f"{door.name}: standard output: ", ["sh", "-c", 'exec "$@" >&-', "sh"]
    for word, first in (("equal", NOTHING), ("turned", EXAMPLE), ("different", one("X")), ("refused", NOTHING + b"\0")):
        files = [room.file(first), room.file(NOTHING)]
        for label, out, why in unwritable():
            more = {"stdout": out, "restore_signals": False}
            check(f"program, {word}, {label}", run([door.program, *files], **more)[2], f"{told}{why}\n")
            check(f"program, stream: {word}, {label}", run([door.program], input=first + NOTHING, **more)[2], f"{told}{why}\n")
            check(f"script, {word}, {label}", run([door.script, *files], **more)[::2], (74, f"{told}the line could not be written\n"))
        check(f"program, {word}, closed", run([*closed, door.program, *files])[2], f"{told}Bad file descriptor\n")
        check(f"script, {word}, closed", run([*closed, door.script, *files])[::2], (74, f"{told}is closed\n"))
    files = [room.file(EXAMPLE), room.file(NOTHING)]
    reader, unread = os.pipe()
    os.close(reader)
    # today's runtime ignores the signal, as the script does: the write fails, and the program says so
    check("program, nobody reads, the signal", run([door.program, *files], stdout=unread)[::2], (0, f"{told}Broken pipe\n"))
    check("script, nobody reads, the signal", run([door.script, *files], stdout=unread)[::2], (74, f"{told}the line could not be written\n"))
    os.close(unread)
    for size, name, want in ((0, door.program, (0, f"{told}File too large\n")), (4, door.program, (0, f"{told}File too large\n")),
                             (4, door.script, (74, f"{told}the line could not be written\n"))):
        more = {"restore_signals": False, "preexec_fn": lambda: resource.setrlimit(resource.RLIMIT_FSIZE, (size, size))}
        with open(room.file(b"", "short"), "r+b") as short:
            check(f"{os.path.relpath(name, ROOT)}, a file of {size} bytes at most", run([name, *files], stdout=short, **more)[::2], want)
            check(f"{os.path.relpath(name, ROOT)}, a file of {size} bytes at most: what it has", os.pread(short.fileno(), 99, 0), b"turned"[:size])


def writes_of(words, **more):
    """What each write to standard output was: a pipe that keeps writes apart."""
    reader, writer = os.pipe2(os.O_DIRECT)
    run(words, stdout=writer, **more)
    os.close(writer)
    packets = []
    while packet := os.read(reader, 65536):
        packets.append(packet)
    os.close(reader)
    return packets


def one_write(room, door):
    """A line goes out in one write, from the program and from the script."""
    two = writes_of(["sh", "-c", "echo a; echo b"])
    check("the pipe keeps two writes apart", two, [b"a\n", b"b\n"])
    for first, line in ((EXAMPLE, TURNED), (NOTHING, "equal 0 0 0 0 0 0 0"), (EXAMPLE + b"\0", "refused 12")):
        words = [room.file(first), room.file(NOTHING)]
        check("program, files: one write", writes_of([door.program, *words]), [door.line(line)])
        check("script, files: one write", writes_of([door.script, *words]), [door.line(line)])
    check("program, stream: one write", writes_of([door.program], input=EXAMPLE + NOTHING), [door.line(TURNED)])


# ---- the script
def script_answers(room, door):
    """Line and exit status of the script; the borders hold there too. Both names are of one script, so each is given a part of the cases."""
    files, not_files, not_streams = [*border_cases(door), *list(long_cases())[:7]], "cut to", "cut to|refused by"
    if door is SMALL:
        files, few = [*border_cases(door)], "cut to (?!4 |22 )|refused by (?!13)"
        not_files, not_streams = f"{few}|order:", f"{few}|row"
    for label, first, second, line in [case for case in files if not re.search(not_files, case[0])]:
        got = run([door.script, room.file(first), room.file(second)])
        check(f"script, files: {label}", got, (status_of(line), door.line(line), ""))
    for label, data, line in [case for case in stream_cases(door) if not re.search(not_streams, case[0])]:
        check(f"script, stream: {label}", run([door.script], input=data), (status_of(line), door.line(line), ""))
    same = room.file(EXAMPLE)
    check("script, the same file twice", run([door.script, same, same])[:2], (0, door.line("equal 0 0 1 1 2 1 0")))


def script_names(room, door):
    """Names with spaces and dashes, relative names, a link to the script, and files that are no regular ones."""
    spaced = os.path.join(room.path, "two words")
    os.mkdir(spaced)
    other = Room(spaced)
    other.file(EXAMPLE, "a  b")
    other.file(NOTHING, "-h")
    want = (status_of(TURNED), door.line(TURNED), "")
    check("script, names with spaces and a dash", run([door.script, "--", "a  b", "-h"], cwd=spaced), want)
    check("script, a dash in the middle of a path", run([door.script, "a  b", "./-h"], cwd=spaced), want)
    check("script, a dash without --", run([door.script, "a  b", "-x"], cwd=spaced)[:2], (64, b""))
    check("script, a relative path", run([door.script, "two words/a  b", os.path.join(spaced, "-h")], cwd=room.path), want)
    links = [os.path.join(room.path, name) for name in ("a link", "compare", "compare_small")]
    for before, link in zip((door.script, *links), links):
        os.symlink(before, link)
        check(f"script, by {os.path.basename(link)}", run([link, "a  b", "./-h"], cwd=spaced), want)
    other.file(EXAMPLE, "a\nb\n")
    check("script, a name with line ends", run([door.script, "a\nb\n", "./-h"], cwd=spaced), want)
    other.file(EXAMPLE, "\udcff")
    other.file(NOTHING, "\udcff\u00e4")
    check("script, names that are not UTF-8", run([door.script, "\udcff", "./\udcff\u00e4"], cwd=spaced), want)
    other.file(EXAMPLE, "\u00e4")
    check("script, a name of letters beyond ASCII", run([door.script, "\u00e4", "./-h"], cwd=spaced), want)
    check("script, /dev/stdin as a name", run([door.script, "/dev/stdin", "./-h"], cwd=spaced, input=EXAMPLE), want)
    check("script, names around --", run([door.script, "a  b", "--", "-h"], cwd=spaced), want)
    check("script, a path of 4,095 bytes", run([door.script, "/" * (4095 - len(spaced) - 5) + spaced + "/a  b", "./-h"], cwd=spaced), want)
    words = f"'{door.script}' <(cat 'a  b') <(cat ./-h)"
    check("script, pipes as files", run(["bash", "-c", words], cwd=spaced), want)


def script_usage(room, door):
    """Help, bad usage and a terminal."""
    good = room.file(NOTHING)
    for option in ("-h", "--help"):
        status, out, err = run([door.script, option])
        check(f"script {option}", (status, err), (0, ""))
        told = [int(number) for number in re.findall(r"^ +(\d+)  ", out.decode(), re.M)]
        check(f"script {option}, the exit statuses", told, [number for number in (0, 1, 2, 3, 4, 64, 70, 74) if number != 2 or door is COMPARE])
        words = {word: int(number) for number, word in re.findall(r"^ +(\d)  (\w+)", out.decode(), re.M)}
        check(f"script {option}, the verdicts", words, {word: number for word, number in WORDS.items() if number != 2 or door is COMPARE})
        holds(f"script {option}, its name", out.decode().startswith(f"usage: {door.name} FIRST SECOND "), out)
    for words in ([good], [good, good, good], ["--unknown", good], ["-", good], [good, "--x"], ["--", good]):
        status, out, err = run([door.script, *words])
        check(f"script, bad usage {words}", (status, out), (64, b""))
        holds(f"script, bad usage {words}, message", err.startswith(f"{door.name}: ") and f"\nusage: {door.name} " in err, err)
    master, slave = pty.openpty()
    status, out, err = run([door.script], stdin=slave)
    os.close(slave)
    os.close(master)
    check("script, no names at a terminal", (status, out, "usage:" in err), (64, b"", True))
    check("script, run by another shell", run(["sh", door.script, good, good])[0] in (0, 70), True)


def script_failures(room, door):
    """Exit status 74: inputs that cannot be read, and help that cannot be written."""
    good, gone = room.file(NOTHING), os.path.join(room.path, "gone")
    failing = ("a read that fails", ["/proc/self/mem", good])
    for label, words in (("missing", [gone, good]), ("directory", [good, room.path]), ("empty name", ["", good]), failing):
        status, out, err = run([door.script, *words])
        check(f"script, {label}", (status, out, err.split()[0]), (74, b"", f"{door.name}:"))
    status, out, err = run([door.script, "a" * 4096, good])
    check("script, long name", (status, out, err.split()[0]), (74, b"", f"{door.name}:"))
    fd = os.open(room.path, os.O_RDONLY)
    check("script, standard input a directory", run([door.script], stdin=fd)[:2], (74, b""))
    os.close(fd)
    for label, out, _ in unwritable():
        got = run([door.script, "--help"], stdout=out)[::2]
        check(f"script --help, {label}", got, (74, f"{door.name}: standard output: cannot be written\n"))
    closed = ["sh", "-c", 'exec "$@" >&-', "sh", door.script, "--help"]
    check("script --help, closed standard output", run(closed)[::2], (74, f"{door.name}: standard output: is closed\n"))


def unread_messages(room, door):
    """Nobody reads standard error: the status stays what it is."""
    good, gone = room.file(NOTHING), os.path.join(room.path, "gone")
    reader, writer = os.pipe()
    os.close(reader)
    more = {"stdin": subprocess.DEVNULL, "stderr": writer, "timeout": SECONDS}
    for words, status in (([gone, good], 74), (["/proc/self/mem", good], 74), ([good], 64), (["--x"], 64), ([good, good], 0)):
        got = subprocess.run([door.script, *words], stdout=subprocess.PIPE, **more)
        check(f"script, nobody reads the message, {words}", got.returncode, status)
    for label, out, _ in unwritable():
        got = subprocess.run([door.script, good, good], stdout=out, **more)
        check(f"script, {label}, and nobody reads the message", got.returncode, 74)
    os.close(writer)


def closed_descriptors(room, door):
    """Standard input, output and error closed, in every mixture: never a hang, never a line that is no answer."""
    good, gone = room.file(NOTHING), os.path.join(room.path, "gone")
    for closed in ("<&-", "2>&-", "<&- 2>&-"):
        words = ["sh", "-c", f'exec "$@" {closed}', "sh", door.script]
        check(f"script, {closed}", run([*words, good, good])[:2], (0, door.line("equal 0 0 0 0 0 0 0")))
        check(f"script, {closed}, missing file", run([*words, gone, good])[:2], (74, b""))
        check(f"script, {closed}, one name", run([*words, good])[:2], (64, b""))
        want = (74, b"") if "<" in closed else (3, b"refused 1\n")
        check(f"script, {closed}, /dev/stdin as a name", run([*words, "/dev/stdin", good])[:2], want)
        check(f"script, {closed}, no names", run(words)[:2], want)
    for closed in (">&-", "<&- >&-", ">&- 2>&-", "<&- >&- 2>&-"):
        words = ["sh", "-c", f'exec "$@" {closed}', "sh", door.script]
        for names in ([good, good], [gone, good], []):
            check(f"script, {closed}, {len(names)} names", run([*words, *names])[:2], (74, b""))


def unreadable(room, door):
    """A file that may not be read, as a user who is not root."""
    good, secret = room.file(NOTHING), room.file(NOTHING)
    os.chmod(secret, 0)
    more = {}
    if os.geteuid() == 0:
        os.chmod(room.path, 0o755)
        more = {"user": NOBODY, "group": NOBODY, "extra_groups": []}
    try:
        probe = run([door.program, good, good], **more)[1]
    except OSError:
        probe = b""
    if probe != door.line("equal 0 0 0 0 0 0 0"):
        print("skipped: a file that may not be read (nobody cannot run the program here)")
        return
    refuses_to_read(door, "unreadable", [secret, good], f"{secret}: Permission denied", **more)
    status, out, err = run([door.script, good, secret], **more)
    check("script, unreadable", (status, out, secret in err), (74, b"", True))


# ---- what the script builds, and when
FAKE = """#!/bin/sh
# Stands in for rt: counts its runs, and makes the program a copy of one that is built.
here=$(dirname "$0")
if [ "$1" = version ]; then cat "$here/version"; exit 0; fi
cat >/dev/null
echo "$* $(basename "$PWD")" >>"$here/runs"
echo 'fn first::of: proved'
echo 'a line that nobody needs'
mkdir "$here/at_work" || : >"$here/two"
sleep "$(cat "$here/seconds")"
rmdir "$here/at_work"
if [ -e "$here/fail" ]; then echo 'fn third::of: not proved'; echo 'why it failed'; exit 1; fi
self=$(basename "$PWD")
mkdir -p out
cp "$here/$self" "out/$self"
echo 'refused 1'
"""


class Copy:
    """Both scripts beside a few sources, with a stand-in for rt that can be taken away."""

    def __init__(self, path):
        self.root, self.tools = os.path.join(path, "the root"), os.path.join(path, "tools")
        os.makedirs(os.path.join(self.root, "crates", "a"))
        os.mkdir(self.tools)
        os.mkdir(os.path.join(self.root, "tools"))
        shutil.copy(os.path.join(ROOT, "tools", "built.sh"), os.path.join(self.root, "tools"))
        for door in DOORS:
            shutil.copy(door.script, self.root)
            shutil.copy(door.program, self.tools)
            os.mkdir(os.path.join(self.root, "crates", door.name))
        self.put("crates.txt", "a:\n")
        self.put("crates/a/lib.rt", "// a\n")
        for name, text in (("version", "kit 1\n"), ("seconds", "0\n"), ("runs", ""), ("rt", FAKE)):
            self.put(os.path.join(self.tools, name), text)
        os.chmod(os.path.join(self.tools, "rt"), 0o755)
        self.bare = ":".join(p for p in os.environ["PATH"].split(":") if not os.path.exists(os.path.join(p, "rt")))
        self.files = [os.path.join(path, "first"), os.path.join(path, "second")]
        for name, data in zip(self.files, (EXAMPLE, NOTHING)):
            with open(name, "wb") as file:
                file.write(data)

    def put(self, name, text):
        """A file of the root, or anywhere by its whole name."""
        with open(os.path.join(self.root, name), "w", encoding="utf-8") as file:
            file.write(text)

    def program(self, door, text):
        """What is built from now on is this piece of shell."""
        self.put(os.path.join(self.tools, door.name), f"#!/bin/sh\n{text}\n")
        self.put("crates/a/lib.rt", f"// {text}\n")

    def runs(self):
        """How often the stand-in was asked to build."""
        with open(os.path.join(self.tools, "runs"), encoding="utf-8") as file:
            return len(file.readlines())

    def words(self, door=COMPARE):
        """The command."""
        return [os.path.join(self.root, door.name), *self.files]

    def env(self, tool=True):
        """The environment, with rt or without."""
        return dict(os.environ, PATH=f"{self.tools}:{self.bare}" if tool else self.bare)

    def compare(self, label, runs, tool=True, door=COMPARE):
        """The comparison gives its line, and the stand-in has been run so often."""
        status, out, err = run(self.words(door), env=self.env(tool))
        check(f"build, {label}", (status, out, self.runs()), (status_of(TURNED), door.line(TURNED), runs))
        return err


def built_when_needed(copy):
    """The prover runs where the program is not that of these sources, and only then."""
    status, out, err = run(copy.words(), env=copy.env(tool=False))
    check("build, no rt and nothing built", (status, out, err.count("\n")), (70, b"", 1))
    holds("build, no rt and nothing built, message", re.match("compare: .* rt, .* is not found", err), err)
    err = copy.compare("the first time", 1)
    holds("build, progress", "some minutes\ncompare: first::of: proved\n" in err, err)
    holds("build, no noise", "nobody needs" not in err and "refused" not in err, err)
    check("build, silent the second time", copy.compare("the second time", 1), "")
    check("build, no rt but built", copy.compare("no rt but built", 1, tool=False), "")
    copy.put("crates/a/lib.rt", "// b\n")
    copy.compare("a changed file", 2)
    copy.put("crates/a/new", "")
    copy.compare("a new file", 3)
    copy.put("crates.txt", "a: io\n")
    copy.compare("a changed list of crates", 4)
    os.rename(os.path.join(copy.root, "crates/a/new"), os.path.join(copy.root, "crates/a/other"))
    copy.compare("a renamed file", 5)
    os.remove(os.path.join(copy.root, "target/bin/compare"))
    copy.compare("a stamp without the program", 6)
    with open(os.path.join(copy.root, "target/bin/compare"), "ab") as file:
        file.write(b"\0")
    copy.compare("another program file", 7)
    copy.put(os.path.join(copy.tools, "version"), "kit 2\n")
    copy.compare("another kit", 8)
    copy.compare("nothing changed", 8)
    elsewhere = os.path.join(copy.tools, "elsewhere")
    os.mkdir(elsewhere)
    copy.put(os.path.join(elsewhere, "lib.rt"), "// a\n")
    os.symlink(elsewhere, os.path.join(copy.root, "crates/b"))
    copy.compare("a crate behind a link", 9)
    copy.put(os.path.join(elsewhere, "lib.rt"), "// b\n")
    copy.compare("a changed file behind a link", 10)
    os.remove(os.path.join(copy.root, "crates/b"))
    with open(os.path.join(copy.tools, "runs"), encoding="utf-8") as file:
        check("build, what rt is asked for", set(file.read().splitlines()), {"run compare"})
    os.rename(os.path.join(copy.root, "crates.txt"), os.path.join(copy.root, "kept"))
    check("build, no list of crates", run(copy.words(), env=copy.env())[:2], (70, b""))
    os.rename(os.path.join(copy.root, "kept"), os.path.join(copy.root, "crates.txt"))


def progress_meanwhile(copy):
    """Each line of progress comes while the stand-in still runs, and a build goes on where nobody reads them."""
    copy.put(os.path.join(copy.tools, "seconds"), "2\n")
    copy.put("crates/a/lib.rt", "// progress\n")
    program = os.path.join(copy.root, "target/bin/compare")
    os.remove(program)
    with subprocess.Popen(copy.words(), env=copy.env(), stdout=subprocess.PIPE, stderr=subprocess.PIPE) as child:
        line = b"none"
        while line and b"first::of" not in line:
            line = child.stderr.readline()
        check("build, progress while it builds", (line, os.path.exists(program)), (b"compare: first::of: proved\n", False))
        child.communicate(timeout=SECONDS)
    copy.put(os.path.join(copy.tools, "seconds"), "0\n")
    copy.put("crates/a/lib.rt", "// nobody reads\n")
    reader, writer = os.pipe()
    os.close(reader)
    got = subprocess.run(copy.words(), env=copy.env(), stdout=subprocess.PIPE, stderr=writer, timeout=SECONDS)
    os.close(writer)
    check("build, nobody reads the progress", (got.returncode, got.stdout), (status_of(TURNED), COMPARE.line(TURNED)))


def others_use(copy):
    """What one user built another runs, and need not build."""
    mode = os.stat(os.path.join(copy.root, "target/compare.stamp")).st_mode
    check("build, the stamp is readable as other files are", mode & 0o777, 0o666 & ~UMASK)


def builds_that_fail(copy):
    """A failed proof, sources that change meanwhile, and rt gone: 70, and never a line."""
    copy.put(os.path.join(copy.tools, "fail"), "")
    copy.put("crates/a/lib.rt", "// c\n")
    for _ in range(2):
        status, out, err = run(copy.words(), env=copy.env())
        check("build, a failed proof", (status, out, "compare: third::of: not proved" in err), (70, b"", True))
        holds("build, a failed proof, the end of what rt said", "\nwhy it failed\n" in err, err)
    status, out, err = run(copy.words(), env=copy.env(tool=False))
    check("build, no rt after a failed proof", (status, out), (70, b""))
    os.remove(os.path.join(copy.tools, "fail"))
    copy.put(os.path.join(copy.tools, "seconds"), "1\n")
    with subprocess.Popen(copy.words(), env=copy.env(), stdout=subprocess.PIPE, stderr=subprocess.PIPE) as child:
        time.sleep(0.5)
        copy.put("crates/a/lib.rt", "// d\n")
        out, _ = child.communicate(timeout=SECONDS)
    check("build, sources that change meanwhile", (child.returncode, out), (70, b""))


def at_once(copy):
    """Six runs at once, three of each script: six lines, one build of each program, never both at a time."""
    copy.put("crates/a/lib.rt", "// e\n")
    before = copy.runs()
    more = {"env": copy.env(), "stdout": subprocess.PIPE, "stderr": subprocess.PIPE, "stdin": subprocess.DEVNULL}
    children = [(door, subprocess.Popen(copy.words(door), **more)) for door in DOORS * 3]
    for door, child in children:
        out, _ = child.communicate(timeout=SECONDS)
        check("build, six at once", (child.returncode, out), (status_of(TURNED), door.line(TURNED)))
    check("build, six at once, a build of each", copy.runs() - before, 2)
    holds("build, six at once, one after the other", not os.path.exists(os.path.join(copy.tools, "two")), "two")


def under_either_name(copy):
    """Each script builds its own program where that is not of these sources, whatever the other has built."""
    other = copy.words(SMALL)
    status, out, err = run(other, env=copy.env(tool=False))
    check("build, compare_small: no rt", (status, out, err.count("\n"), err.split()[0]), (70, b"", 1, "compare_small:"))
    before = copy.runs()
    err = copy.compare("compare_small: the first time", before + 1, door=SMALL)
    holds("build, compare_small: progress", "some minutes\ncompare_small: first::of: proved\n" in err, err)
    for door in (SMALL, COMPARE):
        check(f"build, {door.name}: silent, nothing changed", copy.compare("nothing changed", before + 1, False, door), "")
    copy.put("crates/a/lib.rt", "// each\n")
    copy.compare("compare: a changed file", before + 2)
    copy.compare("compare_small: a changed file", before + 3, door=SMALL)
    os.remove(os.path.join(copy.root, "target/bin/compare_small"))
    check("build, compare: the other's program is gone", copy.compare("the other's program is gone", before + 3), "")
    copy.compare("compare_small: its program is gone", before + 4, door=SMALL)
    with open(os.path.join(copy.tools, "runs"), encoding="utf-8") as file:
        asked = file.read().split()[2 * before + 1 :: 2]
    check("build, what rt is asked for under each name", asked, ["compare_small", "compare", "compare_small", "compare_small"])
    os.rename(os.path.join(copy.root, "compare"), os.path.join(copy.root, "kept"))
    check("compare_small without compare", run(other, env=copy.env())[:2], (70, b""))
    os.rename(os.path.join(copy.root, "kept"), os.path.join(copy.root, "compare"))


# lines that are a result, and that are none: the form, a word and so many numbers, is all that the script holds a line to
RESULTS = {
    COMPARE: (
        "equal 0 0 0 0 0 0 0", "different 0 3 0 0 0 0 0", "undecided 0 0 1 0 0 0 1", "refused 9", "turned 7 0 1 1 1 0 0", "turned 1 0 0 0 0 0 0",
        "turned 0 0 0 0 0 0 0", "turned 8 65535 255 0 0 0 0",
    ),
    SMALL: ("equal 0 0", "different 0 3", "refused 14", "turned 7 0", "turned 1 0", "turned 0 0"),
}
NO_RESULTS = {
    COMPARE: (
        "equal 0 0", "turned", "turned 7", "turned 7 0", "turned 7 0 1 1 1 0", "turned 7 0 1 1 1 0 0 0", "turned 07 0 1 1 1 0 0", "turned -1 0 1 1 1 0 0",
        "turned  7 0 1 1 1 0 0", "turned 7 0 1 1 1 0 0 ", "Turned 7 0 1 1 1 0 0", "turn 7 0 1 1 1 0 0", "returned 7 0 1 1 1 0 0", "turned7 0 1 1 1 0 0",
        "turned 7 0 1 1 1 0 x", "turned 7 0 1 1 1 0 0\nturned 7 0 1 1 1 0 0", "refused", "refused 9 0",
    ),
    SMALL: ("equal 0 0 0 0 0 0 0", "undecided 0 0", "equal 0 0 0", "different 0", "turned 7", "turned 7 0 1 1 1 0 0", "turned 7 0 0", "turned 07 0"),
}


def lines_of_a_program(copy):
    """A program that prints a line of its own: with the line's status where it is a result, else 70 and no line."""
    printed = os.path.join(copy.tools, "printed")
    for door in DOORS:
        copy.program(door, f"cat '{printed}'")
        for line in RESULTS[door] + NO_RESULTS[door]:
            copy.put(printed, line + "\n")
            want = (status_of(line), line.encode() + b"\n") if line in RESULTS[door] else (70, b"")
            check(f"{door.name}: a program that prints {line!r}", run(copy.words(door), env=copy.env())[:2], want)
        copy.program(door, f"echo {RESULTS[door][0]}; exit 1")
        check(f"{door.name}: a program that fails", run(copy.words(door), env=copy.env())[:2], (70, b""))


def builds(room):
    """All of them, and that a build leaves standard input alone."""
    copy = Copy(room.path)
    built_when_needed(copy)
    progress_meanwhile(copy)
    others_use(copy)
    under_either_name(copy)
    builds_that_fail(copy)
    at_once(copy)
    copy.put(os.path.join(copy.tools, "seconds"), "0\n")
    copy.put("crates/a/lib.rt", "// f\n")
    got = run(copy.words()[:1], env=copy.env(), input=EXAMPLE + NOTHING)
    check("build, standard input is the comparison's", got[:2], (status_of(TURNED), COMPARE.line(TURNED)))
    lines_of_a_program(copy)


# ---- examples
def examples():
    """Every row of the examples' table, and each record beside its text."""
    with open(os.path.join(ROOT, "examples", "README.md"), encoding="utf-8") as file:
        rows = re.findall(r"^\| `\./(compare|compare_small) (\S+) (\S+)` \| `(.*)` \| (\d+) \|$", file.read(), re.M)
    check("examples, rows of the table", [row[0] for row in rows], ["compare"] * 10 + ["compare_small"] * 2)
    check("examples, every status that tells a verdict", {int(row[4]) for row in rows}, set(WORDS.values()))
    for name, first, second, line, status in rows:
        got = run([os.path.join(ROOT, name), first, second], cwd=ROOT)
        check(f"examples, {name} {first} {second}", got, (int(status), f"{line}\n".encode(), ""))
    with open(os.path.join(ROOT, "README.md"), encoding="utf-8") as file:
        readme = file.read()
    told = [re.search(r"^    \./compare (\S+) (\S+)$", readme, re.M), re.search(r"and prints `(.*?)`", readme)]
    told = tuple(word for found in told if found for word in found.groups())
    holds("examples, README's pair and line", ("compare", *told) in [row[:4] for row in rows], told)
    records = sorted(f for f in os.listdir(os.path.join(ROOT, "examples")) if f.endswith(".gates"))
    check("examples, records", len(records), 13)
    for name in records:
        with open(os.path.join(ROOT, "examples", name), "rb") as file:
            data = file.read()
        status, text, err = run([GATES, "decode", "-"], input=data)
        check(f"decode {name}", (status, err), (0, ""))
        check(f"decode and encode {name}", run([GATES, "encode", "-", "-"], input=text), (0, data, ""))
        source = os.path.join(ROOT, "examples", name[: -len("gates")] + "txt")
        check(f"encode the text of {name}", run([GATES, "encode", source, "-"]), (0, data, ""))


KINDS_TEXT = "qubits 16\nX 0\nY 1\nZ 2\nS 3\nSdg 4\nT 5\nTdg 6\nH 7\nCX 8 9\nCZ 10 11\nSWAP 15 0\n"
KINDS_BYTES = (b"QC\x10\x0b\x00" + b"\x00\x00\xff\x01\x01\xff\x02\x02\xff\x03\x03\xff\x04\x04\xff\x05\x05\xff"
               b"\x06\x06\xff\x07\x07\xff\x08\x08\x09\x09\x0a\x0b\x0a\x0f\x00")
BAD_TEXTS = (
    ("", ""), ("# only a comment\n", ""), ("H 0\n", "line 1"), ("qubits\n", "line 1"), ("qubits 0\n", "line 1"),
    ("qubits 17\n", "line 1"), ("qubits two\n", "line 1"), ("qubits 2 3\n", "line 1"), ("qubits -1\n", "line 1"),
    ("qubits 2\n\nHH 0\n", "line 3"), ("qubits 2\nh 0\n", "line 2"), ("qubits 2\nH\n", "line 2"), ("qubits 2\nH 0 1\n", "line 2"),
    ("qubits 2\nH 2\n", "line 2"), ("qubits 2\nH x\n", "line 2"), ("qubits 2\nCX 0\n", "line 2"), ("qubits 2\nCX 1 1\n", "line 2"),
    ("qubits 2\nCX 0 2\n", "line 2"), ("qubits 2\nCX 0 1 1\n", "line 2"), ("qubits 2\nH -1\n", "line 2"), ("qubits 2\nH ²\n", "line 2"),
    ("qubits 2\nH " + "0" * 5000 + "\n", "line 2"), ("qubits 2\rH 0\r", "line 1"), ("qubits 2\nqubits 2\n", "line 2"), ("qubits 1\n" + "T 0\n" * 513, "line 514"),
)


def gates_texts(room):
    """What encode takes, and what it turns down with the line's number, nothing written."""
    check("encode, every kind", run([GATES, "encode", "-", "-"], input=KINDS_TEXT.encode()), (0, KINDS_BYTES, ""))
    check("decode, every kind", run([GATES, "decode", "-"], input=KINDS_BYTES), (0, KINDS_TEXT.encode(), ""))
    other = "# a list\n\n  qubits   1 # one\r\n\tS† 0\nT† 0#x\n# a comment ends with its line\u2028X 0\x0cX 0\n"
    check("encode, other spellings", run([GATES, "encode", "-", "-"], input=other.encode()), (0, one("S' T'"), ""))
    check("encode, 512 gates", run([GATES, "encode", "-", "-"], input=b"qubits 1\n" + b"T 0\n" * 512), (0, FULL, ""))
    target, kept = os.path.join(room.path, "target"), room.file(b"kept")
    for text, where in BAD_TEXTS:
        source = room.file(text.encode())
        status, out, err = run([GATES, "encode", source, target])
        check(f"encode {text[:30]!r}", (status, out, os.path.exists(target)), (1, b"", False))
        holds(f"encode {text[:30]!r}, message", err.startswith(f"gates: {source}: {where}") and len(err) > 20, err)
        run([GATES, "encode", source, kept])
    with open(kept, "rb") as file:
        check("encode, a file that stands there is kept", file.read(), b"kept")
    check("encode, no UTF-8", run([GATES, "encode", "-", "-"], input=b"qubits 1\nH \xff\n")[:2], (1, b""))


def gate_of(data):
    """The index of the gate that a record is refused at, by the independent implementation; nothing where there is none."""
    try:
        reference.read_record(data)
    except reference.Refused as refusal:
        return "" if refusal.index is None else str(refusal.index)
    return ""


def told(number, index=0):
    """A refusal as decode tells it: a gate's with the gate's index."""
    return f"{number}, gate {index}" if number in (5, 6, 7) else f"{number}"


def gates_records(room):
    """What decode refuses, held to the program's number for the same file; usage and files."""
    bad = [(told(number), data) for number, data in BAD.items()] + [(told(number), data) for _, data, number in ORDER]
    bad += [(told(7, i), FULL[: 7 + 3 * i] + b"\0" + FULL[8 + 3 * i :]) for i in (0, 1, 255, 256, 511)]
    for why, data in [*bad, (told(12), EXAMPLE + b"\0")]:
        got = run([GATES, "decode", "-", os.path.join(room.path, "text")], input=data)
        check(f"decode, refused {why}", got, (1, b"", f"gates: -: refused {why}\n"))
    check("decode, nothing written", os.path.exists(os.path.join(room.path, "text")), False)
    for words in ([], ["encode"], ["encode", "-"], ["decode"], ["decode", "a", "b", "c"], ["recode", "a", "b"]):
        status, out, err = run([GATES, *words])
        check(f"gates, bad usage {words}", (status, out, err[:6]), (64, b"", "usage:"))
    status, out, _ = run([GATES, "--help"])
    check("gates --help", (status, b"encode TEXT RECORD" in out), (0, True))
    gone = os.path.join(room.path, "gone")
    check("gates, missing file", run([GATES, "decode", gone]), (74, b"", f"gates: {gone}: No such file or directory\n"))
    check("gates, closed standard error", run(["sh", "-c", 'exec "$@" 2>&-', "sh", GATES, "decode", gone])[:2], (74, b""))
    for words in (["decode", "-"], ["--help"]):
        with open("/dev/full", "wb") as full:
            check(f"gates, /dev/full {words}", run([GATES, *words], input=EXAMPLE, stdout=full)[0], 74)
    check("gates, folder as target", run([GATES, "decode", "-", room.path], input=EXAMPLE)[:2], (74, b""))
    loader = importlib.machinery.SourceFileLoader("gates", GATES)
    gates = importlib.util.module_from_spec(importlib.util.spec_from_loader("gates", loader))
    loader.exec_module(gates)
    rng, seen = random.Random(20261116), set()
    for _ in range(300):
        data = bytearray(rng.choice((EXAMPLE, KINDS_BYTES, NOTHING)))
        for _ in range(rng.randint(1, 3)):
            data[rng.randrange(len(data))] = rng.choice((0, 1, 2, 7, 9, 10, 11, 16, 17, 0x43, 0x51, 255))
        data = bytes(data)[: rng.randint(3, len(data) + 20)] + bytes(rng.choice((0, 0, 1)))
        out = run([COMPARE.program, room.file(data, "mutant"), room.file(NOTHING)])[1].decode().split()
        want = out[1] if out[0] == "refused" and out[1] not in ("8", "9") else ""
        got, _, gate = gates.refusal(data).partition(", gate ")
        seen.add(want)
        check(f"refusal of {data.hex()}", (got, gate), (want, gate_of(data)))
    check("refusals that came up", seen, {"", "1", "2", "3", "4", "5", "6", "7", "12", "13"})


def main():
    """Runs everything."""
    for door in DOORS:
        if not os.access(door.program, os.X_OK):
            print(f"front_door: the program is not built; tools/build {door.name} builds it")
            return 1
        status, _, err = run([door.script, "--", GATES, GATES])
        if status != 3:
            print(f"front_door: the script {door.name} does not run: {status}\n{err}")
            return 1
    both = (program_answers, slow_stream, program_failures, failed_writes, one_write, script_answers, script_names, script_usage, script_failures,
            unread_messages, closed_descriptors, unreadable)
    for door in DOORS:
        for part in both:
            with tempfile.TemporaryDirectory() as path:
                HELD["of"] = f"{door.name}: "
                part(Room(path), door)
    HELD["of"] = ""
    for part in (builds, gates_texts, gates_records):
        with tempfile.TemporaryDirectory() as path:
            part(Room(path))
    examples()
    print(f"front_door: {HELD['checks']} checks, {HELD['failed']} failed")
    return 1 if HELD["failed"] else 0


if __name__ == "__main__":
    sys.exit(main())
