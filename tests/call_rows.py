"""Rows of the programs record_calls and pair_calls, and the line that each must give by the independent implementation beside
this file. tests/README.md describes both.
"""
import re
from functools import cache

import reference as ref

LETTERS = "xyzsrtuhckw"
MOST_LINE, MOST_BYTES, MOST_WORDS, MOST_PLACES, MOST_NUMBERS = 8192, 2048, 6464, 3264, 520


class Bad(Exception):
    """A row that cannot be read."""


def gate_text(gates):
    """Gates as a row writes them."""
    return " ".join(LETTERS[k] + f"{a:x}" + (f"{b:x}" if k > ref.H else "") for k, a, b in gates)


def list_text(n, gates):
    return f"{n}:{gate_text(gates)}"


def row(name, call, numbers=(), first="", second=""):
    """A row. Bytes are written in hexadecimal, text as it is."""
    parts = [p.hex() if isinstance(p, bytes) else p for p in (first, second)]
    return ";".join([str(name), call, " ".join(map(str, numbers)), *parts])


def gates_of(text):
    """The gates of a list's text."""
    words = text.split(" ")
    if words[-1] == "":
        words.pop()
    gates = []
    for word in words:
        if not re.fullmatch("[xyzsrtuh][0-9a-f]|[ckw][0-9a-f]{2}", word):
            raise Bad
        kind = LETTERS.index(word[0])
        gates.append((kind, int(word[1], 16), int(word[2], 16) if kind > ref.H else 255))
    return gates


def bytes_of(text):
    """The bytes that a part of a row lends."""
    if text.count(":") == 1:
        n, gates = text.split(":")
        data = ref.record(number(n), gates_of(gates)) if number(n) <= 16 else b""
        try:
            ref.read_record(data)
        except ref.Refused:
            raise Bad from None
        return data + b"\xa5" * (MOST_BYTES - len(data))
    if not re.fullmatch("([0-9a-f][0-9a-f])*", text) or len(text) > 2 * MOST_BYTES:
        raise Bad
    return bytes.fromhex(text)


def number(text):
    if not re.fullmatch("[0-9]{1,18}", text):
        raise Bad
    return int(text)


def numbers_of(text, limits):
    """As many numbers as there are limits, each below its own."""
    numbers = [number(t) for t in text.split(" ")] if text else []
    if len(numbers) != len(limits) or any(x >= limit for x, limit in zip(numbers, limits)):
        raise Bad
    return numbers


ANY = 10**18
BYTE = 256


def shown(data):
    return data.hex() or "-"


def refused(refusal):
    """A refusal: its number, then the list of a pair and the gate's index where it has them."""
    which = f" {refusal.which}" if refusal.which else ""
    gate = "" if refusal.index is None else f" gate {refusal.index}"
    return f"refused {refusal.number}{which}{gate}"


def left(accepted, seed, used, most):
    """What so many places hold afterwards: how many of the used ones, the first, are 0, and how many of all hold what they held."""
    zero = used if accepted or seed == 0 else 0
    kept = most - used if accepted and seed else most
    return f"zero {zero} kept {kept}"


def workspaces(accepted, seed):
    """What both workspaces of a pair hold afterwards."""
    sets, coeffs = left(accepted, seed, ref.WORDS, MOST_WORDS), left(accepted, seed, ref.PLACES, MOST_PLACES)
    return f", sets {sets}, coeffs {coeffs}"


def lent_numbers(accepted, seed):
    """What the numbers that a small block is lent hold afterwards."""
    return f", numbers {left(accepted, seed, ref.NUMBERS, MOST_NUMBERS)}"


def written(call, buffer, size):
    """A writer's answer on the first bytes of a buffer, and the whole buffer afterwards."""
    if size > len(buffer):
        raise Bad
    try:
        length, after = call(buffer[:size])
    except ref.Refused as refusal:
        return f"{refused(refusal)} {shown(buffer)}"
    return f"length {length} {shown(after + buffer[size:])}"


def check(numbers, first, second, events):
    numbers_of(numbers, [])
    n, gates, _ = ref.read_record(bytes_of(first))
    return f"accepted {n} {len(gates)}"


def gates(numbers, first, second, events):
    numbers_of(numbers, [])
    data = bytes_of(first)
    try:
        return f"gates {shown(data[5 : ref.read_record(data)[2]])}"
    except ref.Refused:
        return "gates -"


def read_report(numbers, first, second, events):
    numbers_of(numbers, [])
    return "fields " + " ".join(map(str, ref.read_report(bytes_of(first))))


def check_gate(numbers, first, second, events):
    ref.check_gate(*numbers_of(numbers, [ANY, ANY, BYTE, BYTE, BYTE]))
    return "good"


def start(numbers, first, second, events):
    size, n = numbers_of(numbers, [ANY, ANY])
    return written(lambda b: ref.start(b, n), bytes_of(second), size)


def add(numbers, first, second, events):
    size, *gate = numbers_of(numbers, [ANY, BYTE, BYTE, BYTE])
    return written(lambda b: ref.add(b, *gate), bytes_of(second), size)


def inverse(numbers, first, second, events):
    (size,) = numbers_of(numbers, [ANY])
    data = bytes_of(first)
    return written(lambda b: ref.inverse(data, b), bytes_of(second), size)


def write_report(numbers, first, second, events):
    size, *fields = numbers_of(numbers, [ANY, BYTE, 65536, 65536, BYTE, BYTE, BYTE, BYTE, BYTE])
    return written(lambda b: ref.write_report(b, *fields), bytes_of(second), size)


def both_of(first, second):
    """The bytes of both lists; the first slice twice where the second is written =."""
    data = bytes_of(first)
    return data, data if second == "=" else bytes_of(second)


def pair_of(numbers, first, second):
    words, places, seed = numbers_of(numbers, [MOST_WORDS + 1, MOST_PLACES + 1, ANY])
    return *both_of(first, second), words, places, seed


def compare(numbers, first, second, events):
    a, b, words, places, seed = pair_of(numbers, first, second)
    try:
        result = ref.compare(*ref.read_pair(a, b, words, places), events)
    except ref.Refused as refusal:
        return refused(refusal) + workspaces(False, seed)
    return " ".join(map(str, result)) + workspaces(True, seed)


def pick(numbers, first, second, events):
    a, b, words, places, seed = pair_of(numbers, first, second)
    try:
        part, is_second = ref.pick(a, b, words, places, events)
    except ref.Refused:
        return "empty -" + workspaces(False, seed)
    return f"{'second' if is_second else 'first'} {part.hex()}" + workspaces(True, seed)


def dense(numbers, first, second, events):
    lent, seed = numbers_of(numbers, [MOST_NUMBERS + 1, ANY])
    a, b = both_of(first, second)
    try:
        result = ref.compare_small(*ref.read_small(a, b, lent))
    except ref.Refused as refusal:
        return refused(refusal) + lent_numbers(False, seed)
    return " ".join(map(str, result)) + lent_numbers(True, seed)


@cache
def rubbish(seed):
    """The bytes of a join's buffer before a call, by a row of numbers that begins with the seed: Marsaglia's xorshift. None is 0, but all of them are
    with the seed 0."""
    data, x = bytearray(), seed
    for _ in range(MOST_BYTES):
        data.append(x % 255 + 1 if x else 0)
        x = (x ^ x << 13) % 2**64
        x ^= x >> 7
        x = (x ^ x << 17) % 2**64
    return bytes(data)


def join(call, numbers, first, second):
    """What a join writes at the front of its buffer, and how many bytes behind that, or of all, hold what they held."""
    size, seed = numbers_of(numbers, [MOST_BYTES + 1, ANY])
    a, b = both_of(first, second)
    before = rubbish(seed)
    try:
        length, after = call(a, b, before[:size])
    except ref.Refused as refusal:
        return f"{refused(refusal)} kept {len(before)}"
    kept = sum(x == y for x, y in zip(before[length:], (after + before[size:])[length:]))
    return f"length {length} {shown(after[:length])} kept {kept}"


def join_in_time(numbers, first, second, events):
    return join(ref.join_in_time, numbers, first, second)


def join_in_space(numbers, first, second, events):
    return join(ref.join_in_space, numbers, first, second)


READERS = {"check": check, "gates": gates, "read_report": read_report}
BUILDERS = {"start": start, "add": add, "write_report": write_report}
JOINS = {"join_in_time": join_in_time, "join_in_space": join_in_space}
PAIRS = {"compare": compare, "pick": pick, "dense": dense, **JOINS}
CALLS = {**READERS, **BUILDERS, "check_gate": check_gate, "inverse": inverse, **PAIRS}
PROGRAMS = ("record_calls", "pair_calls")


def program_of(row):
    """The program that a row is for; one that names no call on a pair goes to the record layer's."""
    call = (row.split(";") + [""])[1]
    return "pair_calls" if call in PAIRS else "record_calls"


def answer(row, events=None):
    """What a row gives behind its name."""
    if len(row.encode()) > MOST_LINE:
        return "bad row"
    parts = row.split(";")
    try:
        if len(parts) != 5 or parts[1] not in CALLS:
            raise Bad
        _, call, numbers, first, second = parts
        if (call in READERS or call == "check_gate") and second or (call in BUILDERS or call == "check_gate") and first:
            raise Bad
        return CALLS[call](numbers, first, second, events)
    except Bad:
        return "bad row"
    except ref.Refused as refusal:
        return refused(refusal)


def line(row, events=None):
    """The line that a row gives."""
    return row.split(";")[0] + ": " + answer(row, events)
