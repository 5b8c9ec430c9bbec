"""An independent implementation of document 01 as items 1 to 6 of 02 change it, for tests alone: records and reports, the steps, the pick,
exact dense columns, the comparison of small blocks by them, joins and what joined lists do.

It shares no code with the engine and is written for plainness: terms are a dictionary from set to coefficient, and columns are
dictionaries from output to four whole numbers. A small block's columns are run all at once: they are the digits of large numbers.
"""

from itertools import combinations

X, Y, Z, S, SI, T, TI, H, CX, CZ, SWAP = range(11)
INVERSE = {S: SI, SI: S, T: TI, TI: T}
# by number, as a report has them
VERDICTS = ("equal", "different", "undecided", "turned")
# of a pair: its variables, and the places of both workspaces: a term has a coefficient and, as its set, two words
MOST_VARIABLES, PLACES, WORDS = 128, 3200, 6400
# of a small block
NUMBERS, MOST_QUBITS, MOST_HADAMARDS = 512, 6, 60


class Refused(Exception):
    """A call refused: the number, the bad gate's index and the list of a pair, "first" or "second"; None where there is none."""

    def __init__(self, number, index=None, which=None):
        super().__init__(number, index, which)
        self.number, self.index, self.which = number, index, which


def read_record(data):
    """(n, gates, length) of the record at the start of data; raises Refused."""
    if len(data) < 5:
        raise Refused(1)
    if data[0] != 0x51 or data[1] != 0x43:
        raise Refused(2)
    n = data[2]
    if not 1 <= n <= 16:
        raise Refused(3)
    g = data[3] | data[4] << 8
    if g > 512:
        raise Refused(4)
    if len(data) < 5 + 3 * g:
        raise Refused(13)
    gates = []
    for i in range(g):
        gate = tuple(data[5 + 3 * i : 8 + 3 * i])
        check_gate(n, i, *gate)
        gates.append(gate)
    return n, gates, 5 + 3 * g


def check_gate(n, index, kind, a, b):
    """Raises Refused where the gate with this index is none on n qubits."""
    if kind > SWAP:
        raise Refused(5, index)
    if kind <= H and b != 255:
        raise Refused(7, index)
    if a >= n or (kind > H and (b >= n or a == b)):
        raise Refused(6, index)


def record(n, gates):
    """The bytes of a record."""
    body = b"".join(bytes(g) for g in gates)
    return bytes([0x51, 0x43, n, len(gates) & 255, len(gates) >> 8]) + body


def inverted(gates):
    """The gates backwards, S and T exchanged for their inverses."""
    return [(INVERSE.get(k, k), a, b) for k, a, b in reversed(gates)]


# Writers: each takes the lent buffer and gives the record's length and the buffer afterwards, or raises Refused.


def written(buffer, data):
    if len(buffer) < len(data):
        raise Refused(11)
    return len(data), data + buffer[len(data) :]


def start(buffer, n):
    if not 1 <= n <= 16:
        raise Refused(3)
    return written(buffer, record(n, []))


def add(buffer, kind, a, b):
    n, gates, _ = read_record(buffer)
    if len(gates) == 512:
        raise Refused(4)
    check_gate(n, len(gates), kind, a, b)
    return written(buffer, record(n, gates + [(kind, a, b)]))


def inverse(data, buffer):
    n, gates, _ = read_record(data)
    return written(buffer, record(n, inverted(gates)))


def write_report(buffer, verdict, first, second, pins, sums, turns, joins, left):
    if verdict >= len(VERDICTS):
        raise Refused(5)
    inputs = first.to_bytes(2, "little") + second.to_bytes(2, "little")
    return written(buffer, bytes([0x51, 0x56, verdict]) + inputs + bytes([pins, sums, turns, joins, left]))


def read_report(data):
    """The eight fields; raises Refused."""
    if len(data) < 12:
        raise Refused(1)
    if data[:2] != b"QV":
        raise Refused(2)
    if data[2] >= len(VERDICTS):
        raise Refused(5)
    return (data[2], data[3] + 256 * data[4], data[5] + 256 * data[6], *data[7:12])


def odd(mask):
    """The parity of a number's ones."""
    return bin(mask).count("1") % 2


class Sum:
    """A path sum: wires as [set, bit], a constant, terms by set, and the live path variables, lowest first."""

    def __init__(self, n):
        self.n = n
        self.wires = [[1 << q, 0] for q in range(n)]
        self.constant = 0
        self.terms = {}
        self.live = []

    def put(self, coefficient, mask, bit):
        """A phase on a parity."""
        if bit:
            self.constant = (self.constant + coefficient) % 8
            coefficient = -coefficient
        if mask:
            c = (self.terms.get(mask, 0) + coefficient) % 8
            if c:
                self.terms[mask] = c
            else:
                self.terms.pop(mask, None)

    def product(self, u, v):
        """4 on a product of parities."""
        self.put(2, *u)
        self.put(2, *v)
        self.put(-2, u[0] ^ v[0], u[1] ^ v[1])

    def run(self, gate):
        kind, a, b = gate
        w = self.wires
        if kind == X:
            w[a] = [w[a][0], 1 - w[a][1]]
        elif kind == Y:
            self.put(4, *w[a])
            w[a] = [w[a][0], 1 - w[a][1]]
            self.constant = (self.constant + 2) % 8
        elif kind == CX:
            w[b] = [w[b][0] ^ w[a][0], w[b][1] ^ w[a][1]]
        elif kind == SWAP:
            w[a], w[b] = w[b], w[a]
        elif kind == CZ:
            self.product(w[a], w[b])
        elif kind == H:
            v = self.n + len(self.live)
            self.live.append(v)
            self.product(w[a], (1 << v, 0))
            w[a] = [1 << v, 0]
        else:
            self.put({Z: 4, S: 2, SI: -2, T: 1, TI: -1}[kind], *w[a])

    def removed(self, v):
        """The terms that hold variable v, which the sum no longer has."""
        return [(s, self.terms.pop(s)) for s in list(self.terms) if s >> v & 1]

    def replace(self, z, mask, bit):
        """Variable z replaced by a parity, in terms and wires."""
        for s, c in self.removed(z):
            self.put(c, s ^ 1 << z ^ mask, bit)
        for w in self.wires:
            if w[0] >> z & 1:
                w[0] ^= 1 << z ^ mask
                w[1] ^= bit
        self.live.remove(z)

    def ready(self, y):
        return all(c % 2 == 0 for s, c in self.terms.items() if s >> y & 1)

    def halves(self, y):
        """C and L of y."""
        total, linear = 0, 0
        for s, c in self.terms.items():
            if s >> y & 1:
                total += c
                if c // 2 % 2:
                    linear ^= s ^ 1 << y
        return total // 2 % 4, linear

    def take_out(self, y):
        for s, c in self.removed(y):
            self.put(c, s ^ 1 << y, 0)

    def phase(self, x):
        return (self.constant + sum(c for s, c in self.terms.items() if odd(s & x))) % 8


def inputs_by_weight(n):
    """The inputs of weight 1, then 2, then 3, lower numbers first."""
    for weight in (1, 2, 3):
        yield from sorted(sum(1 << q for q in chosen) for chosen in combinations(range(n), weight))


def qubits_of(x):
    """The qubits of an input, the highest first."""
    return [q for q in reversed(range(16)) if x >> q & 1]


def another(shown, later):
    """What a later input of weight 3 has beside the one that is shown."""
    (i, j, k), (p, q, r) = qubits_of(shown), qubits_of(later)
    if p > i:
        return "highest qubit, the middle one lower" if q < j else "highest qubit"
    if q > j:
        return "middle qubit, the lowest one lower" if r < k else "middle qubit"
    return "lowest qubit"


def built(n, first, second):
    """The sum of the first list and the second inverted."""
    s = Sum(n)
    for gate in first + inverted(second):
        s.run(gate)
    return s


def agreed(power):
    """The verdict and its two numbers where this power of ω carries the first list to the second."""
    return ("turned", power, 0) if power else ("equal", 0, 0)


def compare(n, first, second, events=None):
    """The eight fields of the result. What happened on the way is added to events, a list of words: each step with its variable, of a join also the
    one that it replaces, and what it was like."""
    s = built(n, first, second)
    pins = sums = turns = joins = 0
    events = [] if events is None else events

    def result(verdict, a, b):
        return (verdict, a, b, pins, sums, turns, joins, len(s.live))

    def blocked(step, mask, bit):
        events.append(f"{step} blocked by {'its constant' if bit else 'a qubit'}")
        shown = 0 if bit else mask & -mask
        return result("different", shown, shown)

    def lowest(mask):
        held = [v for v in s.live if mask >> v & 1]
        return min(held) if held else None

    for q in range(n):
        mask, bit = s.wires[q][0] ^ 1 << q, s.wires[q][1]
        z = lowest(mask)
        if z is not None:
            s.replace(z, mask ^ 1 << z, bit)
            pins += 1
            events += [f"pin at variable {z}", f"pin, constant {bit}"]
        elif mask or bit:
            return blocked("pin", mask, bit)
    while s.live:
        y = next((y for y in s.live if s.ready(y)), None)
        if y is None:
            events.append("none ready")
            return result("undecided", 0, 0)
        c, linear = s.halves(y)
        z = lowest(linear)
        if c % 2 == 0 and (c or linear) and z is None:
            events.append(f"join blocked at variable {y}")
            return blocked("join", linear, c // 2)
        s.take_out(y)
        s.live.remove(y)
        if c % 2:
            turn = 1 if c == 1 else -1
            s.constant = (s.constant + turn) % 8
            s.put(-2 * turn, linear, 0)
            turns += 1
            events += [f"turn at variable {y}", f"turn, C = {c}"]
        elif c or linear:
            s.replace(z, linear ^ 1 << z, c // 2)
            joins += 1
            events += [f"join at variable {y}", f"join for variable {z}", f"join, C = {c}"]
        else:
            sums += 1
            events.append(f"sum at variable {y}")
    if pins != sums:
        events.append("pins differ from sums")
        return result("different", 0, 0)
    differing = (x for x in inputs_by_weight(n) if s.phase(x) != s.phase(0))
    shown = next(differing, None)
    if shown is None:
        verdict, power, _ = agreed(-s.constant % 8)
        if any(c % 2 for c in s.terms.values()):
            events.append(f"odd coefficients left: {verdict}")
        if power:
            events.append(f"turned {power}")
        return result(verdict, power, 0)
    weight = len(qubits_of(shown))
    if weight == 3:
        events += sorted({f"difference of weight 3, a later one with another {another(shown, x)}" for x in differing})
    events.append(f"difference of weight {weight}")
    return result("different", 0, shown)


def read_input(data):
    """n and both lists of a program's input that passes 12, 8 and 9; raises Refused."""
    n, first, length = read_record(data)
    m, second, more = read_record(data[length:])
    if len(data) > length + more:
        raise Refused(12)
    check_pair(n, first, m, second)
    return n, first, second


def run_program(data):
    """The line that the program compare prints for these bytes of input."""
    try:
        return " ".join(map(str, compare(*read_input(data))))
    except Refused as refusal:
        return f"refused {refusal.number}"


def run_small_program(data):
    """The line that the program compare_small prints for them."""
    try:
        pair = read_input(data)
        check_small(*pair, NUMBERS)
        return " ".join(map(str, compare_small(*pair)))
    except Refused as refusal:
        return f"refused {refusal.number}"


def h_gates(gates):
    return sum(kind == H for kind, _, _ in gates)


def check_pair(n, first, m, second):
    if n != m:
        raise Refused(8)
    if n + h_gates(first + second) > MOST_VARIABLES:
        raise Refused(9)


def read_list(data, which):
    """(n, gates) of one list of a pair; raises Refused with which of the two it is."""
    try:
        return read_record(data)[:2]
    except Refused as refusal:
        raise Refused(refusal.number, refusal.index, which) from None


def read_both(first, second):
    """n and the gates of the first list, and of the second; raises Refused."""
    return *read_list(first, "first"), *read_list(second, "second")


def read_lists(first, second):
    """n and both lists of a pair that passes 8 and 9; raises Refused."""
    n, gates, m, others = read_both(first, second)
    check_pair(n, gates, m, others)
    return n, gates, others


def read_pair(first, second, words, places):
    """n and both lists of a pair that is accepted with workspaces of so many words and byte places; raises Refused."""
    pair = read_lists(first, second)
    if words < WORDS or places < PLACES:
        raise Refused(10)
    return pair


def check_small(n, gates, others, numbers):
    if n > MOST_QUBITS or h_gates(gates + others) > MOST_HADAMARDS:
        raise Refused(14)
    if numbers < NUMBERS:
        raise Refused(10)


def read_small(first, second, numbers):
    """n and both lists of a pair that is accepted as a small block with a buffer of so many numbers; raises Refused."""
    pair = read_lists(first, second)
    check_small(*pair, numbers)
    return pair


def t_gates(gates):
    return sum(kind in (T, TI) for kind, _, _ in gates)


def pick(first, second, words, places, events=None):
    """The record that the pick hands back, and whether it is the second; raises Refused."""
    n, gates, others = read_pair(first, second, words, places)
    verdict = compare(n, gates, others, events)[0]
    if verdict == "equal" and (t_gates(others), len(others)) < (t_gates(gates), len(gates)):
        return record(n, others), True
    return record(n, gates), False


# Joins: writers, of one record from two.


def joined(buffer, n, gates):
    if len(gates) > 512:
        raise Refused(4)
    return written(buffer, record(n, gates))


def join_in_time(first, second, buffer):
    """The first list, then the second, on the same qubits."""
    n, gates, m, others = read_both(first, second)
    if n != m:
        raise Refused(8)
    return joined(buffer, n, gates + others)


def join_in_space(first, second, buffer):
    """The first list, then the second, whose qubits are numbered after the first's."""
    n, gates, m, others = read_both(first, second)
    if n + m > 16:
        raise Refused(3)
    return joined(buffer, n + m, gates + [(kind, n + a, n + b if kind > H else b) for kind, a, b in others])


# Exact amplitudes: a + bω + cω² + dω³ as (a, b, c, d).


def times_omega(z, k=1):
    for _ in range(k % 8):
        z = (-z[3], z[0], z[1], z[2])
    return z


def times_root_two(z, k):
    for _ in range(k):
        a, b, c, d = z
        z = (b - d, a + c, b + d, c - a)
    return z


def plus(u, v):
    return (u[0] + v[0], u[1] + v[1], u[2] + v[2], u[3] + v[3])


def times(u, v):
    """The product of two numbers, ω⁴ being -1."""
    product = (0, 0, 0, 0)
    for k, factor in enumerate(u):
        product = plus(product, tuple(factor * x for x in times_omega(v, k)))
    return product


def moved(w, kind, a, b):
    """Where a gate that is no H takes output w, and the power of ω that it puts there."""
    one, bit = w >> a & 1, 1 << a
    if kind == X:
        return w ^ bit, 0
    if kind == Y:
        return w ^ bit, 6 if one else 2
    if kind == CX:
        return w ^ one << b, 0
    if kind == CZ:
        return w, 4 if one and w >> b & 1 else 0
    if kind == SWAP:
        return w ^ bit ^ 1 << b if one != w >> b & 1 else w, 0
    return w, {Z: 4, S: 2, SI: 6, T: 1, TI: 7}[kind] if one else 0


def column(gates, v):
    """The amplitudes from input v, H without its factor."""
    state = {v: (1, 0, 0, 0)}
    for kind, a, b in gates:
        after = {}
        for w, z in state.items():
            if kind != H:
                to, power = moved(w, kind, a, b)
                after[to] = times_omega(z, power)
                continue
            for to, y in ((w & ~(1 << a), z), (w | 1 << a, times_omega(z, 4) if w >> a & 1 else z)):
                after[to] = plus(after[to], y) if to in after else y
        state = {w: z for w, z in after.items() if any(z)}
    return state


class Columns:
    """Which powers of ω carry the first list's columns to the second's."""

    def __init__(self, n, first, second):
        self.n, self.first, self.second = n, first, second
        self.h1, self.h2 = h_gates(first), h_gates(second)

    def fitting(self, v):
        """The powers that fit column v."""
        left = {w: times_root_two(z, self.h2) for w, z in column(self.first, v).items()}
        right = {w: times_root_two(z, self.h1) for w, z in column(self.second, v).items()}
        return {j for j in range(8) if {w: times_omega(z, j) for w, z in left.items()} == right}

    def carry(self, inputs):
        """The powers that carry each of these inputs' columns."""
        powers = set(range(8))
        for v in inputs:
            powers &= self.fitting(v)
            if not powers:
                break
        return powers

    def bear_out(self, verdict, first, second, inputs=None):
        """Do these inputs' columns, all unless given, say so? Exactly one power carries them, 0 where equal and the one told where turned;
        a difference shows two that no power fits."""
        if verdict in ("equal", "turned"):
            return (verdict, first, second) == agreed(first) and self.carry(inputs or range(1 << self.n)) == {first}
        return verdict == "undecided" or max(first, second) >> self.n == 0 and not self.carry((first, second))


def composed(state, columns):
    """What a list with these columns makes of a state."""
    after = {}
    for u, z in state.items():
        for w, y in columns[u].items():
            after[w] = plus(after.get(w, (0, 0, 0, 0)), times(z, y))
    return {w: z for w, z in after.items() if any(z)}


def side_by_side(n, low, high):
    """Two states as one, the first on the n low qubits."""
    return {w + (x << n): times(z, y) for x, y in high.items() for w, z in low.items()}


def is_join(in_space, first, second, joined):
    """Is a list what the other two make together, each given as n and its gates? Its columns are the matrix product of theirs, in space the tensor
    product, and its T gates the sum."""
    low, high, found = ([column(gates, v) for v in range(1 << n)] for n, gates in (first, second, joined))
    if in_space:
        wanted = [side_by_side(first[0], x, y) for y in high for x in low]
    else:
        wanted = [composed(x, high) for x in low]
    return found == wanted and t_gates(joined[1]) == t_gates(first[1]) + t_gates(second[1])


# Small blocks. An output has its amplitudes from every input at once: four large numbers whose digits, of 64 bits each and of either sign,
# belong to the inputs, input 0 lowest. Adding such numbers and negating them adds and negates their digits, as long as these stay below 2^63
# in size; with 60 H gates they, and their differences, stay below 2^62.
DIGIT = 64


def output(rows, w, kind, a, b):
    """Output w after a gate, from the outputs before it, H without its factor."""
    one, bit = w >> a & 1, 1 << a
    if kind == X:
        return rows[w ^ bit]
    if kind == Y:
        return times_omega(rows[w ^ bit], 2 if one else 6)
    if kind == H:
        return plus(rows[w & ~bit], times_omega(rows[w], 4) if one else rows[w | bit])
    if kind == CX:
        return rows[w ^ one << b]
    if kind == CZ:
        return times_omega(rows[w], 4) if one and w >> b & 1 else rows[w]
    if kind == SWAP:
        return rows[w ^ bit ^ 1 << b] if one != w >> b & 1 else rows[w]
    return times_omega(rows[w], {Z: 4, S: 2, SI: 6, T: 1, TI: 7}[kind]) if one else rows[w]


def matrix(n, gates, roots):
    """Every output of a list, times so many roots of two."""
    rows = [(1 << DIGIT * w, 0, 0, 0) for w in range(1 << n)]
    for kind, a, b in gates:
        rows = [output(rows, w, kind, a, b) for w in range(1 << n)]
    return [times_root_two(z, roots) for z in rows]


def first_misfit(j, left, right):
    """The first input whose column of the left ω^j does not carry to that of the right, or None."""
    wrong = 0
    for x, y in zip(left, right):
        for p, q in zip(times_omega(x, j), y):
            wrong |= p - q
    return ((wrong & -wrong).bit_length() - 1) // DIGIT if wrong else None


def compare_small(n, first, second):
    """The verdict and its two numbers, by trying each of the eight powers on all columns."""
    left, right = matrix(n, first, h_gates(second)), matrix(n, second, h_gates(first))
    misfits = [first_misfit(j, left, right) for j in range(8)]
    if None not in misfits:
        return "different", 0, max(misfits)
    return agreed(misfits.index(None))
