"""Random lists, pairs of lists and damaged records for the cross-check. Every family takes a generator of random numbers and gives n and two
lists that an accepted pair may have, and those of small blocks an accepted block, unless it says otherwise. A family of joins gives two lists, each
behind its number of qubits.
"""
from itertools import combinations

import reference as ref
from reference import h_gates

ALL = list(range(11))
CLIFFORD = [k for k in ALL if k not in (ref.T, ref.TI)]
WITHOUT_H = [k for k in ALL if k != ref.H]
PHASES = [ref.Z, ref.S, ref.SI, ref.CZ]
KINDS = (ALL, CLIFFORD, [ref.T, ref.TI, ref.H, ref.CX, ref.CZ], [ref.H, ref.CZ, ref.S], [k for k in WITHOUT_H if k > ref.Y])
MOST_GATES, MOST_VARIABLES = 512, 128


def one(kind, *qubits):
    """A kind on each of these qubits."""
    return [(kind, q, 255) for q in qubits]


def on(q, kinds):
    """These kinds, one after the other, on a qubit."""
    return [(kind, q, 255) for kind in kinds]


def random_gate(rng, n, kinds):
    kind = rng.choice([k for k in kinds if n > 1 or k <= ref.H] or [ref.Z])
    a = rng.randrange(n)
    return kind, a, 255 if kind <= ref.H else rng.choice([q for q in range(n) if q != a])


def random_list(rng, n, kinds, length, hadamards):
    """So many gates, at most so many of them H."""
    gates = []
    others = [k for k in kinds if k != ref.H] or [ref.Z]
    for _ in range(length):
        gate = random_gate(rng, n, kinds if hadamards else others)
        hadamards -= gate[0] == ref.H
        gates.append(gate)
    return gates


def identity(rng, n):
    """Gates that do nothing, up to a power of ω."""
    q = rng.randrange(n)
    if n > 1 and rng.random() < 0.4:
        p = rng.choice([r for r in range(n) if r != q])
        return rng.choice(
            [
                [(ref.CX, q, p)] * 2,
                [(ref.CZ, q, p), (ref.CZ, p, q)],
                [(ref.SWAP, q, p), (ref.CX, q, p), (ref.CX, p, q), (ref.CX, q, p)],
                [*one(ref.H, p), (ref.CX, q, p), *one(ref.H, p), (ref.CZ, q, p)],
            ]
        )
    words = ([ref.X] * 2, [ref.Y] * 2, [ref.H] * 2, [ref.T] * 8, [ref.S, ref.SI], [ref.S, ref.H] * 3, [ref.T, ref.TI])
    more = ([ref.H, ref.Z, ref.H, ref.X], [ref.T, ref.T, ref.SI], [ref.Z, ref.X, ref.Y], [ref.SI] * 4)
    return on(q, rng.choice(words + more))


def rewritten(rng, n, first, times):
    """The list with gates put in that do nothing, up to a power of ω."""
    second = list(first)
    for _ in range(times):
        more = identity(rng, n)
        if len(second) + len(more) <= MOST_GATES and n + h_gates(first + second + more) <= MOST_VARIABLES:
            at = rng.randint(0, len(second))
            second[at:at] = more
    return second


def put_in(rng, gates, more):
    """The list with more gates put in somewhere."""
    at = rng.randint(0, len(gates))
    return gates[:at] + more + gates[at:]


# Gates on one qubit that are a power of ω: 1 or 7 by X and T, 1 or 7 by S and H, 2 or 6 by X, Y and Z, 4 by Z and X.
BY_X_AND_T = [ref.X, ref.T] * 2
TURNS = (BY_X_AND_T, [ref.X, ref.TI] * 2, [ref.S, ref.H] * 3, [ref.H, ref.SI] * 3, [ref.Y, ref.X, ref.Z], [ref.Z, ref.X, ref.Y], [ref.Z, ref.X] * 2)


def turn(rng, n):
    """Gates that are a power of ω, some times over."""
    return on(rng.randrange(n), rng.choice(TURNS) * rng.randint(1, 7))


def turned_end(rng, n, gates):
    """A list of as many gates that ends with X on one qubit, and the same with X T X T for the first of these, up to seven times."""
    q, times = rng.randrange(n), rng.randint(1, 7)
    base, end = gates[:-28], one(ref.X, *[q] * 28)
    return base + end, base + on(q, BY_X_AND_T * times) + end[4 * times :]


def spoilt(rng, n, gates):
    """The list with one gate replaced."""
    gates = list(gates)
    if gates:
        gates[rng.randrange(len(gates))] = random_gate(rng, n, WITHOUT_H)
    return gates


def mixed(rng):
    """Unrelated lists, or the second rewritten, and sometimes spoilt."""
    n = rng.randint(1, rng.choice((2, 4, 6, 16)))
    kinds = rng.choice(KINDS)
    most = (MOST_VARIABLES - 4 - n) // 2
    first = random_list(rng, n, kinds, rng.choice((0, 3, 10, 40, 150)), rng.randint(0, most))
    if rng.random() < 0.3:
        return n, first, random_list(rng, n, kinds, rng.choice((0, 3, 10, 40)), rng.randint(0, most))
    second = rewritten(rng, n, first, rng.randint(0, 4))
    return n, first, spoilt(rng, n, second) if rng.random() < 0.4 else second


def doubly_controlled_z(a, b, c):
    """Seven T gates on the parities of three qubits."""
    gates = [(ref.CX, b, c), *one(ref.TI, c), (ref.CX, a, c), *one(ref.T, c), (ref.CX, b, c), *one(ref.TI, c), (ref.CX, a, c)]
    return gates + [*one(ref.T, b, c), (ref.CX, a, b), *one(ref.T, a), *one(ref.TI, b), (ref.CX, a, b)]


def diagonal(rng):
    """A list and the same with a phase behind it that begins at weight 1, 2 or 3, or with two that cancel."""
    n = rng.choice((3, 4, rng.randint(3, 15), 16))
    a, b, c = rng.sample(range(n), 3)
    phases = [one(rng.choice((ref.T, ref.S, ref.Z)), a), [(ref.CZ, a, b)], doubly_controlled_z(a, b, c)]
    phases += [doubly_controlled_z(a, b, c), doubly_controlled_z(a, b, c) + doubly_controlled_z(b, c, a)]
    base = random_list(rng, n, rng.choice((WITHOUT_H, [ref.X, ref.CX, ref.SWAP, ref.T], CLIFFORD)), rng.randint(0, 30), 3)
    return n, base + rng.choice(phases), rewritten(rng, n, base, rng.randint(0, 2))


def on_parities(kind, q, others):
    """A kind on each parity of a qubit with none, some or all of these others."""
    if not others:
        return one(kind, q)
    return 2 * (on_parities(kind, q, others[:-1]) + [(ref.CX, others[-1], q)])


def over_a_fourth(q, a, b, c):
    """A doubly controlled Z by eight T gates, all on parities that hold a fourth qubit."""
    return on_parities(ref.T, q, (a, b, c)) + one(ref.Z, a, b, c) + [(ref.CZ, a, b), (ref.CZ, a, c), (ref.CZ, b, c)]


def shared(qubits):
    """Triples of four or five qubits that share one or two, in some choices: all, those of the two highest, and pairs that cross."""
    yield list(combinations(qubits, 3))
    yield [(q, *qubits[-2:]) for q in qubits[:-2]]
    if len(qubits) == 5:
        p, q, r, s, t = qubits
        yield [(q, r, t), (p, s, t)]
        yield [(p, r, s), (p, q, t)]


def triples(rng):
    """Doubly controlled Z gates on triples that share qubits, all or a few of them in both lists, by other T gates."""
    n = rng.choice((4, rng.randint(5, 15), 16))
    qubits = sorted(rng.sample(range(n), min(n, 5)))
    first = random_list(rng, n, [ref.Z, ref.S, ref.SI, ref.T, ref.TI, ref.CZ], rng.randint(0, 12), 0)
    second = rewritten(rng, n, first, rng.randint(0, 2))
    chosen, in_both = rng.choice(list(shared(qubits))), rng.choice((0.2, 0.2, 0.2, 1))
    for triple in rng.sample(chosen, min(len(chosen), rng.randint(1, 5))):
        a, b, c = rng.sample(triple, 3)
        seven = doubly_controlled_z(a, b, c)
        eight = over_a_fourth(rng.choice([q for q in qubits if q not in triple]), a, b, c)
        one_way, another = rng.sample((seven, ref.inverted(seven), seven * 3, eight, ref.inverted(eight)), 2)
        first += one_way
        second += another if rng.random() < in_both else []
    if n > 4 and rng.random() < 0.3:
        a, *others = rng.sample(qubits, 5)
        second += on_parities(rng.choice((ref.T, ref.TI)), a, others)
    return n, first, second


def wide(rng):
    """H on 14 qubits or more: as many pins."""
    n = rng.randint(14, 16)
    first = one(ref.H, *rng.sample(range(n), n)) + random_list(rng, n, CLIFFORD, 40, 5)
    second = rewritten(rng, n, first, 3)
    return n, first, spoilt(rng, n, second) if rng.random() < 0.5 else second


def with_h(rng, n, hadamards, qubits, kinds, length):
    """So many H gates on these qubits among so many others."""
    gates = one(ref.H, *(rng.choice(qubits) for _ in range(hadamards))) + random_list(rng, n, kinds, length, 0)
    rng.shuffle(gates)
    return gates


def cut(rng, n, gates):
    """A pair whose second list is the inverse of the end of these gates, which may be all or none."""
    at = rng.choice((0, len(gates), rng.randint(0, len(gates))))
    return n, gates[:at], ref.inverted(gates[at:])


def many_h(rng):
    """As many H gates as a pair may have, or one less, or one more, which is refused."""
    n = rng.choice((1, 8, 16, 16))
    h = MOST_VARIABLES - n + rng.choice((-1, 0, 0, 1))
    return cut(rng, n, with_h(rng, n, h, range(n), WITHOUT_H, rng.randint(0, 60)))


def tall(rng):
    """65 variables and more, often as many as there may be: a list and the same rewritten, or turned, or spoilt, either way round."""
    n = rng.choice((1, 2, 3, rng.randint(4, 15), 16))
    variables = rng.choice((MOST_VARIABLES, rng.randint(66, MOST_VARIABLES)))
    kinds = rng.choice((PHASES, [k for k in CLIFFORD if k != ref.H], WITHOUT_H))
    first = with_h(rng, n, (variables - n) // 2, range(n), kinds, rng.randint(0, 60))
    second = rewritten(rng, n, first, rng.randint(0, 3))
    turned = put_in(rng, second, on(rng.randrange(n), BY_X_AND_T * rng.randint(1, 7)))
    return n, *rng.sample((first, rng.choice((second, spoilt(rng, n, second), turned))), 2)


def chain(rng):
    """65 variables or few more, as many as there may be, or any number between, most of them of H gates on one qubit: the last are reached by every
    step."""
    n = rng.randint(1, 4)
    variables = rng.choice((MOST_VARIABLES, rng.choice((65, 66)), rng.randint(65, MOST_VARIABLES)))
    kinds = rng.choice(([ref.Z], PHASES, [*PHASES, ref.CX], [ref.S, ref.T, ref.TI, ref.CZ]))
    few = rng.randint(0, 3)
    gates = with_h(rng, n, variables - n - few, [rng.randrange(n)], kinds, rng.randint(0, 8))
    return cut(rng, n, gates + one(ref.H, *(rng.randrange(n) for _ in range(few))))


def long(rng):
    """512 gates in the first list, often in both."""
    n = rng.choice((1, 16, rng.randint(2, 15)))
    h = rng.randint(0, (MOST_VARIABLES - n) // 2)
    first = random_list(rng, n, rng.choice(KINDS), MOST_GATES, h)
    luck = rng.random()
    if luck < 0.2:
        return n, first, []
    if luck < 0.4:
        return n, *turned_end(rng, n, first)
    return n, first, rng.choice((first, spoilt(rng, n, first), random_list(rng, n, ALL, MOST_GATES, h)))


def blocked(rng):
    """A list between X, CX, or H with Z or CZ between, and what undoes the list: pins and joins that are blocked."""
    n = rng.randint(2, 6)
    a, b = rng.sample(range(n), 2)
    fault = rng.choice([one(ref.X, a), [(ref.CX, a, b)], one(ref.H, a) + one(ref.Z, a) + one(ref.H, a)])
    if rng.random() < 0.4:
        fault = one(ref.H, a) + [(ref.CZ, a, b)] + one(ref.H, a)
    base = random_list(rng, n, WITHOUT_H, rng.randint(0, 12), 0)
    return n, base + fault, rewritten(rng, n, base, 1)


def few_gates(rng):
    """Short lists on one or two qubits: every rule in its smallest form."""
    n = rng.randint(1, 2)
    kinds = rng.choice(([ref.H, ref.S], [ref.H, ref.T, ref.X], ALL))
    return n, random_list(rng, n, kinds, rng.randint(0, 6), 6), random_list(rng, n, kinds, rng.randint(0, 3), 3)


def equal(rng):
    """Equal lists, or a power of ω apart, whose T gates and lengths differ: for the pick."""
    n = rng.randint(1, 3)
    first = random_list(rng, n, rng.choice((WITHOUT_H, CLIFFORD)), rng.randint(0, 6), 2)
    pair = [first, rewritten(rng, n, first, rng.randint(0, 2))]
    if rng.random() < 0.3:
        pair[1] = pair[1] + [random_gate(rng, n, [ref.Z])] * 2
    rng.shuffle(pair)
    return n, *pair


def worth(rng):
    """A list with two ways to do nothing behind it, each some times over: the pick weighs their gates."""
    n = rng.randint(2, 4)
    a, b = rng.sample(range(n), 2)
    words = [[k] * 2 for k in (ref.X, ref.Y, ref.Z, ref.H)] + [[k] * 4 for k in (ref.S, ref.SI)]
    words += [[k] * 8 for k in (ref.T, ref.TI)] + [[ref.S, ref.SI], [ref.T, ref.TI], [ref.T, ref.T, ref.SI], [ref.S, ref.TI, ref.TI]]
    ways = [on(a, word) for word in words] + [[(k, a, b)] * 2 for k in (ref.CX, ref.CZ, ref.SWAP)]
    base = random_list(rng, n, WITHOUT_H, rng.randint(0, 3), 0)
    return n, base + rng.choice(ways) * rng.randint(0, 3), base + rng.choice(ways) * rng.randint(1, 3)


def turned(rng):
    """Lists a power of ω apart; either may be the one with more gates, and with more T gates."""
    n = rng.choice((1, 2, 3, rng.randint(4, 15), 16))
    base = random_list(rng, n, rng.choice((WITHOUT_H, CLIFFORD, [ref.X, ref.T, ref.CX, ref.CZ])), rng.randint(0, 20), 5)
    return n, *rng.sample((base, put_in(rng, rewritten(rng, n, base, rng.randint(0, 2)), turn(rng, n))), 2)


FAMILIES = (mixed, diagonal, triples, wide, many_h, tall, chain, long, blocked, few_gates, equal, turned)


# Small blocks.


def block(rng, n):
    """A list for a small block."""
    return random_list(rng, n, rng.choice(KINDS), rng.choice((0, 3, 8, 15, 30)), rng.randint(0, 14))


def small_equal(rng):
    """Equal lists, by gates put in that do nothing, now and then up to a power of ω."""
    n = rng.randint(1, 6)
    first = block(rng, n)
    return n, first, rewritten(rng, n, first, rng.randint(0, 3))


def small_turned(rng):
    """Lists a power of ω apart."""
    n = rng.randint(1, 6)
    first = block(rng, n)
    return n, first, put_in(rng, rewritten(rng, n, first, rng.randint(0, 1)), turn(rng, n))


def small_changed(rng):
    """Lists that one gate tells apart: replaced by another, taken out, or put in."""
    n = rng.randint(1, 6)
    first = block(rng, n) or [random_gate(rng, n, ALL)]
    second = rewritten(rng, n, first, rng.randint(0, 2))
    at = rng.randrange(len(second))
    change = rng.randrange(3)
    if change == 0:
        return n, first, put_in(rng, second, [random_gate(rng, n, ALL)])
    return n, first, second[:at] + ([random_gate(rng, n, ALL)] if change == 1 else []) + second[at + 1 :]


def small_unrelated(rng):
    """Lists that have nothing to do with each other; short ones are equal now and then."""
    n = rng.randint(1, 6)
    return n, block(rng, n), block(rng, n)


def small_phase(rng):
    """A list with a phase before it, against the same list: the columns of the inputs that have the phase differ."""
    n = rng.randint(1, 6)
    qubits = rng.sample(range(n), min(n, 3))
    phases = [one(rng.choice((ref.T, ref.TI, ref.S, ref.SI, ref.Z)), qubits[0])]
    if n > 1:
        phases.append([(ref.CZ, *qubits[:2])])
    if n > 2:
        phases.append(doubly_controlled_z(*qubits))
    base = block(rng, n)
    return n, phases[-1 if rng.random() < 0.5 else rng.randrange(len(phases))] + base, rewritten(rng, n, base, rng.randint(0, 1))


def small_open(rng):
    """Equal lists, or a power of ω apart, or all but for a gate, that the steps often leave undecided: H, T and CX on two qubits that stay bound
    to each other."""
    n = rng.randint(2, 6)
    a, b = rng.sample(range(n), 2)
    middle = [*one(ref.H, a, b), *one(rng.choice((ref.T, ref.TI)), a), (ref.CX, b, a), *one(ref.H, b), (ref.CX, b, a), *one(ref.H, a)]
    first = random_list(rng, n, WITHOUT_H, rng.randint(0, 6), 0) + middle + random_list(rng, n, WITHOUT_H, rng.randint(0, 6), 0)
    second = rewritten(rng, n, first, rng.randint(0, 2))
    return n, first, spoilt(rng, n, second) if rng.random() < 0.3 else second


def small_many_h(rng):
    """As many H gates as a small block may have, or one more, which is refused."""
    n = rng.randint(1, 6)
    kinds = rng.choice((WITHOUT_H, [ref.S, ref.CX, ref.CZ], [ref.T, ref.CX]))
    return cut(rng, n, with_h(rng, n, ref.MOST_HADAMARDS + (rng.random() < 0.2), range(n), kinds, rng.randint(0, 20)))


def small_long(rng):
    """512 gates in both lists: equal, a power of ω apart, or with one gate replaced."""
    n = rng.choice((1, 5, 6))
    first, second = turned_end(rng, n, random_list(rng, n, rng.choice((ALL, [ref.T, ref.H, ref.CX, ref.CZ])), MOST_GATES, rng.randint(0, 29)))
    return n, first, rng.choice((first[:-4] + one(ref.Y, *[n - 1] * 4), second, second, spoilt(rng, n, first)))


SMALL = (small_equal, small_turned, small_changed, small_unrelated, small_phase, small_open, small_many_h, small_long)


# Joins.


def join_qubits(rng, in_space, most):
    """The qubits of two lists: the same in time; in space both together are no more."""
    n = rng.randint(1, most - in_space)
    return n, rng.randint(1, most - n) if in_space else n


def short_list(rng, n):
    return random_list(rng, n, rng.choice(KINDS), rng.randint(0, 12), 4)


def join_few(rng, in_space):
    """Short lists on few qubits."""
    n, m = join_qubits(rng, in_space, rng.choice((2, 3, 6)))
    return n, short_list(rng, n), m, short_list(rng, m)


def join_wide(rng, in_space):
    """Short lists on 16 qubits together, or one or two more or less; in time the qubits are not always the same."""
    n = rng.randint(2, 15)
    m = 16 - n + rng.choice((-1, 0, 0, 1, 2)) if in_space else n + rng.choice((-1, 0, 0, 0, 1))
    return n, short_list(rng, n), max(m, 1), short_list(rng, max(m, 1))


def join_full(rng, in_space):
    """512 gates together, or one or two more or less, or far more; now and then on too many qubits, or with more H gates than a pair may have."""
    n, m = join_qubits(rng, in_space, 16)
    if rng.random() < 0.2:
        m = 17 - n if in_space else n % 16 + 1
    gates = rng.choice((511, 512, 512, 513, 514, 1023, 1024))
    g = rng.choice((max(0, gates - 512), min(512, gates), rng.randint(max(0, gates - 512), min(512, gates))))
    kinds = rng.choice(KINDS)
    return n, random_list(rng, n, kinds, g, 70), m, random_list(rng, m, kinds, gates - g, 70)


def join_pair(rng, in_space):
    """Two lists of a family of pairs; in space each is of a pair of its own."""
    n, first, second = rng.choice(FAMILIES)(rng)
    m, _, other = rng.choice(FAMILIES)(rng) if in_space else (n, first, second)
    return n, first, m, other


def join_none(rng, in_space):
    """A list without gates and a short one, or both without."""
    n, m = join_qubits(rng, in_space, rng.choice((2, 16)))
    return n, short_list(rng, n) if rng.random() < 0.4 else [], m, short_list(rng, m) if rng.random() < 0.4 else []


JOINS = (join_few, join_wide, join_full, join_pair, join_none)


def bad_gate(rng, n):
    """A gate that n qubits have not, by each number as often, and often bad in another way too."""
    a, b, out = rng.randrange(n), rng.randrange(n + 1), rng.randint(n, 255)
    one_qubit, two_qubits = rng.randint(0, 7), rng.randint(8, 10)
    fives = [(rng.randint(11, 255), a, b), (rng.randint(11, 255), out, out)]
    sevens = [(one_qubit, a, rng.randint(0, 254)), (one_qubit, out, rng.randint(0, 254))]
    sixes = [(one_qubit, out, 255), (two_qubits, a, a), (two_qubits, n, a), (two_qubits, a, out), (two_qubits, out, out)]
    return rng.choice(rng.choice((fives, sevens, sixes)))


def spoil_gates(rng, data, g):
    """The first of g gates made bad, or the last, or any, and often others too."""
    n = max(1, min(data[2], 16))
    for i in [rng.choice((0, g - 1, rng.randrange(g))), *rng.sample(range(g), rng.choice((0, 0, min(g, 2))))]:
        data[5 + 3 * i : 8 + 3 * i] = bytes(bad_gate(rng, n))


def damaged(rng, data):
    """A record with a fault; now and then it still is one."""
    if len(data) < 5:
        return data[: rng.randrange(len(data))]
    data = bytearray(data)
    g = min(int.from_bytes(data[3:5], "little"), (len(data) - 5) // 3)
    fault = rng.randrange(9)
    if fault == 0:
        del data[rng.randrange(5) :]
    elif fault == 1:
        data[rng.randrange(2)] = rng.choice((0, 0x43, 0x51, 0x56, rng.randrange(256)))
    elif fault == 2:
        data[2] = rng.choice((0, 17, 255))
    elif fault == 3:
        data[3:5] = rng.choice((513, 514, 1024, 65535)).to_bytes(2, "little")
    elif fault == 4 and g:
        del data[rng.choice((5, 4 + 3 * g, rng.randrange(5, 5 + 3 * g))) :]
    elif fault < 8 and g:
        spoil_gates(rng, data, g)
    else:
        data[rng.randrange(len(data))] = rng.randrange(256)
    return bytes(data)
