"""The classes of cases that the cross-check must meet, each at least once."""
import reference as ref
from call_rows import JOINS, PROGRAMS

# a verdict that shows the power of ω, by each that there is
TURNED = tuple(f"turned {j}" for j in range(1, 8))
# several inputs of weight 3 differ: what a later one has beside the one that is shown
LATER = ("highest qubit", "highest qubit, the middle one lower", "middle qubit", "middle qubit, the lowest one lower", "lowest qubit")
# a step at a variable from 63 on, the last of a set's low word; a join also by the variable that it replaces. The last variable of all is pinned, where
# no pin is blocked: other steps reach the one before it.
STEPS = (
    *(f"pin at variable {place}" for place in ("63", "64", "65 to 126", "127")),
    *(f"{step} variable {place}" for step in ("sum at", "turn at", "join at", "join for", "join blocked at") for place in ("63", "64", "65 to 125", "126")),
)
EVENTS = (
    "pin, constant 0",
    "pin, constant 1",
    "pin blocked by a qubit",
    "pin blocked by its constant",
    "turn, C = 1",
    "turn, C = 3",
    "join, C = 0",
    "join, C = 2",
    "join blocked by a qubit",
    "join blocked by its constant",
    "pins differ from sums",
    "difference of weight 1",
    "difference of weight 2",
    "difference of weight 3",
    *(f"difference of weight 3, a later one with another {qubit}" for qubit in LATER),
    "odd coefficients left: equal",
    "odd coefficients left: turned",
    "none ready",
)
SHAPES = (
    "more than 13 pins",
    "16 qubits, 112 H gates",
    "16 qubits, 113 H gates",
    "1 qubit, 127 H gates",
    "1 qubit, 128 H gates",
    *(f"{variables} variables" for variables in (64, 65, 127, 128, 129)),
    *(f"more than 64 variables: {verdict}" for verdict in ("equal", "different", "undecided", "turned")),
    "more than 64 variables, 512 gates in both lists",
    "more than 64 variables: dense columns",
    "sets that differ in the high word alone",
    "512 gates on 1 qubit",
    "512 gates on 16 qubits",
    "512 gates in both lists",
    *(f"no T gate: {verdict}" for verdict in ("equal", "different", *TURNED)),
    "turned on 16 qubits",
    "turned, 512 gates in both lists",
    "difference of weight 3 on 16 qubits",
    "difference of weight 3 after a pin",
    "one slice given twice",
    "bytes behind a record",
    "workspaces of 6400 words and 3200 bytes",
    "workspaces of more places",
    "an odd number of words",
    "workspaces of 0 at the start",
    *(f"dense columns: {verdict}" for verdict in ("equal", "different", *TURNED)),
)
# random_pairs.py's, by name: one that is no longer drawn from is missed
FAMILIES = ("mixed", "diagonal", "triples", "wide", "many_h", "tall", "chain", "long", "blocked", "few_gates", "equal", "turned")
PICKS = (
    "first, fewer T gates",
    "second, fewer T gates",
    "first, fewer gates",
    "second, fewer gates",
    "first, a tie",
    "first, different",
    "first, undecided",
    "first, turned",
    "first, turned, though the second has fewer gates",
    "first, more than 64 variables",
    "second, more than 64 variables",
    *(f"first, {verdict}, though the second has fewer T gates" for verdict in TURNED),
)
SMALL_FAMILIES = ("small_equal", "small_turned", "small_changed", "small_unrelated", "small_phase", "small_open", "small_many_h", "small_long")
SMALL = (
    *(f"first differing input {place}" for place in ("0", "1", "in the middle", "the last")),
    *(f"{n} qubits" for n in range(1, 7)),
    *(f"no T gate: {verdict}" for verdict in ("equal", "different", *TURNED)),
    "60 H gates",
    "66 variables",
    "512 gates in both lists",
    "turned, 512 gates in both lists",
    "one slice given twice",
    "bytes behind a record",
    "512 numbers",
    "more numbers",
    *(f"{before}, {after}" for before in ("zeros", "the lowest number", "the highest number", "rubbish") for after in ("accepted", "refused")),
    *(f"column by column: {verdict}" for verdict in ("equal", "different", *TURNED)),
)
# a small block through both comparisons, by rows and by programs
BOTH = (
    *(f"both {verdict}" for verdict in ("equal", "different", *TURNED)),
    "both different, other inputs",
    *(f"undecided there, {verdict} here" for verdict in ("equal", "different", "turned")),
)
# the first list joined with the inverse of the second, against nothing, and the pair, by rows and by programs
BY_INVERSES = {
    "compare": ("equal", "different", "undecided", *TURNED),
    "program compare": ("equal", "different", "undecided", *TURNED),
    "dense": ("equal", "different", *TURNED),
    "program compare_small": ("equal", "different", *TURNED),
}
JOIN_FAMILIES = ("join_few", "join_wide", "join_full", "join_pair", "join_none")
JOINED = (
    "accepted",
    *(f"no gates{place}" for place in ("", " in the first list", " in the second list")),
    *(f"kind {kind} second" for kind in range(11)),
    "511 gates",
    "512 gates",
    "513 gates",
    "16 qubits",
    "a buffer as long as the record",
    "a buffer one byte longer",
    "a buffer one byte short",
    "no buffer",
    "more H gates than a comparison takes",
    "one slice given twice",
    *(f"bytes behind the {place} list" for place in ("first", "second")),
    *(f"{before}, {after}" for before in ("zeros", "rubbish") for after in ("accepted", "refused")),
    "columns of the product",
    "columns of the product, H and T gates in both lists",
)
# what two good lists are refused by, and which later checks refuse them too
TOGETHER = {
    "join_in_time": ("8", "8 before 4", "8 before 11", "8 before 4 before 11", "4", "4 before 11", "11"),
    "join_in_space": ("3", "3 before 4", "3 before 11", "3 before 4 before 11", "4", "4 before 11", "11"),
}
OF_A_LIST = (1, 2, 3, 4, 13, 5, 6, 7)
REFUSALS = {
    "check": OF_A_LIST,
    "check_gate": (5, 6, 7),
    "start": (3, 11),
    "add": (*OF_A_LIST, 11),
    "inverse": (*OF_A_LIST, 11),
    "write_report": (5, 11),
    "read_report": (1, 2, 5),
    "compare": (*OF_A_LIST, 8, 9, 10),
    "pick": (*OF_A_LIST, 8, 9, 10),
    "dense": (*OF_A_LIST, 8, 9, 14, 10),
    "join_in_time": OF_A_LIST,
    "join_in_space": OF_A_LIST,
    "program compare": (*OF_A_LIST, 12, 8, 9),
    "program compare_small": (*OF_A_LIST, 12, 8, 9, 14),
}
# the gate that a call is refused at
ANY_GATE = ("gate 0", "a later gate")
OF_A_RECORD = (*ANY_GATE, "the last of several gates", "the first of several bad gates")
BAD_GATES = {
    "check": OF_A_RECORD,
    "check_gate": ANY_GATE,
    "add": (*ANY_GATE, "the new gate behind others", "a gate that stands there", "a gate that stands there, the new one bad too"),
    "inverse": OF_A_RECORD,
}
BAD_LISTS = (
    "first list refused at a gate",
    "first list refused at no gate",
    "second list refused at a gate",
    "second list refused at no gate",
    "both lists bad",
)
ANSWERS = (
    "check: accepted",
    "gates: some",
    "gates: none",
    "check_gate: good",
    "start: length",
    "add: length",
    "add: at 511 gates, length 1541",
    "add: at 511 gates, refused 5 gate 511",
    "add: at 512 gates, refused 4",
    "inverse: length",
    "inverse: 512 gates",
    "inverse: twice",
    "write_report: length",
    "read_report: fields",
    "write_report: verdict 3, length",
    "write_report: verdict 4, refused",
    "read_report: verdict 3, fields",
    "read_report: verdict 4, refused",
    "bad row",
)


def kind_class(kind):
    """The pick would choose otherwise if this kind were a T gate, or were none."""
    return f"pick: another choice if kind {kind} were {'no' if kind in (ref.T, ref.TI) else 'a'} T gate"


CLASSES = (
    *(f"{call}: {verdict}" for call in ("compare", "program compare") for verdict in ("equal", "different", "undecided", *TURNED)),
    *(f"{call}: {verdict}" for call in ("dense", "program compare_small") for verdict in ("equal", "different", *TURNED)),
    *(f"compare: {event}" for event in (*EVENTS, *STEPS)),
    *(f"compare: {shape}" for shape in SHAPES),
    *(f"{call}: family {name}" for call in ("compare", "pick") for name in FAMILIES),
    "pick: family worth",
    *(f"dense: {name}" for name in SMALL),
    *(f"{call}: {name}" for call in ("dense", "program compare_small") for name in BOTH),
    *(f"dense: family {name}" for name in SMALL_FAMILIES),
    *(f"{call}: {name}" for call in JOINS for name in JOINED),
    "join_in_space: 17 qubits",
    *(f"{call}: family {name}" for call in JOINS for name in JOIN_FAMILIES),
    *(f"{call}: good lists refused {numbers}" for call, faults in TOGETHER.items() for numbers in faults),
    *(f"{call}: joined with the inverse, {verdict}" for call, verdicts in BY_INVERSES.items() for verdict in verdicts),
    *(f"pick: {choice}" for choice in PICKS),
    *(kind_class(kind) for kind in range(11)),
    *ANSWERS,
    *(f"{call}: refused {k}" for call, numbers in REFUSALS.items() for k in numbers),
    *(f"{call}: refused at {place}" for call, places in BAD_GATES.items() for place in places),
    *(f"{call}: {fault}" for call in ("compare", "pick", "dense", *JOINS) for fault in BAD_LISTS),
    *(f"program {name}: {size} bytes" for name in ("compare", "compare_small") for size in (3082, 3083, 1000000)),
    "program compare: more than 64 variables",
    *(f"rows of {name}" for name in PROGRAMS),
    *(f"rows of {name}: longer than its memory" for name in PROGRAMS),
)
