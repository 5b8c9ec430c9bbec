#!/usr/bin/env python3
"""Counts the places of older forms in crates/*/src, point by point of docs/DESIGN-PASS.md.

    tools/forms.py              the counts
    tools/forms.py --list [N]   each place, of point N alone where it is given

A pattern finds candidates; the page says of each what it is. A file's text is read without its comments.
"""
import collections
import pathlib
import re
import sys

ROOT = pathlib.Path(__file__).resolve().parent.parent

# Point, name, pattern of a line. A place is a line that fits.
LINES = [
    (1, "variants of an own Option or Result", r"^\s+(Refused|Bad|Nothing|Failed|Good|Ended|Accepted|Compared)\b\s*(\(|\{|,).*$"),
    (1, "flags beside a value", r"^\s+(pub )?(failed|blocked|more|quiet): bool,"),
    (1, "numbers that are a kind, a call or 'none'", r"const [A-Z_]+: u8 = \d+;"),
    (1, "parameters that are such a number", r"\b(kind|call|function): u8\b"),
    (1, "a value that stands for none", r"== (POWERS|NO_DIGIT|NO_KIND|UNKNOWN)\b|\b(one|two|found|next) (!=|<=|==) (0|at)\b"),
    (3, "while", r"^\s*('\w+: )?while\b"),
    (4, "comparisons and conversions by hand", r"fn (same|at_most|smaller|larger|least|number|verdict_number|report_of|wide|from_bytes|low_byte|high_byte|is_added|verdict)\("),
    (4, "fields copied one by one", r"^\s+(\w+): \w+\.\1,"),
    (5, "clauses with Level, Levelled, Sized or Whole", r"^\s+(requires|ensures).*\b(Level|Levelled|Sized|Whole)\b"),
    (5, "clauses with the length of a column or a list", r"^\s+(requires|ensures).*(4 \* 2 \^ n|% 3 ≡ 0|AllWithin|AcceptedWith)"),
    (6, "a place or length beside a buffer", r"\b\w+: &mut \[\w+(; \w+)?\], (at|size|done|count|place): usize"),
    (7, "a switch on a number or a flag", r"\b(match (kind|call|function|weight|way|name)\b|if (kind|picks|function|call) ?(==|!=|>|<=|\{))"),
]


def code(path):
    return re.sub(r"//[^\n]*", "", path.read_text(encoding="utf-8"))


def functions(text):
    """Each function's name, line, signature with its clauses, and body."""
    for match in re.finditer(r"^([ ]*)(?:pub(?:\(crate\))? )?fn (\w+)", text, re.M):
        end = text.find("\n" + match.group(1) + "}\n", match.end())
        whole = text[match.start(): len(text) if end < 0 else end]
        start = re.search(r"\n" + match.group(1) + r"\{\n|\{\n", whole)
        head, body = (whole[: start.start()], whole[start.end():]) if start else (whole, "")
        yield match.group(2), text.count("\n", 0, match.start()) + 1, head, body


def shape(body):
    """A body with each name, number and type as one word: twins have the same."""
    tokens = re.findall(r"[A-Za-z_]\w*|\d+|[^\s\w]", body)
    words = {"if", "else", "while", "for", "in", "match", "return", "let", "mut", "true", "false", "as", "loop"}
    return " ".join(t if t in words or not re.match(r"\w", t) else "x" for t in tokens), len(tokens)


def places():
    found = collections.defaultdict(list)
    shapes = collections.defaultdict(list)
    for path in sorted(ROOT.glob("crates/*/src/**/*.rt")):
        name = str(path.relative_to(ROOT / "crates"))
        text = code(path)
        for number, line in enumerate(text.split("\n"), 1):
            for point, what, pattern in LINES:
                if re.search(pattern, line):
                    found[point, what].append(f"{name}:{number}: {line.strip()}")
        for function, number, head, body in functions(text):
            here = f"{name}:{number}: {function}"
            if "sets: &" in head and "coeffs: &" in head:
                found[5, "functions that take sets and coefficients, two lent slices"].append(here)
            if "ws: &" in head and "fs: &" in head:
                found[5, "functions that take wires, two lent slices"].append(here)
            if "sum: Sum" in head and "counts: Counts" in head:
                found[5, "functions that take a sum and its counts"].append(here)
            same, size = shape(body)
            if size >= 18:
                shapes[same].append(here)
    for path in sorted(ROOT.glob("crates/*/proofs/**/Answers.antt")):
        name = str(path.relative_to(ROOT / "crates"))
        for goal in re.findall(r"^(?:pub )?([\w-]+) : goal\.", path.read_text(encoding="utf-8"), re.M):
            found[8, "goals that are answered by hand"].append(f"{name}: {goal}")
    for group in shapes.values():
        if len(group) > 1:
            found[2, "groups of functions of one shape"].append("; ".join(group))
    for lemma in uncited():
        found[8, "lemmas that nothing cites"].append(lemma)
    return found


def uncited():
    """Public lemmas of proofs/*.antt, anchors and theorems apart, whose name stands nowhere else in the crates."""
    texts = {p: re.sub(r"--[^\n]*", "", p.read_text(encoding="utf-8")) for s in ("rt", "antt") for p in ROOT.glob(f"crates/*/*/**/*.{s}") if "/out/" not in str(p)}
    words = collections.Counter(w for t in texts.values() for w in re.findall(r"[^\s(){},;.:]+", t.replace("::", " ")))
    for path, text in sorted(texts.items()):
        if path.parent.name != "proofs" or path.stem in ("Anchors", "Theorems", "Lib"):
            continue
        for name in re.findall(r"^pub (\S+) (?:\{[^}]*\} )?:", text, re.M):
            # its statement and its clauses alone
            here = len(re.findall(r"^(?:pub )?" + re.escape(name) + r"(?=\s)", text, re.M))
            if words[name] <= here:
                yield f"{path.relative_to(ROOT / 'crates')}: {name}"


def main():
    found = places()
    wanted = int(sys.argv[2]) if len(sys.argv) > 2 else None
    keys = list(dict.fromkeys([(p, w) for p, w, _ in LINES] + list(found)))
    for key in sorted(keys, key=lambda k: k[0]):
        if wanted in (None, key[0]):
            print(f"{key[0]}  {key[1]}: {len(found[key])}")
            if "--list" in sys.argv:
                for place in found[key]:
                    print("     " + place)


main()
