#!/usr/bin/env python3
"""Brings the repository's own definitions and lemmas to snake case: once, after the port's script and before any other edit.

A name that begins with a small letter and has capitals inside gets underscores: `sumBelow` is `sum_below`. A dash stays only where it joins
two names of definitions, as in `length-members`; before a plain word it is an underscore: `same-or-not` is `same_or_not`. Types, modules,
functions of src/, strings, inputs and outputs keep their names, and so does a name of a library in a file that imports it.

usage: respell.py [--table] [--write] [TOP]     --table prints old and new; without --write nothing is changed
"""
import glob
import os
import re
import sys

WORD = r'[^\s(){}.;,@"«»\x60]+'
# what the libraries define and names of lemmas are made of
LIBRARY = """length take drop set sets get_or replicate append reverse ones xor not map sum bit_and bit_or bit_xor min max suc add sub mul pow
div mod eqb leb ltb fst snd""".split()
# names of definitions that are plain words in a lemma's name
PLAIN = "of in is one not both first rest counts product sum put half gates words ones constant accepted live".split()
# names that would fall together, or with a name of a library, a function or a parameter beside them
OTHER = {
    "every-kind": "every_kind_lem",
    "first-in": "first_in_lem",
    "fits-up-to": "fits_up_to_lem",
    "is-equal": "is_equal_lem",
    "refused-by": "refused_by_lem",
    "refused-line": "refused_line_lem",
    "shift-gate": "shift_gate_lem",
    "two_bytes": "two_bytes_lem",
    "sets_of": "the_sets",
    "append-gates": "append_gates_lem",
    "blocked-input": "blocked_input_lem",
    "coeffs-of": "coeffs_of_lem",
    "first-sets": "first_sets_lem",
    "gates-from": "gates_from_lem",
    "in-first": "in_first_lem",
    "in-second": "in_second_lem",
    "words-of-set": "words_of_set_lem",
    # a binder beside the definition is_zero
    "is-zero": "zero_there",
    "high-at": "high_at_lem",
    "put-behind": "put_behind_lem",
    "unfit-at": "unfit_at_lem",
    "bit-and": "bit-bit_and",
    "bit-or": "bit-bit_or",
    "h-gates": "h_gates_added",
    "t-gates": "t_gates_added",
}


def files(top):
    for pattern in ("crates/*/specs/**/*.antt", "crates/*/proofs/**/*.antt"):
        yield from sorted(glob.glob(os.path.join(top, pattern), recursive=True))


def text_of(path):
    with open(path, encoding="utf-8") as f:
        return f.read()


def is_walk(path):
    return bool(re.search(r"/proofs/.*/[^/]+\.antt$", path)) and os.path.basename(path) == "Proof.antt"


DECLARED = re.compile(rf"^[ \t]*((?:(?:abbrev|unfoldable|pub|record|data|opaque)[ \t]+)*)({WORD})[ \t]*:(?![=:])", re.M)


def declared(top):
    """Every name that is declared at the head of a line, of a definition, a lemma, a helper or a field; and those of definitions."""
    names, definitions = set(), set(LIBRARY)
    for path in files(top):
        text = text_of(path)
        walk = is_walk(path)
        # constructors, several to a line, and binders
        names |= {w for w in re.findall(WORD, QUIET.sub("", text)) if re.match(r"[a-z][^-]*[a-z0-9ω][A-ZℤℕΩ]", w)}
        names |= {w for w in re.findall(WORD, QUIET.sub("", text)) if w in OTHER}
        for m in DECLARED.finditer(text):
            rest = text[m.end() : m.end() + 80]
            if walk and re.match(r"\s*(tie|goal)\.", rest):
                continue
            if m[2].startswith("--") or m[2] in ("use", "mod"):
                continue
            names.add(m[2])
            if "/specs/" in path and m[0][0] not in " \t" and re.search(r"abbrev|unfoldable", m[1]) and not m[2][0].isupper():
                definitions.add(m[2])
    return names, definitions - set(PLAIN)


def snake(part):
    if not part or part[0].isupper():
        return part
    return re.sub(r"(?<=[a-z0-9ω])[A-ZℤℕΩ]|(?<=[A-Z])[A-Z](?=[a-z])", lambda m: "_" + (m[0].lower() if m[0].isascii() else m[0]), part)


def is_operator(part):
    return bool(part) and not re.match(r"[\w]", part)


def respelled(name, definitions):
    if name in OTHER:
        return OTHER[name]
    if "◌" in name:
        return name
    if name.endswith("-spec"):
        return name[0] + snake(name[1:].replace("-", "_"))
    # a leading sign may be a minus: `-z`
    parts = [p for p in re.split(r"-(?=.)", name)] if not name.startswith("-") else ["-" + p if i == 0 else p for i, p in enumerate(re.split(r"-(?=.)", name[1:]))]
    out = snake(parts[0])
    for left, right in zip(parts, parts[1:]):
        joins = (left in definitions or is_operator(left)) and (right in definitions or is_operator(right))
        out += ("-" if joins else "_") + snake(right)
    return out


def table(top):
    names, definitions = declared(top)
    rows = {}
    for name in names:
        if name in OTHER or re.search(r"[A-Za-zω0-9]", name) and (re.search(r"[a-z0-9ω][A-ZℤℕΩ]", name) or "-" in name[1:]):
            new = respelled(name, definitions)
            if new != name:
                rows[name] = new
    return rows, names


def imported(text):
    """The names that a file imports from a library of the kit, and from crates of the repository."""
    theirs, ours = set(), set()
    for m in re.finditer(r"\buse\s+([^\s{;]+?)(?:\.\{([^}]*)\}|(?=[\s;]))", text):
        own = re.match(r"Rattle\.(?!std\b|core\b|check\b|io\b|os\b|libc\b|log\b|hex\b|json\b)", m[1])
        for item in (m[2] or "").split(","):
            words = item.split()
            if words:
                (ours if own else theirs).add(words[-1])
                if not own:
                    theirs.add(words[0])
    return theirs, ours


def turn_words(text, rows, keep):
    return re.sub(WORD, lambda m: m[0] if m[0] in keep else rows.get(m[0], m[0]), text)


QUIET = re.compile(r'"(?:[^"\\\n]|\\.)*"|--[ \t][^\n]*|--$', re.M)
SPAN = re.compile(r"\x60([^\x60\n]+)\x60")


def turn_comment(text, rows, keep):
    """In a comment a code span turns, and a word with a capital inside, which no prose has."""
    text = SPAN.sub(lambda m: "\x60" + turn_words(m[1], rows, keep) + "\x60", text)
    return re.sub(WORD, lambda m: rows.get(m[0], m[0]) if re.search(r"[a-z][A-Z]", m[0]) and m[0] not in keep else m[0], text)


def turn_antt(text, rows, keep):
    out, last = [], 0
    for m in QUIET.finditer(text):
        out.append(turn_words(text[last : m.start()], rows, keep))
        out.append(m[0] if m[0].startswith('"') else turn_comment(m[0], rows, keep))
        last = m.end()
    out.append(turn_words(text[last:], rows, keep))
    return "".join(out)


def turn_rattle(text, rows, keep):
    """Clauses and `ghost use` items; comments as in antt."""
    out, i = [], 0
    start = re.compile(r'//[^\n]*|"(?:[^"\\\n]|\\.)*"|\bghost\s+use\b[^;]*;|\b(?:requires|ensures)\b\s*\*?\s*\w*\s*\{|\bghost\b[^;{]*\{')
    while True:
        m = start.search(text, i)
        if not m:
            out.append(text[i:])
            return "".join(out)
        out.append(text[i : m.start()])
        if m[0].startswith("//"):
            out.append(turn_comment(m[0], rows, keep))
            i = m.end()
        elif m[0].startswith('"'):
            out.append(m[0])
            i = m.end()
        elif m[0].endswith(";"):
            out.append(turn_words(m[0], rows, keep))
            i = m.end()
        else:
            depth, j = 1, m.end()
            while depth:
                depth += {"{": 1, "}": -1}.get(text[j], 0)
                j += 1
            out.append(m[0] + turn_words(text[m.end() : j], rows, keep))
            i = j


def turned(path, text, rows):
    theirs, _ = imported(text)
    keep = {w for w in theirs if w in rows}
    if path.endswith(".antt"):
        return turn_antt(text, rows, keep)
    if path.endswith(".edit"):
        return turn_antt(text, rows, keep)
    return turn_rattle(text, rows, keep)


def main():
    args = [a for a in sys.argv[1:] if not a.startswith("--")]
    top = args[0] if args else "."
    rows, names = table(top)
    if "--table" in sys.argv:
        for old in sorted(rows):
            print(old, rows[old], sep="\t")
    back = {}
    for old, new in rows.items():
        back.setdefault(new, []).append(old)
    for new, olds in sorted(back.items()):
        if len(olds) > 1 or new in names:
            print("together:", new, "<-", ", ".join(sorted(olds)), "(and itself)" if new in names else "", file=sys.stderr)
    paths = list(files(top))
    paths += sorted(glob.glob(os.path.join(top, "crates/*/src/**/*.rt"), recursive=True))
    paths += sorted(glob.glob(os.path.join(top, "crates/*/must-fail/*.edit")))
    changed = 0
    for path in paths:
        text = text_of(path)
        new = turned(path, text, rows)
        theirs, _ = imported(new)
        words = set(re.findall(WORD, text))
        for old in sorted(words):
            if old in rows and old not in theirs and (rows[old] in theirs or rows[old] in words):
                print(f"beside: {path}: {old} is {rows[old]}, which the file has already", file=sys.stderr)
        if path.endswith(".rt"):
            uses = set()
            for m in re.finditer(r"ghost\s+use\b[^;]*;", new):
                uses |= set(re.findall(WORD, m[0]))
            code = turn_rattle(re.sub(r"//[^\n]*", "", text), {}, set())
            for word in sorted(uses & set(rows.values())):
                if re.search(rf"(?:\blet(?:\s+mut)?\s+|[(,]\s*(?:mut\s+)?){re.escape(word)}\b\s*[:=]", code):
                    print(f"source: {path}: {word} names something in the code too", file=sys.stderr)
        if new != text:
            changed += 1
            if "--write" in sys.argv:
                with open(path, "w", encoding="utf-8") as f:
                    f.write(new)
    print(f"names {len(rows)}, files {changed}", file=sys.stderr)


if __name__ == "__main__":
    main()
