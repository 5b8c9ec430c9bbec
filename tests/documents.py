#!/usr/bin/env python3
"""Holds the documents to the repository: every definition, theorem, function and edit that docs/DEMANDS.md cites exists, every edit is
cited there, and every crate stands in README.md and crates.txt. Every name and file that a document writes as code is there, every file of
tests/ stands in tests/README.md, README.md has the exit statuses of the script with their words, every case of a refusal with its number, the last
verdict of a report and the list that is undecided against itself, and no document has a path of one machine.

    python3 tests/documents.py
"""
import glob
import itertools
import os
import re
import sys

ROOT = os.path.join(os.path.dirname(os.path.abspath(__file__)), "..")
OF_NAMES = ("README.md", "docs/ARCHITECTURE.md", "docs/DECISIONS.md", "docs/DEMANDS.md")
DOCUMENTS = (*OF_NAMES, "docs/BENCHMARKS.md", "examples/README.md", "tests/README.md")
ENDINGS = (".py", ".md", ".txt", ".antt", ".rs", ".rt")
# written as code, but of no crate: the kit's tool and its word, a program's input and output, the system's header
OTHERS = {"rt", "axioms=", "stdin", "stdout", "sysexits.h"}


def text(path):
    with open(os.path.join(ROOT, path), encoding="utf8") as file:
        return file.read()


def found(pattern):
    """The files of a pattern, but for what the kit keeps in each out/."""
    return [path for path in glob.glob(os.path.join(ROOT, pattern), recursive=True) if "/out/" not in path]


def words_of_the_crates():
    """Every word of a definition, a proof or code."""
    words = set()
    for kind in ("antt", "rt"):
        for path in found(f"crates/**/*.{kind}"):
            with open(path, encoding="utf8") as file:
                words.update(re.findall(r"[^\s(){}\[\],.;:]+", file.read()))
    return words


def edit_faults(demands, crates):
    """What is cited as crate/edit against the edits, and how many there are."""
    edits = {
        f"{crate}/{os.path.splitext(os.path.basename(path))[0]}"
        for crate in crates
        for path in found(f"crates/{crate}/must-fail/*.edit")
    }
    cited = set(re.findall(r"(?<![\w/`])([a-z_]+/[a-z0-9_]+)\b(?![./])", demands)) - {"crate/edit"}
    faults = [f"docs/DEMANDS.md cites no such edit: {name}" for name in sorted(cited - edits)]
    return faults + [f"docs/DEMANDS.md does not cite the edit {name}" for name in sorted(edits - cited)], len(edits)


def is_there(name, folder, known):
    """Is this a file, some crates by a pattern, or a word of the crates?"""
    if "/" in name or name.endswith(ENDINGS):
        return any(found(os.path.join(place, name.removeprefix("./"))) for place in ("", folder, "crates/*", "crates/**"))
    if "*" in name and re.fullmatch(r"[a-z_*]+", name):
        return bool(found(f"crates/{name}/src"))
    return name in OTHERS or re.split(r"::|\.", name.split("(")[0])[-1] in known


def name_faults(crates):
    """Names and files written as code that are nowhere."""
    known, faults = words_of_the_crates() | set(crates), []
    for document in DOCUMENTS:
        whole = re.sub(r"^```.*?^```", "", text(document), flags=re.M | re.S)
        for name in sorted(set(re.findall(r"`([^`\s]+)`", whole))):
            is_file = "/" in name or name.endswith(ENDINGS)
            if name in ENDINGS:
                continue
            if (is_file or document in OF_NAMES) and not is_there(name, os.path.dirname(document), known):
                faults.append(f"{document} cites what is not there: {name}")
    return faults


def readme_faults(crates):
    """Crates, exit statuses, the last verdict and the list that is undecided against itself."""
    readme, listed = text("README.md"), re.findall(r"^([a-z_0-9]+):", text("crates.txt"), flags=re.M)
    faults = [f"README.md does not name the crate {crate}" for crate in crates if f"`{crate}`" not in readme]
    faults += [f"crates.txt does not list the crate {crate}" for crate in crates if crate not in listed]
    faults += [f"crates.txt lists {crate}, which is no crate" for crate in listed if crate not in crates]
    table = re.findall(r"^\| ([\d, ]+) \| (.*) \|$", readme, flags=re.M)
    told = [(number, word.split()[0].strip(",;:")) for numbers, words in table for number, word in zip(numbers.split(", "), words.split(", "))]
    if sorted(told) != sorted(re.findall(r"^ +(\d+)  (\w+)", text("compare"), flags=re.M)):
        faults.append("README.md has other exit statuses than compare --help")
    last = re.search(r"^last_verdict = (\d+)$", text("crates/record_format/specs/Format.antt"), flags=re.M)
    if not last or f"a report's verdict is above {last[1]} " not in readme:
        faults.append("README.md has another last verdict than the definitions")
    rows = dict(re.findall(r"^([^;\n]*);.* => (.*)$", text("tests/rows.txt"), flags=re.M))
    said = re.search(r"undecided, even against itself:.* is `(undecided [\d ]+)`", readme)
    if not said or said.group(1) != rows.get("undecided against itself"):
        faults.append("README.md does not say that a list may come out undecided against itself, with the answer of rows.txt")
    return faults


def refusal_faults():
    """README.md's cases of a refusal, each with its number, against those of the code."""
    told = [
        pair
        for cases, numbers in re.findall(r"^\| (`[A-Z].*?) \| ([\d, ]+) \|", text("README.md"), flags=re.M)
        for pair in itertools.zip_longest(re.findall(r"`([A-Z]\w+)`", cases), numbers.split(", "))
    ]
    code = "".join(text(f"crates/{crate}/src/lib.rt") for crate in ("record_format", "comparison_types", "joining_types"))
    cases = set(re.findall(r"Refusal::(\w+)(?: \{ gate: _ \})? => (\d+),", code))
    return [] if sorted(told) == sorted(cases) else [f"README.md has other refusals than the code: {set(told) ^ cases}"]


def main():
    crates = sorted(os.path.basename(os.path.dirname(p)) for p in found("crates/*/src"))
    faults, edits = edit_faults(text("docs/DEMANDS.md"), crates)
    faults += name_faults(crates) + readme_faults(crates) + refusal_faults()
    told = text("tests/README.md")
    tests = [os.path.basename(path) for path in sorted(found("tests/*.*")) if not path.endswith("README.md")]
    faults += [f"tests/README.md does not name {name}" for name in tests if f"\n| `{name}` |" not in told]
    for document in (*DOCUMENTS, *(os.path.relpath(p, ROOT) for p in sorted(found("docs/changes/*.md")))):
        paths = re.findall(r"(?<![\w.)\]}*])/(?!dev/)[a-z]+/[\w./]*", text(document))
        faults += [f"{document} has a path of one machine: {path}" for path in paths]
    for fault in faults:
        print(fault)
    if faults:
        sys.exit(1)
    print(f"{edits} edits and {len(crates)} crates: the documents cite them all, and nothing that is not there")


if __name__ == "__main__":
    main()
