#!/usr/bin/env python3
"""Lists the places in src/ where an older form may stand in place of today's.

usage: tools/places.py [--count] [FOLDER]     FOLDER holds crates/ (this one, where none is named)

A row is a place to look at, not a verdict: docs/DESIGN-PASS.md says what became of each.
"""
import collections
import glob
import os
import re
import sys

count_only = "--count" in sys.argv
folders = [a for a in sys.argv[1:] if not a.startswith("--")]
top = folders[0] if folders else os.path.dirname(os.path.dirname(os.path.abspath(__file__)))
sources = []
for path in sorted(glob.glob(os.path.join(top, "crates/*/src/**/*.rt"), recursive=True)):
    with open(path) as f:
        sources.append((os.path.relpath(path, os.path.join(top, "crates")), f.read().split("\n")))


def lines_with(pattern, but=None):
    p = re.compile(pattern)
    no = re.compile(but) if but else None
    return [f"{name}:{i + 1}: {line.strip()}" for name, text in sources for i, line in enumerate(text)
            if not line.lstrip().startswith("//") and p.search(line) and not (no and no.search(line))]


def left_by_hand():
    found = lines_with(r"\bNone => None\b|\bErr\((\w+)\) => Err\(\1\)|\bOk\((\w+)\) => Ok\(\2\)|\bSome\((\w+)\) => Some\(\3\)")
    for name, text in sources:
        for i, line in enumerate(text[:-1]):
            if line.rstrip().endswith("else {") and "let Some" in " ".join(text[max(0, i - 3):i + 1]) and text[i + 1].strip() == "return None;":
                found.append(f"{name}:{i + 1}: {line.strip()} return None; }}")
    return found


def signatures():
    for name, text in sources:
        whole = "\n".join(text)
        for m in re.finditer(r"\bfn (\w+)(?:<[^(]*>)?\(([^)]*)\)", whole):
            parameters = [p.split(":")[0].strip().removeprefix("mut ") for p in re.split(r",(?![^<]*>)", m.group(2)) if ":" in p]
            yield name, whole[:m.start()].count("\n") + 1, m.group(1), parameters


def together():
    sets = collections.defaultdict(list)
    for name, line, fn, parameters in signatures():
        crate = name.split("/")[0]
        for i in range(len(parameters)):
            for j in range(i + 1, len(parameters)):
                for k in range(j + 1, len(parameters)):
                    sets[(crate, tuple(sorted((parameters[i], parameters[j], parameters[k]))))].append(f"{name}:{line} {fn}")
    taken, rows = set(), []
    for (crate, three), where in sorted(sets.items(), key=lambda x: -len(x[1])):
        if len(where) >= 4 and not taken & {(crate, w) for w in where}:
            taken |= {(crate, w) for w in where}
            rows.append(f"{crate}: {', '.join(three)}: {len(where)} functions")
    return rows


def repeated_facts():
    facts = collections.defaultdict(list)
    for name, text in sources:
        for i, line in enumerate(text):
            m = re.match(r"\s*requires (?:\w+ )?\{ (.*) \}$", line)
            if m:
                facts[(name.split("/")[0], m.group(1))].append(f"{name}:{i + 1}")
    return [f"{crate}: {fact}: {len(where)} contracts" for (crate, fact), where in sorted(facts.items()) if len(where) >= 3]


POINTS = [
    ("1 an enum of the repository's own", lines_with(r"^(pub(\(crate\))? )?enum \w+")),
    ("1 an Option or a Result handed on by hand", left_by_hand()),
    ("1 a flag beside a value, or as the answer of what goes on", lines_with(r"Result<bool|, bool\)|^\s+(pub )?\w+: bool,|\w: bool[,)]", r"^\s*fn is_|^(pub )?fn is_")),
    ("1 a number for a kind", lines_with(r"\b(kind|sort|presence)\b: u8|\*kind = \d|Result<\w+, u8>")),
    ("2 a function whose name has a width or a second one's name", lines_with(r"\bfn (\w+(8|16|32|64)(_at)?|(le|be)_(read|put)|byte|two|four|eight)\b[<(]")),
    ("2 a function of one name in several files", []),
    ("3 a loop by while", lines_with(r"^\s*while ")),
    ("3 a recursion over a slice", lines_with(r"^\s+(\w+)\(.*tail\(\w+, 1\)\)$")),
    ("4 equality, conversion or printing by hand", lines_with(r"\bfn (same_\w+|answered|answer_line|kind_of|signed|digit|put_pairs?|nibble|unhex|number\d*|is_fine)\b[<(]|= (self\.0|refusal)\.reason\.number\(\);")),
    ("4 an update that repeats every field", lines_with(r"^\s+(\w+): self\.\1,$")),
    ("5 three parameters that travel together in four functions or more", together()),
    ("5 a fact that three or more contracts of a crate ask for", repeated_facts()),
    ("6 an array with a length, or a rest of bytes kept by hand", lines_with(r"^\s+(pub(\(crate\))? )?\w+: \[u8; \d+\],|^\s+let mut (left|rest) = ")),
    ("7 a switch on which step to run", lines_with(r"^\s+(\d+|Call::\w+.*|\"[a-z ]+\"|b\"\w+\") => (\w+\(|\{$)|if label == ")),
]
names = collections.defaultdict(list)
for name, line, fn, _ in signatures():
    names[fn].append(f"{name}:{line}")
common = {"fmt", "run", "main", "next", "width", "blank", "read", "write", "knows", "of", "walk", "open", "set", "clear"}
twins = [f"{fn}: {', '.join(where)}" for fn, where in sorted(names.items()) if len({w.split(":")[0] for w in where}) > 1 and fn not in common]
for title, rows in POINTS:
    rows = twins if title.startswith("2 a function of one name") else rows
    print(f"{len(rows):4}  {title}")
    if not count_only:
        for row in rows:
            print(f"        {row}")
