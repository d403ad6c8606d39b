#!/usr/bin/env python3
"""Spells the repository's own names in antt as today's Rattle spells its own.

Run once at the top of a repository that port.py has turned. In specs/ and proofs/ of every crate it collects the names that
are declared there (definitions, constructors, fields and lemmas, not the answers of generated goals) and have a dash, or, of a
fact that port.py took for a word, an underscore. A word goes to snake case (le-value: le_value), a type or a fact to camel
case (Makes-up: MakesUp). Five facts would then have the name of a struct of src/; they get `Is` in front, as facts that are
nouns have.

It replaces whole names, in .antt files everywhere, in .rt files in `ghost` items and clauses, and in .edit files. Comments
keep their English. Functions of src/, strings, inputs and outputs keep their names, since none has a dash.
It stops, and writes nothing, where two names would fall together.
"""
import collections
import os
import re
import sys

KEYWORD = r"(?:abbrev|unfoldable|data|record|pub|mod)"
DECLARED = re.compile(r"(\s*)((?:%s\s+)*)([^\s:(){}.,;=]+)((?:\s+\([^)]*\)|\s+\{[^}]*\})*)\s*:\s*(.*)$" % KEYWORD)
TOKEN = re.compile(r"[^\s(){}.,;\[\]λ]+")
STRUCTS = {"Next-field", "Next-group", "Next-line", "Next-part", "Next-template"}


def folders():
    found = []
    for top in ("crates", "compare"):
        for folder, dirs, _ in os.walk(top):
            dirs[:] = sorted(d for d in dirs if d not in ("out", "target", ".git"))
            found.append(folder)
    return found + ["checks/planted/" + d for d in sorted(os.listdir("checks/planted"))] if os.path.isdir("checks/planted") else found


def files(*endings):
    for folder in folders():
        for name in sorted(os.listdir(folder)):
            if name.endswith(endings):
                yield os.path.join(folder, name)


def own(path):
    """Whether a file is one of definitions or lemmas, where no name is made by the check."""
    parts = path.split("/")
    return "specs" in parts or parts[-2] == "proofs"


def bound(line):
    """The names that a line binds: a clause's variables, a function's, and those of `as`, `data` and `record`."""
    line = re.sub(r"(^|\s)--(\s.*|$)", "", line)
    names = re.findall(r"\b(?:data|record|as) ([^\s:(){}.,;=]+)", line)
    for it in re.findall(r"[({]([^(){}:]+) :", line) + re.findall(r"λ \(?([^.]*)\.", line) + re.findall(r"^([^=]*) =(?:\s|$)", line):
        names += TOKEN.findall(it)
    return names


def declared():
    names = set()
    for path in files(".antt"):
        with open(path) as f:
            for line in f:
                it = DECLARED.match(line)
                if it and not it[5].startswith("goal."):
                    names.add(it[3])
                if own(path) and not line.startswith("use "):
                    names |= set(bound(line))
                if line.startswith("use "):
                    names |= set(re.findall(r" as ([^\s,}]+)", line))
    return {n for n in names if re.fullmatch(r"[A-Za-z][\w']*(-[\w']+)+|[A-Z][\w']*_[\w']+", n)} - foreign()


def foreign():
    """The names that are imported from elsewhere: they keep their spelling."""
    crates = set(os.listdir("crates")) | {"compared"}
    names = set()
    for path in files(".antt", ".rt"):
        with open(path) as f:
            for module, list_of in re.findall(r"use (?:pub )?(\S+)\.\{([^}]*)\}", f.read()):
                parts = module.split(".")
                if (parts[1] if parts[0] == "Rattle" else parts[0]) not in crates:
                    names |= {n.strip().split(" as ")[0].strip() for n in list_of.split(",")}
    return names


def spelled(name):
    if name[0].isupper():
        joined = "".join(w[0].upper() + w[1:] for w in re.split("[-_]", name))
        return "Is" + joined if name in STRUCTS else joined
    return name.replace("-", "_")


def turned(code, new):
    return TOKEN.sub(lambda it: new.get(it[0], it[0]), code)


def antt(text, new):
    lines = []
    for line in text.split("\n"):
        cut = re.search(r"(^|\s)--(\s|$)", line)
        at = cut.start() if cut else len(line)
        rest = re.sub(r"`([^`]*)`", lambda it: "`" + turned(it[1], new) + "`", line[at:])
        lines.append(turned(line[:at], new) + rest)
    return "\n".join(lines)


# The parts of a source that are antt: `ghost` items, and the braces of clauses.
GHOST = re.compile(r"\b(?:ghost use [^;]*;|(?:requires|ensures)\*?(?:\s+\w+)?\s*\{|ghost \w+\s*[:=]\s*\{|#\[tactic\([^\]]*\]|prove!\()")


def rt(text, new):
    out, at = [], 0
    while True:
        it = GHOST.search(text, at)
        if not it:
            return "".join(out) + text[at:]
        end = it.end()
        if it[0].endswith("{"):
            depth = 1
            while depth:
                depth += {"{": 1, "}": -1}.get(text[end], 0)
                end += 1
        out += [text[at:it.start()], turned(text[it.start():end], new)]
        at = end


def edit(text, new):
    return "\n".join(turned(l, new) if l.startswith(("old:", "new:")) else l for l in text.split("\n"))


def main():
    names = declared()
    new = {n: spelled(n) for n in names}
    used = collections.defaultdict(set)
    every = set()
    for path in files(".antt", ".rt"):
        with open(path) as f:
            for line in f:
                it = DECLARED.match(line)
                if it and path.endswith(".antt"):
                    every.add(it[3])
                for list_of in re.findall(r"%suse [^;{]*\{([^}]*)\}" % ("ghost " if path.endswith(".rt") else ""), line):
                    every |= {n.strip().split(" as ")[-1].strip() for n in list_of.split(",")}
    for n in every | names:
        used[new.get(n, n)].add(n)
    together = {k: v for k, v in used.items() if len(v) > 1}
    if together:
        print("respell: these fall together, nothing is written:", together)
        return 2
    changed = 0
    for path in files(".antt", ".rt", ".edit"):
        with open(path) as f:
            text = f.read()
        turn = antt if path.endswith(".antt") else rt if path.endswith(".rt") else edit
        after = turn(text, new)
        if after != text:
            with open(path, "w") as f:
                f.write(after)
            changed += 1
    print(f"respell: {len(new)} names in {changed} files")
    return 0


if __name__ == "__main__":
    sys.exit(main())
