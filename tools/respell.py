#!/usr/bin/env python3
"""Respells the names that this repository's own .antt files declare: words in snake case, types in upper camel case.

    tools/respell.py [ROOT] [FILE..]

Run it once at the top, after the kit's port.py, which respells only some of them. A name counts as the repository's own where a signature, a
field or a constructor of crates/*/specs or crates/*/proofs declares it. The goals of a function's proof, and what a file imports from the kit
under the same name, stay. With FILEs, a must-fail edit or a page each, those are turned by the names of ROOT, each word that is one of them.
"""
import collections
import os
import re
import sys

SIGNATURE = re.compile(r"(?m)^\s*(?:abbrev |unfoldable |pub |mutual |data |record |ruleset )*([A-Za-z][A-Za-z0-9_'-]*)((?:\s*\([^()\n]*\)|\s*\{[^{}\n]*\})*)\s+:(?=\s|$)(.*)")
GOAL = re.compile(r"\s*(\(\w+ : [^)]*\) → )*\s*(tie|lts|goal)\.")
IMPORT = re.compile(r"(?:^|\n)\s*(?:pub |ghost )*use ([^\s{;]+)\.\{([^}]*)\}")
WORD = re.compile(r"[A-Za-z_◌][A-Za-z0-9_'◌-]*")
# where the plain rule would give a name that another one has
SPECIAL = {"is-nan": "nan_above", "add-zero": "give_zero", "Demand3-01": "Demand3Of01", "Demand3-over": "Demand3Over", "Step-01": "StepOf01",
           "So-far": "SoFar", "W-as": "WalkedAs", "Chain-from": "ChainFrom"}
# what no line declares alone
OTHERS = {"JMP-BREAK": "jmp_break", "JMP-CONTINUE": "jmp_continue", "of-a": "of_a", "of-ab": "of_ab", "of-abc": "of_abc", "of-call": "of_call",
          "of-return": "of_return", "closure-of": "closure_of", "is-here": "is_here"}


def texts(root):
    for folder, folders, names in os.walk(os.path.join(root, "crates")):
        folders[:] = sorted(name for name in folders if name not in ("out", ".git"))
        for name in sorted(names):
            if name.endswith((".antt", ".rt")):
                yield os.path.join(folder, name)


def read(path):
    with open(path, encoding="utf-8") as file:
        return file.read()


def is_own(root, module):
    return module.startswith("Rattle.") and os.path.isdir(os.path.join(root, "crates", module.split(".")[1]))


def names(root):
    """The names to respell, each with its new spelling."""
    found = dict(OTHERS)
    for path in texts(root):
        if path.endswith(".antt"):
            for it in SIGNATURE.finditer(read(path)):
                if "-" in it[1] and not GOAL.match(it[3]) and not it[1].startswith(("JMP-", "Inv-")):
                    found[it[1]] = SPECIAL.get(it[1], it[1].replace("-", "_"))
    return found


def foreign(root, text):
    """What the file imports from the kit, by its name there and here."""
    found = set()
    for it in IMPORT.finditer(text):
        if not is_own(root, it[1]):
            for name in it[2].split(","):
                found |= set(name.strip().split(" as "))
    return found


def turned(table, text, stay=()):
    def word(it):
        name = it[0]
        return table[name] if name in table and name not in stay else name

    return WORD.sub(word, text)


def turned_antt(table, text, stay):
    """Code whole; of a comment what stands between backticks."""
    lines = []
    for line in text.split("\n"):
        code, mark, said = line.partition("--") if line.lstrip().startswith("--") or " -- " in line else (line, "", "")
        lines.append(turned(table, code, stay) + mark + re.sub(r"`[^`]*`", lambda it: turned(table, it[0], stay), said))
    return "\n".join(lines)


def turned_rt(table, text, stay):
    """The ghost lines and the clauses; of a comment what stands between backticks."""
    lines, depth = [], 0
    for line in text.split("\n"):
        bare = line.strip()
        if bare.startswith("//"):
            line = re.sub(r"`[^`]*`", lambda it: turned(table, it[0], stay), line)
        elif depth or bare.startswith(("ghost use", "requires", "ensures", "ghost ")):
            line = turned(table, line, stay)
            if bare.startswith(("requires", "ensures", "ghost ")) and not bare.startswith("ghost use") or depth:
                depth += line.count("{") - line.count("}")
        lines.append(line)
    return "\n".join(lines)


def main(root, others):
    table = names(root)
    if others:
        for path in others:
            text = read(path)
            with open(path, "w", encoding="utf-8") as file:
                file.write(turned(table, text))
        return 0
    together = collections.defaultdict(set)
    for path in texts(root):
        text = read(path)
        stay = foreign(root, text)
        new = (turned_antt if path.endswith(".antt") else turned_rt)(table, text, stay)
        had = set(WORD.findall(text))
        for name in (had & set(table)) - stay:
            if table[name] in had:
                together[os.path.relpath(path, root)].add(name)
        if new != text:
            with open(path, "w", encoding="utf-8") as file:
                file.write(new)
    print(f"{len(table)} names")
    for path, found in sorted(together.items()):
        print("look:", path, *sorted(found))
    return 0


if __name__ == "__main__":
    sys.exit(main(os.path.realpath(sys.argv[1]) if len(sys.argv) > 1 else os.path.realpath("."), sys.argv[2:]))
