#!/usr/bin/env python3
"""Counts the places of docs/DESIGN-PASS.md in crates/*/src: python3 tools/forms.py [POINT [POINT ..]]

Without a point: a line for each count. With one, 1 to 8: each place too, file, line and text.
A line that begins `// stays:` stands beside what stays, and is counted by itself.
"""

import collections
import pathlib
import re
import sys

TOP = pathlib.Path(__file__).resolve().parent.parent
FILES = sorted(TOP.glob("crates/*/src/*.rt"))
LINES = [(f.relative_to(TOP / "crates"), n, line) for f in FILES for n, line in enumerate(f.read_text().split("\n"), 1)]


def code():
    return [(f, n, line) for f, n, line in LINES if not line.lstrip().startswith("//")]


def matching(pattern):
    rule = re.compile(pattern)
    return [(f, n, line) for f, n, line in code() if rule.search(line) and "ghost use" not in line and not line.startswith("use ")]


def closing(text, start):
    """The place behind the bracket that opens at `start`; the `>` of an arrow closes none."""
    depth = 0
    for k in range(start, len(text)):
        if text[k] in "(<[":
            depth += 1
        elif text[k] in ")]" or text[k] == ">" and text[k - 1] != "-":
            depth -= 1
            if depth == 0:
                return k + 1
    raise ValueError("a bracket is not closed")


def parts(text):
    """What stands between commas that are in no bracket."""
    found, depth, last = [], 0, 0
    for k, sign in enumerate(text):
        if sign in "(<[":
            depth += 1
        elif sign in ")]" or sign == ">" and text[k - 1] != "-":
            depth -= 1
        elif sign == "," and depth == 0:
            found.append(text[last:k])
            last = k + 1
    return [part.strip() for part in found + [text[last:]] if part.strip()]


def functions():
    """Each function: file, line, name, parameters as written, its clauses."""
    for f in FILES:
        text = f.read_text()
        for m in re.finditer(r"^ *(?:pub(?:\(\w+\))? )?(?:extern \"C\" )?fn (\w+)", text, re.M):
            at = m.end()
            if text[at] == "<":
                at = closing(text, at)
            end = closing(text, at)
            head = []
            for line in text[end:].split("\n"):
                if line.endswith(("{", ";", "}")) and not line.lstrip().startswith(("requires", "ensures", "where")):
                    break
                head.append(line)
            clauses = re.findall(r"(requires|ensures)\s*\w*\s*\{ (.*) \}", "\n".join(head))
            parameters = parts(" ".join(text[at + 1:end - 1].split()))
            yield f.relative_to(TOP / "crates"), text.count("\n", 0, m.start()) + 1, m.group(1), parameters, clauses


def shaped_enums():
    """Enums with a case that holds a value and one that holds none, or that are a value and a refusal."""
    found = []
    for f in FILES:
        text = f.read_text()
        for m in re.finditer(r"enum (\w+) \{\n(.*?)\n\}", text, re.S):
            cases = [c.strip().rstrip(",") for c in m.group(2).split("\n") if c.strip() and not c.strip().startswith("//")]
            holding = [c for c in cases if "(" in c or "{" in c]
            if holding and (len(holding) < len(cases) or len(cases) == 2) and len(cases) <= 3:
                found.append((f.relative_to(TOP / "crates"), text.count("\n", 0, m.start()) + 1, "enum " + m.group(1) + ": " + ", ".join(cases)))
    return found


def repeated_facts():
    """A conjunct that stands in the contracts of three or more functions of a crate."""
    where = collections.defaultdict(set)
    for f, n, name, _, clauses in functions():
        for kind, clause in clauses:
            if kind == "requires":
                for part in clause.split(" × "):
                    where[f.parts[0], part.strip("() ")].add(name)
    return [(c, len(w), fact) for (c, fact), w in sorted(where.items()) if len(w) >= 3]


def travelling():
    """Three or more parameters that stand together in three or more functions of a crate."""
    where = collections.defaultdict(set)
    for f, n, name, parameters, _ in functions():
        for size in range(3, len(parameters) + 1):
            for i in range(len(parameters) - size + 1):
                where[f.parts[0], ", ".join(parameters[i:i + size])].add(name)
    kept = [(c, len(w), p, w) for (c, p), w in where.items() if len(w) >= 3]
    longest = [x for x in kept if not any(y[0] == x[0] and x[2] in y[2] and x[2] != y[2] and x[3] <= y[3] for y in kept)]
    return [(c, n, p) for c, n, p, _ in sorted(longest, key=lambda x: (x[0], x[2]))]


POINTS = {
    "1": [
        ("own enums of the shape of Option or Result", shaped_enums),
        ("their cases named in code", lambda: matching(r"\b(Outcome|Immediate|Found|Spot|Spelled|Said)::\w")),
        ("a number that stands for none", lambda: matching(r"\bABSENT\b|\b131072\b|(=>|return|else \{) 256\b|^\s+256$|== 256 |\bNO_MARK\b")),
        ("numbers for kinds: compared, matched or handed on", lambda: matching(
            r"\b(tag|kind|o|op|mode|number|wide|opcode|last)\b (==|!=|<=|<) (0x[0-9A-F]+|\d+)\b|^\s+0x[0-9A-F]+ =>|^\s+\d+ => ")),
    ],
    "2": [
        ("functions that set every word or byte of a part to zero", lambda: [
            (f, n, name) for f, n, name, _, _ in functions() if name in ("clear", "clear_words", "clear_bytes", "zero")]),
        ("functions that only widen a number", lambda: [
            (f, n, name) for f, n, name, p, _ in functions() if name in ("as_size", "as_u64", "need", "short", "wide32")]),
        ("functions that the library has: the less, the more, a copy, a limit", lambda: [
            (f, n, name) for f, n, name, _, _ in functions() if name in ("lesser", "larger", "few", "copy", "copied", "heads", "begins")
            and not (name == "few" and "main" in str(f))]),
        ("rooms taken in turn", lambda: [
            (f, n, name) for f, n, name, _, _ in functions() if "_main" in str(f) and name in
            ("started", "small", "medium", "large", "more", "most", "few", "many", "first", "second", "full", "is_held", "filled", "never")]),
    ],
    "3": [
        ("loops by `while` or `loop`", lambda: matching(r"^\s*(while |loop \{)")),
        ("of them: an index that is counted up or down", lambda: matching(r"^\s*while .*\b(i|j|k|n|c|number|at)\b\s*(<|<=|>|!=)|^\s*while (0|start|from|end) < \w")),
        ("of them: over what is left of a slice, field by field", lambda: matching(r"^\s*while (is_whole|heads|2 <= q\.len|0 < t\.len)")),
    ],
    "4": [
        ("fields copied by hand from one value to the next", lambda: matching(r"^\s+(\w+): \w+\.\1,$")),
        ("prints by parts", lambda: matching(r"\bio::(write_all|print_decimal)\b")),
        ("matches from a case to its number or back", lambda: matching(r"^\s+\w+::\w+ => \d+,")),
    ],
    "5": [
        ("facts in the requires of three functions or more of a crate", repeated_facts),
        ("three parameters or more that stand together in three functions or more of a crate", travelling),
    ],
    "6": [
        ("arrays filled in part, with a length beside", lambda: matching(r"= \[0(u8|u16|u32|u64|usize)?; ")),
    ],
    "7": [
        ("parameters of type bool, by which a function chooses its step", lambda: [
            (f, n, name + ": " + p) for f, n, name, parameters, _ in functions() for p in parameters if p.endswith(": bool")]),
    ],
    "8": [
        ("lines of proofs", lambda: [(f.relative_to(TOP / "crates"), 0, "") for f in sorted(TOP.glob("crates/*/proofs/**/*.antt")) for _ in f.read_text().split("\n")]),
    ],
}


def main():
    asked = sys.argv[1:]
    if not FILES or [point for point in asked if point not in POINTS]:
        sys.exit("usage: python3 tools/forms.py [POINT ..], a point from 1 to 8; it counts in crates/*/src, which must be there")
    for point, counts in POINTS.items():
        if asked and point not in asked:
            continue
        for words, count in counts:
            places = count()
            print(f"{point}  {len(places):5}  {words}")
            if asked and point != "8":
                for place in places:
                    print("         " + " ".join(str(x).strip() for x in place))
    stays = [place for place in LINES if place[2].lstrip().startswith("// stays:")]
    print(f"   {len(stays):5}  lines `// stays:`")


main()
