"""The one table of opcodes, in crates/meaning/specs/Opcode.antt: number, name, registers met, whether the lowering writes it."""
import os
import re
from collections import namedtuple

from streams import ROOT

TABLE = os.path.join(ROOT, "crates", "meaning", "specs", "Opcode.antt")
Row = namedtuple("Row", "number name registers written")


def table():
    """Its rows, in their order. What no row says meets a."""
    with open(TABLE, encoding="utf-8") as file:
        text = file.read()
    numbers = {name: int(number) for name, number in re.findall(r"^([A-Z]\w*) = (\d+)$", text, re.M)}
    rows = re.findall(r"^    (is|not)_written (\w+)(?: of_(\w+))? ∷$", text, re.M)
    return [Row(numbers[name], name, registers or "a", said == "is") for said, name, registers in rows]


def written():
    """The names of those that the lowering writes, by number."""
    return {row.number: row.name for row in table() if row.written}
