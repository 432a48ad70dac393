"""Image files for people: their records, the proved reader's verdict, and the lines of a listing (docs/FORMATS.md says what an image holds).

bin/listing, bin/walk and bin/reached read images by this.
"""
import math
import os
import struct

import marks
import opcodes
from streams import ROOT, Failure, child

NONE = 65535
NARROW, WIDE = 0x43, 0x47  # the tags of instructions
BUILTINS = ["io", "strings", "type", "env", "import", "net", "re", "process", "lists"]
CAUSES = {19: ("Image frame", "a header or a payload runs past the end, or there is no field at all"),
          20: ("Image rule", "a field that cannot follow, or an instruction whose fact fails")}
LONGEST_REPEAT = 16
RETIRED = {"Class", "ClassMeth", "ClassStMeth"}


class Wrong(Exception):
    """Why the bytes cannot be shown from here on."""


# ---- what an image holds


def fields(data):
    """Tag and payload of each field."""
    at = 0
    while at < len(data):
        if at + 3 > len(data):
            raise Wrong(f"byte {at}: a header runs past the end")
        tag, size = struct.unpack_from(">BH", data, at)
        if at + 3 + size > len(data):
            raise Wrong(f"byte {at}: a payload runs past the end")
        yield at, tag, data[at + 3:at + 3 + size]
        at += 3 + size


class Reader:
    """The fields one after the other, each of the tag and size that is due. The first instruction says whether marks are wide."""

    def __init__(self, data):
        self.fields, self.at, self.wrong = [], 0, None
        try:
            self.fields.extend(fields(data))
        except Wrong as problem:
            self.wrong = problem
        self.wide = next((tag for _, tag, _ in self.fields if tag in (NARROW, WIDE)), NARROW) == WIDE

    def end(self, why):
        raise self.wrong or Wrong(why)

    def tag(self):
        return self.fields[self.at][1] if self.at < len(self.fields) else None

    def take(self, tag, form):
        if self.at == len(self.fields):
            self.end(f"the image ends where a field of tag {tag:02X} is due")
        place, found, payload = self.fields[self.at]
        if found != tag or len(payload) != struct.calcsize(form):
            raise Wrong(f"byte {place}: a field of tag {found:02X} and {len(payload)} bytes where one of tag {tag:02X} and {struct.calcsize(form)} is due")
        self.at += 1
        return struct.unpack(form, payload)


def records(data):
    """What the image holds, in its order: a record for each prototype, capture, instruction and constant."""
    names, reader, index = opcodes.written(), Reader(data), 0
    while reader.tag() == 0x41:
        yield from prototype(reader, names, index)
        index += 1
    if index == 0:
        reader.end("no prototype stands at the start")
    index = 0
    while reader.tag() is not None:
        yield {"kind": "constant", "index": index, **constant(reader)}
        index += 1
    if reader.wrong:
        raise reader.wrong


def prototype(reader, names, index):
    name, parameters, registers, captures, instructions = reader.take(0x41, ">5H")
    yield {"kind": "prototype", "prototype": index, "name": absent(name), "parameters": parameters, "registers": registers, "captures": captures,
           "instructions": instructions, **({"wide": True} if reader.wide else {})}
    for k in range(captures):
        local, of = reader.take(0x42, ">2B")
        yield {"kind": "capture", "prototype": index, "index": k, "from": "register" if local else "capture", "of": of}
    for k in range(instructions):
        yield {"kind": "instruction", "prototype": index, "index": k, **instruction(reader, names, k)}


def instruction(reader, names, index):
    opcode, a, b, c, mark = reader.take(WIDE, ">4BI") if reader.wide else reader.take(NARROW, ">4BH")
    name, both = names.get(opcode, f"opcode {opcode}"), b * 256 + c
    found = {"opcode": opcode, "name": name, "a": a, "b": b, "c": c, "mark": marks.of(mark, reader.wide)}
    if reader.wide:
        found["line"], found["column"] = marks.place(found["mark"], True)
    step = {"Jmp": both - 65536 if both > 32767 else both, "RegisterTryCatch": both}.get(name)
    if step is not None:
        found["to"] = index + step
    if name in RETIRED:
        found["retired"] = True
    return found


def constant(reader):
    tag = reader.tag()
    if tag == 0x44:
        (bits,) = reader.take(0x44, ">Q")
        (value,) = struct.unpack(">d", struct.pack(">Q", bits))
        return {"bits": f"{bits:016X}", "number": value}
    if tag == 0x45:
        (name,) = reader.take(0x45, ">H")
        return {"text": absent(name)}
    (word,) = reader.take(0x46, ">H")
    return {"other": word}


def absent(word):
    return None if word == NONE else word


# ---- the reader's verdict


def shown(data):
    """The records, with the reader's verdict before them where it refuses, and at the end why no more is shown."""
    number, place = verdict(data)
    if number == 0:
        yield from records(data)
        return
    found = []
    try:
        found.extend(records(data))
    except Wrong as problem:
        found.append({"kind": "not shown", "why": str(problem)})
    yield {"kind": "refused", "number": number, "cause": CAUSES[number][0], "place": place, "field": field_of(found, place)}
    yield from found


def verdict(data):
    """Number and place as the proved reader answers them; 0 and 0 where the image is taken."""
    status, out = child([os.path.join(ROOT, "bin", "list"), "--check"], input=data)
    words = out.split()
    if status not in (0, 1) or len(words) != 2:
        raise Failure  # it has said why
    return int(words[0]), int(words[1])


def field_of(found, place):
    """What the field at a place is; each record is a field. Nothing where it is not shown."""
    record = found[place] if place < len(found) else {"kind": "not shown"}
    if record["kind"] == "not shown":
        return None
    if record["kind"] == "prototype":
        return f"the header of prototype {record['prototype']}"
    within = f" of prototype {record['prototype']}" if "prototype" in record else ""
    return f"{record['kind']} {record['index']}{within}"


# ---- lines for people


def rows(found, state_of=lambda record: None):
    """Each line with what it is, an instruction or not, and its state; instructions that repeat, state and all, are folded."""
    code = []
    for record in found:
        if record["kind"] == "instruction":
            code.append((*instruction_line(record), state_of(record)))
            continue
        yield from folded(code)
        code = []
        yield LINES[record["kind"]](record), False, None
    yield from folded(code)


def prototype_line(record):
    counts = ", ".join(many(record[what + "s"], what) for what in ("parameter", "register", "capture", "instruction"))
    wide = ", wide" if "wide" in record else ""
    return f"prototype {record['prototype']}: {'no name' if record['name'] is None else 'name ' + named(record['name'])}, {counts}{wide}"


def capture_line(record):
    return f"  captures {record['from']} {record['of']}"


def constant_line(record):
    if "bits" in record:
        what = f"number {record['number']!r} ({record['bits']})"
    elif "text" in record:
        what = "text, empty" if record["text"] is None else f"text {named(record['text'])}"
    else:
        what = f"other literal {record['other']}"
    return f"constant {record['index']}: {what}"


def refused_line(record):
    if record["number"] == 19:
        at = f"after {many(record['place'], 'whole field')}"
    else:
        at = f"at field {record['place']}" + (f", {record['field']}" if record["field"] else "")
    return f"refused {record['number']} {record['cause']} {at}: {CAUSES[record['number']][1]}"


def not_shown_line(record):
    return f"not shown: {record['why']}"


LINES = {"prototype": prototype_line, "capture": capture_line, "constant": constant_line, "refused": refused_line, "not shown": not_shown_line}


def instruction_line(record):
    """The line, and how far behind its own index the instruction that it leads to stands."""
    line = f"{record['name']} {record['a']} {record['b']} {record['c']}  {marked(record)}{'  retired' if 'retired' in record else ''}"
    return line, record["to"] - record["index"] if "to" in record else None


def folded(code):
    """The rows of a prototype's code; rows that stand there three times or more are written once, and a line says how often."""
    at = 0
    while at < len(code):
        period, times = repeat(code, at)
        for k in range(at, at + period):
            line, step, state = code[k]
            yield f"{k:5} {line}" + ("" if step is None else f"  to {k + step}"), True, state
        if times > 1:
            lines, states = "line" if period == 1 else f"{period} lines", {row[2] for row in code[at:at + period]}
            text = f"{at + period} .. {at + period * times - 1} the {lines} above, {times} times in all"
            yield text, True, states.pop() if len(states) == 1 else None
        at += period * times


def repeat(code, at):
    """How many lines from `at` on are repeated, and how often they stand there: the longest row of repeats."""
    best = (1, 1)
    for period in range(1, min(LONGEST_REPEAT, (len(code) - at) // 3) + 1):
        end = at + period
        while end < len(code) and code[end] == code[end - period]:
            end += 1
        times = (end - at) // period
        if times > 2 and period * times > best[0] * best[1]:
            best = (period, times)
    return best


def marked(record):
    """The mark of an instruction: of a wide one line and column."""
    return marks.words(record["mark"], "line" in record)


def named(name):
    return f"{name} ({BUILTINS[name]})" if name < len(BUILTINS) else str(name)


def many(n, what):
    return f"{n} {what}" if n == 1 else f"{n} {what}s"


def of_json(record):
    """A record as JSON can have it."""
    if record["kind"] == "constant" and not math.isfinite(record.get("number", 0)):
        return {**record, "number": None}
    return record
