"""What walks reached of an image: instructions, script lines by their marks, which way the Tests went, and which handlers were entered; in words and
for JSON."""
import marks
from imagefile import many, marked
from walks import can_reach

# the states of an instruction, with the letter before its line
REACHED, NEVER, DEAD, NEXT_ONLY, SKIP_ONLY = "reached", "never", "dead", "next", "skip"
LEADS = {REACHED: " ", NEVER: "!", DEAD: "-", NEXT_ONLY: "?", SKIP_ONLY: "?"}
TAILS = {NEXT_ONLY: "  only ever 0: to the next", SKIP_ONLY: "  only ever 1: skips one"}


class Part:
    """A prototype: what was visited of it, what a walk can visit, which way each Test went and how often, how often each handler was entered."""

    def __init__(self, code):
        self.code, self.walks, self.visited, self.can, self.ways, self.entered = code, 0, bytearray(len(code)), can_reach(code), {}, {}

    def add(self, path):
        self.walks += 1
        for index, seen in enumerate(path.visited):
            self.visited[index] |= seen
        for index, times in path.ways.items():
            sums = self.ways.setdefault(index, [0, 0])
            sums[0] += times[0]
            sums[1] += times[1]
        for index, times in path.entered.items():
            self.entered[index] = self.entered.get(index, 0) + times

    def state(self, index):
        if not self.visited[index]:
            return NEVER if index in self.can else DEAD
        times = self.ways.get(index)
        if times and 0 in times:
            return NEXT_ONLY if times[1] == 0 else SKIP_ONLY
        return REACHED

    def never(self):
        return [index for index, seen in enumerate(self.visited) if not seen]

    def dead(self):
        return [index for index in range(len(self.code)) if index not in self.can]

    def one_way(self):
        return [index for index in sorted(self.ways) if 0 in self.ways[index]]

    def handlers(self):
        """Each handler with the RegisterTryCatch instructions that name it, how often it was entered, and whether a strike can enter it."""
        found = {}
        for record in self.code:
            if record["name"] == "RegisterTryCatch":
                found.setdefault(record["to"], []).append(record["index"])
        can = lambda at: at in self.can and self.code[at + 1]["name"] != "Return"
        return [(handler, of, self.entered.get(handler, 0), any(map(can, of))) for handler, of in sorted(found.items())]


class Coverage:
    """All walks of an image, added up."""

    def __init__(self, image):
        self.image, self.parts = image, [Part(code) for code in image.codes]

    def add(self, prototype, path):
        self.parts[prototype].add(path)

    def totals(self):
        """Instructions, those reached, and those that some walk reaches."""
        return sum(len(p.code) for p in self.parts), sum(sum(p.visited) for p in self.parts), sum(len(p.can) for p in self.parts)

    def state_of(self, record):
        return self.parts[record["prototype"]].state(record["index"])

    def is_wide(self):
        return "line" in self.parts[0].code[0]

    def lines(self):
        """The script's lines by their marks: those that no walk reached, those reached in part, those that none can reach."""
        return self.marks(lambda record: record.get("line", record["mark"]))

    def places(self):
        """Of a wide image: the marks that no walk reached, in lines that are reached in part."""
        half = set(self.lines()[1])
        return [mark for mark in self.marks(lambda record: record["mark"])[0] if marks.place(mark, True)[0] in half]

    def marks(self, of):
        """What the instructions have as a mark, sorted: what no walk reached of it, what was reached in part, what none can reach."""
        seen = {}
        for part in self.parts:
            for index, record in enumerate(part.code):
                if of(record) is not None:
                    seen.setdefault(of(record), []).append((part.visited[index], index in part.can))
        never = [mark for mark, all_ in seen.items() if not any(v for v, _ in all_) and any(c for _, c in all_)]
        half = [mark for mark, all_ in seen.items() if any(v for v, _ in all_) and any(c and not v for v, c in all_)]
        dead = [mark for mark, all_ in seen.items() if not any(c for _, c in all_)]
        return sorted(never), sorted(half), sorted(dead)


# ---- words


def ranges(numbers):
    """[12, 13, 14, 40] as [[12, 14], [40, 40]]."""
    found = []
    for n in numbers:
        if found and found[-1][1] == n - 1:
            found[-1][1] = n
        else:
            found.append([n, n])
    return found


def spans(numbers):
    return ", ".join(str(low) if low == high else f"{low}-{high}" for low, high in ranges(numbers))


def percent(reached, can):
    """In tenths, never rounded up: 100.0 is all."""
    tenths = 1000 * reached // can
    return f"{tenths // 10}.{tenths % 10}%"


def part_line(number, part):
    line = f"prototype {number}: {sum(part.visited)} of {many(len(part.code), 'instruction')} reached"
    if part.never():
        line += f"; never: {spans(part.never())}"
    if part.dead():
        line += f"; no walk can: {spans(part.dead())}"
    return line


def total_line(totals):
    all_, reached, can = totals
    line = f"total: {reached} of {many(all_, 'instruction')} reached"
    return line + (f", and {all_ - can} that no walk can; " if all_ > can else "; ") + f"{percent(reached, can)} of those that a walk can reach"


def one_way_line(number, part, index):
    times = part.ways[index]
    way = "0, to the next" if times[1] == 0 else "1, skips one"
    return f"one way: prototype {number}, instruction {index}, {marked(part.code[index])}: only ever {way}; {many(sum(times), 'time')}"


def handler_line(number, part, handler, of, can):
    registered = f"registered at {spans(of)}"
    why = "" if can else "; no walk can enter it"
    return f"handler never entered: prototype {number}, instruction {handler}, {marked(part.code[handler])}, {registered}{why}"


def told_lines(coverage):
    """The script's lines, and of a wide image the places within them, as words."""
    kinds = ("lines never reached", "lines reached in part", "lines that no walk can reach")
    told = list(zip(kinds, map(spans, coverage.lines())))
    if coverage.is_wide():
        told.insert(2, ("places never reached in these", ", ".join(marks.shown(mark, True) for mark in coverage.places())))
    return told


def summary(coverage):
    """The lines behind the listing."""
    yield from (part_line(number, part) for number, part in enumerate(coverage.parts))
    for what, found in told_lines(coverage):
        if found:
            yield f"script {what}: {found}"
    for number, part in enumerate(coverage.parts):
        yield from (one_way_line(number, part, index) for index in part.one_way())
        yield from (handler_line(number, part, handler, of, can) for handler, of, times, can in part.handlers() if not times)
    yield total_line(coverage.totals())


def place_of(record):
    """The mark of an instruction; of a wide one line and column too."""
    return {key: record[key] for key in ("mark", "line", "column") if key in record}


def records(coverage):
    """The same for JSON."""
    for number, part in enumerate(coverage.parts):
        yield {"kind": "prototype", "prototype": number, "walks": part.walks, "instructions": len(part.code), "reached": sum(part.visited),
               "never": ranges(part.never()), "dead": ranges(part.dead())}
    never, half, dead = coverage.lines()
    places = {"places": [marks.place(mark, True) for mark in coverage.places()]} if coverage.is_wide() else {}
    yield {"kind": "lines", "never": never, "part": half, "dead": dead, **places}
    for number, part in enumerate(coverage.parts):
        for index in part.one_way():
            yield {"kind": "one way", "prototype": number, "index": index, **place_of(part.code[index]), "next": part.ways[index][0],
                   "skip": part.ways[index][1]}
        for handler, of, times, can in part.handlers():
            yield {"kind": "handler", "prototype": number, "index": handler, **place_of(part.code[handler]), "registered": of, "entered": times, "can": can}
    all_, reached, can = coverage.totals()
    yield {"kind": "total", "instructions": all_, "reached": reached, "can": can}
