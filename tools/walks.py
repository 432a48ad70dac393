"""Walks of a prototype by recorded decisions and strikes: the proved program asked, its answer in words, and the path followed once more.

The program says how a walk ended and what it visited. Which way each Test went, which handlers were entered, and how many decisions and strikes were
used, it does not say: `follow` finds that out, and `walk` holds it to the program's answer in every number, so that nothing is told that the program
did not answer.
"""
import os
import re
import struct

import imagefile
from streams import MOST, ROOT, Failure, child

LONGEST, MOST_STRIKES = 2147418111, 16777216  # what the program reads: bytes in all, strikes
START = os.path.join(ROOT, "tools", "start.sh")
CAUSES = {22: ("Prototype", "the image must have a prototype of this number"),
          23: ("Decision", "a decision must be 0 or 1"),
          25: ("Order", "a strike must be above the one before it"),
          29: ("Visits", "there must be a lent byte for each instruction of the prototype")}
UNKNOWN = ("Unknown", "the program answers what this command does not know")
RETURN, DECISIONS, BUDGET, FAILED, HANDLERS = range(5)
# how a walk ended: in a word, for JSON, and in a line
ENDINGS = [("return", "at a Return"), ("decisions", "out of decisions"), ("budget", "out of budget"), ("failed", "failed, with no handler registered"),
           ("handlers", "over 256 handlers registered")]
MOST_HANDLERS = 256


class Refused(Exception):
    """A walk that is refused: number, place, the line that says so, and what is to stand in brackets behind it."""

    def __init__(self, number, place, line, more):
        super().__init__(line)
        self.number, self.place, self.line, self.more = number, place, line, more
        self.cause = {**imagefile.CAUSES, **CAUSES}.get(number, UNKNOWN)[0]


class Image:
    """An image that the reader takes: its bytes, its records, and the code of each prototype."""

    def __init__(self, data):
        found = list(imagefile.shown(data))
        if found[0]["kind"] == "refused":
            raise Refused(found[0]["number"], found[0]["place"], imagefile.refused_line(found[0]), None)
        self.data, self.records, self.codes = data, found, []
        for record in found:
            if record["kind"] == "prototype":
                self.codes.append([])
            elif record["kind"] == "instruction":
                self.codes[-1].append(record)

    def budget_for(self, asked):
        """Steps enough for every walk of what the lowering writes: each of its loops has a Test, so that between two decisions or strikes a walk
        passes an instruction at most once."""
        instructions = len(self.codes[asked.prototype]) if asked.prototype < len(self.codes) else 0
        return min(MOST, instructions * (len(asked.decisions) + len(asked.strikes) + 1))


class Asked:
    """What is asked of a walk: the prototype's number, decisions as bytes, strikes as numbers of steps, the budget."""

    def __init__(self, prototype, decisions, strikes=(), budget=None):
        self.prototype, self.decisions, self.strikes, self.budget = prototype, bytes(decisions), tuple(strikes), budget

    def words(self):
        """For a walk that is asked for twice."""
        return self.prototype, self.decisions, self.strikes, self.budget


# ---- the path, followed


class Path:
    """Where a walk went: as the program answers it, how often each Test went to the next (0) and skipped one (1), which handlers were entered and
    how often, and how many decisions and strikes were used."""

    def __init__(self, size):
        self.steps = self.index = self.used = self.struck = 0
        self.ending, self.visited, self.ways, self.entered, self.handlers = None, bytearray(size), {}, {}, []

    def answer(self):
        return self.steps, self.index, self.ending, bytes(self.visited)


def follow(code, asked):
    path = Path(len(code))
    while path.ending is None:
        here = code[path.index]
        path.visited[path.index] = 1
        struck = path.struck < len(asked.strikes) and asked.strikes[path.struck] == path.steps
        path.ending = ended(here["name"], path, asked, struck)
        if path.ending is None:
            path.index = failing(path) if struck else onward(here, path, asked.decisions)
            path.steps += 1
        path.struck += struck and path.ending in (None, FAILED)
    return path


def ended(name, path, asked, struck):
    """How the walk ends here, judged in this order, or None."""
    if name == "Return":
        return RETURN
    if name == "Test" and not struck and path.used == len(asked.decisions):
        return DECISIONS
    if path.steps == asked.budget:
        return BUDGET
    if struck:
        return None if path.handlers else FAILED
    return HANDLERS if name == "RegisterTryCatch" and len(path.handlers) == MOST_HANDLERS else None


def failing(path):
    """A struck step: to the handler registered last, which stays registered."""
    handler = path.handlers[-1]
    path.entered[handler] = path.entered.get(handler, 0) + 1
    return handler


def onward(here, path, decisions):
    """Where an ordinary step leads."""
    name = here["name"]
    if name == "Jmp":
        return here["to"]
    if name == "RegisterTryCatch":
        path.handlers.append(here["to"])
    if name == "DeregisterTryCatch" and path.handlers:
        path.handlers.pop()
    if name != "Test":
        return path.index + 1
    way = decisions[path.used]
    path.used += 1
    path.ways.setdefault(path.index, [0, 0])[way] += 1
    return path.index + 1 + way


def can_reach(code):
    """The instructions that some walk reaches, whatever its decisions and strikes; those behind 256 handlers that none takes off count as such."""
    seen, due = set(), [0]
    while due:
        at = due.pop()
        if at in seen:
            continue
        seen.add(at)
        here = code[at]
        due += {"Return": [], "Jmp": [here.get("to")], "Test": [at + 1, at + 2]}.get(here["name"], [at + 1])
        # a strike at the next instruction enters the handler, but a Return ends the walk
        if here["name"] == "RegisterTryCatch" and code[at + 1]["name"] != "Return":
            due.append(here["to"])
    return seen


# ---- the program


class Program:
    """The proved program, found once."""

    def __init__(self, command):
        status, out = child(["sh", START, "find", command, "walk_main"])
        if status != 0:
            raise Failure  # it has said why
        self.found = os.fsdecode(out).split("\0")[:3]

    def ask(self, image, asked):
        """Number, place, steps, index, ending, and the visits of a walk that is not refused."""
        words = [str(number) for number in (asked.prototype, asked.budget, len(asked.decisions), len(asked.strikes))]
        lent = asked.decisions + struct.pack(f">{len(asked.strikes)}Q", *asked.strikes) + image
        status, out = child(["sh", START, "run", *self.found, *words, "visited"], input=lent)
        if status in (126, 127):
            raise Failure(f"{self.found[0]} does not run on this machine")
        if status == 3:
            raise Failure("there is not enough memory for this image and its walk")
        if status == 139:
            raise Failure("the stack is too small: this image takes more than its limit (ulimit -s) allows")
        if status == 0 and not out and (len(lent) > LONGEST or len(asked.strikes) > MOST_STRIKES):
            raise Failure(f"the program reads {LONGEST} bytes and {MOST_STRIKES} strikes among them, and here are {len(lent)} and {len(asked.strikes)}")
        told = re.fullmatch(rb"(\d+) (\d+) (\d+) (\d+) (\d+)\n(?:([01]+)\n)?", out)
        if status != 0 or not told:
            raise Failure(f"the program ended with status {status}, and answered {out[:80]!r}")
        return [int(word) for word in told.groups()[:5]], bytes(byte - 48 for byte in told[6] or b"")


def walk(program, image, asked):
    """The path of a walk, as the program answers it."""
    (number, place, *answer), visited = program.ask(image.data, asked)
    if number:
        raise Refused(number, place, refused_line(number, place), why(image, number, place, asked))
    path = follow(image.codes[asked.prototype], asked)
    if (*answer, visited) != path.answer():
        raise Failure(f"the program answers {answer}, and the path followed here is {list(path.answer()[:3])}, or other instructions were visited")
    return path


# ---- words


def refused_line(number, place):
    cause, rule = CAUSES.get(number, UNKNOWN)
    at = {23: f" at byte {place}", 25: f" at strike {place}"}.get(number, "")
    return f"refused {number} {cause}{at}: {rule}"


def why(image, number, place, asked):
    """What is known of the fault."""
    if number == 22:
        last = len(image.codes) - 1
        return f"prototype {asked.prototype}, and the image has {f'0 to {last}' if last else '0 alone'}"
    if number == 23:
        return f"the byte is {asked.decisions[place]}"
    if number == 25:
        return f"it is {asked.strikes[place]}, behind {asked.strikes[place - 1]}"
    return None


def words(path, asked):
    """A walk in a line: steps, index, ending; decisions and strikes that are left over are told."""
    line = f"{imagefile.many(path.steps, 'step')}, at instruction {path.index}: {ENDINGS[path.ending][1]}"
    if path.ending == BUDGET:
        line += f" of {asked.budget}"
    for left, what in ((len(asked.decisions) - path.used, "decision"), (len(asked.strikes) - path.struck, "strike")):
        line += f"; {imagefile.many(left, what)} left over" if left else ""
    return line


def told(path, asked):
    """The same for JSON."""
    return {"steps": path.steps, "index": path.index, "ending": ENDINGS[path.ending][0], "decisions": len(asked.decisions),
            "left": len(asked.decisions) - path.used, "strikes": len(asked.strikes), "strikes_left": len(asked.strikes) - path.struck, "budget": asked.budget}
