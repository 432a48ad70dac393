"""Run files: recorded walks as text (docs/FORMATS.md, "Run files"). Every line and every word is used, or the file is refused with its line."""
import re

from streams import MOST

FORMAT = "1"


class Fault(Exception):
    """What is wrong with a run file, with its line."""

    def __init__(self, line, why):
        super().__init__(f"line {line}: {why}")
        self.line, self.why = line, why


class Walk:
    """One recorded walk: the line that it starts at, its prototype, its decisions as bytes, its strikes as numbers, its budget or None."""

    def __init__(self, line, prototype):
        self.line, self.prototype, self.decisions, self.strikes, self.budget = line, prototype, bytearray(), [], None


def read(data):
    """The walks of a run file."""
    rows = list(lines(data))
    if not rows:
        raise Fault(1, f"there is no line, and a run file starts with `run {FORMAT}`")
    first(*rows[0])
    walks, ended = [], None
    for line, words in rows[1:]:
        if ended:
            raise Fault(line, f"`{words[0][:40]}` stands behind the `end` of line {ended}; a run file holds one recording")
        if words[0] == "end":
            last(line, words, len(walks))
            ended = line
        elif words[0] == "walk":
            walks.append(Walk(line, number(line, words)))
        else:
            belongs(line, words, walks)
    if not ended:
        raise Fault(data.count(b"\n") + (not data.endswith(b"\n")), f"the file ends here without `end {len(walks)}`: it was cut off, or is not finished")
    return walks


def lines(data):
    """The words of each line that has some, with its number; a comment stands behind a # that starts a word."""
    for line, raw in enumerate(data.split(b"\n"), 1):
        try:
            text = raw.decode("utf-8").removesuffix("\r")
        except UnicodeDecodeError as problem:
            raise Fault(line, f"byte {problem.start} of the line, {raw[problem.start]:02X}, is no UTF-8") from None
        odd = re.search(r"[^\S \t]|[\x00-\x08\x0e-\x1f\x7f]", text)
        if odd:
            raise Fault(line, f"letter {odd.start()} of the line is the control letter {ord(odd[0]):02X}")
        words = re.sub(r"(^|(?<=[ \t]))#.*", "", text).split()
        if words:
            yield line, words


def first(line, words):
    if words[0] != "run" or len(words) != 2:
        raise Fault(line, f"`{' '.join(words)[:40]}` where a run file starts with `run {FORMAT}`")
    if words[1] != FORMAT:
        raise Fault(line, f"this is format {words[1][:40]}, and format {FORMAT} alone is known here")


def last(line, words, walks):
    count = number(line, words)
    if count != walks:
        raise Fault(line, f"`end {count}` says how many walks there are, and {walks} stand before it: lines are missing, or too many")


def belongs(line, words, walks):
    """A line that says more of the walk before it."""
    if words[0] not in ("decisions", "strikes", "budget"):
        raise Fault(line, f"`{words[0][:40]}` starts no line; walk, decisions, strikes, budget and end do")
    if not walks:
        raise Fault(line, f"`{words[0]}` belongs to a walk, and no `walk` stands before it")
    if words[0] == "decisions":
        walks[-1].decisions += decisions(line, words[1:])
    elif words[0] == "strikes":
        walks[-1].strikes += [number(line, ["strikes", step]) for step in words[1:]]
    elif walks[-1].budget is None:
        walks[-1].budget = number(line, words)
    else:
        raise Fault(line, f"the walk of line {walks[-1].line} has a budget already")


def decisions(line, words):
    for word in words:
        for digit in word:
            if digit not in "01":
                raise Fault(line, f"a decision is 0 or 1, not `{digit}` (in `{word[:40]}`)")
    return bytes(map(int, "".join(words)))


def number(line, words):
    """The one number behind a line's first word."""
    if len(words) != 2 or not re.fullmatch("[0-9]{1,20}", words[1]) or int(words[1]) > MOST:
        due = "decimal numbers" if words[0] == "strikes" else "one decimal number"
        raise Fault(line, f"`{words[0]}` wants {due} of 64 bits, not `{' '.join(words[1:])[:40]}`")
    return int(words[1])
